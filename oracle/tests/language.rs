//! The script language: what is a call, what is `bad`, and what is passed over.

use oracle::dispatch;
use oracle::script::{answers, run};
use oracle::world::World;

fn bytes(script: &[u8]) -> String {
    let (mut world, mut out) = (World::default(), Vec::new());
    run(|line, out| dispatch::line(&mut world, line, out), script, &mut out).expect("in memory");
    String::from_utf8(out).expect("plain text")
}

#[test]
fn empty_lines_and_comments_have_no_answer() {
    assert_eq!(answers("\n\n# a comment\n#\n#route_count\nroute_count\n"), "ok 0\n");
    assert_eq!(answers(""), "");
}

#[test]
fn the_last_line_needs_no_line_feed() {
    assert_eq!(answers("route_count\nroute_count"), "ok 0\nok 0\n");
}

#[test]
fn one_space_stands_between_numbers() {
    for line in ["next_hop  1", "next_hop 1 ", " next_hop 1", "next_hop\t1", "next_hop 1\t", " ", "route_count "] {
        assert_eq!(answers(line), "bad\n", "{line:?}");
    }
}

#[test]
fn a_missing_or_extra_number_is_bad() {
    for line in ["next_hop", "next_hop 1 2", "restore_route 1 2", "restore_route 1 2 3 4", "route_count 0", "reset 1"] {
        assert_eq!(answers(line), "bad\n", "{line}");
    }
}

#[test]
fn numbers_are_plain_decimals() {
    for number in ["-1", "+1", "1.0", "0x1", "1e1", "a", "1a", "", "１"] {
        assert_eq!(answers(&format!("next_hop {number}")), "bad\n", "{number}");
    }
    assert_eq!(answers("next_hop 00000000000000000000000000000000000001"), "ok 0\n");
}

#[test]
fn each_kind_of_number_has_its_largest() {
    let edges = [
        ("note_route_error 255", "note_route_error 256"),
        ("next_hop 65535", "next_hop 65536"),
        ("put_route 1 3 1 1 1 1 1 255 4294967295 255", "put_route 1 3 1 1 1 1 1 255 4294967296 255"),
        ("put_route 1 3 1 1 1 1 1 255 1 255", "put_route 1 4 1 1 1 1 1 255 1 255"),
        ("put_route 1 3 1 1 1 1 1 255 1 255", "put_route 1 3 2 1 1 1 1 255 1 255"),
        ("contains 18446744073709551615", "contains 18446744073709551616"),
        ("route_at 18446744073709551615", "route_at 99999999999999999999999999999999999999999"),
        ("accept_route_request 1 255 2 3 4 3 5 6", "accept_route_request 1 255 2 3 4 4 5 6"),
        ("upsert_child 1 1 2 1 1 9 1", "upsert_child 1 1 3 1 1 9 1"),
        ("upsert_child 1 1 2 1 1 9 1", "upsert_child 1 1 2 1 1 10 1"),
        ("set_child_timeout 1 1 65535 1", "set_child_timeout 1 1 65536 1"),
        (
            "resolve_default 0 3 15 2 1 1 1 1 1 1 3 1 1 1 1 0 0 0 0",
            "resolve_default 0 2 15 2 1 1 1 1 1 1 3 1 1 1 1 0 0 0 0",
        ),
        (
            "resolve_default 0 3 15 2 1 1 1 1 1 1 3 1 1 1 1 0 0 0 0",
            "resolve_default 0 3 16 2 1 1 1 1 1 1 3 1 1 1 1 0 0 0 0",
        ),
        (
            "resolve_default 0 3 15 2 1 1 1 1 1 1 3 1 1 1 1 0 0 0 0",
            "resolve_default 0 3 15 3 1 1 1 1 1 1 3 1 1 1 1 0 0 0 0",
        ),
        (
            "resolve_default 0 3 15 2 1 1 1 1 1 1 3 1 1 1 1 0 0 0 0",
            "resolve_default 0 3 15 2 1 1 1 1 1 1 4 1 1 1 1 0 0 0 0",
        ),
        (
            "resolve_default 0 3 15 2 1 1 1 1 1 1 3 1 1 1 1 0 0 0 0",
            "resolve_default 6 3 15 2 1 1 1 1 1 1 3 1 1 1 1 0 0 0 0",
        ),
    ];
    for (good, bad) in edges {
        assert!(answers(good).starts_with("ok"), "{good}: {}", answers(good));
        assert_eq!(answers(bad), "bad\n", "{bad}");
    }
}

#[test]
fn a_list_has_as_many_elements_as_it_says_and_at_most_80() {
    let list = |n: usize| format!("store_route_record 1 {n}{}", " 7".repeat(n));
    assert_eq!(answers(&list(32)), "ok 1\n");
    assert_eq!(answers(&list(33)), "refuse 8\n");
    assert_eq!(answers(&list(80)), "refuse 8\n");
    assert_eq!(answers(&list(81)), "bad\n");
    assert_eq!(answers("store_route_record 1 2 7"), "bad\n");
    assert_eq!(answers("store_route_record 1 1 7 7"), "bad\n");
}

#[test]
fn a_carriage_return_is_a_byte_like_any_other() {
    assert_eq!(answers("route_count\r\n"), "bad\n");
    assert_eq!(answers("next_hop 1\r\nroute_count\n"), "bad\nok 0\n");
    assert_eq!(answers("\r\n"), "bad\n");
    assert_eq!(answers("# a comment\r\n"), "");
}

#[test]
fn nul_and_other_bytes_are_bad() {
    assert_eq!(bytes(b"route_count\0\nroute_count\n"), "bad\nok 0\n");
    assert_eq!(bytes(b"next_hop \xff1\n"), "bad\n");
    assert_eq!(bytes(b"\0"), "bad\n");
    assert_eq!(bytes(b"#\0\xff\n"), "");
}

#[test]
fn a_line_of_any_length_has_one_answer() {
    let long = "route_count".to_owned() + &" 1".repeat(100_000) + "\nroute_count\n";
    assert_eq!(answers(&long), "bad\nok 0\n");
    let zeros = format!("next_hop {}1\n", "0".repeat(100_000));
    assert_eq!(answers(&zeros), "ok 0\n");
}

#[test]
fn words_are_exact() {
    for word in ["Route_count", "route_coun", "route_counts", "end", "bad", "ok"] {
        assert_eq!(answers(word), "bad\n", "{word}");
    }
}

#[test]
fn a_bad_line_changes_nothing() {
    let with = answers("restore_route 9 21 4\nput_route 9 0 0 0 0 0 1 1 0\nnext_hop 9 9\ntables\n");
    let without = answers("restore_route 9 21 4\ntables\n");
    assert_eq!(with.replace("bad\n", ""), without);
}

#[test]
fn a_full_table_makes_a_put_line_bad_but_for_a_known_key() {
    let mut script: String = (1..=64).map(|n| format!("put_route {n} 0 0 0 0 0 1 1 0 0\n")).collect();
    script += "put_route 65 0 0 0 0 0 1 1 0 0\nput_route 64 1 0 0 0 0 1 1 0 0\nroute_count\n";
    assert!(answers(&script).ends_with("ok\nbad\nok\nok 64\n"));
}
