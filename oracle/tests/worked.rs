//! P1 to P12 of document 01, through the script language, against the numbers that stand there.

use oracle::script::answers;

/// The answers to some lines, joined by a semicolon.
fn told(lines: &[&str]) -> String {
    answers(&lines.join("\n")).trim_end().replace('\n', "; ")
}

const FIRST: &str = "accept_route_request 4369 7 17476 8738 5 0 1000 10000";
const SECOND: &str = "accept_route_request 4369 7 17476 13107 5 0 1000 10000";

#[test]
fn p1_the_scale() {
    let lines = ["lqi_to_link_cost 16", "lqi_to_link_cost 17", "lqi_to_link_cost 192", "lqi_to_link_cost 193"];
    assert_eq!(told(&lines), "ok 7; ok 6; ok 2; ok 1");
}

#[test]
fn p2_the_median() {
    let lines = [
        "upsert_child 5 51 1 1 1 1 1",
        "record_lqa 51 10",
        "record_lqa 51 200",
        "record_lqa 51 30",
        "incoming_link_cost 5",
    ];
    assert_eq!(told(&lines), "ok; ok; ok; ok; ok 1 6");
    let more = [&lines[..], &["record_lqa 51 250", "incoming_link_cost 5"]].concat();
    assert_eq!(told(&more), "ok; ok; ok; ok; ok 1 6; ok; ok 1 1");
}

#[test]
fn p3_the_id_wraps() {
    assert_eq!(told(&["put_counters 255 0 0", "begin_discovery 0 17476 1000 10000"]), "ok; ok 0");
}

#[test]
fn p4_equal_cost() {
    let third = "accept_route_request 4369 7 17476 13107 6 0 1000 10000";
    let expected = "ok 1 1 4369 8738 5; ok 1 0; ok 0 0; put_counters 0 0 0; put_route 4369 0 0 0 0 0 8738 5 0 0; \
                    put_discovery 4369 7 13107 5 255 11000 17476; end";
    assert_eq!(told(&[FIRST, SECOND, third, "tables"]), expected);
}

#[test]
fn p5_relay_drop_relay() {
    let reply = |cost| format!("accept_route_reply 0 4369 7 17476 21845 {cost}");
    let lines = [FIRST, SECOND, "note_relayed_discovery 17476", &reply(9), &reply(9), &reply(8)];
    assert_eq!(told(&lines), "ok 1 1 4369 8738 5; ok 1 0; ok; ok 2 13107 9 0; ok 0 0; ok 2 13107 8 0");
}

#[test]
fn p6_the_responder_is_the_originator() {
    let lines = [FIRST, SECOND, "accept_route_reply 0 4369 7 4369 21845 9", "next_hop 4369", "route_at 0"];
    let expected =
        "ok 1 1 4369 8738 5; ok 1 0; ok 2 13107 9 1 4369 13107 5; ok 1 13107; ok 1 4369 0 0 0 0 0 13107 5 0 0";
    assert_eq!(told(&lines), expected);
}

#[test]
fn p7_our_own_search() {
    let start = ["put_discovery 0 1 65535 0 9 11000 17476", "put_route 17476 0 0 0 0 0 21845 9 0 0"];
    let equal = [&start[..], &["accept_route_reply 0 0 1 17476 8738 9"]].concat();
    assert_eq!(told(&equal), "ok; ok; ok 0 0");
    let inactive = ["put_discovery 0 1 65535 0 9 11000 17476", "put_route 17476 3 0 0 0 0 21845 9 0 0"];
    let dearer = [&inactive[..], &["accept_route_reply 0 0 1 17476 8738 12"]].concat();
    assert_eq!(told(&dearer), "ok; ok; ok 1 1 17476 8738 12");
}

#[test]
fn p8_expiry() {
    let lines = [
        "put_discovery 1 1 8738 5 255 5000 17476",
        "put_discovery 2 1 8738 5 255 5001 17477",
        "begin_many_to_one_advertisement 0 5000 1",
        "tables",
    ];
    let expected = "ok; ok; ok 1; put_counters 1 0 0; put_discovery 0 1 65535 0 255 5001 65532; \
                    put_discovery 2 1 8738 5 255 5001 17477; end";
    assert_eq!(told(&lines), expected);
}

#[test]
fn p9_the_source_among_its_relays() {
    assert_eq!(told(&["store_route_record 9 1 9", "store_route_record 9 1 9"]), "ok 1; ok 1");
}

#[test]
fn p10_a_record_for_each_relay() {
    let lines = ["store_route_record 9 2 7 8", "tables", "store_route_record 9 2 7 8"];
    let expected = "ok 1; put_counters 0 0 0; put_record 7 1 8; put_record 8 0; put_record 9 2 7 8; end; ok 0";
    assert_eq!(told(&lines), expected);
}

#[test]
fn p11_the_limit() {
    let lines = ["put_record 1 2 7 8", "put_record 2 3 6 7 8", "restore_route 2 5 1", "route_to 1 3", "route_to 2 3"];
    assert_eq!(told(&lines), "ok; ok; ok; ok 2 2 7 8; ok 1 5");
    assert_eq!(told(&["put_record 3 0", "route_to 3 0"]), "ok; ok 1 3");
}

#[test]
fn p12_the_table_is_full() {
    let full: Vec<String> = (1..=64).map(|n| format!("restore_route {n} 8738 5")).collect();
    let mut lines: Vec<&str> = full.iter().map(String::as_str).collect();
    lines.extend([FIRST, "remove_route 1", FIRST]);
    assert!(told(&lines).ends_with("ok; refuse 1; ok 1; ok 1 1 4369 8738 5"));
}
