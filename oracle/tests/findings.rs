//! What the Rust does where document 01 is short or silent: each point as a short script.

use oracle::script::answers;

fn told(script: &str) -> String {
    let lines: Vec<&str> = script.split(';').map(str::trim).collect();
    answers(&lines.join("\n")).trim_end().replace('\n', "; ")
}

/// The answer to the last line.
fn last(script: &str) -> String {
    told(script).rsplit("; ").next().unwrap_or_default().to_owned()
}

const HEADER: &str = "0 2 1 0 1 0 0 0 0 0 77 0 30 1 0 0 0 0";

#[test]
fn requests() {
    // A known pair keeps its residual.
    let residual = "put_discovery 10 1 5 9 4 9000 50; accept_route_request 10 1 60 6 3 0 1000 77; tables";
    assert!(told(residual).contains("put_discovery 10 1 6 3 4 9000 50"));
    // A request that is not accepted leaves the expiry done.
    let expiry = "put_discovery 10 1 5 3 255 9000 50; put_discovery 11 1 5 3 255 1000 51; \
                  accept_route_request 10 1 50 6 4 0 1000 77; tables";
    assert_eq!(told(expiry), "ok; ok; ok 0 0; put_counters 0 0 0; put_discovery 10 1 5 3 255 9000 50; end");
    // An echo of our own request at cost 0 makes a route to ourselves.
    assert_eq!(last("begin_discovery 0 50 1 9; accept_route_request 0 1 50 21 0 0 1 9; next_hop 0"), "ok 1 21");
    // Flags are set although the route is not replaced, and not set where the request is not accepted.
    let flags = "restore_route 10 3 1; accept_route_request 10 1 50 6 5 1 1 9; route_at 0";
    assert_eq!(last(flags), "ok 1 10 0 0 1 1 0 3 1 0 0");
    let none = "accept_route_request 10 1 50 6 5 0 1 9; accept_route_request 10 1 50 6 6 1 1 9; route_at 0";
    assert_eq!(last(none), "ok 1 10 0 0 0 0 0 6 5 0 0");
    // A route out of use that comes back by the same hop is an update; a cheaper Active one by the same hop is none.
    assert_eq!(last("put_route 10 3 0 0 0 0 6 5 0 0; accept_route_request 10 1 50 6 5 0 1 9"), "ok 1 1 10 6 5");
    assert_eq!(last("put_route 10 0 0 0 0 0 6 5 0 0; accept_route_request 10 1 50 6 4 0 1 9"), "ok 1 0");
}

#[test]
fn begin_and_advertisement() {
    // Begin turns an Active route underway and keeps its fields.
    assert_eq!(
        last("put_route 50 0 1 1 1 1 6 5 7 8; begin_discovery 0 50 1 9; route_at 0"),
        "ok 1 50 1 1 1 1 1 6 5 7 8"
    );
    // A route removed by the same call's expiry is made new.
    let again = "put_route 50 1 1 1 1 1 6 5 7 8; put_discovery 9 1 1 1 1 5 50; begin_discovery 0 50 5 9; route_at 0";
    assert_eq!(last(again), "ok 1 50 1 0 0 0 0 65535 255 0 0");
    // A live entry is kept: no sum, no room, and the begun route may be an orphan.
    let live = "put_discovery 0 1 7 8 9 6 60; begin_discovery 0 50 5 18446744073709551615; check";
    assert_eq!(told(live), "ok; ok 1; ok 2 50");
    // One that expires exactly now is not live.
    assert_eq!(last("put_discovery 0 1 7 8 9 5 60; begin_discovery 0 50 5 18446744073709551615"), "refuse 5");
    // An advertisement may orphan the destination of the entry that it overwrites, and takes a route to 65532 with it.
    assert_eq!(
        last("begin_discovery 0 50 1 9; put_counters 0 0 0; begin_many_to_one_advertisement 0 1 9; check"),
        "ok 2 50"
    );
    let broadcast = "put_route 65532 1 0 0 0 0 1 1 0 0; begin_many_to_one_advertisement 0 1 9; \
                     begin_many_to_one_advertisement 0 10 9; route_status 65532";
    assert_eq!(last(broadcast), "ok 0");
}

#[test]
fn replies() {
    // A relay writes over a cheaper Active route, and reports no update for it.
    let over =
        "restore_route 50 7 2; accept_route_request 10 1 50 5 3 0 1 9; accept_route_reply 0 10 1 50 30 9; route_at 1";
    assert_eq!(told(over), "ok; ok 1 1 10 5 3; ok 2 5 9 0; ok 1 50 0 0 0 0 0 30 9 0 0");
    // Our own search compares with the residual; a dearer reply to a route not Active raises it.
    assert_eq!(
        last("restore_route 50 7 2; put_discovery 0 1 7 0 9 99 50; accept_route_reply 0 0 1 50 30 8"),
        "ok 1 1 50 30 8"
    );
    let rises =
        "put_route 50 3 0 0 0 0 7 2 0 0; put_discovery 0 1 7 0 9 99 50; accept_route_reply 0 0 1 50 30 12; tables";
    assert!(told(rises).contains("put_discovery 0 1 7 0 12 99 50"));
    // 255 is never relayed, but establishes.
    let start = "put_route 50 1 0 0 0 0 7 2 0 0; put_discovery 10 1 7 0 255 99 50";
    assert_eq!(last(&format!("{start}; accept_route_reply 0 10 1 50 30 255")), "ok 0 0");
    assert_eq!(last(&format!("{start}; accept_route_reply 10 10 1 50 30 255")), "ok 1 1 50 30 255");
    // Responder and originator the same, at or below the forward cost: no update, by the reply's sender.
    let same = "accept_route_request 10 1 50 5 3 0 1 9; accept_route_reply 0 10 1 10 30 3; next_hop 10";
    assert_eq!(told(same), "ok 1 1 10 5 3; ok 2 5 3 0; ok 1 30");
    // The own address changed.
    let changed = "begin_discovery 0 50 1 9; accept_route_reply 4 0 1 50 30 3; check; next_hop 0";
    assert_eq!(told(changed), "ok 1; ok 2 65535 3 1 0 65535 0; ok 1 0; refuse 6");
    // A responder need not be the destination sought.
    assert_eq!(
        last("accept_route_request 10 1 50 5 3 0 1 9; restore_route 60 7 7; accept_route_reply 0 10 1 60 30 3"),
        "ok 2 5 3 0"
    );
}

#[test]
fn records_and_routes() {
    let twice = "store_route_record 9 3 1 2 1; tables";
    assert_eq!(told(twice), "ok 1; put_counters 0 0 0; put_record 1 0; put_record 2 1 1; put_record 9 3 1 2 1; end");
    assert_eq!(told("store_route_record 9 0; store_route_record 9 0"), "ok 1; ok 0");
    // The first live entry by key, not the earliest deadline.
    let deadline = "put_discovery 1 1 1 1 1 90 50; put_discovery 2 1 1 1 1 20 50; discovery_deadline 50 10";
    assert_eq!(last(deadline), "ok 1 90");
    assert_eq!(last(&deadline.replace("50 10", "50 90")), "ok 0");
    assert_eq!(last("put_route 50 1 1 1 1 1 6 5 7 8; restore_route 50 7 7; route_at 0"), "ok 1 50 0 0 0 0 0 7 7 0 0");
    assert_eq!(
        last("put_route 50 2 0 0 0 0 6 5 7 8; record_usage 50; decay_activity; route_at 0"),
        "ok 1 50 2 0 0 0 0 6 5 8 9"
    );
}

#[test]
fn decisions() {
    let d = |set_up: &str, call: &str| last(&format!("{set_up}; {call} {HEADER}"));
    // The hop 65535 passes but from an Active route.
    assert!(d("put_record 77 1 65535", "resolve_default 1").starts_with("ok 0 65535 "));
    assert!(d("reset", "resolve_default 2 65535").starts_with("ok 0 65535 "));
    assert_eq!(d("put_route 77 0 0 0 0 0 65535 1 0 0", "resolve_default 2 21"), "refuse 6");
    // The limit does not bind host routes.
    assert!(d("reset", "resolve 1 0 1 5 3 1 2 3").starts_with("ok 0 3 "));
    // A plain hop leaves the header's source route; discovery value 2 counts as allowed.
    let routed = "0 2 2 0 1 1 0 0 0 0 77 0 30 1 0 0 0 1 5 2 8 9";
    assert_eq!(last(&format!("resolve_default 4 21 {routed}")), format!("ok 0 21 {routed}"));
    assert_eq!(last(&format!("resolve_default 1 {routed}")), format!("ok 1 {routed}"));
    // The look-up of an end device child goes past a router of the same address.
    let child = "put_neighbour 1 77 1 1 0 1 1 1 0 0 0 0 0 0 0 0 0 0 0 0 0 0 0 0 0 0 0; \
                 put_neighbour 2 77 2 1 0 1 1 1 0 0 0 0 0 0 0 0 0 0 0 0 0 0 0 0 0 0 0; end_device_child_eui64 77";
    assert_eq!(last(child), "ok 1 2");
}

#[test]
fn neighbours() {
    // The order is that of the bytes over the air: 256 has its last byte but one set, 2^56 its first.
    let order = "upsert_child 72057594037927936 5 2 0 9 1 1; upsert_child 256 5 2 0 9 1 1; upsert_child 255 6 2 0 9 1 1; \
                 end_device_children";
    assert_eq!(last(order), "ok 3 255 256 72057594037927936");
    assert_eq!(last(&order.replace("end_device_children", "link 5")), "ok 1 256 0 0");
    // Waiting samples are those of the address in the call; the stored address is not updated.
    let waiting = "upsert_child 5 51 1 1 9 1 1; record_lqa 52 7; on_link_status 0 5 52 9 1 1 1 0; link 52; tables";
    assert!(told(waiting).contains("ok 0; put_counters 0 0 0; put_neighbour 5 51 "));
    assert!(!told(waiting).contains("put_waiting"));
    // A child made takes no waiting samples.
    assert!(told("record_lqa 51 7; upsert_child 5 51 1 1 9 1 1; tables").contains("put_waiting 51 1 1 7 0 0"));
    // A known extended address wins, an unknown one falls back.
    let two = "upsert_child 5 51 2 1 10 1 1; upsert_child 6 52 2 1 20 1 1";
    assert_eq!(last(&format!("{two}; refresh_child_timeout 1 5 1 52 100; next_child_timeout")), "ok 1 21");
    assert_eq!(last(&format!("{two}; refresh_child_timeout 1 9 1 52 100; next_child_timeout")), "ok 1 11");
    // A known end device stays a child; a mention of us counts for connectivity and diversity.
    let status = "upsert_child 5 51 2 0 9 1 1; on_link_status 0 5 51 9 1 1 7 1 0 2 3; neighbour_at 0";
    assert_eq!(last(status), "ok 1 5 51 1 1 0 10 9 1 0 0 0 0 0 0 2 7 0 0 0 0 0 1 4 4 0 0 0");
    // The cost is set even where the mention's outgoing cost is 0, and 0 in a later frame loses the link.
    let lost = "on_link_status 0 5 51 9 1 1 7 1 0 2 0; link 51; on_link_status 0 5 51 9 0 1 8 1 0 0 3";
    assert_eq!(told(lost), "ok 0; ok 1 5 2 0; ok 1 51");
    // Live links for diversity are judged before the call, the sender's own included.
    let diversity =
        "on_link_status 0 5 51 9 1 1 7 1 0 2 0; on_link_status 0 5 51 9 1 1 8 2 51 1 1 60 1 1; neighbour_at 0";
    assert!(last(diversity).ends_with(" 12 6 0 0 0"));
    // Only "end device" is asked of announced and claimed ones; a sleeping router child counts as sleepy.
    assert_eq!(last("upsert_child 5 51 2 0 9 2 1; remove_claimed_children 2 5 5"), "ok 1 5 51");
    assert_eq!(last("upsert_child 5 51 1 0 9 1 1; sleepy_children"), "ok 1 5 51");
    assert_eq!(last("upsert_child 5 51 1 0 9 1 1; evict_timed_out_children 10; take_child 5"), "ok 1 51");
    // Coordinators are not advertised.
    let coordinator = "put_neighbour 5 51 0 1 0 1 1 0 0 3 0 9 9 9 1 0 0 0 0 0 0 0 0 0 0 0 0; link_status_entries";
    assert_eq!(last(coordinator), "ok 0");
    // A sleeping router stays asleep; a sleeping end device does not.
    assert!(last("upsert_child 5 51 1 0 9 1 1; on_link_status 0 5 51 9 1 1 7 0; device_capability 5") == "ok 1 1 0");
    assert!(last("upsert_child 5 51 2 0 9 1 1; on_link_status 0 5 51 9 1 1 7 0; device_capability 5") == "ok 1 1 1");
    // A known child keeps samples, configuration, keepalive, costs and time stamps.
    let known = "put_neighbour 5 51 1 1 77 5 9 2 3 3 1 9 8 7 4 6 1 2 1 3 4 5 6 7 8 9 1; upsert_child 5 52 2 0 100 1 1000; neighbour_at 0";
    assert_eq!(last(known), "ok 1 5 52 2 0 77 1100 100 1 3 3 1 9 8 7 4 6 1 2 1 3 4 5 6 7 8 9 1");
    // The list of link statuses is not cut at 31, and the first neighbour of any kind takes the samples.
    let mut many: String = (1..=40)
        .map(|n| format!("put_neighbour {n} {n} 1 1 0 1 1 2 0 3 0 9 9 9 1 0 0 0 0 0 0 0 0 0 0 0 0; "))
        .collect();
    many.push_str("link_status_entries");
    assert!(last(&many).starts_with("ok 40 1 7 1 2 7 1 "));
    let first = "upsert_child 5 51 1 1 9 3 1; upsert_child 6 51 2 1 9 1 1; record_lqa 51 9; record_inbound_activity 51; neighbour_at 0";
    assert_eq!(last(first), "ok 1 5 51 1 1 0 10 9 3 0 1 1 9 0 0 0 1 0 0 0 0 0 1 0 0 0 1 0");
}

#[test]
fn clock_and_room() {
    // The never-ending timeout.
    assert_eq!(last("on_link_status 0 5 51 9 1 1 18446739778742256615 0"), "ok 0");
    assert_eq!(last("on_link_status 0 5 51 9 1 1 18446739778742256616 0"), "refuse 5");
    // Room for a record: distinct addresses without one, 33 at most.
    let full: String = (1..=31).map(|n| format!("put_record {n} 0; ")).collect();
    let relays: String = (1001..=1032).map(|n| format!(" {n}")).collect();
    assert_eq!(last(&format!("{full}store_route_record 2000 32{relays}")), "ok 1");
    assert_eq!(last(&format!("{full}put_record 32 0; store_route_record 2000 32{relays}")), "refuse 3");
    assert_eq!(last(&format!("{full}put_record 32 0; store_route_record 1001 32{relays}")), "ok 1");
    // Removing a route leaves discoveries and records; only Active routes decay or go out of use.
    let left = "accept_route_request 10 1 50 5 3 0 1 9; put_record 10 1 5; remove_route 10; tables";
    assert_eq!(
        told(left),
        "ok 1 1 10 5 3; ok; ok 1; put_counters 0 0 0; put_discovery 10 1 5 3 255 10 50; put_record 10 1 5; end"
    );
    assert_eq!(
        last("put_route 50 3 0 0 0 0 6 5 7 8; invalidate_via 6; decay_activity; route_at 0"),
        "ok 1 50 3 0 0 0 0 6 5 7 8"
    );
    assert_eq!(
        last("put_route 50 0 0 0 0 0 6 5 7 8; decay_activity; invalidate_via 6; route_at 0"),
        "ok 1 50 3 0 0 0 0 6 5 7 7"
    );
}
