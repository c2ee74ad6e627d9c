//! A script that takes every call, and every refusal that a line can bring about, to both sides of its edge.
//!
//! It is made and not written by hand, because a full table takes 64 lines. `scripts/edges.txt` is its text.

use std::fmt::Write;

use crate::clock::NEVER;

/// A header without addresses or source route, to node `destination`, with route discovery as given.
fn header(discover: u8, destination: u16) -> String {
    format!("0 2 {discover} 0 1 0 0 0 0 0 {destination} 0 30 1 0 0 0 0")
}

/// The numbers of `count` relays from `first` on, with the count before them.
fn list(first: u64, count: u64) -> String {
    let relays: String = (first..first + count).map(|relay| format!(" {relay}")).collect();
    format!("{count}{relays}")
}

/// A neighbour's numbers after its extended and network address; end device child, three samples.
const CHILD: &str = "2 0 0 5000 4000 1 0 3 0 10 200 30 0 1000 0 0 0 0 0 1000 0 0 0 0 0";
const ROUTER_CHILD: &str = "1 1 0 5000 4000 1 0 3 0 10 200 30 3 1000 0 0 1 0 0 1000 0 0 0 0 0";
const ROUTER: &str = "1 1 0 5000 4000 2 0 3 0 10 200 30 3 1000 0 0 1 0 0 1000 0 0 0 0 0";

struct Script(String);

impl Script {
    fn note(&mut self, text: &str) -> &mut Self {
        self.line(&format!("# {text}"))
    }

    fn line(&mut self, line: &str) -> &mut Self {
        writeln!(self.0, "{line}").expect("a text in memory can be written");
        self
    }

    /// One line for each number of a range.
    fn each(&mut self, numbers: std::ops::RangeInclusive<u64>, line: impl Fn(u64) -> String) -> &mut Self {
        for number in numbers {
            self.line(&line(number));
        }
        self
    }
}

/// The whole script.
pub fn script() -> String {
    let mut s = Script(String::new());
    s.note("Made by `oracle edges`: every call, and every refusal at its edge. See docs/ORACLE.md.");
    routes(&mut s);
    searches(&mut s);
    records(&mut s);
    decisions(&mut s);
    neighbors(&mut s);
    link_status(&mut s);
    ill_formed(&mut s);
    lines(&mut s);
    s.0
}

fn routes(s: &mut Script) {
    s.line("reset").note("The trigger counters fire at their threshold and stop at 255.");
    s.line("note_route_error 2").line("note_route_error 2").line("note_delivery_failure 0");
    s.line("put_counters 0 254 255").line("note_route_error 255").line("note_route_error 255");
    s.line("note_delivery_failure 255").line("tables").line("reset_mtorr_triggers").line("tables");
    s.note("One route through every call.");
    s.line("route_status 9").line("next_hop 9").line("restore_route 9 21 4").line("next_hop 9").line("record_usage 9");
    s.line("route_count").line("route_at 0").line("route_at 1").line("decay_activity").line("decay_activity");
    s.line("put_route 9 0 0 1 1 0 21 4 4294967294 254").line("record_usage 9").line("record_usage 9").line("tables");
    s.line("note_source_routed_frame 9").line("tables").line("put_route 9 0 1 1 1 0 21 4 0 0");
    s.line("note_source_routed_frame 9").line("tables").line("invalidate_via 22").line("route_status 9");
    s.line("invalidate_via 21").line("route_status 9").line("note_relayed_discovery 9").line("check");
    s.line("mark_discovery_failed 9").line("route_status 9").line("remove_route 9").line("remove_route 9");
    s.note("An Active route with hop 65535: the check names it, and look-ups are refusal 6.");
    s.line("put_route 8 1 0 0 0 0 65535 255 0 0").line("check").line("next_hop 8");
    s.line("put_route 7 0 0 0 0 0 65535 1 0 0").line("check").line("next_hop 7").line("route_to 7 5");
    s.line("route_to_default 7").line("put_route 7 0 0 0 0 0 65534 1 0 0").line("next_hop 7").line("check");
    s.note("The 64th and the 65th route.");
    s.line("reset").each(1..=63, |n| format!("restore_route {n} 21 5")).line("restore_route 64 21 5");
    s.line("restore_route 65 21 5").line("restore_route 64 22 6").line("note_relayed_discovery 65");
    s.line("begin_discovery 0 65 1000 10000").line("accept_route_request 65 1 1 21 5 0 1000 10000").line("tables");
    s.line("put_route 65 0 0 0 0 0 21 5 0 0")
        .line("remove_route 1")
        .line("note_relayed_discovery 65")
        .line("route_count");
}

fn searches(s: &mut Script) {
    s.line("reset").note("Begin: a new search, a live entry that is kept, and one that expires exactly now.");
    s.line("begin_discovery 0 9 1000 10000").line("discovery_deadline 9 1000").line("discovery_deadline 9 11000");
    s.line("put_counters 0 0 0").line("begin_discovery 0 8 1000 18446744073709551615").line("tables").line("check");
    s.line("put_counters 0 0 0").line("begin_discovery 0 7 11000 5").line("tables");
    s.note("The advertisement overwrites a live entry, and always makes its sum.");
    s.line("put_counters 0 0 0").line("begin_many_to_one_advertisement 0 11000 18446744073709540615");
    s.line("put_counters 0 0 0").line("begin_many_to_one_advertisement 0 11000 18446744073709540616").line("tables");
    s.note("Requests: the four values of many-to-one, and a plain one after them.");
    s.line("reset");
    for value in [1, 2, 3, 0] {
        s.line(&format!("accept_route_request 101 {value} 201 11 5 {value} 1000 10000")).line("route_at 0");
    }
    s.line("accept_route_request 101 4 201 11 5 4 1000 10000");
    s.note("Equal cost, one more, one less.");
    s.line("accept_route_request 101 1 201 12 5 0 1000 10000").line("accept_route_request 101 1 201 12 6 0 1000 10000");
    s.line("accept_route_request 101 1 201 12 4 0 1000 10000").line("tables");
    s.note("Replies: unknown pair, unknown responder, relay, equal, cheaper, 254 and 255.");
    s.line("accept_route_reply 0 101 9 201 21 8").line("accept_route_reply 0 101 1 201 21 8");
    s.line("note_relayed_discovery 201").line("accept_route_reply 0 101 1 201 21 255");
    s.line("accept_route_reply 0 101 1 201 21 254").line("accept_route_reply 0 101 1 201 21 254");
    s.line("accept_route_reply 0 101 1 201 22 8").line("accept_route_reply 0 101 1 101 22 3").line("tables");
    s.note("Our own search: 255 establishes a route that is not Active.");
    s.line("begin_discovery 0 202 1000 10000").line("accept_route_reply 0 0 1 202 21 255");
    s.line("accept_route_reply 0 0 1 202 22 255").line("accept_route_reply 0 0 1 202 22 254").line("tables");
    s.note("A sum at 2^64 - 1 and one past it.");
    s.line("reset")
        .line("begin_discovery 0 9 18446744073709551605 10")
        .line("begin_discovery 0 9 18446744073709551605 11");
    s.line("accept_route_request 101 1 9 11 5 0 18446744073709551605 10");
    s.line("accept_route_request 102 1 9 11 5 0 18446744073709551605 11");
    s.note("A known pair makes no sum.");
    s.line("accept_route_request 101 1 9 11 5 0 18446744073709551605 11").line("tables");
    s.note("A refused call undoes its expiry: the search that ended at 500 is still there after it.");
    s.line("reset").each(1..=64, |n| format!("restore_route {n} 21 5")).line("put_discovery 101 1 11 5 255 500 201");
    s.line("begin_discovery 0 99 1000 10000").line("accept_route_request 101 1 201 11 5 0 1000 10000").line("tables");
    s.note("Room is judged after the expiry: the route to 64 is underway, and goes with its search.");
    s.line("put_route 64 1 0 0 0 0 65535 255 0 0").line("put_discovery 101 1 11 5 255 500 64");
    s.line("begin_discovery 0 99 499 10000")
        .line("begin_discovery 0 99 500 10000")
        .line("route_status 64")
        .line("route_count");
    s.note("The 32nd and the 33rd discovery; then one that frees a place.");
    s.line("reset").each(1..=31, |n| format!("accept_route_request 101 {n} 201 11 5 0 {n} 1000"));
    s.line("accept_route_request 101 32 201 11 5 0 31 1000").line("accept_route_request 101 33 201 11 5 0 31 1000");
    s.line("begin_discovery 0 9 31 1000").line("begin_many_to_one_advertisement 0 31 1000");
    s.line("put_discovery 102 1 11 5 255 9000 201").line("accept_route_request 101 32 201 11 5 0 31 1000");
    s.line("accept_route_request 101 33 201 11 5 0 1000 1000").line("accept_route_request 101 33 201 11 5 0 1001 1000");
    s.line("tables").note("5 before 1 and 2, and 1 before 2, with both tables full.");
    s.line("reset").each(1..=32, |n| format!("put_discovery 101 {n} 11 5 255 9000 201"));
    s.each(1..=64, |n| format!("restore_route {n} 21 5"));
    s.line("begin_discovery 0 99 1000 18446744073709551615").line("begin_discovery 0 99 1000 1000");
    s.line("begin_discovery 0 1 1000 1000").line("accept_route_reply 0 101 1 1 21 8").line("remove_route 2");
    s.line("accept_route_reply 0 101 1 1 21 8").line("check");
}

fn records(s: &mut Script) {
    s.line("reset").note("32 and 33 relays.");
    s.line(&format!("store_route_record 500 {}", list(1000, 32)))
        .line(&format!("store_route_record 500 {}", list(1000, 33)));
    s.line("tables").note("The source among its relays, duplicates, an empty list.");
    s.line("store_route_record 9 1 9").line("store_route_record 9 1 9").line("store_route_record 9 3 1 2 1");
    s.line("store_route_record 8 0").line("store_route_record 8 0").line("tables");
    s.note("A limit of three: two relays, three relays; the default takes eleven and not twelve.");
    s.line("reset")
        .line("put_record 1 2 11 12")
        .line("put_record 2 3 11 12 13")
        .line("route_to 1 3")
        .line("route_to 2 3");
    s.line("route_to 1 2")
        .line("route_to 1 0")
        .line("put_record 3 0")
        .line("route_to 3 0")
        .line("restore_route 2 21 4");
    s.line("route_to 2 3")
        .line(&format!("put_record 4 {}", list(1000, 11)))
        .line(&format!("put_record 5 {}", list(1000, 12)));
    s.line("route_to_default 4").line("route_to_default 5").line("route_to 5 13").line("remove_route_record 5");
    s.line("remove_route_record 5").line("route_to 5 255").line("put_record 65535 0").line("route_to 65535 1");
    s.note("The 64th and the 65th record; room for the relays too.");
    s.line("reset").each(1..=62, |n| format!("put_record {n} 1 {n}")).line("store_route_record 70 2 71 72");
    s.line("store_route_record 70 1 71").line("store_route_record 73 0").line("store_route_record 73 1 71");
    s.line("store_route_record 1 2 2 3")
        .line("put_record 90 0")
        .line("remove_route_record 1")
        .line("store_route_record 73 0");
    s.line("tables").note("A record that no row can hold.");
    s.line(&format!("put_record 2 {}", list(1000, 32))).line(&format!("put_record 2 {}", list(1000, 33)));
}

fn decisions(s: &mut Script) {
    s.line("reset")
        .note("Nothing known: discovery, or discarded where it is suppressed; direct; hints; forced routes.");
    for discover in [0, 1, 2] {
        s.line(&format!("resolve_default 1 {}", header(discover, 77)));
    }
    let plain = header(1, 77);
    let modes = ["0", "2 21", "3 2 21 22", "3 0", "4 21", "5 2 21 22", "5 0", "4 65535", "5 1 65535"];
    for mode in modes {
        s.line(&format!("resolve_default {mode} {plain}"));
    }
    s.note("32 and 33 relays, of the host's route and of the header's, applied or not.");
    for count in [32, 33] {
        s.line(&format!("resolve 1 0 1 5 {} {plain}", list(1000, count)));
        s.line(&format!("resolve 1 0 1 3 {} {plain}", list(1000, count)));
        s.line(&format!("resolve 1 0 1 0 0 2 1 0 1 1 0 0 0 0 77 0 30 1 0 0 0 1 5 {}", list(1000, count)));
        let relayed = format!(
            "clear_end_device_initiator_for_relay 0 2 1 0 1 1 0 0 1 0 77 0 30 1 0 0 0 1 5 {}",
            list(1000, count)
        );
        s.line(&relayed);
    }
    s.note("Every field of the header comes back.");
    s.line("resolve_default 0 3 15 2 1 1 1 1 1 1 3 77 78 255 254 1 18446744073709551615 1 1 1 255 1 255 1 79");
    s.line("resolve_default 5 1 21 3 15 2 1 1 1 1 1 1 3 77 78 255 254 1 18446744073709551615 1 1 1 255 1 255 1 79");
    s.note("An Active route, a record, limits, force-discovery and the lack of a concentrator.");
    s.line("restore_route 77 31 4").line("put_record 77 2 41 42");
    let policies = ["1 0 12", "1 0 3", "1 0 2", "0 0 12", "1 1 12", "0 1 12"];
    for policy in policies {
        s.line(&format!("resolve {policy} 1 {plain}")).line(&format!("resolve {policy} 2 21 {plain}"));
    }
    s.note("Refusal 6 before a hint is looked at, and not for a forced route.");
    s.line("remove_route_record 77").line("put_route 77 0 0 0 0 0 65535 4 0 0");
    for mode in ["1", "2 21", "3 0", "4 21", "5 0", "0"] {
        s.line(&format!("resolve_default {mode} {plain}"));
    }
    s.note("An end device child is its own hop; a router child and a mere neighbour are not.");
    s.line(&format!("put_neighbour 4 77 {ROUTER_CHILD}")).line(&format!("resolve_default 1 {plain}"));
    s.line(&format!("put_neighbour 5 77 {ROUTER}")).line(&format!("resolve_default 1 {plain}"));
    s.line(&format!("put_neighbour 6 77 {CHILD}")).line(&format!("resolve_default 1 {plain}"));
    s.line("clear_end_device_initiator_for_relay 0 2 1 0 1 0 0 0 1 0 12 77 30 1 0 0 0 0");
    s.line("clear_end_device_initiator_for_relay 0 2 1 0 1 0 0 0 0 0 12 77 30 1 0 0 0 0");
    s.line("clear_end_device_initiator_for_relay 0 2 1 0 1 0 0 0 1 0 77 12 30 1 0 0 0 0");
}

fn neighbors(s: &mut Script) {
    s.line("reset").note("Every step of the scale of link costs.");
    for quality in [0, 16, 17, 32, 33, 64, 65, 96, 97, 128, 129, 192, 193, 255] {
        s.line(&format!("lqi_to_link_cost {quality}"));
    }
    s.note("A child through every call.");
    s.line("upsert_child 5 51 2 0 4000 1 1000").line("neighbour_count").line("neighbour_at 0").line("neighbour_at 1");
    s.line("contains 5").line("contains 6").line("device_capability 5").line("device_capability 6").line("is_child 5");
    s.line("is_child 6")
        .line("has_network_address 51")
        .line("has_network_address 52")
        .line("end_device_child_eui64 51");
    s.line("sleepy_child_eui64 51").line("sleepy_children").line("end_device_child_count").line("end_device_children");
    s.line("is_unconfirmed_end_device_child 5")
        .line("next_child_timeout")
        .line("link 51")
        .line("link 52")
        .line("lqa 5");
    s.line("lqa 6").line("record_lqa 51 10").line("record_lqa 51 200").line("lqa 5").line("incoming_link_cost 5");
    s.line("record_lqa 51 30").line("lqa 5").line("incoming_link_cost 5").line("record_lqa 51 250").line("lqa 5");
    s.line("incoming_link_cost 5").line("incoming_link_cost 6").line("link 51").line("record_outbound_activity 5");
    s.line("record_inbound_activity 51").line("record_transmit_failure 5").line("neighbour_at 0");
    s.line("reset_transmit_failures").line("set_child_timeout 51 9000 7 2000").line("set_child_timeout 52 9000 7 2000");
    s.line("refresh_child_timeout 1 5 0 3000")
        .line("refresh_child_timeout 1 6 1 51 3001")
        .line("refresh_child_timeout 0 0 1");
    s.line("neighbour_at 0").line("update_network_address 5 53").line("update_network_address 6 54").line("link 53");
    s.line("evict_timed_out_children 12000").line("evict_timed_out_children 12001").line("neighbour_count");
    s.note("A sum at 2^64 - 1 and one past it.");
    s.line("upsert_child 5 51 2 1 1000 1 18446744073709550615")
        .line("upsert_child 5 51 2 1 1001 1 18446744073709550615");
    s.line("refresh_child_timeout 1 5 0 18446744073709550615")
        .line("refresh_child_timeout 0 1 51 18446744073709550616");
    s.line("set_child_timeout 51 5 0 18446744073709551610").line("set_child_timeout 51 6 0 18446744073709551610");
    s.line("set_child_timeout 52 6 0 18446744073709551610").line("tables").line("take_child 5").line("take_child 5");
    s.note("Announced and claimed: 64 and 65 addresses; one confirmed child, one that is not, a router, one twice.");
    for word in ["process_parent_annce", "remove_claimed_children"] {
        s.line("reset").line(&format!("put_neighbour 5 51 {CHILD}")).line(&format!("put_neighbour 7 53 {ROUTER}"));
        s.line("upsert_child 6 52 2 0 4000 3 1000")
            .line("refresh_child_timeout 1 6 0 1000")
            .line(&format!("{word} 65{}", " 5".repeat(65)));
        s.line(&format!("{word} 6 6 5 7 9 6 5")).line(&format!("{word} 64{}", " 6".repeat(64))).line("tables");
    }
    s.note("The 64th and the 65th neighbour; 5 before 4.");
    s.line("reset")
        .each(1..=63, |n| format!("upsert_child {n} {n} 2 0 4000 1 1000"))
        .line("upsert_child 64 64 2 0 4000 1 1000");
    s.line("upsert_child 65 65 2 0 4000 1 1000").line("upsert_child 64 65 1 1 4000 5 1000");
    s.line("upsert_child 65 65 2 0 18446744073709551615 1 1000").line("on_link_status 0 65 65 200 1 1 1000 0");
    s.line("on_link_status 0 64 65 200 1 1 1000 0").line("remove 1").line("on_link_status 0 65 65 200 1 1 1000 0");
    s.line(&format!("put_neighbour 66 66 {CHILD}")).line("neighbour_count").line("end_device_child_count");
    s.note("The 65th waiting sender pushes out the lowest address, and stays even if it is lower still.");
    s.line("reset")
        .each(101..=164, |n| format!("record_lqa {n} 9"))
        .line("record_lqa 165 8")
        .line("record_lqa 1 7")
        .line("tables");
}

fn link_status(s: &mut Script) {
    s.line("reset").note("Waiting samples go to the new neighbour, with the quality given.");
    s.line("record_lqa 51 10")
        .line("record_lqa 51 20")
        .line("on_link_status 0 5 51 30 1 1 1000 2 0 3 2 77 1 5")
        .line("tables");
    s.line("link_status_entries").line("any_live_router_link").line("expected_broadcast_relayers");
    s.note("A known neighbour: the waiting samples are thrown away, and the quality adds none.");
    s.line("put_waiting 51 1 1 9 0 0").line("on_link_status 0 5 51 30 0 1 1100 0").line("tables");
    s.note("The last mention of us wins; with incoming cost 0 the link is lost, and its stored address is named.");
    s.line("on_link_status 0 5 99 30 0 1 1200 2 0 4 0 0 0 7").line("on_link_status 0 5 99 30 1 1 1300 2 0 0 0 0 6 7");
    s.line("on_link_status 0 5 99 30 1 1 1400 0").line("tables");
    s.note("A known end device becomes a router that listens.");
    s.line(&format!("put_neighbour 6 52 {CHILD}"))
        .line("on_link_status 0 6 52 30 1 1 1500 1 0 7 7")
        .line("neighbour_at 1");
    s.note("Costs 7 and 8, 31 and 32 statuses, and 8 before 11.");
    s.line("on_link_status 0 6 52 30 1 1 1500 1 0 8 7").line("on_link_status 0 6 52 30 1 1 1500 1 0 7 8");
    for (count, cost) in [(31, 1), (32, 1), (32, 8)] {
        let statuses: String = (1..=count).map(|n| format!(" {n} {cost} 1")).collect();
        s.line(&format!("on_link_status 0 6 52 30 1 1 1600 {count}{statuses}")).line("neighbour_at 1");
    }
    s.note("The never-ending timeout: the last moment at which a new neighbour can be made, and one past it.");
    let last = u64::MAX - NEVER;
    s.line(&format!("on_link_status 0 7 53 30 1 1 {} 0", last + 1))
        .line(&format!("on_link_status 0 7 53 30 1 1 {last} 0"));
    s.line(&format!("on_link_status 0 7 53 30 1 1 {} 0", last + 1)).line("tables");
}

fn ill_formed(s: &mut Script) {
    s.note("Neighbours that are not well formed: refusal 10, until the entry is put right.");
    for ring in ["3 3 1 2 3", "4 0 1 2 3", "2 1 1 2 0", "2 2 1 2 3", "0 0 0 0 1", "255 255 0 0 0"] {
        s.line("reset").line(&format!("put_waiting 51 {ring}")).line("neighbour_count").line("lqi_to_link_cost 1");
        s.line("route_count").line(&format!("resolve_default 0 {}", header(1, 77))).line("put_waiting 51 3 2 1 2 3");
        s.line("neighbour_count");
    }
    for cost in [7, 8] {
        s.line("reset");
        s.line(&format!("put_neighbour 5 51 1 1 0 5000 4000 2 0 3 0 10 200 30 {cost} 1000 0 0 1 0 0 1000 0 0 0 0 0"));
        s.line("link 51").line("on_link_status 0 5 51 30 1 1 1000 1 0 8 8").line("tables");
    }
}

fn lines(s: &mut Script) {
    s.line("reset").note("Lines that are no call, and lines that only just are.");
    let odd = [
        "route",
        "Route_count",
        "route_count 1",
        "route_count ",
        " route_count",
        "route_at",
        "route_at 1 2",
        "route_at  1",
        "route_at 18446744073709551615",
        "route_at 18446744073709551616",
        "route_at 00000000000000000000000000",
        "route_at -1",
        "route_at +1",
        "route_at 1.0",
        "route_at 0x1",
        "route_at a",
        "next_hop 65535",
        "next_hop 65536",
        "note_route_error 255",
        "note_route_error 256",
        "put_counters 1 2",
        "put_route 9 4 0 0 0 0 1 1 0 0",
        "put_route 9 0 2 0 0 0 1 1 0 0",
        "put_route 9 0 0 0 0 0 1 1 4294967296 0",
        "store_route_record 1 2 3",
        "store_route_record 1 1 2 3",
        "refresh_child_timeout 2 5 0 1000",
        "tables 1",
        "reset 0",
        "end",
    ];
    for line in odd {
        s.line(line);
    }
    s.line(&format!("store_route_record 1 {}", list(1, 80))).line(&format!("store_route_record 1 {}", list(1, 81)));
    s.line("").line("#").line("tables");
}
