//! The words of the language: how often each profile says them, and with which numbers.

use crate::clock::NEVER;
use crate::profile::Profile;
use crate::types::Nwk;
use crate::world::{DISCOVERIES, NEIGHBORS, RECORDS, ROUTES, WAITING};
use crate::writer::Writer;

const ROUTING: [&str; 23] = [
    "note_route_error",
    "note_delivery_failure",
    "reset_mtorr_triggers",
    "route_status",
    "route_count",
    "route_at",
    "next_hop",
    "mark_discovery_failed",
    "record_usage",
    "decay_activity",
    "invalidate_via",
    "remove_route",
    "restore_route",
    "remove_route_record",
    "note_source_routed_frame",
    "note_relayed_discovery",
    "discovery_deadline",
    "route_to",
    "route_to_default",
    "put_counters",
    "put_route",
    "put_discovery",
    "check",
];

const SEARCH: [&str; 4] =
    ["begin_discovery", "begin_many_to_one_advertisement", "accept_route_request", "accept_route_reply"];

const RECORD: [&str; 4] = ["store_route_record", "put_record", "route_to", "remove_route_record"];

const NEIGHBOR: [&str; 36] = [
    "lqi_to_link_cost",
    "record_lqa",
    "link",
    "neighbour_count",
    "neighbour_at",
    "lqa",
    "incoming_link_cost",
    "is_child",
    "has_network_address",
    "end_device_child_eui64",
    "sleepy_child_eui64",
    "sleepy_children",
    "contains",
    "device_capability",
    "end_device_child_count",
    "refresh_child_timeout",
    "set_child_timeout",
    "update_network_address",
    "take_child",
    "end_device_children",
    "is_unconfirmed_end_device_child",
    "remove_claimed_children",
    "process_parent_annce",
    "evict_timed_out_children",
    "next_child_timeout",
    "upsert_child",
    "remove",
    "any_live_router_link",
    "expected_broadcast_relayers",
    "link_status_entries",
    "record_outbound_activity",
    "record_inbound_activity",
    "record_transmit_failure",
    "reset_transmit_failures",
    "put_neighbour",
    "put_waiting",
];

const LINK: [&str; 3] = ["on_link_status", "record_lqa", "upsert_child"];

const DECISION: [&str; 3] = ["resolve", "resolve_default", "clear_end_device_initiator_for_relay"];

/// The words in the proportion in which a profile says them.
pub fn wheel(profile: Profile) -> Vec<&'static str> {
    // Routing, search, record, neighbour, link and decision words; each word of a group is said this often.
    let shares = match profile {
        Profile::Keys => [2, 8, 3, 1, 3, 4],
        Profile::Discovery => [2, 30, 1, 0, 0, 1],
        Profile::Records => [1, 1, 16, 0, 0, 4],
        Profile::Neighbors => [0, 0, 0, 3, 20, 1],
        Profile::Decisions => [2, 4, 6, 1, 2, 30],
        Profile::Full => [1, 20, 6, 1, 14, 1],
        Profile::Clock => [1, 16, 1, 1, 12, 1],
        Profile::Lines => [1, 2, 2, 1, 2, 4],
        Profile::Damage => [1, 1, 1, 2, 3, 3],
    };
    let groups: [&[&'static str]; 6] = [&ROUTING, &SEARCH, &RECORD, &NEIGHBOR, &LINK, &DECISION];
    let mut wheel = vec!["check"];
    for (group, share) in groups.iter().zip(shares) {
        for _ in 0..share {
            wheel.extend_from_slice(group);
        }
    }
    if matches!(profile, Profile::Damage | Profile::Lines) {
        wheel.extend(["reset"; 6]);
    }
    if profile == Profile::Full {
        wheel.extend(["restore_route", "note_relayed_discovery", "record_lqa", "record_lqa"].repeat(6));
    }
    wheel
}

/// Writes a call of `word` with numbers drawn for it.
pub fn write(w: &mut Writer, word: &str) {
    w.start(word);
    match word {
        "note_route_error" | "note_delivery_failure" => {
            let threshold = w.one_of(&[0, 1, 2, 3, 5, 254, 255]);
            w.n(threshold);
        }
        "route_status"
        | "next_hop"
        | "mark_discovery_failed"
        | "record_usage"
        | "invalidate_via"
        | "remove_route"
        | "remove_route_record"
        | "note_source_routed_frame"
        | "note_relayed_discovery"
        | "route_to_default"
        | "link"
        | "has_network_address"
        | "end_device_child_eui64"
        | "sleepy_child_eui64"
        | "record_inbound_activity" => {
            let address = w.address();
            w.n(address);
        }
        "lqa"
        | "incoming_link_cost"
        | "is_child"
        | "contains"
        | "device_capability"
        | "take_child"
        | "is_unconfirmed_end_device_child"
        | "remove"
        | "record_outbound_activity"
        | "record_transmit_failure" => {
            let eui = w.eui();
            w.n(eui);
        }
        "route_at" | "neighbour_at" => {
            let place = w.one_of(&[0, 1, 2, 3, 62, 63, 64, 65, 256, u64::MAX]);
            w.n(place);
        }
        "restore_route" => {
            let (destination, hop, cost) = (w.address(), w.address(), w.cost());
            w.n(destination).n(hop).n(cost);
        }
        "discovery_deadline" => {
            let (destination, now) = (w.address(), w.now());
            w.n(destination).n(now);
        }
        "route_to" => route_to(w),
        "store_route_record" | "put_record" => record(w),
        "begin_discovery" => {
            let (own, destination, now) = (w.own(), w.address(), w.now());
            w.n(own).n(destination).n(now);
            let span = w.span();
            w.n(span);
        }
        "begin_many_to_one_advertisement" => {
            let (own, now) = (w.own(), w.now());
            w.n(own).n(now);
            let span = w.span();
            w.n(span);
        }
        "accept_route_request" => request(w),
        "accept_route_reply" => reply(w),
        "lqi_to_link_cost" => {
            let quality = w.below(256);
            w.n(quality);
        }
        "record_lqa" => {
            let (nwk, quality) = (w.address(), w.below(256));
            w.n(nwk).n(quality);
        }
        "refresh_child_timeout" => {
            if w.flag() == 1 {
                let eui = w.eui();
                w.n(1).n(eui);
            } else {
                w.n(0);
            }
            if w.flag() == 1 {
                let nwk = w.address();
                w.n(1).n(nwk);
            } else {
                w.n(0);
            }
            let now = w.now();
            w.n(now);
        }
        "set_child_timeout" => {
            let (nwk, configuration, now) = (w.address(), w.below(65536), w.now());
            let span = w.span();
            w.n(nwk).n(span).n(configuration).n(now);
        }
        "update_network_address" => {
            let (eui, nwk) = (w.eui(), w.address());
            w.n(eui).n(nwk);
        }
        "remove_claimed_children" | "process_parent_annce" => {
            let length = w.length(64);
            w.n(length);
            for _ in 0..length {
                let eui = w.eui();
                w.n(eui);
            }
        }
        "evict_timed_out_children" => {
            let now = w.now();
            w.n(now);
        }
        "upsert_child" => upsert(w),
        "on_link_status" => link_status(w),
        "resolve" => {
            let (concentrator, force) = (w.one_of(&[1, 1, 1, 0]), w.one_of(&[0, 0, 0, 1]));
            let limit = w.one_of(&[0, 1, 2, 3, 4, 12, 32, 33, 255]);
            w.n(concentrator).n(force).n(limit);
            mode(w);
            header(w);
        }
        "resolve_default" => {
            mode(w);
            header(w);
        }
        "clear_end_device_initiator_for_relay" => header(w),
        "put_counters" => {
            let id = w.one_of(&[0, 1, 2, 253, 254, 255]);
            let (errors, failures) = (w.one_of(&[0, 1, 253, 254, 255]), w.one_of(&[0, 1, 253, 254, 255]));
            w.n(id).n(errors).n(failures);
        }
        "put_route" => {
            let destination = w.address();
            route(w, destination);
        }
        "put_discovery" => {
            let (source, id) = (w.address(), w.below(4));
            discovery(w, source, id);
        }
        "put_neighbour" => {
            let eui = w.eui();
            neighbor(w, eui);
        }
        "put_waiting" => {
            let nwk = w.address();
            w.n(nwk);
            samples(w);
        }
        _ => {}
    }
}

fn relays(w: &mut Writer, capacity: u64) {
    let length = w.length(capacity);
    w.n(length);
    for _ in 0..length {
        let relay = w.address();
        w.n(relay);
    }
}

/// A record: often one that is stored already, as most records are, or one with its source among its relays.
fn record(w: &mut Writer) {
    let source = w.address();
    w.n(source);
    let stored = w.world.routing.peek_records().get(&Nwk(source as u16)).cloned();
    match (w.below(4), stored) {
        (0 | 1, Some(relays)) => {
            w.n(relays.len() as u64);
            for relay in relays {
                w.n(u64::from(relay.0));
            }
        }
        (2, _) => {
            let other = w.address();
            w.n(2).n(other).n(source);
        }
        _ => relays(w, 32),
    }
}

/// A limit near the length of the record asked for.
fn route_to(w: &mut Writer) {
    let destination = w.address();
    let stored = w.world.routing.peek_records().get(&Nwk(destination as u16));
    let stored = stored.map_or(3, |relays| relays.len() as u8);
    let limit = w.near(stored);
    w.n(destination).n(limit);
}

fn request(w: &mut Writer) {
    let (originator, id) = w.pair();
    let (destination, sender, now) = (w.address(), w.address(), w.now());
    let key = (Nwk(originator as u16), id as u8);
    let forward = w.world.routing.peek_discoveries().get(&key).map_or(5, |e| e.forward_cost);
    let (cost, many_to_one, span) = (w.near(forward), w.one_of(&[0, 0, 0, 1, 2, 3]), w.span());
    w.n(originator).n(id).n(destination).n(sender).n(cost).n(many_to_one).n(now).n(span);
}

/// A reply, most often to a search that is there, from a responder that has a route.
fn reply(w: &mut Writer) {
    let (originator, id) = w.pair();
    let key = (Nwk(originator as u16), id as u8);
    let found = w.world.routing.peek_discoveries().get(&key);
    let (residual, sought) = found.map_or((9, None), |e| (e.residual_cost, Some(u64::from(e.destination_address.0))));
    let responder = match w.below(6) {
        0 => originator,
        1 | 2 => w.address(),
        _ => sought.unwrap_or(originator),
    };
    let own = if w.below(3) == 0 { originator } else { w.own() };
    let (sender, cost) = (w.address(), w.near(residual));
    w.n(own).n(originator).n(id).n(responder).n(sender).n(cost);
}

fn upsert(w: &mut Writer) {
    let (eui, nwk, kind, rx_on) = (w.eui(), w.address(), w.one_of(&[0, 1, 2, 2, 2]), w.flag());
    let (relationship, now) = (w.one_of(&[1, 1, 1, 5, 0, 2, 3, 4, 6, 7, 8, 9]), w.now());
    let span = w.span();
    w.n(eui).n(nwk).n(kind).n(rx_on).n(span).n(relationship).n(now);
}

fn link_status(w: &mut Writer) {
    let (own, eui, nwk, quality) = (w.own(), w.eui(), w.address(), w.below(256));
    let (first, last, now) = (w.flag(), w.flag(), w.now());
    let length = w.length(31);
    w.n(own).n(eui).n(nwk).n(quality).n(first).n(last).n(now).n(length);
    let dear = w.below(20) == 0;
    for _ in 0..length {
        let (address, most) = (w.address(), if dear { 9 } else { 8 });
        let (incoming, outgoing) = (w.below(most), w.below(most));
        w.n(address).n(incoming).n(outgoing);
    }
}

fn mode(w: &mut Writer) {
    let mode = w.one_of(&[0, 1, 1, 1, 2, 3, 4, 5]);
    w.n(mode);
    match mode {
        2 | 4 => {
            let hop = w.address();
            w.n(hop);
        }
        3 | 5 => relays(w, 32),
        _ => {}
    }
}

fn header(w: &mut Writer) {
    let kind = w.one_of(&[0, 1, 3]);
    let (version, discover) = (w.below(16), w.below(3));
    w.n(kind).n(version).n(discover);
    for _ in 0..6 {
        let flag = w.flag();
        w.n(flag);
    }
    let (reserved, destination, source) = (w.below(4), w.address(), w.address());
    let (radius, sequence) = (w.below(256), w.below(256));
    w.n(reserved).n(destination).n(source).n(radius).n(sequence);
    for _ in 0..2 {
        if w.below(3) == 0 {
            let eui = w.eui();
            w.n(1).n(eui);
        } else {
            w.n(0);
        }
    }
    if w.below(4) == 0 {
        let control = w.below(256);
        w.n(1).n(control);
    } else {
        w.n(0);
    }
    if w.below(3) == 0 {
        let index = w.below(256);
        w.n(1).n(index);
        relays(w, 32);
    } else {
        w.n(0);
    }
}

fn route(w: &mut Writer, destination: u64) {
    let status = w.one_of(&[0, 0, 1, 1, 2, 3]);
    w.n(destination).n(status);
    for _ in 0..4 {
        let flag = w.flag();
        w.n(flag);
    }
    let (hop, cost) = (w.address(), w.cost());
    let total = w.one_of(&[0, 1, 4_294_967_294, 4_294_967_295]);
    let recent = w.one_of(&[0, 1, 254, 255]);
    w.n(hop).n(cost).n(total).n(recent);
}

fn discovery(w: &mut Writer, source: u64, id: u64) {
    let (sender, forward, residual) = (w.address(), w.cost(), w.one_of(&[255, 255, 9, 5, 1, 0]));
    let (now, span) = (w.now(), w.below(400));
    let destination = w.address();
    let expires = now.saturating_add(span);
    w.n(source).n(id).n(sender).n(forward).n(residual).n(expires).n(destination);
}

/// A ring of samples; well formed, but where damage is wanted.
fn samples(w: &mut Writer) {
    let mut count = w.below(4);
    let mut next = if count == 3 { w.below(3) } else { count };
    let mut values = [0; 3];
    for value in values.iter_mut().take(count as usize) {
        *value = w.below(256);
    }
    if w.profile == Profile::Damage {
        match w.below(12) {
            0 => count = w.one_of(&[4, 255]),
            1 => next = w.below(5),
            2 => values[2] = 1 + w.below(255),
            _ => {}
        }
    }
    w.n(count).n(next).n(values[0]).n(values[1]).n(values[2]);
}

fn neighbor(w: &mut Writer, eui: u64) {
    let (nwk, kind, rx_on, configuration) = (w.address(), w.one_of(&[0, 1, 1, 2, 2]), w.flag(), w.below(65536));
    let (now, wait) = (w.now(), w.below(400));
    let timeout_at = now.saturating_add(wait);
    let period = if w.profile == Profile::Clock { w.span() } else { w.one_of(&[0, 1, 400, 10_000, NEVER]) };
    let relationship = w.one_of(&[1, 1, 1, 5, 0, 2, 3, 4, 6, 7, 8, 9]);
    let failures = w.one_of(&[0, 1, 254, 255]);
    w.n(eui).n(nwk).n(kind).n(rx_on).n(configuration).n(timeout_at).n(period);
    w.n(relationship).n(failures);
    samples(w);
    let dear = w.profile == Profile::Damage && w.below(12) == 0;
    let outgoing = if dear { 8 + w.below(248) } else { w.one_of(&[0, 0, 1, 3, 7]) };
    let (beacon, offset, keepalive) = (w.below(1 << 32), w.below(1 << 32), w.flag());
    let (sent, received) = (w.below(1 << 32), w.below(1 << 32));
    w.n(outgoing).n(now).n(beacon).n(offset).n(keepalive).n(sent).n(received).n(now);
    for _ in 0..5 {
        let counter = w.one_of(&[0, 1, 250, 254, 255]);
        w.n(counter);
    }
}

/// A line that puts one more entry into a table that is not full; false, and a check, if all are.
pub fn fill(w: &mut Writer) -> bool {
    let routing = &w.world.routing;
    let neighbors = &w.world.neighbors;
    let room = [
        (routing.peek_routes().len() < ROUTES, "put_route"),
        (routing.peek_discoveries().len() < DISCOVERIES, "put_discovery"),
        (routing.peek_records().len() < RECORDS, "put_record"),
        (neighbors.peek_table().len() < NEIGHBORS, "put_neighbour"),
        (neighbors.peek_waiting().len() < WAITING, "put_waiting"),
    ];
    let open: Vec<&str> = room.iter().filter(|(open, _)| *open).map(|&(_, word)| word).collect();
    let word = match open.len() as u64 {
        0 => "check",
        many => open[w.below(many) as usize],
    };
    write(w, word);
    !open.is_empty()
}

/// Makes a line that is no call, or is only just one.
pub fn spoil(w: &mut Writer) {
    let line = std::mem::take(&mut w.line);
    let text = String::from_utf8_lossy(&line).into_owned();
    let mut parts: Vec<String> = text.split(' ').map(str::to_owned).collect();
    let at = w.below(parts.len() as u64) as usize;
    let odd = [
        "256",
        "65536",
        "4294967296",
        "18446744073709551615",
        "18446744073709551616",
        "2",
        "81",
        "007",
        "-1",
        "+1",
        "1.0",
        "0x1",
        "",
        "1e3",
        "99999999999999999999999999999999",
        "\t1",
        "1\r",
        "1\0",
        "\u{e9}",
    ];
    match w.below(8) {
        0 => drop(parts.pop()),
        1 => parts.push(w.below(300).to_string()),
        2..6 => parts[at] = odd[w.below(odd.len() as u64) as usize].to_owned(),
        6 => parts.insert(at, String::new()),
        _ => parts[0] = ["", "#", "Tables", "end", "tables ", "reset\r", "route", "\0"][w.below(8) as usize].to_owned(),
    }
    w.line = parts.join(" ").into_bytes();
    if w.below(50) == 0 {
        w.line.push(0xFF);
    }
}
