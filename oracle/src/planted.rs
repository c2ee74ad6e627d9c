//! Faults planted on purpose: each is a misreading of document 01, played by the oracle itself. A
//! comparison of the true oracle with a faulty one must find the difference; so the generator is
//! tested before there is a port to test.

use crate::answer::Answer;
use crate::clock::LAST_IN_MICROS;
use crate::dispatch;
use crate::nwk::routing::Status;
use crate::room::Expired;
use crate::types::{Eui64, Nwk};
use crate::world::{DISCOVERIES, World};

#[derive(Debug, Clone, Copy, PartialEq, Eq)]
pub enum Fault {
    /// A request of equal cost is taken for a worse one.
    EqualRequest,
    /// Our own search compares with the residual although the route is not Active.
    OwnResidual,
    /// The originator's route is not considered again after the responder's was written, where both are one.
    Apart,
    /// A reply is tested against its search's deadline, by the last time that any call gave.
    LateReply,
    /// Every reply is dropped.
    DropReplies,
    /// An entry that expires exactly now is kept.
    LateExpiry,
    /// As many relays as the limit go by source route.
    LimitReached,
    /// A record is compared before its relays are written.
    RecordBefore,
    /// A known neighbour's waiting samples stay.
    SamplesStay,
    /// Room is judged before the expiry.
    RoomBefore,
    /// A plain request clears the flags of a concentrator.
    FlagsCleared,
    /// A sum past the clock's end stops there.
    ClockStops,
}

pub const FAULTS: [(&str, Fault); 12] = [
    ("equal-request", Fault::EqualRequest),
    ("own-residual", Fault::OwnResidual),
    ("apart", Fault::Apart),
    ("late-reply", Fault::LateReply),
    ("drop-replies", Fault::DropReplies),
    ("late-expiry", Fault::LateExpiry),
    ("limit-reached", Fault::LimitReached),
    ("record-before", Fault::RecordBefore),
    ("samples-stay", Fault::SamplesStay),
    ("room-before", Fault::RoomBefore),
    ("flags-cleared", Fault::FlagsCleared),
    ("clock-stops", Fault::ClockStops),
];

/// A line as a word and plain numbers; none if it is anything else.
struct Plain<'a> {
    word: &'a str,
    n: Vec<u64>,
}

impl<'a> Plain<'a> {
    fn of(line: &'a [u8]) -> Option<Self> {
        let mut parts = std::str::from_utf8(line).ok()?.split(' ');
        let word = parts.next()?;
        let n = parts.map(|part| part.parse().ok()).collect::<Option<Vec<u64>>>()?;
        Some(Self { word, n })
    }

    fn text(&self) -> Vec<u8> {
        let numbers = self.n.iter().map(|n| format!(" {n}")).collect::<String>();
        format!("{}{numbers}", self.word).into_bytes()
    }
}

fn nwk(number: u64) -> Nwk {
    Nwk(number as u16)
}

impl Fault {
    pub fn named(name: &str) -> Option<Self> {
        FAULTS.iter().find(|(known, _)| *known == name).map(|&(_, fault)| fault)
    }
}

/// The oracle with a fault in it, on a fresh state.
pub struct Faulty {
    fault: Fault,
    world: World,
    /// The last time given, for the fault that looks at it.
    latest: u64,
}

impl Faulty {
    pub fn new(fault: Fault) -> Self {
        Self { fault, world: World::default(), latest: 0 }
    }

    /// Answers a line with the fault in it.
    pub fn line(&mut self, line: &[u8], out: &mut Answer) {
        let done = Plain::of(line).and_then(|plain| self.faulty(plain, out));
        if done.is_none() {
            dispatch::line(&mut self.world, line, out);
        }
    }

    /// The faulty answer, where the fault shows.
    fn faulty(&mut self, mut p: Plain, out: &mut Answer) -> Option<()> {
        let w = &mut self.world;
        let known = |w: &World, from: &[u64]| {
            let key = (nwk(from[0]), from[1] as u8);
            w.routing.peek_discoveries().get(&key).map(|e| (e.forward_cost, e.residual_cost))
        };
        match (self.fault, p.word, p.n.len()) {
            (Fault::EqualRequest, "accept_route_request", 8) => {
                let forward = Expired::at(w, p.n[6]).forward_cost((nwk(p.n[0]), p.n[1] as u8))?;
                if u64::from(forward) != p.n[4] || forward == 255 {
                    return None;
                }
                p.n[4] += 1;
                dispatch::line(w, &p.text(), out);
            }
            (Fault::OwnResidual, "accept_route_reply", 6) => {
                let (_, residual) = known(w, &p.n[1..])?;
                let status = w.routing.route_status(nwk(p.n[3]))?;
                if p.n[0] != p.n[1] || status == Status::Active || p.n[5] < u64::from(residual) {
                    return None;
                }
                out.word("ok 0 0").line();
            }
            (Fault::Apart, "accept_route_reply", 6) => {
                let (forward, residual) = known(w, &p.n[1..])?;
                let relayed = p.n[0] != p.n[1] && p.n[5] < u64::from(residual) && p.n[1] == p.n[3];
                w.routing.route_status(nwk(p.n[3]))?;
                if !relayed || u64::from(forward) >= p.n[5] {
                    return None;
                }
                dispatch::line(w, &p.text(), out);
                if let Some(route) = w.routing.poke_routes().get_mut(&nwk(p.n[3])) {
                    (route.next_hop_address, route.path_cost) = (nwk(p.n[4]), p.n[5] as u8);
                }
            }
            (Fault::LateReply, "accept_route_reply", 6) => {
                let key = (nwk(p.n[1]), p.n[2] as u8);
                let deadline = w.scale.ms(w.routing.peek_discoveries().get(&key)?.expiration_time);
                if deadline > self.latest {
                    return None;
                }
                out.word("ok 0 0").line();
            }
            (Fault::LateReply, word, len) => {
                self.latest = match (word, len) {
                    ("accept_route_request", 8) => p.n[6],
                    ("begin_discovery", 4) => p.n[2],
                    ("discovery_deadline", 2) | ("begin_many_to_one_advertisement", 3) => p.n[1],
                    ("reset", 0) => 0,
                    _ => return None,
                };
                return None;
            }
            (Fault::DropReplies, "accept_route_reply", 6) => out.word("ok 0 0").line(),
            (
                Fault::LateExpiry,
                "begin_discovery" | "accept_route_request" | "begin_many_to_one_advertisement",
                len @ 2..,
            ) => {
                p.n[len - 2] = p.n[len - 2].checked_sub(1)?;
                p.n[len - 1] = p.n[len - 1].checked_add(1)?;
                dispatch::line(w, &p.text(), out);
            }
            (Fault::LimitReached, "route_to", 2) if p.n[1] < 255 => {
                p.n[1] += 1;
                dispatch::line(w, &p.text(), out);
            }
            (Fault::RecordBefore, "store_route_record", 2..) => {
                let relays: Vec<Nwk> = p.n[2..].iter().map(|&n| nwk(n)).collect();
                let changed = w.routing.peek_records().get(&nwk(p.n[0])) != Some(&relays);
                let mut held = Answer::default();
                dispatch::line(w, &p.text(), &mut held);
                match held.text.starts_with(b"ok") {
                    true => out.word("ok").n(changed).line(),
                    false => out.text.extend(held.text),
                }
            }
            (Fault::SamplesStay, "on_link_status", 8..) => {
                let sender = nwk(p.n[2]);
                let waiting = *w.neighbors.peek_waiting().get(&sender)?;
                let known = w.neighbors.contains(Eui64::from_number(p.n[1]));
                dispatch::line(w, &p.text(), out);
                if known {
                    w.neighbors.poke_waiting().insert(sender, waiting);
                }
            }
            (Fault::RoomBefore, "accept_route_request", 8) => {
                let full = w.routing.peek_discoveries().len() >= DISCOVERIES;
                if !full || known(w, &p.n).is_some() {
                    return None;
                }
                out.word("refuse 2").line();
            }
            (Fault::FlagsCleared, "accept_route_request", 8) => {
                if p.n[5] != 0 {
                    return None;
                }
                dispatch::line(w, &p.text(), out);
                if let Some(route) = w.routing.poke_routes().get_mut(&nwk(p.n[0])) {
                    route.many_to_one = false;
                }
            }
            (
                Fault::ClockStops,
                "begin_discovery" | "begin_many_to_one_advertisement" | "accept_route_request",
                len @ 2..,
            ) => {
                let room = u64::MAX - p.n[len - 2];
                if p.n[len - 1] <= room || room > LAST_IN_MICROS {
                    return None;
                }
                p.n[len - 1] = room;
                dispatch::line(w, &p.text(), out);
            }
            _ => return None,
        }
        Some(())
    }
}
