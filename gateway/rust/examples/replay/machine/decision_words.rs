//! The words that call the decision, and the header that they read and write.

use super::args::Args;
use super::routing_words::addresses;
use super::{option, Answer, Machine, Stop, Word};
use warpteasel::{
    resolve, resolve_default, Header, HostRoute, NextHop, Nwk, Policy, RouteDiscovery, SendMode, SourceRoute,
};

pub fn word(word: &[u8]) -> Option<Word> {
    Some(match word {
        b"resolve" => resolve_word,
        b"resolve_default" => resolve_default_word,
        b"clear_end_device_initiator_for_relay" => clear_word,
        _ => return None,
    })
}

/// A whole header: what the crate's calls take of it, and the numbers that they leave alone.
struct Frame {
    header: Header,
    frame_type: u64,
    version: u64,
    multicast: u64,
    security: u64,
    destination_bit: u64,
    source_bit: u64,
    reserved: u64,
    radius: u64,
    sequence: u64,
    destination_ieee: Option<u64>,
    source_ieee: Option<u64>,
    multicast_control: Option<u64>,
}

const DISCOVER: [RouteDiscovery; 3] = [RouteDiscovery::Suppress, RouteDiscovery::Enable, RouteDiscovery::WithMulticast];

/// 0, 1 or 3.
fn frame_type(a: &mut Args) -> Result<u64, Stop> {
    match a.number(3)? {
        2 => Err(Stop::Bad),
        number => Ok(number),
    }
}

fn byte(a: &mut Args) -> Result<u64, Stop> {
    a.byte().map(u64::from)
}

impl Frame {
    fn read(a: &mut Args) -> Result<Self, Stop> {
        let (frame_type, version, discover_route) = (frame_type(a)?, a.number(15)?, a.one_of(&DISCOVER)?);
        let (multicast, security, source_route_bit) = (a.number(1)?, a.number(1)?, a.flag()?);
        let (destination_bit, source_bit, end_device_initiator) = (a.number(1)?, a.number(1)?, a.flag()?);
        let (reserved, destination, source) = (a.number(3)?, a.nwk()?, a.nwk()?);
        let (radius, sequence) = (byte(a)?, byte(a)?);
        let (destination_ieee, source_ieee) = (a.option(Args::any)?, a.option(Args::any)?);
        let multicast_control = a.option(byte)?;
        let source_route = a.option(|a| Ok(SourceRoute { relay_index: a.byte()?, relays: a.list(Args::nwk)? }))?;
        a.end()?;
        let header =
            Header { destination, source, discover_route, source_route_bit, end_device_initiator, source_route };
        Ok(Frame {
            header,
            frame_type,
            version,
            multicast,
            security,
            destination_bit,
            source_bit,
            reserved,
            radius,
            sequence,
            destination_ieee,
            source_ieee,
            multicast_control,
        })
    }

    fn numbers(&self) -> Vec<u64> {
        let header = &self.header;
        let mut all = vec![
            self.frame_type,
            self.version,
            header.discover_route as u64,
            self.multicast,
            self.security,
            header.source_route_bit.into(),
            self.destination_bit,
            self.source_bit,
            header.end_device_initiator.into(),
            self.reserved,
            header.destination.0.into(),
            header.source.0.into(),
            self.radius,
            self.sequence,
        ];
        for value in [self.destination_ieee, self.source_ieee, self.multicast_control] {
            all.extend(option(value.map(|number| vec![number])));
        }
        let route = header.source_route.as_ref();
        all.extend(option(route.map(|route| [vec![route.relay_index.into()], addresses(&route.relays)].concat())));
        all
    }
}

/// A mode; the relays of a host's source route are kept beside it.
enum Mode {
    Direct,
    StackDecides,
    HintHop(Nwk),
    HintRoute(Vec<Nwk>),
    ForceHop(Nwk),
    ForceRoute(Vec<Nwk>),
}

impl Mode {
    fn read(a: &mut Args) -> Result<Self, Stop> {
        Ok(match a.number(5)? {
            0 => Mode::Direct,
            1 => Mode::StackDecides,
            2 => Mode::HintHop(a.nwk()?),
            3 => Mode::HintRoute(a.list(Args::nwk)?),
            4 => Mode::ForceHop(a.nwk()?),
            _ => Mode::ForceRoute(a.list(Args::nwk)?),
        })
    }

    fn send_mode(&self) -> SendMode<'_> {
        match self {
            Mode::Direct => SendMode::Direct,
            Mode::StackDecides => SendMode::StackDecides,
            Mode::HintHop(hop) => SendMode::Hint(HostRoute::NextHop(*hop)),
            Mode::HintRoute(relays) => SendMode::Hint(HostRoute::SourceRoute(relays)),
            Mode::ForceHop(hop) => SendMode::Force(HostRoute::NextHop(*hop)),
            Mode::ForceRoute(relays) => SendMode::Force(HostRoute::SourceRoute(relays)),
        }
    }
}

/// Whether a store of the right length is lent, and before it whether both states are well formed.
fn store_lent(m: &Machine) -> Result<(), Stop> {
    m.store_lent().or_else(|stop| m.neighbors.neighbor_count().map_err(Stop::from).and(Err(stop)))
}

fn decided(hop: NextHop, frame: &Frame) -> Answer {
    let hop = match hop {
        NextHop::Resolved(hop) => vec![0, hop.0.into()],
        NextHop::NeedDiscovery => vec![1],
        NextHop::Discard => vec![2],
    };
    Ok([hop, frame.numbers()].concat())
}

fn resolve_word(m: &mut Machine, a: &mut Args) -> Answer {
    let policy = Policy { is_concentrator: a.flag()?, force_route_discovery: a.flag()?, max_source_route: a.byte()? };
    let (mode, mut frame) = (Mode::read(a)?, Frame::read(a)?);
    store_lent(m)?;
    let hop = resolve(&m.routing, &m.store, &m.neighbors, policy, mode.send_mode(), &mut frame.header)?;
    decided(hop, &frame)
}

fn resolve_default_word(m: &mut Machine, a: &mut Args) -> Answer {
    let (mode, mut frame) = (Mode::read(a)?, Frame::read(a)?);
    store_lent(m)?;
    let hop = resolve_default(&m.routing, &m.store, &m.neighbors, mode.send_mode(), &mut frame.header)?;
    decided(hop, &frame)
}

fn clear_word(m: &mut Machine, a: &mut Args) -> Answer {
    let mut frame = Frame::read(a)?;
    let cleared = m.neighbors.clear_end_device_initiator_for_relay(&mut frame.header)?;
    Ok([vec![cleared.into()], frame.numbers()].concat())
}
