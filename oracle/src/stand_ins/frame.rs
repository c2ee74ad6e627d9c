//! The frame, as far as the decision reads and writes it: its header.

use super::types::{Eui64, Nwk};

pub const BROADCAST_ALL_ROUTERS_AND_COORDINATOR: Nwk = Nwk(0xFFFC);

/// The two bits of the frame type; the number 2 names no type.
#[derive(Debug, Clone, Copy, PartialEq, Eq)]
pub enum NwkFrameType {
    Data = 0,
    Command = 1,
    Interpan = 3,
}

/// The two bits of route discovery; the number 3 names no value.
#[derive(Debug, Clone, Copy, PartialEq, Eq)]
pub enum NwkRouteDiscovery {
    Suppress = 0,
    Enable = 1,
    WithMulticast = 2,
}

#[derive(Debug, Clone, PartialEq, Eq)]
pub struct NwkFrameControl {
    pub frame_type: NwkFrameType,
    pub protocol_version: u8,
    pub discover_route: NwkRouteDiscovery,
    pub multicast: bool,
    pub security: bool,
    pub source_route: bool,
    pub destination: bool,
    pub extended_source: bool,
    pub end_device_initiator: bool,
    pub reserved1: u8,
}

#[derive(Debug, Clone, PartialEq, Eq)]
pub struct NwkSourceRoute {
    pub relay_index: u8,
    pub relays: Vec<Nwk>,
}

#[derive(Debug, Clone, PartialEq, Eq)]
pub struct NwkHeader {
    pub frame_control: NwkFrameControl,
    pub destination: Nwk,
    pub source: Nwk,
    pub radius: u8,
    pub sequence_number: u8,
    pub destination_ieee: Option<Eui64>,
    pub source_ieee: Option<Eui64>,
    pub multicast_control: Option<u8>,
    pub source_route: Option<NwkSourceRoute>,
}

/// The payload and the security header are no part of a decision, and are left out.
#[derive(Debug, Clone, PartialEq, Eq)]
pub struct NwkFrame {
    pub nwk_header: NwkHeader,
}
