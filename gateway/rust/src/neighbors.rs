//! The neighbors: who is heard, at what cost, and which of them are children.

use crate::lent::{call, status};
use crate::{Eui64, Nwk, Refusal};

/// How many neighbors a state has places for, and how many senders whose samples wait.
pub const MAX_NEIGHBORS: usize = 64;

/// The numbers of a [`Neighbors`], to store and to read back.
///
/// What stands in place `i` of each of the first ten columns is one neighbor; they go up by extended address, and the
/// places from the count on are 0. Two columns more hold the samples of senders that are no neighbors yet. The words
/// are packed fields of the library's own; take them as they are.
#[derive(Clone, Debug, PartialEq, Eq)]
#[repr(C)]
pub struct NeighborsColumns {
    /// The extended address of each neighbor, as [`Eui64::number`] gives it.
    pub keys: [u64; MAX_NEIGHBORS],
    /// Its network address.
    pub nwks: [u16; MAX_NEIGHBORS],
    /// Its samples, outgoing cost, kind and relationship.
    pub links: [u64; MAX_NEIGHBORS],
    /// Its counters.
    pub counts: [u64; MAX_NEIGHBORS],
    /// When its timeout comes.
    pub deadlines: [u64; MAX_NEIGHBORS],
    /// How long its timeout is.
    pub periods: [u64; MAX_NEIGHBORS],
    /// When its last link status was heard.
    pub heard: [u64; MAX_NEIGHBORS],
    /// When it was added.
    pub added: [u64; MAX_NEIGHBORS],
    /// Its beacon's time and offset.
    pub beacons: [u64; MAX_NEIGHBORS],
    /// The bytes sent to it and received from it.
    pub bytes: [u64; MAX_NEIGHBORS],
    /// How many neighbors there are.
    pub count: usize,
    /// The network address of each sender whose samples wait.
    pub senders: [u16; MAX_NEIGHBORS],
    /// Its samples.
    pub samples: [u64; MAX_NEIGHBORS],
    /// How many senders there are whose samples wait.
    pub waiting: usize,
}

impl NeighborsColumns {
    /// Those of a fresh state: all 0.
    #[must_use]
    pub const fn new() -> Self {
        NeighborsColumns {
            keys: [0; MAX_NEIGHBORS],
            nwks: [0; MAX_NEIGHBORS],
            links: [0; MAX_NEIGHBORS],
            counts: [0; MAX_NEIGHBORS],
            deadlines: [0; MAX_NEIGHBORS],
            periods: [0; MAX_NEIGHBORS],
            heard: [0; MAX_NEIGHBORS],
            added: [0; MAX_NEIGHBORS],
            beacons: [0; MAX_NEIGHBORS],
            bytes: [0; MAX_NEIGHBORS],
            count: 0,
            senders: [0; MAX_NEIGHBORS],
            samples: [0; MAX_NEIGHBORS],
            waiting: 0,
        }
    }
}

impl Default for NeighborsColumns {
    fn default() -> Self {
        Self::new()
    }
}

/// What a device is to its network.
#[derive(Clone, Copy, Debug, Default, PartialEq, Eq, Hash)]
pub enum DeviceType {
    /// The coordinator.
    Coordinator,
    /// A router.
    Router,
    /// An end device.
    #[default]
    EndDevice,
}

impl DeviceType {
    const fn of(number: u8) -> Self {
        match number {
            0 => Self::Coordinator,
            1 => Self::Router,
            _ => Self::EndDevice,
        }
    }
}

/// What a neighbor is to this device.
#[derive(Clone, Copy, Debug, Default, PartialEq, Eq, Hash)]
pub enum Relationship {
    /// Our parent.
    Parent,
    /// A child of ours.
    #[default]
    Child,
    /// A router as we are.
    Sibling,
    /// None of the three above.
    NoneOfTheAbove,
    /// A child that has left.
    PreviousChild,
    /// A child that has not proved yet who it is.
    UnauthenticatedChild,
    /// A child that is not authorized, and whose frames may be relayed.
    UnauthorizedChildWithRelayAllowed,
    /// A child that was lost.
    LostChild,
    /// A child whose network address another has too.
    AddressConflictChild,
    /// A router of the backbone.
    BackboneMeshSibling,
}

impl Relationship {
    const fn of(number: u8) -> Self {
        match number {
            0 => Self::Parent,
            1 => Self::Child,
            2 => Self::Sibling,
            3 => Self::NoneOfTheAbove,
            4 => Self::PreviousChild,
            5 => Self::UnauthenticatedChild,
            6 => Self::UnauthorizedChildWithRelayAllowed,
            7 => Self::LostChild,
            8 => Self::AddressConflictChild,
            _ => Self::BackboneMeshSibling,
        }
    }
}

/// A row of the neighbor table. Moments and spans are in milliseconds.
#[derive(Clone, Copy, Debug, PartialEq, Eq)]
pub struct NeighborEntry {
    /// Who it is.
    pub extended_address: Eui64,
    /// Its network address.
    pub network_address: Nwk,
    /// What it is to its network.
    pub device_type: DeviceType,
    /// Whether its receiver is on while it is idle; one that is not sleeps.
    pub rx_on_when_idle: bool,
    /// The configuration that the end device sent with its last timeout request.
    pub end_device_configuration: u16,
    /// When the child is removed, unless a keepalive comes.
    pub timeout_at: u64,
    /// How long after a keepalive that is.
    pub device_timeout: u64,
    /// What it is to us.
    pub relationship: Relationship,
    /// The sendings to it that failed.
    pub transmit_failure: u8,
    /// How many samples of link quality are held, at most three.
    pub samples_held: u8,
    /// The place that the next sample is written to.
    pub next_sample: u8,
    /// The samples; places without one are 0.
    pub samples: [u8; 3],
    /// What the link from us to it costs, as it says; 0 while it has not named us.
    pub outgoing_cost: u8,
    /// When its last link status was heard.
    pub last_link_status_timestamp: u64,
    /// The time of its beacon.
    pub incoming_beacon_timestamp: u32,
    /// The offset of its beacon.
    pub beacon_transmission_time_offset: u32,
    /// Whether a keepalive of the end device was heard since we started.
    pub keepalive_received: bool,
    /// The bytes sent to it.
    pub mac_unicast_bytes_transmitted: u32,
    /// The bytes received from it.
    pub mac_unicast_bytes_received: u32,
    /// When it was added.
    pub router_added_timestamp: u64,
    /// How well the router is connected.
    pub router_connectivity: u8,
    /// How well it is connected to routers that we have no link to.
    pub router_neighbor_set_diversity: u8,
    /// How much was sent through it lately.
    pub router_outbound_activity: u8,
    /// How much came through it lately.
    pub router_inbound_activity: u8,
    /// The security timer.
    pub security_timer: u8,
    /// The link quality, the median of three samples; none with fewer.
    pub lqa: Option<u8>,
    /// What the link from it to us costs, by the link quality; 0 with fewer than three samples.
    pub incoming_link_cost: u8,
    /// Whether it is a child of ours, one that has not proved yet who it is included.
    pub is_child: bool,
}

/// The radio link to a neighbor.
#[derive(Clone, Copy, Debug, PartialEq, Eq)]
pub struct NeighborLink {
    /// Who the neighbor is.
    pub eui64: Eui64,
    /// What the link from us to it costs, as it says; 0 where it has not named us.
    pub outgoing_cost: u8,
    /// What the link from it to us costs, by our samples; 0 with fewer than three.
    pub incoming_cost: u8,
}

/// What kind of device a neighbor is.
#[derive(Clone, Copy, Debug, PartialEq, Eq)]
pub struct DeviceCapability {
    /// What it is to its network.
    pub device_type: DeviceType,
    /// Whether its receiver is on while it is idle.
    pub rx_on_when_idle: bool,
}

/// What a link costs by the quality at which it is heard: 7 at worst, 1 at best.
///
/// ```
/// let cost = warpteasel::lqi_to_link_cost;
/// assert_eq!([cost(16), cost(17), cost(192), cost(193)], [7, 6, 2, 1]);
/// ```
#[must_use]
pub fn lqi_to_link_cost(lqi: u8) -> u8 {
    status!(warpteasel_raw_lqi_to_link_cost[] number lqi,)
}

/// The neighbors: 64 of them, and the samples of 64 senders that are no neighbors yet.
///
/// It is plain numbers in the caller's memory (`#[repr(C)]`, as C has it). It may be cloned, stored as
/// [`NeighborsColumns`] and read back; every call tests it, and refuses one that is not well formed with
/// [`StateIllFormed`](Refusal::StateIllFormed). No call makes such a state.
///
/// ```
/// use warpteasel::{Neighbors, NeighborsColumns, Refusal};
/// let kept = NeighborsColumns { count: 1, ..NeighborsColumns::new() };
/// let neighbors = Neighbors::from_columns(kept);
/// assert_eq!(neighbors.neighbor_count(), Ok(1)); // one neighbor whose fields are all 0
///
/// let damaged = NeighborsColumns { count: 2, ..NeighborsColumns::new() };
/// assert_eq!(Neighbors::from_columns(damaged).neighbor_count(), Err(Refusal::StateIllFormed)); // two of one address
/// ```
#[derive(Clone, Debug, Default, PartialEq, Eq)]
#[repr(transparent)]
pub struct Neighbors {
    pub(crate) columns: NeighborsColumns,
}

impl Neighbors {
    /// A fresh state: no neighbor, no sample.
    #[must_use]
    pub const fn new() -> Self {
        Neighbors { columns: NeighborsColumns::new() }
    }

    /// A state of columns that were kept. Any numbers are taken here; each call tests them.
    #[must_use]
    pub const fn from_columns(columns: NeighborsColumns) -> Self {
        Neighbors { columns }
    }

    /// The columns, to keep.
    #[must_use]
    pub const fn columns(&self) -> &NeighborsColumns {
        &self.columns
    }

    /// How many neighbors there are.
    pub fn neighbor_count(&self) -> Result<usize, Refusal> {
        let mut total = 0;
        call!(warpteasel_raw_neighbor_count: neighbors &self.columns, place &mut total,)?;
        Ok(total)
    }

    /// The neighbor at a place, in ascending order of extended address ([`Eui64::number`]); none from the count on.
    pub fn neighbor_at(&self, place: usize) -> Result<Option<NeighborEntry>, Refusal> {
        let (mut found, mut extended_address, mut network_address, mut device_type) = (0, 0, 0, 0);
        let (mut rx_on_when_idle, mut end_device_configuration, mut timeout_at, mut device_timeout) = (0, 0, 0, 0);
        let (mut relationship, mut transmit_failure, mut samples_held, mut next_sample) = (0, 0, 0, 0);
        let (mut first, mut second, mut third, mut outgoing_cost) = (0, 0, 0, 0);
        let (mut last_link_status_timestamp, mut incoming_beacon_timestamp) = (0, 0);
        let (mut beacon_transmission_time_offset, mut keepalive_received) = (0, 0);
        let (mut mac_unicast_bytes_transmitted, mut mac_unicast_bytes_received) = (0, 0);
        let (mut router_added_timestamp, mut router_connectivity, mut router_neighbor_set_diversity) = (0, 0, 0);
        let (mut router_outbound_activity, mut router_inbound_activity, mut security_timer) = (0, 0, 0);
        let (mut lqa_known, mut lqa, mut incoming_link_cost, mut is_child) = (0, 0, 0, 0);
        call!(warpteasel_raw_neighbor_at: neighbors &self.columns, number place, place &mut found,
            place &mut extended_address, place &mut network_address, place &mut device_type,
            place &mut rx_on_when_idle, place &mut end_device_configuration, place &mut timeout_at,
            place &mut device_timeout, place &mut relationship, place &mut transmit_failure, place &mut samples_held,
            place &mut next_sample, place &mut first, place &mut second, place &mut third, place &mut outgoing_cost,
            place &mut last_link_status_timestamp, place &mut incoming_beacon_timestamp,
            place &mut beacon_transmission_time_offset, place &mut keepalive_received,
            place &mut mac_unicast_bytes_transmitted, place &mut mac_unicast_bytes_received,
            place &mut router_added_timestamp, place &mut router_connectivity,
            place &mut router_neighbor_set_diversity, place &mut router_outbound_activity,
            place &mut router_inbound_activity, place &mut security_timer, place &mut lqa_known, place &mut lqa,
            place &mut incoming_link_cost, place &mut is_child,)?;
        Ok((found == 1).then_some(NeighborEntry {
            extended_address: Eui64::from_number(extended_address),
            network_address: Nwk(network_address),
            device_type: DeviceType::of(device_type),
            rx_on_when_idle: rx_on_when_idle == 1,
            end_device_configuration,
            timeout_at,
            device_timeout,
            relationship: Relationship::of(relationship),
            transmit_failure,
            samples_held,
            next_sample,
            samples: [first, second, third],
            outgoing_cost,
            last_link_status_timestamp,
            incoming_beacon_timestamp,
            beacon_transmission_time_offset,
            keepalive_received: keepalive_received == 1,
            mac_unicast_bytes_transmitted,
            mac_unicast_bytes_received,
            router_added_timestamp,
            router_connectivity,
            router_neighbor_set_diversity,
            router_outbound_activity,
            router_inbound_activity,
            security_timer,
            lqa: (lqa_known == 1).then_some(lqa),
            incoming_link_cost,
            is_child: is_child == 1,
        }))
    }

    /// All neighbors, in ascending order of extended address ([`Eui64::number`]).
    pub fn entries(&self) -> Result<impl Iterator<Item = NeighborEntry> + '_, Refusal> {
        Ok((0..self.neighbor_count()?).filter_map(|place| self.neighbor_at(place).ok().flatten()))
    }

    /// The neighbor of an extended address.
    ///
    /// ```
    /// use warpteasel::{Child, Eui64, Neighbors, Nwk};
    /// let mut neighbors = Neighbors::new();
    /// let lamp = Eui64::from_be_bytes([0x00, 0x12, 0x4b, 0x00, 0x14, 0xb5, 0xd9, 0xa8]);
    /// neighbors.upsert_child(&Child { eui64: lamp, network_address: Nwk(0x1234), ..Child::default() }, 0)?;
    /// assert_eq!(neighbors.entry(lamp)?.map(|entry| entry.network_address), Some(Nwk(0x1234)));
    /// # Ok::<(), warpteasel::Refusal>(())
    /// ```
    pub fn entry(&self, eui64: Eui64) -> Result<Option<NeighborEntry>, Refusal> {
        // Where it is not found, the place after the last: there is no entry, and the state is tested all the same.
        let place = self.columns.keys.iter().position(|key| *key == eui64.number());
        self.neighbor_at(place.unwrap_or(MAX_NEIGHBORS))
    }

    /// The radio link to the neighbor of a network address.
    pub fn link(&self, nwk: Nwk) -> Result<Option<NeighborLink>, Refusal> {
        let (mut found, mut eui64, mut outgoing_cost, mut incoming_cost) = (0, 0, 0, 0);
        call!(warpteasel_raw_link: neighbors &self.columns, number nwk.0, place &mut found, place &mut eui64,
            place &mut outgoing_cost, place &mut incoming_cost,)?;
        let eui64 = Eui64::from_number(eui64);
        Ok((found == 1).then_some(NeighborLink { eui64, outgoing_cost, incoming_cost }))
    }

    /// Whether a neighbor has a network address.
    pub fn has_network_address(&self, nwk: Nwk) -> Result<bool, Refusal> {
        let mut told = 0;
        call!(warpteasel_raw_has_network_address: neighbors &self.columns, number nwk.0, place &mut told,)?;
        Ok(told == 1)
    }

    /// Whether a neighbor has an extended address.
    pub fn contains(&self, eui64: Eui64) -> Result<bool, Refusal> {
        let mut told = 0;
        call!(warpteasel_raw_contains: neighbors &self.columns, number eui64.number(), place &mut told,)?;
        Ok(told == 1)
    }

    /// What kind of device a neighbor is.
    pub fn device_capability(&self, eui64: Eui64) -> Result<Option<DeviceCapability>, Refusal> {
        let (mut found, mut device_type, mut rx_on_when_idle) = (0, 0, 0);
        call!(warpteasel_raw_device_capability: neighbors &self.columns, number eui64.number(), place &mut found,
            place &mut device_type, place &mut rx_on_when_idle,)?;
        let rx_on_when_idle = rx_on_when_idle == 1;
        Ok((found == 1).then_some(DeviceCapability { device_type: DeviceType::of(device_type), rx_on_when_idle }))
    }

    /// Notes that a neighbor has another network address now.
    pub fn update_network_address(&mut self, eui64: Eui64, nwk: Nwk) -> Result<(), Refusal> {
        call!(warpteasel_raw_update_network_address: neighbors_mut &mut self.columns, number eui64.number(),
            number nwk.0,)
    }

    /// Counts a frame that was sent through a neighbor.
    pub fn record_outbound_activity(&mut self, eui64: Eui64) -> Result<(), Refusal> {
        call!(warpteasel_raw_record_outbound_activity: neighbors_mut &mut self.columns, number eui64.number(),)
    }

    /// Counts a frame of a neighbor that is to be relayed.
    pub fn record_inbound_activity(&mut self, nwk: Nwk) -> Result<(), Refusal> {
        call!(warpteasel_raw_record_inbound_activity: neighbors_mut &mut self.columns, number nwk.0,)
    }

    /// Counts a frame to a neighbor that was not acknowledged.
    pub fn record_transmit_failure(&mut self, eui64: Eui64) -> Result<(), Refusal> {
        call!(warpteasel_raw_record_transmit_failure: neighbors_mut &mut self.columns, number eui64.number(),)
    }

    /// Sets the count of failures of every neighbor to 0.
    pub fn reset_transmit_failures(&mut self) -> Result<(), Refusal> {
        call!(warpteasel_raw_reset_transmit_failures: neighbors_mut &mut self.columns,)
    }

    /// Removes a neighbor, if it is one.
    pub fn remove(&mut self, eui64: Eui64) -> Result<(), Refusal> {
        call!(warpteasel_raw_remove_neighbor: neighbors_mut &mut self.columns, number eui64.number(),)
    }
}
