//! The children among the neighbors: joining, timeouts, and children that other routers claim.

use crate::lent::{call, numbers, status};
use crate::neighbors::MAX_NEIGHBORS;
use crate::{DeviceType, Eui64, Neighbors, Nwk, Refusal, Relationship};

/// How many extended addresses a call takes at most.
pub const MAX_ANNOUNCED: usize = 64;

/// What a child that joins or rejoins says of itself. `Child::default()` is a sleeping end device, with every number 0.
#[derive(Clone, Copy, Debug, Default, PartialEq, Eq)]
pub struct Child {
    /// Who it is.
    pub eui64: Eui64,
    /// The network address that it has now.
    pub network_address: Nwk,
    /// What it is to its network.
    pub device_type: DeviceType,
    /// Whether its receiver is on while it is idle.
    pub rx_on_when_idle: bool,
    /// How long after a keepalive it is removed, in milliseconds.
    pub device_timeout: u64,
    /// What it is to us.
    pub relationship: Relationship,
}

/// What became of another router's announcement of its children.
#[derive(Clone, Debug, PartialEq, Eq)]
#[must_use = "the claimed are to be claimed back, and what is known of the removed is to be cleaned up"]
pub struct ParentAnnceOutcome {
    /// Those that have sent a keepalive to us: they are ours, and to be claimed back.
    pub claimed: Vec<Eui64>,
    /// Those that were removed here.
    pub removed: Vec<(Eui64, Nwk)>,
}

/// The first devices of an answer's rooms.
fn devices(total: usize, eui64s: &[u64], addresses: &[u16]) -> Vec<(Eui64, Nwk)> {
    let both = eui64s.iter().zip(addresses).take(total);
    both.map(|(eui64, address)| (Eui64::from_number(*eui64), Nwk(*address))).collect()
}

impl Neighbors {
    /// Takes a child that joins or rejoins. What is known of it stays, but for what it says of itself.
    ///
    /// May be refused with [`TimePastEnd`](Refusal::TimePastEnd) or [`NeighborTableFull`](Refusal::NeighborTableFull).
    ///
    /// ```
    /// use warpteasel::{Child, DeviceType, Eui64, Neighbors, Nwk, Relationship};
    /// let mut neighbors = Neighbors::new();
    /// let logger = Child {
    ///     eui64: Eui64::from_be_bytes([0x00, 0x12, 0x4b, 0x00, 0x14, 0xb5, 0xd9, 0xa8]),
    ///     network_address: Nwk(0x1234),
    ///     device_type: DeviceType::EndDevice,
    ///     rx_on_when_idle: false,
    ///     device_timeout: 60_000,
    ///     relationship: Relationship::Child,
    /// };
    /// neighbors.upsert_child(&logger, 1_000)?;
    /// assert_eq!(neighbors.sleepy_child_eui64(Nwk(0x1234))?, Some(logger.eui64));
    /// assert_eq!(neighbors.next_child_timeout()?, Some(61_000));
    /// # Ok::<(), warpteasel::Refusal>(())
    /// ```
    pub fn upsert_child(&mut self, child: &Child, now_ms: u64) -> Result<(), Refusal> {
        call!(warpteasel_raw_upsert_child: neighbors_mut &mut self.columns, number child.eui64.number(),
            number child.network_address.0, number child.device_type as u8, number u8::from(child.rx_on_when_idle),
            number child.device_timeout, number child.relationship as u8, number now_ms,)
    }

    /// Moves the deadline of a device that has polled, found by its extended address, else by its network address;
    /// whether it is a neighbor.
    ///
    /// May be refused with [`TimePastEnd`](Refusal::TimePastEnd).
    pub fn refresh_child_timeout(
        &mut self,
        eui64: Option<Eui64>,
        nwk: Option<Nwk>,
        now_ms: u64,
    ) -> Result<bool, Refusal> {
        let mut told = 0;
        call!(warpteasel_raw_refresh_child_timeout: neighbors_mut &mut self.columns,
            number u8::from(eui64.is_some()), number eui64.unwrap_or_default().number(),
            number u8::from(nwk.is_some()), number nwk.unwrap_or_default().0, number now_ms, place &mut told,)?;
        Ok(told == 1)
    }

    /// Sets the timeout that an end device child has asked for, in milliseconds; whether there is such a child.
    ///
    /// May be refused with [`TimePastEnd`](Refusal::TimePastEnd).
    pub fn set_child_timeout(
        &mut self,
        nwk: Nwk,
        timeout: u64,
        configuration: u16,
        now_ms: u64,
    ) -> Result<bool, Refusal> {
        let mut told = 0;
        call!(warpteasel_raw_set_child_timeout: neighbors_mut &mut self.columns, number nwk.0, number timeout,
            number configuration, number now_ms, place &mut told,)?;
        Ok(told == 1)
    }

    /// Removes a child that has found another parent, and answers its network address; nothing happens to a neighbor
    /// that is no child.
    pub fn take_child(&mut self, eui64: Eui64) -> Result<Option<Nwk>, Refusal> {
        let (mut found, mut nwk) = (0, 0);
        call!(warpteasel_raw_take_child: neighbors_mut &mut self.columns, number eui64.number(), place &mut found,
            place &mut nwk,)?;
        Ok((found == 1).then_some(Nwk(nwk)))
    }

    /// Removes the end device children whose deadline has come, and answers them.
    ///
    /// ```
    /// use warpteasel::{Child, Eui64, Neighbors, Nwk};
    /// let mut neighbors = Neighbors::new();
    /// let eui64 = Eui64::from_number(5);
    /// neighbors.upsert_child(&Child { eui64, network_address: Nwk(9), device_timeout: 60_000, ..Child::default() }, 0)?;
    /// assert_eq!(neighbors.evict_timed_out_children(59_999)?, []);
    /// assert_eq!(neighbors.evict_timed_out_children(60_000)?, [(eui64, Nwk(9))]);
    /// # Ok::<(), warpteasel::Refusal>(())
    /// ```
    pub fn evict_timed_out_children(&mut self, now_ms: u64) -> Result<Vec<(Eui64, Nwk)>, Refusal> {
        let (mut total, mut eui64s, mut addresses) = (0, [0; MAX_NEIGHBORS], [0; MAX_NEIGHBORS]);
        call!(warpteasel_raw_evict_timed_out_children: neighbors_mut &mut self.columns, number now_ms,
            place &mut total, room &mut eui64s, room &mut addresses,)?;
        Ok(devices(total, &eui64s, &addresses))
    }

    /// Removes the end devices that another router claims, at most 64, and answers those that were here.
    ///
    /// May be refused with [`ListTooLong`](Refusal::ListTooLong).
    pub fn remove_claimed_children(&mut self, claims: &[Eui64]) -> Result<Vec<(Eui64, Nwk)>, Refusal> {
        let (claims, count) = numbers::<_, u64, { MAX_ANNOUNCED + 1 }>(claims, |eui64| eui64.number());
        let (mut total, mut eui64s, mut addresses) = (0, [0; MAX_NEIGHBORS], [0; MAX_NEIGHBORS]);
        call!(warpteasel_raw_remove_claimed_children: neighbors_mut &mut self.columns, list &claims[..count],
            place &mut total, room &mut eui64s, room &mut addresses,)?;
        Ok(devices(total, &eui64s, &addresses))
    }

    /// Takes another router's announcement of its children, at most 64: those that have sent a keepalive to us are to
    /// be claimed back, the others are removed.
    ///
    /// May be refused with [`ListTooLong`](Refusal::ListTooLong).
    pub fn process_parent_annce(&mut self, announced: &[Eui64]) -> Result<ParentAnnceOutcome, Refusal> {
        let (announced, count) = numbers::<_, u64, { MAX_ANNOUNCED + 1 }>(announced, |eui64| eui64.number());
        let (mut claimed_total, mut claimed) = (0, [0; MAX_NEIGHBORS]);
        let (mut total, mut eui64s, mut addresses) = (0, [0; MAX_NEIGHBORS], [0; MAX_NEIGHBORS]);
        call!(warpteasel_raw_process_parent_annce: neighbors_mut &mut self.columns, list &announced[..count],
            place &mut claimed_total, room &mut claimed, place &mut total, room &mut eui64s, room &mut addresses,)?;
        let claimed = claimed.into_iter().take(claimed_total).map(Eui64::from_number).collect();
        Ok(ParentAnnceOutcome { claimed, removed: devices(total, &eui64s, &addresses) })
    }

    /// The end device child of a network address.
    pub fn end_device_child_eui64(&self, nwk: Nwk) -> Result<Option<Eui64>, Refusal> {
        let (mut found, mut eui64) = (0, 0);
        call!(warpteasel_raw_end_device_child_eui64: neighbors &self.columns, number nwk.0, place &mut found,
            place &mut eui64,)?;
        Ok((found == 1).then_some(Eui64::from_number(eui64)))
    }

    /// The child of a network address whose receiver is off while it is idle: a frame for it waits until it polls.
    pub fn sleepy_child_eui64(&self, nwk: Nwk) -> Result<Option<Eui64>, Refusal> {
        let (mut found, mut eui64) = (0, 0);
        call!(warpteasel_raw_sleepy_child_eui64: neighbors &self.columns, number nwk.0, place &mut found,
            place &mut eui64,)?;
        Ok((found == 1).then_some(Eui64::from_number(eui64)))
    }

    /// All children whose receiver is off while they are idle.
    pub fn sleepy_children(&self) -> Result<Vec<(Eui64, Nwk)>, Refusal> {
        let (mut total, mut eui64s, mut addresses) = (0, [0; MAX_NEIGHBORS], [0; MAX_NEIGHBORS]);
        call!(warpteasel_raw_sleepy_children: neighbors &self.columns, place &mut total, room &mut eui64s,
            room &mut addresses,)?;
        Ok(devices(total, &eui64s, &addresses))
    }

    /// How many end device children there are.
    pub fn end_device_child_count(&self) -> Result<usize, Refusal> {
        let mut total = 0;
        call!(warpteasel_raw_end_device_child_count: neighbors &self.columns, place &mut total,)?;
        Ok(total)
    }

    /// All end device children.
    pub fn end_device_children(&self) -> Result<Vec<Eui64>, Refusal> {
        let (mut total, mut eui64s) = (0, [0; MAX_NEIGHBORS]);
        call!(warpteasel_raw_end_device_children: neighbors &self.columns, place &mut total, room &mut eui64s,)?;
        Ok(eui64s.into_iter().take(total).map(Eui64::from_number).collect())
    }

    /// Whether a device is an end device child that has not sent a keepalive yet.
    pub fn is_unconfirmed_end_device_child(&self, eui64: Eui64) -> Result<bool, Refusal> {
        let mut told = 0;
        call!(warpteasel_raw_is_unconfirmed_end_device_child: neighbors &self.columns, number eui64.number(),
            place &mut told,)?;
        Ok(told == 1)
    }

    /// The first deadline of an end device child, in milliseconds.
    pub fn next_child_timeout(&self) -> Result<Option<u64>, Refusal> {
        let (mut found, mut time) = (0, 0);
        call!(warpteasel_raw_next_child_timeout: neighbors &self.columns, place &mut found, place &mut time,)?;
        Ok((found == 1).then_some(time))
    }
}
