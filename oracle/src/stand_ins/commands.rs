//! The commands that the tables are told of.

use super::types::Nwk;

#[derive(Debug, Clone, Copy, PartialEq, Eq)]
pub enum NwkRouteRequestManyToOne {
    NotManyToOne = 0,
    ManyToOneSenderSupportsRouteRecordTable = 1,
    ManyToOneSenderDoesntSupportRouteRecordTable = 2,
    Reserved = 3,
}

/// One line of a link status. The costs are three bits over the air; a byte holds them here, and the harness lets none
/// above 7 through.
#[derive(Debug, Clone, PartialEq, Eq)]
pub struct NwkLinkStatus {
    pub address: Nwk,
    pub incoming_cost: u8,
    pub outgoing_cost: u8,
}

#[derive(Debug, Clone, PartialEq, Eq)]
pub struct NwkLinkStatusCommand {
    pub is_first_frame: bool,
    pub is_last_frame: bool,
    pub link_statuses: Vec<NwkLinkStatus>,
}
