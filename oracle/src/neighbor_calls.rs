//! The calls on the neighbours.

use crate::answer::Answer;
use crate::call::{Call, Done};
use crate::clock::{NEVER, Scale};
use crate::nwk::commands::{NwkLinkStatus, NwkLinkStatusCommand};
use crate::nwk::neighbors::{ChildDescriptor, TableEntry, peek};
use crate::parse::{Args, Stop};
use crate::room::sum;
use crate::table_lines::{DEVICE_TYPES, neighbor_numbers, relationship};
use crate::types::Eui64;
use crate::world::{ADDRESSES, LARGEST_COST, NEIGHBORS, STATUSES, World};

pub fn call(word: &[u8]) -> Option<Call> {
    Some(match word {
        b"lqi_to_link_cost" => lqi_to_link_cost,
        b"record_lqa" => record_lqa,
        b"link" => link,
        b"neighbour_count" => neighbor_count,
        b"neighbour_at" => neighbor_at,
        b"lqa" => lqa,
        b"incoming_link_cost" => incoming_link_cost,
        b"is_child" => is_child,
        b"has_network_address" => has_network_address,
        b"end_device_child_eui64" => end_device_child_eui64,
        b"sleepy_child_eui64" => sleepy_child_eui64,
        b"sleepy_children" => sleepy_children,
        b"contains" => contains,
        b"device_capability" => device_capability,
        b"end_device_child_count" => end_device_child_count,
        b"refresh_child_timeout" => refresh_child_timeout,
        b"set_child_timeout" => set_child_timeout,
        b"update_network_address" => update_network_address,
        b"take_child" => take_child,
        b"end_device_children" => end_device_children,
        b"is_unconfirmed_end_device_child" => is_unconfirmed_end_device_child,
        b"remove_claimed_children" => remove_claimed_children,
        b"process_parent_annce" => process_parent_annce,
        b"evict_timed_out_children" => evict_timed_out_children,
        b"next_child_timeout" => next_child_timeout,
        b"upsert_child" => upsert_child,
        b"remove" => remove,
        b"any_live_router_link" => any_live_router_link,
        b"expected_broadcast_relayers" => expected_broadcast_relayers,
        b"link_status_entries" => link_status_entries,
        b"record_outbound_activity" => record_outbound_activity,
        b"record_inbound_activity" => record_inbound_activity,
        b"record_transmit_failure" => record_transmit_failure,
        b"reset_transmit_failures" => reset_transmit_failures,
        b"on_link_status" => on_link_status,
        _ => return None,
    })
}

/// The line has ended, and the state that the call is given is well formed.
fn ready(w: &mut World, a: &Args) -> Done {
    a.end()?;
    w.neighbors_formed()
}

/// The call takes no state.
fn lqi_to_link_cost(_: &mut World, a: &mut Args, out: &mut Answer) -> Done {
    let quality = a.u8()?;
    a.end()?;
    out.n(peek::lqi_to_link_cost(quality));
    Ok(())
}

fn record_lqa(w: &mut World, a: &mut Args, _: &mut Answer) -> Done {
    let (nwk, quality) = (a.nwk()?, a.u8()?);
    ready(w, a)?;
    w.neighbors.record_lqa(nwk, quality);
    Ok(())
}

fn link(w: &mut World, a: &mut Args, out: &mut Answer) -> Done {
    let nwk = a.nwk()?;
    ready(w, a)?;
    match w.neighbors.link(nwk) {
        Some(link) => out.n(true).n(link.eui64).n(link.outgoing_cost).n(link.incoming_cost),
        None => out.n(false),
    };
    Ok(())
}

fn neighbor_count(w: &mut World, a: &mut Args, out: &mut Answer) -> Done {
    ready(w, a)?;
    out.n(w.neighbors.entries().count());
    Ok(())
}

fn neighbor_at(w: &mut World, a: &mut Args, out: &mut Answer) -> Done {
    let place = a.u64()?;
    ready(w, a)?;
    let place = usize::try_from(place).unwrap_or(usize::MAX);
    match w.neighbors.entries().nth(place) {
        Some(entry) => neighbor_numbers(w, entry, out.n(true)),
        None => _ = out.n(false),
    }
    Ok(())
}

/// The entry of an extended address, for the queries that the Rust makes on an entry.
fn entry(w: &World, eui: Eui64) -> Option<&TableEntry> {
    w.neighbors.entries().find(|entry| entry.extended_address == eui)
}

fn lqa(w: &mut World, a: &mut Args, out: &mut Answer) -> Done {
    let eui = a.eui()?;
    ready(w, a)?;
    match entry(w, eui) {
        Some(entry) => out.n(true).option(entry.lqa()),
        None => out.n(false),
    };
    Ok(())
}

fn incoming_link_cost(w: &mut World, a: &mut Args, out: &mut Answer) -> Done {
    let eui = a.eui()?;
    ready(w, a)?;
    out.option(entry(w, eui).map(TableEntry::incoming_link_cost));
    Ok(())
}

fn is_child(w: &mut World, a: &mut Args, out: &mut Answer) -> Done {
    let eui = a.eui()?;
    ready(w, a)?;
    out.option(entry(w, eui).map(TableEntry::is_child));
    Ok(())
}

fn has_network_address(w: &mut World, a: &mut Args, out: &mut Answer) -> Done {
    let nwk = a.nwk()?;
    ready(w, a)?;
    out.n(w.neighbors.has_network_address(nwk));
    Ok(())
}

fn end_device_child_eui64(w: &mut World, a: &mut Args, out: &mut Answer) -> Done {
    let nwk = a.nwk()?;
    ready(w, a)?;
    out.option(w.neighbors.end_device_child_eui64(nwk));
    Ok(())
}

fn sleepy_child_eui64(w: &mut World, a: &mut Args, out: &mut Answer) -> Done {
    let nwk = a.nwk()?;
    ready(w, a)?;
    out.option(w.neighbors.sleepy_child_eui64(nwk));
    Ok(())
}

fn sleepy_children(w: &mut World, a: &mut Args, out: &mut Answer) -> Done {
    ready(w, a)?;
    out.pairs(&w.neighbors.sleepy_children());
    Ok(())
}

fn contains(w: &mut World, a: &mut Args, out: &mut Answer) -> Done {
    let eui = a.eui()?;
    ready(w, a)?;
    out.n(w.neighbors.contains(eui));
    Ok(())
}

fn device_capability(w: &mut World, a: &mut Args, out: &mut Answer) -> Done {
    let eui = a.eui()?;
    ready(w, a)?;
    match w.neighbors.device_capability(eui) {
        Some((device_type, rx_on)) => out.n(true).n(device_type as u8).n(rx_on),
        None => out.n(false),
    };
    Ok(())
}

fn end_device_child_count(w: &mut World, a: &mut Args, out: &mut Answer) -> Done {
    ready(w, a)?;
    out.n(w.neighbors.end_device_child_count());
    Ok(())
}

fn refresh_child_timeout(w: &mut World, a: &mut Args, out: &mut Answer) -> Done {
    let (eui, nwk, now) = (a.option(Args::eui)?, a.option(Args::nwk)?, a.u64()?);
    ready(w, a)?;
    // The entry that the Rust will find, for the sum that it will make.
    let by_eui = eui.and_then(|eui| entry(w, eui));
    let found = by_eui.or_else(|| {
        let nwk = nwk?;
        w.neighbors.entries().find(|entry| entry.network_address == nwk)
    });
    let until = match found {
        Some(entry) => sum(now, w.scale.span_ms(entry.device_timeout))?,
        None => now,
    };
    w.reach(until);
    out.n(w.neighbors.refresh_child_timeout(eui, nwk, w.scale.moment(now)));
    Ok(())
}

fn set_child_timeout(w: &mut World, a: &mut Args, out: &mut Answer) -> Done {
    let (nwk, span, configuration, now) = (a.nwk()?, a.u64()?, a.u16()?, a.u64()?);
    ready(w, a)?;
    let until = match w.neighbors.end_device_child_eui64(nwk) {
        Some(_) => sum(now, span)?,
        None => now,
    };
    w.reach(until);
    let (span, now) = (w.scale.span(span), w.scale.moment(now));
    out.n(w.neighbors.set_child_timeout(nwk, span, configuration, now));
    Ok(())
}

fn update_network_address(w: &mut World, a: &mut Args, _: &mut Answer) -> Done {
    let (eui, nwk) = (a.eui()?, a.nwk()?);
    ready(w, a)?;
    w.neighbors.update_network_address(eui, nwk);
    Ok(())
}

fn take_child(w: &mut World, a: &mut Args, out: &mut Answer) -> Done {
    let eui = a.eui()?;
    ready(w, a)?;
    out.option(w.neighbors.take_child(eui));
    Ok(())
}

fn end_device_children(w: &mut World, a: &mut Args, out: &mut Answer) -> Done {
    ready(w, a)?;
    out.list(&w.neighbors.end_device_children());
    Ok(())
}

fn is_unconfirmed_end_device_child(w: &mut World, a: &mut Args, out: &mut Answer) -> Done {
    let eui = a.eui()?;
    ready(w, a)?;
    out.n(w.neighbors.is_unconfirmed_end_device_child(eui));
    Ok(())
}

/// A list of extended addresses of at most 64; a longer one is refusal 8.
fn addresses(w: &mut World, a: &mut Args) -> Result<Vec<Eui64>, Stop> {
    let list = a.list(Args::eui)?;
    ready(w, a)?;
    if list.len() > ADDRESSES {
        return Err(Stop::Refuse(8));
    }
    Ok(list)
}

fn remove_claimed_children(w: &mut World, a: &mut Args, out: &mut Answer) -> Done {
    let claimed = addresses(w, a)?;
    out.pairs(&w.neighbors.remove_claimed_children(&claimed));
    Ok(())
}

fn process_parent_annce(w: &mut World, a: &mut Args, out: &mut Answer) -> Done {
    let announced = addresses(w, a)?;
    let (claimed, removed) = w.neighbors.process_parent_annce(&announced);
    out.list(&claimed).pairs(&removed);
    Ok(())
}

fn evict_timed_out_children(w: &mut World, a: &mut Args, out: &mut Answer) -> Done {
    let now = a.u64()?;
    ready(w, a)?;
    w.reach(now);
    out.pairs(&w.neighbors.evict_timed_out_children(w.scale.moment(now)));
    Ok(())
}

fn next_child_timeout(w: &mut World, a: &mut Args, out: &mut Answer) -> Done {
    ready(w, a)?;
    out.option(w.neighbors.next_child_timeout().map(|moment| w.scale.ms(moment)));
    Ok(())
}

/// Refusal 4, if an entry has to be made and none is free.
fn neighbor_room(w: &World, eui: Eui64) -> Done {
    let table = w.neighbors.peek_table();
    if table.len() >= NEIGHBORS && !table.contains_key(&eui) {
        return w.no_room(4);
    }
    Ok(())
}

fn upsert_child(w: &mut World, a: &mut Args, _: &mut Answer) -> Done {
    let (eui, nwk, device_type, rx_on) = (a.eui()?, a.nwk()?, a.variant(&DEVICE_TYPES)?, a.flag()?);
    let (span, relationship, now) = (a.u64()?, relationship(a)?, a.u64()?);
    ready(w, a)?;
    let until = sum(now, span)?;
    neighbor_room(w, eui)?;
    w.reach(until);
    let child = ChildDescriptor {
        eui64: eui,
        network_address: nwk,
        device_type,
        rx_on_when_idle: rx_on,
        device_timeout: w.scale.span(span),
        relationship,
    };
    w.neighbors.upsert_child(child, w.scale.moment(now));
    Ok(())
}

fn remove(w: &mut World, a: &mut Args, _: &mut Answer) -> Done {
    let eui = a.eui()?;
    ready(w, a)?;
    w.neighbors.remove(eui);
    Ok(())
}

fn any_live_router_link(w: &mut World, a: &mut Args, out: &mut Answer) -> Done {
    ready(w, a)?;
    out.n(w.neighbors.any_live_router_link());
    Ok(())
}

fn expected_broadcast_relayers(w: &mut World, a: &mut Args, out: &mut Answer) -> Done {
    ready(w, a)?;
    out.list(&w.neighbors.expected_broadcast_relayers());
    Ok(())
}

fn link_status_entries(w: &mut World, a: &mut Args, out: &mut Answer) -> Done {
    ready(w, a)?;
    let statuses = w.neighbors.link_status_entries();
    out.n(statuses.len());
    for status in statuses {
        out.n(status.address).n(status.incoming_cost).n(status.outgoing_cost);
    }
    Ok(())
}

fn record_outbound_activity(w: &mut World, a: &mut Args, _: &mut Answer) -> Done {
    let eui = a.eui()?;
    ready(w, a)?;
    w.neighbors.record_outbound_activity(eui);
    Ok(())
}

fn record_inbound_activity(w: &mut World, a: &mut Args, _: &mut Answer) -> Done {
    let nwk = a.nwk()?;
    ready(w, a)?;
    w.neighbors.record_inbound_activity(nwk);
    Ok(())
}

fn record_transmit_failure(w: &mut World, a: &mut Args, _: &mut Answer) -> Done {
    let eui = a.eui()?;
    ready(w, a)?;
    w.neighbors.record_transmit_failure(eui);
    Ok(())
}

fn reset_transmit_failures(w: &mut World, a: &mut Args, _: &mut Answer) -> Done {
    ready(w, a)?;
    w.neighbors.reset_transmit_failures();
    Ok(())
}

fn on_link_status(w: &mut World, a: &mut Args, out: &mut Answer) -> Done {
    let (own, eui, nwk, quality) = (a.nwk()?, a.eui()?, a.nwk()?, a.u8()?);
    let (is_first_frame, is_last_frame, now) = (a.flag()?, a.flag()?, a.u64()?);
    let link_statuses = a.list(link_status)?;
    ready(w, a)?;
    if link_statuses.len() > STATUSES {
        return Err(Stop::Refuse(8));
    }
    let dear = |status: &NwkLinkStatus| status.incoming_cost.max(status.outgoing_cost) > LARGEST_COST;
    if link_statuses.iter().any(dear) {
        return Err(Stop::Refuse(11));
    }
    let new = !w.neighbors.contains(eui);
    let until = if new { sum(now, NEVER)? } else { now };
    neighbor_room(w, eui)?;
    w.reach(until);
    let command = NwkLinkStatusCommand { is_first_frame, is_last_frame, link_statuses };
    let moment = w.scale.moment(now);
    let lost = w.neighbors.on_link_status(own, eui, nwk, quality, &command, moment);
    if new && w.scale == Scale::Millis {
        set_never_right(w, eui, until);
    }
    out.option(lost);
    Ok(())
}

fn link_status(a: &mut Args) -> Result<NwkLinkStatus, Stop> {
    Ok(NwkLinkStatus { address: a.nwk()?, incoming_cost: a.u8()?, outgoing_cost: a.u8()? })
}

/// The one span that the Rust writes itself, in its own seconds, on a clock that counts milliseconds.
fn set_never_right(w: &mut World, eui: Eui64, until: u64) {
    let (moment, span) = (w.scale.moment(until), w.scale.span(NEVER));
    if let Some(entry) = w.neighbors.poke_table().get_mut(&eui) {
        entry.timeout_at = moment;
        entry.device_timeout = span;
    }
}
