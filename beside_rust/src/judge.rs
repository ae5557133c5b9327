//! What of a hub's answer lies outside the comparison because of what the hub holds.
use crate::answer::{Otherwise, Reason};
use crate::block::ClientID;
use crate::sync::{Awareness, AwarenessUpdate, ClientState};
use std::collections::HashMap;

/// Clients that the port's hub holds at most.
const MAX_CLIENTS: usize = 64;

/// What was seen of a call before it was made.
#[derive(Debug, Clone, Default, PartialEq, Eq)]
pub struct Seen {
    /// why the whole answer, and the hub after it, are outside
    pub outside: Option<Reason>,
    /// the own client, where the updated list lacks it
    pub raised: Vec<u64>,
    /// the clients that the changed list lacks
    pub came_back: Vec<u64>,
}

impl Seen {
    /// Why lists lack clients.
    pub fn otherwise(&self) -> Option<Otherwise> {
        match (self.raised.is_empty(), self.came_back.is_empty()) {
            (true, true) => None,
            (false, true) => Some(Otherwise::OwnRaised),
            (true, false) => Some(Otherwise::TextOverNull),
            (false, false) => Some(Otherwise::Both),
        }
    }
}

/// What one entry does that the Rust lists otherwise, or can't count on.
enum Odd {
    ClockEnd,
    OwnRaised,
    TextOverNull,
}

/// The records that a hub holds.
fn held(awareness: &Awareness) -> HashMap<ClientID, ClientState> {
    awareness.iter().collect()
}

/// One entry over the record that is held.
fn of_entry(own: bool, state: &ClientState, clock: u32, null: bool) -> Option<Odd> {
    let live = state.data.is_some();
    let over = clock > state.clock || (clock == state.clock && null && live);
    match (null, live) {
        (true, true) if own && over && clock == u32::MAX => Some(Odd::ClockEnd),
        (true, true) if own && over => Some(Odd::OwnRaised),
        (false, false) if over => Some(Odd::TextOverNull),
        _ => None,
    }
}

/// A presence update that the hub is about to take.
pub fn of_update(awareness: &Awareness, update: &AwarenessUpdate) -> Seen {
    let records = held(awareness);
    let mut seen = Seen::default();
    let mut clients = records.len();
    for (client, entry) in &update.clients {
        match records.get(client) {
            None => clients += 1,
            Some(state) => match of_entry(*client == awareness.client_id(), state, entry.clock, &*entry.json == "null") {
                None => {}
                Some(Odd::ClockEnd) => seen.outside = Some(Reason::ClockEnd),
                Some(Odd::OwnRaised) => seen.raised.push(client.get()),
                Some(Odd::TextOverNull) => seen.came_back.push(client.get()),
            },
        }
    }
    if clients > MAX_CLIENTS {
        seen.outside = Some(Reason::Clients);
    }
    seen
}

/// A record that is about to be raised, or made where there is none.
pub fn of_rise(awareness: &Awareness, client: ClientID) -> Option<Reason> {
    match awareness.meta(client) {
        Some((u32::MAX, _)) => Some(Reason::ClockEnd),
        Some(_) => None,
        None => (awareness.iter().count() >= MAX_CLIENTS).then_some(Reason::Clients),
    }
}
