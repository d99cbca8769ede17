//! Nets added and dropped one by one: a plain set of closed relays.

use crate::check::check_start;
use crate::frame::{map_bytes, room_for, served, set, Relay};
use crate::{refuse, Refusal};
use std::collections::BTreeSet;

/// A bench during a run: its size and the numbers of its closed relays.
#[derive(Clone, Debug, PartialEq, Eq)]
pub struct Bench {
    w: usize,
    closed: BTreeSet<usize>,
}

impl Bench {
    /// An open frame, or the refusal with a room of this length for its map.
    pub fn open(size: u16, room: usize) -> Result<Bench, Refusal> {
        let w = served(size)?;
        room_for(map_bytes(w), room)?;
        let closed = BTreeSet::new();
        Ok(Bench { w, closed })
    }

    /// A closed map, or the refusal of one that may not be closed.
    pub fn from_map(size: u16, map: &[u8]) -> Result<Bench, Refusal> {
        let relays = check_start(size, map)?;
        let w = usize::from(size);
        let closed = relays.iter().map(|relay| relay.number(w)).collect();
        Ok(Bench { w, closed })
    }

    /// Closes the lowest free relay of the type and says which.
    pub fn add_net(&mut self, net_type: u16) -> Result<u16, Refusal> {
        if !(1..=6).contains(&net_type) {
            return refuse(18, net_type.into());
        }
        let kind = usize::from(net_type) - 1;
        let lowest = (1..=self.w)
            .map(|position| Relay { kind, position })
            .find(|&relay| self.is_free(relay));
        let Some(relay) = lowest else {
            return refuse(19, net_type.into());
        };
        let number = relay.number(self.w);
        self.closed.insert(number);
        Ok(u16::try_from(number).expect("a frame has 384 relays at most"))
    }

    /// Opens the relay, if it is closed.
    pub fn drop_net(&mut self, relay: u16) -> Result<(), Refusal> {
        if self.closed.remove(&relay.into()) {
            Ok(())
        } else {
            refuse(20, relay.into())
        }
    }

    /// No closed relay is on a terminal of this one. A closed relay is on its
    /// own terminals.
    fn is_free(&self, relay: Relay) -> bool {
        self.closed
            .iter()
            .map(|&k| Relay::from_number(k, self.w))
            .all(|closed| !closed.shares_terminal(relay, self.w))
    }

    pub fn map(&self) -> Vec<u8> {
        let mut map = vec![0; map_bytes(self.w)];
        for &k in &self.closed {
            set(&mut map, k);
        }
        map
    }
}
