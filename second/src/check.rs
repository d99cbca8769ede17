//! The map check, and the part of it that every start must pass.

use crate::frame::{closed_relays, is_set, map_bytes, served, Counts, Relay};
use crate::{refuse, Refusal};

pub fn check_map(size: u16, counts: Counts, map: &[u8]) -> Result<(), Refusal> {
    let closed = check_start(size, map)?;
    types(&closed, counts)
}

/// The closed relays by rising number, if the map may be closed whatever its
/// job.
pub fn check_start(size: u16, map: &[u8]) -> Result<Vec<Relay>, Refusal> {
    let w = served(size)?;
    form(map, w)?;
    let closed = closed_relays(map, w);
    terminals(&closed, w)?;
    Ok(closed)
}

fn form(map: &[u8], w: usize) -> Result<(), Refusal> {
    let needed = map_bytes(w);
    if map.len() != needed {
        return refuse(2, needed);
    }
    if (6 * w..8 * needed).any(|k| is_set(map, k)) {
        return refuse(11, 0);
    }
    Ok(())
}

/// The closed relays stand by rising number, so the first that shares a
/// terminal with one before it is the lowest such relay.
fn terminals(closed: &[Relay], w: usize) -> Result<(), Refusal> {
    for (i, relay) in closed.iter().enumerate() {
        if closed[..i].iter().any(|r| r.shares_terminal(*relay, w)) {
            return refuse(12, relay.number(w));
        }
    }
    Ok(())
}

fn types(closed: &[Relay], counts: Counts) -> Result<(), Refusal> {
    for (kind, count) in counts.into_iter().enumerate() {
        if closed.iter().filter(|r| r.kind == kind).count() != usize::from(count) {
            return refuse(13, kind + 1);
        }
    }
    Ok(())
}
