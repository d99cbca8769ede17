//! The bench lister's text.

use crate::frame::{closed_relays, map_bytes, Relay, Terminal, SIDE_NAMES};
use crate::records::{read_job, Job};
use crate::rule::{route, NotRouted};
use crate::Refusal;

/// The whole output for this input.
pub fn listing(input: &[u8]) -> String {
    match closed_by_job(input) {
        Ok((w, closed)) => closed_listing(w, &closed),
        Err(refused) => refused_listing(refused),
    }
}

fn closed_by_job(input: &[u8]) -> Result<(usize, Vec<Relay>), NotRouted> {
    let Job { size, counts } = read_job(input)?;
    let w = usize::from(size);
    let map = route(size, counts, map_bytes(w))?;
    Ok((w, closed_relays(&map, w)))
}

fn closed_listing(w: usize, closed: &[Relay]) -> String {
    let mut text = format!("SIZE {w} NETS {}\n", closed.len());
    for relay in closed {
        let [earlier, later] = relay.terminals(w).map(name);
        text += &format!("{} {earlier} {later}\n", relay.kind + 1);
    }
    text
}

fn refused_listing(refused: NotRouted) -> String {
    let Refusal { code, number } = refused.refusal;
    let [l, t, r, b] = refused.sums;
    match code {
        3 => format!("REFUSED {code} {number} {l} {t} {r} {b}\n"),
        _ => format!("REFUSED {code} {number}\n"),
    }
}

fn name(terminal: Terminal) -> String {
    format!("{}{}", SIDE_NAMES[terminal.side], terminal.position)
}
