//! Sides, types, relays, terminals and maps.

use crate::{refuse, Refusal};

/// The counts of types 1 to 6, type 1 at index 0.
pub type Counts = [u16; 6];

/// The four sides in their order.
pub const SIDE_NAMES: [char; 4] = ['L', 'T', 'R', 'B'];

/// Index of the earlier and the later side of each type.
pub const SIDES: [[usize; 2]; 6] = [[0, 2], [1, 3], [0, 1], [1, 2], [2, 3], [0, 3]];

/// 32 bits, because three counts of 65535 are 196605.
pub fn side_sums(counts: Counts) -> [u32; 4] {
    let [n1, n2, n3, n4, n5, n6] = counts.map(u32::from);
    [n1 + n3 + n6, n2 + n3 + n4, n1 + n4 + n5, n2 + n5 + n6]
}

/// Code 1 for a size that is not served.
pub fn served(size: u16) -> Result<usize, Refusal> {
    if (1..=64).contains(&size) {
        Ok(usize::from(size))
    } else {
        refuse(1, usize::from(size))
    }
}

/// Code 2 for a room that is too short.
pub fn room_for(needed: usize, room: usize) -> Result<(), Refusal> {
    if room < needed {
        return refuse(2, needed);
    }
    Ok(())
}

/// The length of a map.
pub fn map_bytes(w: usize) -> usize {
    (6 * w).div_ceil(8)
}

/// A terminal by its side's index, 0 to 3, and its position, 1 to W.
#[derive(Clone, Copy, Debug, PartialEq, Eq)]
pub struct Terminal {
    pub side: usize,
    pub position: usize,
}

/// A relay by its type's index, 0 to 5, and its position, 1 to W.
#[derive(Clone, Copy, Debug, PartialEq, Eq)]
pub struct Relay {
    pub kind: usize,
    pub position: usize,
}

impl Relay {
    pub fn from_number(k: usize, w: usize) -> Relay {
        Relay {
            kind: k / w,
            position: k % w + 1,
        }
    }

    pub fn number(self, w: usize) -> usize {
        self.kind * w + self.position - 1
    }

    /// The terminal on the earlier side, then the one on the later side.
    pub fn terminals(self, w: usize) -> [Terminal; 2] {
        let [earlier, later] = SIDES[self.kind];
        [
            Terminal {
                side: earlier,
                position: self.position,
            },
            Terminal {
                side: later,
                position: w + 1 - self.position,
            },
        ]
    }

    pub fn shares_terminal(self, other: Relay, w: usize) -> bool {
        let others = other.terminals(w);
        self.terminals(w).iter().any(|t| others.contains(t))
    }
}

/// The relay of this number and its terminals, for any size and any number.
/// Code 20 for a number that no relay has.
pub fn relay_terminals(size: u16, number: u16) -> Result<(Relay, [Terminal; 2]), Refusal> {
    let w = served(size)?;
    let k = usize::from(number);
    if k >= 6 * w {
        return refuse(20, k);
    }
    let relay = Relay::from_number(k, w);
    Ok((relay, relay.terminals(w)))
}

pub fn is_set(map: &[u8], k: usize) -> bool {
    map[k / 8] & (1 << (k % 8)) != 0
}

pub fn set(map: &mut [u8], k: usize) {
    map[k / 8] |= 1 << (k % 8);
}

/// The closed relays by rising number.
pub fn closed_relays(map: &[u8], w: usize) -> Vec<Relay> {
    (0..6 * w)
        .filter(|&k| is_set(map, k))
        .map(|k| Relay::from_number(k, w))
        .collect()
}
