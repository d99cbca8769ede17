//! Random calls on a lent map.

use crate::prng::Prng;

#[derive(Clone, Copy, Debug)]
pub enum Call {
    OpenAll,
    CheckStart,
    Add(u16),
    Drop(u16),
}

impl Call {
    pub fn entry(self) -> &'static str {
        match self {
            Call::OpenAll => "frame_open_all",
            Call::CheckStart => "frame_check_start",
            Call::Add(_) => "frame_add_net",
            Call::Drop(_) => "frame_drop_net",
        }
    }
}

/// A call on a map with these closed relays; one to four calls in eight are
/// drops. All relays are opened now and then only, or the frame would not fill.
pub fn any_call(rng: &mut Prng, size: u16, closed: &[u16], drops: usize) -> Call {
    match rng.below(64) {
        0 => Call::OpenAll,
        1..=3 => Call::CheckStart,
        n if n < 4 + 8 * drops => Call::Drop(any_relay(rng, size, closed)),
        _ => Call::Add(any_type(rng)),
    }
}

/// Mostly a type that there is.
pub fn any_type(rng: &mut Prng) -> u16 {
    match rng.below(16) {
        0 => rng.pick(&[0, 7, 8, 255, 65535]),
        // A type whose low byte alone would be one.
        1 => 256 * (1 + rng.upto(254)) + 1 + rng.upto(5),
        _ => 1 + rng.upto(5),
    }
}

/// Mostly a closed relay, if there are any; else any, open or closed, the number
/// of a spare bit or of one past the map, or one that is closed if only some of
/// its bits count.
pub fn any_relay(rng: &mut Prng, size: u16, closed: &[u16]) -> u16 {
    let relays = 6 * size.min(66);
    let bits = relays.next_multiple_of(8);
    let one_closed = match closed {
        [] => rng.upto(relays),
        _ => rng.pick(closed),
    };
    match rng.below(32) {
        0..=3 => rng.upto(relays),
        4 | 5 => relays + rng.upto(bits - relays),
        6 => bits + rng.upto(16),
        7 => 65535 - rng.upto(1),
        8 => rng.upto(65535),
        // The low byte, or the low byte of the place in the map.
        9 => one_closed.wrapping_add(rng.pick(&[256, 512, 2048, 4096])),
        _ => one_closed,
    }
}
