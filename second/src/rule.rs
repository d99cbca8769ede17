//! The router: six counts to a map, by the choice rule.

use crate::frame::{map_bytes, room_for, served, set, side_sums, Counts, Relay, Terminal};
use crate::Refusal;

/// The load table: 56 rows of six numbers.
pub const LOADS: [u8; 336] = load_table();

/// All vectors with entries 0 to 2 in falling dictionary order are the numbers
/// 728 down to 0, written with six digits in base three.
const fn load_table() -> [u8; 336] {
    let mut table = [0; 336];
    let mut filled = 0;
    let mut number = 729;
    while number > 0 {
        number -= 1;
        let row = digits(number);
        if every_side_at_most_two(row) {
            let mut i = 0;
            while i < 6 {
                table[filled + i] = row[i];
                i += 1;
            }
            filled += 6;
        }
    }
    assert!(filled == 336);
    table
}

const fn digits(number: u16) -> [u8; 6] {
    let mut row = [0; 6];
    let mut rest = number;
    let mut i = 6;
    while i > 0 {
        i -= 1;
        row[i] = (rest % 3) as u8;
        rest /= 3;
    }
    row
}

const fn every_side_at_most_two([n1, n2, n3, n4, n5, n6]: [u8; 6]) -> bool {
    n1 + n3 + n6 <= 2 && n2 + n3 + n4 <= 2 && n1 + n4 + n5 <= 2 && n2 + n5 + n6 <= 2
}

/// Why there is no map. Where sides are overfull, and only there, the sums of
/// all four sides are told too.
#[derive(Clone, Copy, Debug, PartialEq, Eq)]
pub struct NotRouted {
    pub refusal: Refusal,
    pub sums: [u32; 4],
}

impl From<Refusal> for NotRouted {
    fn from(refusal: Refusal) -> NotRouted {
        let sums = [0; 4];
        NotRouted { refusal, sums }
    }
}

/// The map, or the refusal with a room of this length.
pub fn route(size: u16, counts: Counts, room: usize) -> Result<Vec<u8>, NotRouted> {
    let w = served(size)?;
    room_for(map_bytes(w), room)?;
    let sums = side_sums(counts);
    let number = overfull_sides(sums, size);
    if number != 0 {
        let refusal = Refusal { code: 3, number };
        return Err(NotRouted { refusal, sums });
    }
    Ok(chosen_map(w, counts))
}

/// 1, 2, 4 and 8 for L, T, R and B, added up over those above the size.
fn overfull_sides(sums: [u32; 4], size: u16) -> u32 {
    (0..4)
        .filter(|&side| sums[side] > u32::from(size))
        .map(|side| 1 << side)
        .sum()
}

/// The map that the rule chooses for counts that no side forbids.
fn chosen_map(w: usize, counts: Counts) -> Vec<u8> {
    let mut map = vec![0; map_bytes(w)];
    let mut left = counts;
    for low in 1..=w / 2 {
        let unserved = w - 2 * (low - 1);
        let load = first_load(left, unserved);
        for relay in seat(load, low, w) {
            set(&mut map, relay.number(w));
        }
        left = without(left, load).expect("the load is at most what is left");
    }
    for relay in centre(left, w) {
        set(&mut map, relay.number(w));
    }
    map
}

/// The first row that fits what is left and leaves room for the rest.
fn first_load(left: Counts, unserved: usize) -> Counts {
    LOADS
        .chunks_exact(6)
        .map(|row| std::array::from_fn(|i| u16::from(row[i])))
        .find(|&load| leaves_room(left, load, unserved - 2))
        .unwrap_or_else(|| panic!("no load for {left:?} with {unserved} positions"))
}

fn leaves_room(left: Counts, load: Counts, positions: usize) -> bool {
    without(left, load)
        .is_some_and(|rest| side_sums(rest).iter().all(|&sum| sum as usize <= positions))
}

fn without(left: Counts, load: Counts) -> Option<Counts> {
    let mut rest = left;
    for (count, taken) in rest.iter_mut().zip(load) {
        *count = count.checked_sub(taken)?;
    }
    Some(rest)
}

/// The first seating, low before high, that touches no terminal twice.
fn seat(load: Counts, low: usize, w: usize) -> Vec<Relay> {
    let nets = nets_by_type(load);
    (0..1 << nets.len())
        .map(|seating| seated(&nets, seating, low, w))
        .find(|relays| no_terminal_twice(relays, w))
        .unwrap_or_else(|| panic!("no seating for {load:?}"))
}

/// The type's index of each net, by rising type.
fn nets_by_type(load: Counts) -> Vec<usize> {
    (0..6)
        .flat_map(|kind| std::iter::repeat_n(kind, load[kind].into()))
        .collect()
}

/// The first net has the highest bit of the seating's number, so rising numbers
/// are dictionary order; a bit is 0 for low.
fn seated(nets: &[usize], seating: usize, low: usize, w: usize) -> Vec<Relay> {
    let last = nets.len().saturating_sub(1);
    let seat_of = |i: usize| match seating >> (last - i) & 1 {
        0 => low,
        _ => w + 1 - low,
    };
    (0..nets.len())
        .map(|i| Relay {
            kind: nets[i],
            position: seat_of(i),
        })
        .collect()
}

fn no_terminal_twice(relays: &[Relay], w: usize) -> bool {
    let touched: Vec<Terminal> = relays.iter().flat_map(|r| r.terminals(w)).collect();
    (1..touched.len()).all(|i| !touched[..i].contains(&touched[i]))
}

/// What remains goes to the middle position of an odd size.
fn centre(left: Counts, w: usize) -> Vec<Relay> {
    assert!(w % 2 == 1 || left == [0; 6], "an even size leaves nothing");
    assert!(left.iter().all(|&n| n <= 1), "one net of a type at most");
    (0..6)
        .filter(|&kind| left[kind] == 1)
        .map(|kind| Relay {
            kind,
            position: w.div_ceil(2),
        })
        .collect()
}
