//! What the plain program tells of a relay: examples by hand, and the relays of
//! sizes 1 to 8 beside all pairs of terminals.

use second::frame::{relay_terminals, Relay, Terminal};
use second::Refusal;

const SIDES: [char; 4] = ['L', 'T', 'R', 'B'];

fn refused<T>(code: u32, number: u32) -> Result<T, Refusal> {
    Err(Refusal { code, number })
}

fn name(terminal: Terminal) -> String {
    format!("{}{}", SIDES[terminal.side], terminal.position)
}

/// The type and the terminals on its earlier and its later side, in words.
fn told(size: u16, relay: u16) -> Result<String, Refusal> {
    let (Relay { kind, .. }, ends) = relay_terminals(size, relay)?;
    Ok(format!("{} {}", kind + 1, ends.map(name).join("-")))
}

#[test]
fn every_relay_of_size_two() {
    let by_hand = [
        "1 L1-R2", "1 L2-R1", "2 T1-B2", "2 T2-B1", "3 L1-T2", "3 L2-T1", "4 T1-R2", "4 T2-R1",
        "5 R1-B2", "5 R2-B1", "6 L1-B2", "6 L2-B1",
    ];
    for (relay, line) in (0..).zip(by_hand) {
        assert_eq!(told(2, relay), Ok(line.to_string()));
    }
    assert_eq!(told(2, 12), refused(20, 12));
}

#[test]
fn relays_of_other_sizes() {
    let tells = |size, relay, line: &str| assert_eq!(told(size, relay), Ok(line.to_string()));
    tells(1, 0, "1 L1-R1");
    tells(1, 5, "6 L1-B1");
    tells(3, 0, "1 L1-R3");
    tells(3, 7, "3 L2-T2");
    tells(3, 17, "6 L3-B1");
    tells(64, 0, "1 L1-R64");
    tells(64, 64, "2 T1-B64");
    tells(64, 383, "6 L64-B1");
}

#[test]
fn refusals() {
    assert_eq!(told(1, 6), refused(20, 6));
    assert_eq!(told(3, 18), refused(20, 18));
    assert_eq!(told(64, 384), refused(20, 384));
    assert_eq!(told(64, 65535), refused(20, 65535));
    assert_eq!(told(0, 0), refused(1, 0));
    assert_eq!(told(65, 0), refused(1, 65));
    assert_eq!(told(65, 65535), refused(1, 65));
    assert_eq!(told(65535, 0), refused(1, 65535));
}

type Pair = [(usize, usize); 2];

/// All pairs of terminals of two sides, the earlier side first, whose positions
/// add up to one more than the size.
fn pairs(w: usize) -> Vec<Pair> {
    let terminals = || (0..4).flat_map(|side| (1..=w).map(move |position| (side, position)));
    terminals()
        .flat_map(|one| terminals().map(move |other| [one, other]))
        .filter(|[(s, _), (t, _)]| s < t)
        .filter(|[(_, p), (_, q)]| p + q == w + 1)
        .collect()
}

fn joined(size: u16, relay: u16) -> Pair {
    let (_, ends) = relay_terminals(size, relay).expect("the relay is there");
    ends.map(|end| (end.side, end.position))
}

/// The relays join exactly these pairs, each once.
#[test]
fn relays_of_small_frames() {
    for size in 1..=8 {
        let mut joined: Vec<Pair> = (0..6 * size).map(|relay| joined(size, relay)).collect();
        joined.sort_unstable();
        assert_eq!(joined, pairs(size.into()), "size {size}");
        assert_eq!(told(size, 6 * size), refused(20, 6 * u32::from(size)));
    }
}
