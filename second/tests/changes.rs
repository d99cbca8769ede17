//! Nets added and dropped in the plain program: every start of sizes 1 to 3,
//! beside a definition over sets of terminals.

use second::changes::Bench;
use second::frame::map_bytes;
use second::Refusal;
use std::collections::BTreeSet;

fn refused<T>(code: u32, number: u32) -> Result<T, Refusal> {
    Err(Refusal { code, number })
}

#[test]
fn starts() {
    let start = |size, map: &[u8]| Bench::from_map(size, map).map(|bench| bench.map());
    assert_eq!(start(2, &[0xA1, 0x00]), Ok(vec![0xA1, 0x00]));
    assert_eq!(start(65, &[0xFF]), refused(1, 65));
    assert_eq!(start(2, &[0xFF; 3]), refused(2, 2));
    assert_eq!(start(2, &[0x11, 0x10]), refused(11, 0));
    assert_eq!(start(2, &[0x11, 0x00]), refused(12, 4));
    let open = |size, room| Bench::open(size, room).map(|bench| bench.map());
    assert_eq!(open(64, 48), Ok(vec![0; 48]));
    assert_eq!(open(3, 9), Ok(vec![0; 3]));
    assert_eq!(open(3, 2), refused(2, 3));
    assert_eq!(open(65, 0), refused(1, 65));
}

/// The terminals of relay k, from the description of the types once more.
fn ends(k: usize, w: usize) -> [(char, usize); 2] {
    let types = [
        ('L', 'R'),
        ('T', 'B'),
        ('L', 'T'),
        ('T', 'R'),
        ('R', 'B'),
        ('L', 'B'),
    ];
    let (earlier, later) = types[k / w];
    let p = k % w + 1;
    [(earlier, p), (later, w + 1 - p)]
}

/// The terminals that a set of relays touches; none if one is touched twice.
fn touched(set: u32, w: usize) -> Option<BTreeSet<(char, usize)>> {
    let mut all = (0..6 * w)
        .filter(|k| set >> k & 1 == 1)
        .flat_map(|k| ends(k, w));
    let mut touched = BTreeSet::new();
    all.all(|end| touched.insert(end)).then_some(touched)
}

/// The relay that an add must close, said with sets of terminals.
fn to_close(set: u32, w: usize, net_type: u16) -> Result<u16, Refusal> {
    if net_type == 0 || net_type > 6 {
        return refused(18, net_type.into());
    }
    let taken = touched(set, w).expect("the set is a start");
    let of_type = (0..6 * w).filter(|k| k / w + 1 == usize::from(net_type));
    let free = of_type.filter(|&k| ends(k, w).iter().all(|end| !taken.contains(end)));
    match free.min() {
        Some(k) => Ok(k as u16),
        None => refused(19, net_type.into()),
    }
}

fn map_of(set: u32, w: usize) -> Vec<u8> {
    set.to_le_bytes()[..map_bytes(w)].to_vec()
}

fn adds_right(size: u16, set: u32, net_type: u16) {
    let w = usize::from(size);
    let mut bench = Bench::from_map(size, &map_of(set, w)).expect("the set is a start");
    let expected = to_close(set, w, net_type);
    let after = expected.map_or(set, |k| set | 1 << k);
    let input = format!("size {size}, relays {set:b}, type {net_type}");
    assert_eq!(bench.add_net(net_type), expected, "{input}");
    assert_eq!(bench.map(), map_of(after, w), "{input}");
    assert!(touched(after, w).is_some(), "{input}");
}

fn drops_right(size: u16, set: u32, relay: u16) {
    let w = usize::from(size);
    let mut bench = Bench::from_map(size, &map_of(set, w)).expect("the set is a start");
    let expected = match set >> relay & 1 {
        1 => Ok(()),
        _ => refused(20, relay.into()),
    };
    let input = format!("size {size}, relays {set:b}, relay {relay}");
    assert_eq!(bench.drop_net(relay), expected, "{input}");
    assert_eq!(bench.map(), map_of(set & !(1 << relay), w), "{input}");
}

/// Every set of relays is a start or refused for the terminal it shares, and
/// every change of a start is right. It leaves a start again, so every sequence
/// of calls is right too.
#[test]
fn every_change_of_small_frames() {
    for size in [1, 2, 3] {
        let w = usize::from(size);
        for set in 0..1 << (6 * w) {
            if touched(set, w).is_some() {
                (0..=7).for_each(|net_type| adds_right(size, set, net_type));
                (0..=6 * size).for_each(|relay| drops_right(size, set, relay));
            } else {
                let start = Bench::from_map(size, &map_of(set, w));
                assert_eq!(start.map_err(|refusal| refusal.code), Err(12));
            }
        }
    }
}
