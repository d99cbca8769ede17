//! The bench examples, Table I, Table II and demand 3 for the plain program.

use second::changes::Bench;
use second::check::check_map;
use second::frame::{map_bytes, side_sums, Counts, Relay, SIDES};
use second::listing::listing;
use second::records::{read_job, read_pattern, write_job, write_pattern, Job, Pattern};
use second::rule::{route, NotRouted, LOADS};
use second::{swift, Refusal};
use std::collections::BTreeSet;

/// A refusal; the router's with no sums beside it.
fn refused<T, E: From<Refusal>>(code: u32, number: u32) -> Result<T, E> {
    Err(Refusal { code, number }.into())
}

fn overfull(number: u32, sums: [u32; 4]) -> Result<Vec<u8>, NotRouted> {
    let refusal = Refusal { code: 3, number };
    Err(NotRouted { refusal, sums })
}

fn routed(size: u16, counts: Counts) -> Result<Vec<u8>, NotRouted> {
    route(size, counts, 48)
}

/// Every vector with entries 0 to the highest.
fn vectors(highest: u16) -> impl Iterator<Item = Counts> {
    let base = u32::from(highest) + 1;
    (0..base.pow(6)).map(move |v| std::array::from_fn(|i| (v / base.pow(i as u32) % base) as u16))
}

#[test]
fn bench_examples() {
    let far = 65535;
    assert_eq!(routed(1, [1, 1, 0, 0, 0, 0]), Ok(vec![0x03]));
    assert_eq!(routed(1, [1, 0, 1, 0, 0, 0]), overfull(1, [2, 1, 1, 0]));
    assert_eq!(routed(2, [0; 6]), Ok(vec![0x00, 0x00]));
    assert_eq!(routed(2, [1, 0, 1, 1, 0, 0]), Ok(vec![0xA1, 0x00]));
    assert_eq!(routed(2, [1, 1, 1, 0, 1, 0]), Ok(vec![0x29, 0x01]));
    assert_eq!(routed(2, [0, 0, 1, 1, 1, 1]), Ok(vec![0x50, 0x09]));
    assert_eq!(routed(2, [0, 2, 0, 1, 0, 0]), overfull(2, [0, 3, 1, 2]));
    assert_eq!(routed(3, [2, 1, 1, 1, 0, 0]), Ok(vec![0x13, 0x09, 0x00]));
    let full = [vec![0xFF; 16], vec![0x00; 32]].concat();
    assert_eq!(routed(64, [64, 64, 0, 0, 0, 0]), Ok(full));
    let far_sums = [196605, 65535, 65535, 65535];
    assert_eq!(routed(64, [far, 0, far, 0, 0, far]), overfull(15, far_sums));
    assert_eq!(routed(0, [0; 6]), refused(1, 0));
    assert_eq!(routed(65, [0; 6]), refused(1, 65));
    assert_eq!(route(2, [9; 6], 1), refused(2, 2));
}

#[test]
fn bench_map_checks() {
    let check = |counts, map: [u8; 2]| check_map(2, counts, &map);
    assert_eq!(check([1, 0, 1, 0, 0, 0], [0x11, 0x00]), refused(12, 4));
    assert_eq!(check([0, 1, 0, 0, 0, 0], [0x01, 0x00]), refused(13, 1));
    assert_eq!(check([0; 6], [0x00, 0x10]), refused(11, 0));
    assert_eq!(check_map(2, [0; 6], &[0]), refused(2, 2));
}

/// Relays 0 and 2 are L1 R2 and T1 B2; type 3 has relays 4, L1 T2, and 5, L2 T1.
#[test]
fn bench_changes() {
    let mut bench = Bench::from_map(2, &[0x05, 0x00]).expect("no terminal is touched twice");
    assert_eq!(bench.add_net(3), refused(19, 3));
    assert!(routed(2, [1, 1, 1, 0, 0, 0]).is_ok());
    assert_eq!(bench.drop_net(0), Ok(()));
    assert_eq!(bench.add_net(3), Ok(4));
    assert_eq!(bench.map(), [0x14, 0x00]);
    assert_eq!(bench.drop_net(0), refused(20, 0));
    assert_eq!(bench.drop_net(12), refused(20, 12));
    assert_eq!(bench.add_net(7), refused(18, 7));
    assert_eq!(bench.map(), [0x14, 0x00]);
}

#[test]
fn bench_listing() {
    let record = [1, 0, 1, 2, 2, 0, 12, 0, 1, 0, 0, 0, 1, 0, 1, 0, 0, 0, 0];
    let text = "SIZE 2 NETS 3\n1 L1 R2\n3 L2 T1\n4 T2 R1\n";
    assert_eq!(listing(&record), text);
    assert_eq!(listing(&[]), "REFUSED 7 0\n");
    let longer = [&record[..], &[0]].concat();
    assert_eq!(listing(&longer), "REFUSED 10 19\n");
    let top_overfull = [1, 0, 1, 2, 2, 0, 12, 0, 0, 0, 2, 0, 0, 0, 1, 0, 0, 0, 0];
    assert_eq!(listing(&top_overfull), "REFUSED 3 2 0 3 1 2\n");
}

#[test]
fn load_table() {
    let rows: Vec<&[u8]> = LOADS.chunks_exact(6).collect();
    assert_eq!(rows.len(), 56);
    assert_eq!(rows[0], [2, 2, 0, 0, 0, 0]);
    assert_eq!(rows[55], [0; 6]);
    assert!(rows.windows(2).all(|pair| pair[0] > pair[1]));
    let fitting = vectors(2).filter(|&v| side_sums(v).iter().all(|&s| s <= 2));
    assert_eq!(fitting.count(), 56);
}

#[test]
fn side_sums_follow_the_types() {
    for kind in 0..6 {
        let mut one = [0; 6];
        one[kind] = 1;
        let on_side = |side| u32::from(SIDES[kind].contains(&side));
        assert_eq!(side_sums(one), std::array::from_fn(on_side));
    }
}

#[test]
fn table_one() {
    let carried = [
        [1, 1, 1, 0, 1, 0],
        [1, 1, 0, 1, 0, 1],
        [1, 0, 1, 1, 0, 0],
        [1, 0, 0, 0, 1, 1],
        [0, 1, 1, 0, 0, 1],
        [0, 1, 0, 1, 1, 0],
        [0, 0, 1, 1, 1, 1],
    ];
    for counts in carried {
        let map = routed(2, counts).expect("Table I calls it routable");
        assert_eq!(check_map(2, counts, &map), Ok(()));
    }
}

#[test]
fn table_two() {
    let capacities = [(1, 10), (2, 56), (3, 214), (4, 641), (5, 1620)];
    for (size, capacity) in capacities {
        let carries =
            |&n: &Counts| routed(size, n).is_ok_and(|map| check_map(size, n, &map).is_ok());
        assert_eq!(vectors(size).filter(carries).count(), capacity);
    }
}

/// The counts of a set of relays, if no two of them share a terminal.
fn carried_by(set: u32, w: usize) -> Option<Counts> {
    let bits = (0..6 * w).filter(|k| set >> k & 1 == 1);
    let relays: Vec<Relay> = bits.map(|k| Relay::from_number(k, w)).collect();
    let mut counts = [0; 6];
    for (i, relay) in relays.iter().enumerate() {
        if relays[..i].iter().any(|r| r.shares_terminal(*relay, w)) {
            return None;
        }
        counts[relay.kind] += 1;
    }
    Some(counts)
}

/// Demand 3: a job is routed exactly if some map carries it.
#[test]
fn routed_if_some_map_carries() {
    for size in [1, 2, 3] {
        let w = usize::from(size);
        let sets = 0..1 << (6 * w);
        let carried: BTreeSet<Counts> = sets.filter_map(|set| carried_by(set, w)).collect();
        let done = |&n: &Counts| routed(size, n).is_ok();
        let routed: BTreeSet<Counts> = vectors(size + 1).filter(done).collect();
        assert_eq!(routed, carried);
    }
}

/// Why the map check tests no side sums: a set that touches no terminal twice
/// has none above the size.
#[test]
fn no_side_sum_above_the_size() {
    for w in [1, 2, 3] {
        for counts in (0..1 << (6 * w)).filter_map(|set| carried_by(set, w)) {
            let within = side_sums(counts).iter().all(|&sum| sum as usize <= w);
            assert!(within, "size {w}: {counts:?}");
        }
    }
}

/// The number beside code 3 has the bits of the overfull sides and no other;
/// each size has a job for each set of sides.
#[test]
fn every_overfull_side_is_told() {
    for size in [1, 2, 3] {
        let mut sets = BTreeSet::new();
        for counts in vectors(size + 1) {
            let sums = side_sums(counts);
            let over = sums.map(|sum| sum > size.into());
            match routed(size, counts) {
                Ok(_) => assert_eq!(over, [false; 4]),
                Err(given) => {
                    let Refusal { code, number } = given.refusal;
                    let named = std::array::from_fn(|side| number >> side & 1 == 1);
                    assert_eq!((code, named, given.sums), (3, over, sums));
                    sets.insert(number);
                }
            }
        }
        assert!(sets.into_iter().eq(1..=15));
    }
}

#[test]
fn two_routers_agree() {
    for size in 0..=3 {
        for counts in vectors(size + 1) {
            let mut room = [0xA5; 5];
            let (code, number, sums) = swift::route(size, counts, &mut room);
            let refusal = Refusal { code, number };
            match route(size, counts, room.len()) {
                Ok(map) => assert_eq!(
                    (code, number, sums, &room[..map.len()]),
                    (0, 0, [0; 4], &map[..])
                ),
                Err(plain) => assert_eq!(NotRouted { refusal, sums }, plain),
            }
        }
    }
}

#[test]
fn job_records() {
    let counts = [1, 65535, 0, 258, 3, 4];
    let record = write_job(64, counts, 19).expect("size and room are right");
    assert_eq!(record.len(), 19);
    assert_eq!(read_job(&record), Ok(Job { size: 64, counts }));
    assert_eq!(write_job(65, counts, 0), refused(1, 65));
    assert_eq!(write_job(64, counts, 18), refused(2, 19));
    for cut in 0..19 {
        let field = if cut < 4 { 0 } else { 4 };
        assert_eq!(read_job(&record[..cut]), refused(7, field));
    }
}

#[test]
fn pattern_records() {
    let counts = [2, 1, 1, 1, 0, 0];
    let map = routed(3, counts).expect("no side sum is above 3");
    let record = write_pattern(3, counts, &map, 25).expect("map and room are right");
    assert_eq!(record.len(), 22 + map_bytes(3));
    assert_eq!(write_pattern(3, counts, &map, 24), refused(2, 25));
    assert_eq!(write_pattern(3, counts, &map[1..], 0), refused(2, 3));
    let size = 3;
    assert_eq!(read_pattern(&record), Ok(Pattern { size, counts, map }));
    assert_eq!(read_pattern(&record[..21]), refused(7, 19));
    assert_eq!(read_job(&record), refused(10, 19));
}

#[test]
fn fields_are_read_from_the_left() {
    assert_eq!(read_job(&[1, 5]), refused(7, 0));
    assert_eq!(read_job(&[1, 5, 0]), refused(9, 0));
    assert_eq!(read_job(&[2]), refused(8, 0));
    assert_eq!(read_job(&[1, 0, 1, 0]), refused(1, 0));
    assert_eq!(read_job(&[1, 0, 1, 200, 9]), refused(1, 200));
    assert_eq!(read_job(&[1, 0, 1, 64, 9]), refused(8, 4));
}
