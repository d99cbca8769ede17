//! The router once more, for the measurement: the same rule, written for speed
//! and without allocation. Each block scans the table from its first row; no
//! knowledge about the rows shortens the scan.

use crate::rule::LOADS;

/// The terminals of a block that each type touches when seated low and high:
/// bits 0 to 3 are the low terminals of L, T, R, B, bits 4 to 7 the high ones.
const TOUCHED: [[u8; 2]; 6] = [
    [0x41, 0x14],
    [0x82, 0x28],
    [0x21, 0x12],
    [0x42, 0x24],
    [0x84, 0x48],
    [0x81, 0x18],
];

/// Code, number and the four side sums, which are 0 but with code 3; with code
/// 0 the first m bytes of the room are the map, whatever the room held before.
pub fn route(size: u16, counts: [u16; 6], room: &mut [u8]) -> (u32, u32, [u32; 4]) {
    if !(1..=64).contains(&size) {
        return (1, size.into(), [0; 4]);
    }
    let w = usize::from(size);
    let m = (6 * w).div_ceil(8);
    if room.len() < m {
        return (2, m as u32, [0; 4]);
    }
    let sums = side_sums(counts.map(u32::from));
    let [l, t, r, b] = sums.map(|sum| u32::from(sum > u32::from(size)));
    let overfull = l | t << 1 | r << 2 | b << 3;
    if overfull != 0 {
        return (3, overfull, sums);
    }
    close(w, counts.map(|n| n as u8), &mut room[..m]);
    (0, 0, [0; 4])
}

fn side_sums([n1, n2, n3, n4, n5, n6]: [u32; 6]) -> [u32; 4] {
    [n1 + n3 + n6, n2 + n3 + n4, n1 + n4 + n5, n2 + n5 + n6]
}

fn close(w: usize, counts: [u8; 6], map: &mut [u8]) {
    map.fill(0);
    let mut left = counts;
    for low in 0..w / 2 {
        let load = first_load(&left, (w - 2 * low - 2) as u8);
        seat(load, low, w, map);
        for (count, taken) in left.iter_mut().zip(load) {
            *count -= taken;
        }
    }
    if w % 2 == 1 {
        for (kind, closed) in left.into_iter().enumerate() {
            let k = kind * w + w / 2;
            map[k / 8] |= closed << (k % 8);
        }
    }
}

static TABLE: [u8; 336] = LOADS;

fn first_load(left: &[u8; 6], positions: u8) -> &'static [u8; 6] {
    let [n1, n2, n3, n4, n5, n6] = *left;
    // What the row must take at least from each side.
    let l = (n1 + n3 + n6).saturating_sub(positions);
    let t = (n2 + n3 + n4).saturating_sub(positions);
    let r = (n1 + n4 + n5).saturating_sub(positions);
    let b = (n2 + n5 + n6).saturating_sub(positions);
    let fits = |a: &[u8; 6]| {
        a[0] <= n1
            && a[1] <= n2
            && a[2] <= n3
            && a[3] <= n4
            && a[4] <= n5
            && a[5] <= n6
            && a[0] + a[2] + a[5] >= l
            && a[1] + a[2] + a[3] >= t
            && a[0] + a[3] + a[4] >= r
            && a[1] + a[4] + a[5] >= b
    };
    let (rows, _) = TABLE.as_chunks::<6>();
    rows.iter().find(|row| fits(row)).expect("a row fits")
}

/// At most four nets: each touches two of the block's eight terminals.
fn seat(load: &[u8; 6], low: usize, w: usize, map: &mut [u8]) {
    let mut nets = [0; 4];
    let mut n = 0;
    for (kind, &count) in load.iter().enumerate() {
        for _ in 0..count {
            nets[n] = kind;
            n += 1;
        }
    }
    let nets = &nets[..n];
    let seating = first_seating(nets);
    for (i, kind) in nets.iter().enumerate() {
        let k = kind * w + [low, w - 1 - low][seating >> (n - 1 - i) & 1];
        map[k / 8] |= 1 << (k % 8);
    }
}

fn first_seating(nets: &[usize]) -> usize {
    'seatings: for seating in 0..1 << nets.len() {
        let mut touched = 0;
        for (i, &kind) in nets.iter().enumerate() {
            let net = TOUCHED[kind][seating >> (nets.len() - 1 - i) & 1];
            if touched & net != 0 {
                continue 'seatings;
            }
            touched |= net;
        }
        return seating;
    }
    unreachable!("every load has a seating")
}
