//! Random sizes and counts.

use crate::prng::Prng;
use second::frame::{Counts, SIDES};

/// Small, odd and full sizes come up more often than others.
pub fn served_size(rng: &mut Prng) -> u16 {
    match rng.below(8) {
        0 => 1 + rng.upto(3),
        1 => 61 + rng.upto(3),
        _ => 1 + rng.upto(63),
    }
}

pub fn unserved_size(rng: &mut Prng) -> u16 {
    match rng.below(5) {
        0 => 0,
        1 => 65 + rng.upto(1),
        2 => 65535,
        // A size whose low byte alone would be served.
        3 => 256 * (1 + rng.upto(254)) + 1 + rng.upto(63),
        _ => 65 + rng.upto(65535 - 65),
    }
}

/// Sizes 0 to 66, with far ones among them.
pub fn any_size(rng: &mut Prng) -> u16 {
    match rng.below(16) {
        0 => unserved_size(rng),
        _ => rng.upto(66),
    }
}

/// Any kind of counts.
pub fn any_counts(rng: &mut Prng, size: u16) -> Counts {
    match rng.below(6) {
        0 => sparse(rng, size),
        1 | 2 => dense(rng, size),
        3 => uniform(rng, size),
        4 => overfull(rng, size),
        _ => huge(rng, size),
    }
}

/// Counts that no side forbids.
pub fn carried_counts(rng: &mut Prng, size: u16) -> Counts {
    match rng.below(4) {
        0 => sparse(rng, size),
        1 => uniform(rng, size),
        2 => dense(rng, size),
        _ => full(rng, size),
    }
}

/// How many nets of a type the sides still take.
fn space(counts: Counts, kind: usize, size: u16) -> u16 {
    let sums = second::frame::side_sums(counts);
    let fuller = SIDES[kind].map(|side| sums[side]).into_iter().max();
    size - fuller.map_or(0, |sum| sum as u16)
}

/// A few nets that fit.
pub fn sparse(rng: &mut Prng, size: u16) -> Counts {
    let mut counts = [0; 6];
    for _ in 0..rng.below(17) {
        let kind = rng.below(6);
        counts[kind] += space(counts, kind, size).min(1);
    }
    counts
}

/// Each count up to a third of the size, so that every sum fits.
pub fn uniform(rng: &mut Prng, size: u16) -> Counts {
    [(); 6].map(|()| rng.upto(size / 3))
}

/// Pieces of any length until little is free.
pub fn dense(rng: &mut Prng, size: u16) -> Counts {
    let mut counts = [0; 6];
    for _ in 0..6 + rng.below(12) {
        let kind = rng.below(6);
        counts[kind] += rng.upto(space(counts, kind, size));
    }
    counts
}

/// Dense, then filled until no type has a place.
pub fn full(rng: &mut Prng, size: u16) -> Counts {
    let mut counts = dense(rng, size);
    let mut kinds = [0, 1, 2, 3, 4, 5];
    rng.shuffle(&mut kinds);
    for kind in kinds {
        counts[kind] += space(counts, kind, size);
    }
    counts
}

/// A net or two too many, or counts that do not look at the sums.
pub fn overfull(rng: &mut Prng, size: u16) -> Counts {
    if rng.once_in(3) {
        return [(); 6].map(|()| rng.upto(size));
    }
    let mut counts = full(rng, size);
    for _ in 0..1 + rng.below(2) {
        let kind = rng.below(6);
        counts[kind] = counts[kind].saturating_add(1);
    }
    counts
}

/// Counts up to 65535, half of them with a sum that is small in 16 bits.
pub fn huge(rng: &mut Prng, size: u16) -> Counts {
    if rng.once_in(2) {
        return [(); 6].map(|()| match rng.below(4) {
            0 => 65535 - rng.upto(2),
            1 => rng.upto(size),
            _ => rng.upto(65535),
        });
    }
    let mut counts = sparse(rng, size);
    let mut of_one_side = rng.pick(&[[0, 2, 5], [1, 2, 3], [0, 3, 4], [1, 4, 5]]);
    rng.shuffle(&mut of_one_side);
    let [one, other, _] = of_one_side;
    counts[one] = rng.upto(65535);
    counts[other] = 0u16.wrapping_sub(counts[one]).wrapping_add(rng.upto(size));
    counts
}
