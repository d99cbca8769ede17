//! Right and damaged maps.

use crate::jobs;
use crate::prng::Prng;
use second::frame::{closed_relays, is_set, map_bytes, set, Counts, Relay};
use second::rule;

/// What a map check is asked.
#[derive(Clone, Debug)]
pub struct Question {
    pub size: u16,
    pub counts: Counts,
    pub map: Vec<u8>,
}

impl Question {
    fn w(&self) -> usize {
        self.size.into()
    }
}

/// The map that the router closes.
pub fn routed(rng: &mut Prng, size: u16) -> Question {
    let counts = jobs::carried_counts(rng, size);
    let map = rule::route(size, counts, 48).expect("the counts fit");
    Question { size, counts, map }
}

/// Relays closed in random order wherever both terminals are free; the rule
/// would mostly choose another map.
pub fn scattered(rng: &mut Prng, size: u16) -> Question {
    let w = usize::from(size);
    let mut relays: Vec<usize> = (0..6 * w).collect();
    rng.shuffle(&mut relays);
    relays.truncate(1 + rng.below(6 * w));
    let mut question = Question {
        size,
        counts: [0; 6],
        map: vec![0; map_bytes(w)],
    };
    let mut touched = vec![];
    for relay in relays.into_iter().map(|k| Relay::from_number(k, w)) {
        let terminals = relay.terminals(w);
        if terminals.iter().all(|t| !touched.contains(t)) {
            touched.extend(terminals);
            set(&mut question.map, relay.number(w));
            question.counts[relay.kind] += 1;
        }
    }
    question
}

pub fn right(rng: &mut Prng, size: u16) -> Question {
    if rng.once_in(2) {
        routed(rng, size)
    } else {
        scattered(rng, size)
    }
}

pub fn flip_bits(rng: &mut Prng, question: &mut Question) {
    for _ in 0..1 + rng.below(3) {
        let k = rng.below(6 * question.w());
        question.map[k / 8] ^= 1 << (k % 8);
    }
}

/// Every fourth size has no spare bit and stays as it is.
pub fn set_spare_bits(rng: &mut Prng, question: &mut Question) {
    let spare = 6 * question.w()..8 * question.map.len();
    if !spare.is_empty() {
        for _ in 0..1 + rng.below(2) {
            set(&mut question.map, spare.start + rng.below(spare.len()));
        }
    }
}

/// Closes a relay beside a closed one, and half the time counts it too.
pub fn share_terminal(rng: &mut Prng, question: &mut Question) {
    let w = question.w();
    let closed = closed_relays(&question.map, w);
    if closed.is_empty() {
        return;
    }
    let beside = rng.pick(&closed);
    let sharing: Vec<Relay> = (0..6 * w)
        .filter(|&k| !is_set(&question.map, k))
        .map(|k| Relay::from_number(k, w))
        .filter(|relay| relay.shares_terminal(beside, w))
        .collect();
    if sharing.is_empty() {
        return;
    }
    let relay = rng.pick(&sharing);
    set(&mut question.map, relay.number(w));
    let count = &mut question.counts[relay.kind];
    *count = count.wrapping_add(rng.upto(1));
}

pub fn change_counts(rng: &mut Prng, question: &mut Question) {
    let kind = rng.below(6);
    let count = &mut question.counts[kind];
    match rng.below(6) {
        0 | 1 => *count = count.wrapping_add(1),
        2 | 3 => *count = count.wrapping_sub(1),
        4 => *count = count.wrapping_add(256),
        _ => question.counts.swap(kind, rng.below(6)),
    }
}

pub fn change_length(rng: &mut Prng, question: &mut Question) {
    let m = question.map.len();
    let len = match rng.below(64) {
        0 => m + 65536,
        1..=4 => m + 256,
        5..=15 => 0,
        16..=31 => m - 1,
        32..=47 => m + 1,
        _ => rng.below(64),
    };
    question.map.resize(len, 0);
}

pub fn random_bytes(rng: &mut Prng, question: &mut Question) {
    question.map = rng.bytes(question.map.len());
}

type Damage = fn(&mut Prng, &mut Question);

/// Two or three faults in one question, so that the order of the tests shows.
pub fn several_faults(rng: &mut Prng, question: &mut Question) {
    let damages: [Damage; 4] = [flip_bits, set_spare_bits, share_terminal, change_counts];
    for _ in 0..2 + rng.below(2) {
        rng.pick(&damages)(rng, question);
    }
    if rng.once_in(8) {
        change_length(rng, question);
    }
}
