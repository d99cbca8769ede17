//! The kinds of random inputs that are compared.

use crate::both::{Both, Compared};
use crate::calls::{self, Call};
use crate::changes::Run;
use crate::jobs;
use crate::maps::{self, Question};
use crate::prng::Prng;
use crate::records;
use second::frame::{map_bytes, Counts};
use second::records::{JOB_BYTES, PATTERN_HEAD};

pub struct Kind {
    pub name: &'static str,
    pub compare: fn(&mut Both) -> Compared,
}

const fn kind(name: &'static str, compare: fn(&mut Both) -> Compared) -> Kind {
    Kind { name, compare }
}

/// A random input is of one of these.
pub const RANDOM: [Kind; 41] = [
    kind("route: sparse jobs", |b| route(b, jobs::sparse)),
    kind("route: uniform jobs", |b| route(b, jobs::uniform)),
    kind("route: dense jobs", |b| route(b, jobs::dense)),
    kind("route: full jobs", |b| route(b, jobs::full)),
    kind("route: overfull jobs", |b| route(b, jobs::overfull)),
    kind("route: huge counts", |b| route(b, jobs::huge)),
    kind("route: sizes that are not served", route_unserved),
    kind("check: maps that the router closes", |b| {
        let size = jobs::served_size(&mut b.rng);
        let question = maps::routed(&mut b.rng, size);
        b.check_map(&question)
    }),
    kind("check: other right maps", |b| {
        let size = jobs::served_size(&mut b.rng);
        let question = maps::scattered(&mut b.rng, size);
        b.check_map(&question)
    }),
    kind("check: bits flipped", |b| check(b, maps::flip_bits)),
    kind("check: spare bits set", |b| check(b, maps::set_spare_bits)),
    kind("check: shared terminals", |b| {
        check(b, maps::share_terminal)
    }),
    kind("check: wrong counts", |b| check(b, maps::change_counts)),
    kind("check: wrong lengths", |b| check(b, maps::change_length)),
    kind("check: random maps", |b| check(b, maps::random_bytes)),
    kind("check: several faults", |b| check(b, maps::several_faults)),
    kind("check: sizes that are not served", |b| {
        check(b, |rng, question| question.size = jobs::unserved_size(rng))
    }),
    kind("terminals: of any relay", |b| terminals(b, jobs::any_size)),
    kind("terminals: sizes that are not served", |b| {
        terminals(b, jobs::unserved_size)
    }),
    kind("read: whole job records", |b| read(b, records::job)),
    kind("read: whole pattern records", |b| read(b, records::pattern)),
    kind("read: job records cut at every place", |b| {
        cut(b, records::job)
    }),
    kind("read: pattern records cut at every place", |b| {
        cut(b, records::pattern)
    }),
    kind("read: any size byte", |b| read(b, records::odd_size)),
    kind("read: a changed byte", |b| read(b, records::changed_byte)),
    kind("read: bytes appended", |b| read(b, records::appended)),
    kind("read: damaged maps", |b| read(b, records::damaged_map)),
    kind("read: random bytes", |b| read(b, records::random)),
    kind("write job: every room round the length", write_job),
    kind("write pattern: every room round the length", write_pattern),
    kind("write pattern: damaged maps", write_damaged),
    kind("open all: every room round the length", open_all),
    kind("changes: of an open frame", changes_of_open),
    kind("changes: of maps that the router closes", |b| {
        changes(b, maps::routed)
    }),
    kind("changes: of other right maps", |b| {
        changes(b, maps::scattered)
    }),
    kind("refused start: spare bits set", |b| {
        refused_start(b, maps::set_spare_bits)
    }),
    kind("refused start: shared terminals", |b| {
        refused_start(b, maps::share_terminal)
    }),
    kind("refused start: wrong lengths", |b| {
        refused_start(b, maps::change_length)
    }),
    kind("refused start: random maps", |b| {
        refused_start(b, maps::random_bytes)
    }),
    kind("refused start: several faults", |b| {
        refused_start(b, maps::several_faults)
    }),
    kind("refused start: sizes that are not served", |b| {
        refused_start(b, |rng, question| question.size = jobs::unserved_size(rng))
    }),
];

/// None, short, just short, exact, long, or so long that eight or sixteen bits
/// of the length alone would be none.
fn room_length(rng: &mut Prng, needed: usize) -> usize {
    match rng.below(256) {
        0 => 65536,
        1..=3 => 256,
        4..=15 => 0,
        16..=31 => rng.below(needed + 1),
        32..=63 => needed.saturating_sub(1),
        64..=127 => needed + rng.below(40),
        _ => needed,
    }
}

fn needed_for_map(size: u16) -> usize {
    map_bytes(usize::from(size.min(66)))
}

fn route(both: &mut Both, counts: fn(&mut Prng, u16) -> Counts) -> Compared {
    let size = jobs::any_size(&mut both.rng);
    let counts = counts(&mut both.rng, size);
    let len = room_length(&mut both.rng, needed_for_map(size));
    both.route(size, counts, len)
}

fn route_unserved(both: &mut Both) -> Compared {
    let size = jobs::unserved_size(&mut both.rng);
    let counts = jobs::any_counts(&mut both.rng, size % 65);
    let len = room_length(&mut both.rng, needed_for_map(size));
    both.route(size, counts, len)
}

fn check(both: &mut Both, damage: fn(&mut Prng, &mut Question)) -> Compared {
    let size = jobs::served_size(&mut both.rng);
    let mut question = maps::right(&mut both.rng, size);
    damage(&mut both.rng, &mut question);
    both.check_map(&question)
}

fn terminals(both: &mut Both, size: fn(&mut Prng) -> u16) -> Compared {
    let size = size(&mut both.rng);
    let relay = calls::any_relay(&mut both.rng, size, &[]);
    both.relay_terminals(size, relay)
}

fn read(both: &mut Both, record: fn(&mut Prng) -> Vec<u8>) -> Compared {
    let record = record(&mut both.rng);
    both.read(&record)
}

fn cut(both: &mut Both, record: fn(&mut Prng) -> Vec<u8>) -> Compared {
    let record = record(&mut both.rng);
    (0..record.len()).try_for_each(|len| both.read(&record[..len]))
}

fn write_job(both: &mut Both) -> Compared {
    let size = jobs::any_size(&mut both.rng);
    let counts = jobs::any_counts(&mut both.rng, size);
    (0..=JOB_BYTES + 4).try_for_each(|len| both.write_job(size, counts, len))
}

fn write_pattern(both: &mut Both) -> Compared {
    let size = jobs::served_size(&mut both.rng);
    let question = maps::right(&mut both.rng, size);
    let needed = PATTERN_HEAD + question.map.len();
    both.write_pattern(&question, 0)?;
    (needed - 4..=needed + 4).try_for_each(|len| both.write_pattern(&question, len))
}

fn write_damaged(both: &mut Both) -> Compared {
    let size = jobs::served_size(&mut both.rng);
    let mut question = maps::right(&mut both.rng, size);
    match both.rng.below(4) {
        0 => question.size = jobs::unserved_size(&mut both.rng),
        1 => maps::change_length(&mut both.rng, &mut question),
        _ => maps::several_faults(&mut both.rng, &mut question),
    }
    let needed = PATTERN_HEAD + question.map.len();
    let len = room_length(&mut both.rng, needed);
    both.write_pattern(&question, len)
}

fn open_all(both: &mut Both) -> Compared {
    let size = jobs::any_size(&mut both.rng);
    let needed = needed_for_map(size);
    let far = room_length(&mut both.rng, needed);
    for len in (needed.saturating_sub(4)..=needed + 4).chain([0, far]) {
        opened(both, size, len)?;
    }
    Ok(())
}

/// All relays opened in a room of random bytes.
fn opened(both: &mut Both, size: u16, len: usize) -> Result<Run, String> {
    let bytes = both.rng.bytes(len);
    let mut run = Run::holding(&mut both.rng, size, &bytes);
    both.change(&mut run, Call::OpenAll)?;
    Ok(run)
}

/// Half of the frames are so small that they fill up within some calls.
fn size_to_fill(rng: &mut Prng) -> u16 {
    if rng.once_in(2) {
        1 + rng.upto(7)
    } else {
        jobs::served_size(rng)
    }
}

fn changes_of_open(both: &mut Both) -> Compared {
    let size = size_to_fill(&mut both.rng);
    let len = room_length(&mut both.rng, needed_for_map(size));
    let mut run = opened(both, size, len)?;
    random_calls(both, &mut run, 60)
}

fn changes(both: &mut Both, start: fn(&mut Prng, u16) -> Question) -> Compared {
    let size = size_to_fill(&mut both.rng);
    let question = start(&mut both.rng, size);
    let mut run = Run::holding(&mut both.rng, size, &question.map);
    random_calls(both, &mut run, 60)
}

/// Each entry once, then some calls more. Where the damage did none, or after
/// an opening, they are calls like others.
fn refused_start(both: &mut Both, damage: fn(&mut Prng, &mut Question)) -> Compared {
    let size = jobs::served_size(&mut both.rng);
    let mut question = maps::right(&mut both.rng, size);
    damage(&mut both.rng, &mut question);
    let Question { size, map, .. } = question;
    let mut run = Run::holding(&mut both.rng, size, &map);
    both.change(&mut run, Call::CheckStart)?;
    let added = Call::Add(calls::any_type(&mut both.rng));
    both.change(&mut run, added)?;
    let dropped = Call::Drop(calls::any_relay(&mut both.rng, size, &run.closed()));
    both.change(&mut run, dropped)?;
    random_calls(both, &mut run, 8)
}

fn random_calls(both: &mut Both, run: &mut Run, most: usize) -> Compared {
    let drops = 1 + both.rng.below(4);
    for _ in 0..1 + both.rng.below(most) {
        let call = calls::any_call(&mut both.rng, run.size(), &run.closed(), drops);
        both.change(run, call)?;
    }
    Ok(())
}
