//! Right and damaged records.

use crate::jobs;
use crate::maps::{self, Question};
use crate::prng::Prng;
use second::frame::Counts;

/// Bytes in a record's form, whatever the values are.
fn fields(size: u8, counts: Counts, map: Option<&[u8]>) -> Vec<u8> {
    let mut record = vec![1, 0, 1, size, 2, 0, 12];
    record.extend(counts.map(u16::to_be_bytes).concat());
    if let Some(map) = map {
        record.push(3);
        record.extend((map.len() as u16).to_be_bytes());
        record.extend(map);
    }
    record
}

/// A job record; its counts may be too many for the frame.
pub fn job(rng: &mut Prng) -> Vec<u8> {
    let size = jobs::served_size(rng);
    fields(size as u8, jobs::any_counts(rng, size), None)
}

pub fn pattern(rng: &mut Prng) -> Vec<u8> {
    let size = jobs::served_size(rng);
    let question = maps::right(rng, size);
    of_question(&question)
}

pub fn job_or_pattern(rng: &mut Prng) -> Vec<u8> {
    if rng.once_in(2) {
        job(rng)
    } else {
        pattern(rng)
    }
}

fn of_question(question: &Question) -> Vec<u8> {
    fields(question.size as u8, question.counts, Some(&question.map))
}

/// A pattern record that is right but for its map.
pub fn damaged_map(rng: &mut Prng) -> Vec<u8> {
    let size = jobs::served_size(rng);
    let mut question = maps::right(rng, size);
    match rng.below(3) {
        0 => maps::several_faults(rng, &mut question),
        1 => maps::share_terminal(rng, &mut question),
        _ => maps::change_counts(rng, &mut question),
    }
    of_question(&question)
}

/// A record with any size byte.
pub fn odd_size(rng: &mut Prng) -> Vec<u8> {
    let mut record = job_or_pattern(rng);
    record[3] = match rng.below(3) {
        0 => 0,
        1 => 65 + rng.upto(1) as u8,
        _ => rng.word() as u8,
    };
    record
}

/// One byte is changed, half the time one of a tag or a length; now and then
/// the record is cut or made longer too.
pub fn changed_byte(rng: &mut Prng) -> Vec<u8> {
    let mut record = job_or_pattern(rng);
    let heads = [0, 1, 2, 4, 5, 6, 19, 20, 21];
    let at = match rng.below(2) {
        0 => rng.pick(&heads) % record.len(),
        _ => rng.below(record.len()),
    };
    record[at] = match rng.below(3) {
        0 => record[at] ^ 1 << rng.below(8),
        1 => record[at].wrapping_add(1),
        _ => rng.word() as u8,
    };
    match rng.below(6) {
        0 => record.truncate(at + rng.below(4)),
        1 => record.push(rng.word() as u8),
        _ => (),
    }
    record
}

/// Random, zero or a following field's bytes behind a whole record.
pub fn appended(rng: &mut Prng) -> Vec<u8> {
    let mut record = job_or_pattern(rng);
    let more = match rng.below(64) {
        0 => 65536,
        1 | 2 => 256,
        _ => 1 + rng.below(20),
    };
    match rng.below(3) {
        0 => record.resize(record.len() + more, 0),
        1 => record.extend(job(rng).iter().take(more)),
        _ => record.extend(rng.bytes(more)),
    }
    record
}

/// Random bytes of length 0 to 80, half the time behind the start of a record.
pub fn random(rng: &mut Prng) -> Vec<u8> {
    let len = rng.below(81);
    let mut record = rng.bytes(len);
    if rng.once_in(2) {
        let known = job_or_pattern(rng);
        let kept = rng.below(known.len().min(len) + 1);
        record[..kept].copy_from_slice(&known[..kept]);
    }
    record
}
