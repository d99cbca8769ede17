//! Readers and writers of job and pattern records.

use crate::check::check_map;
use crate::frame::{map_bytes, room_for, served, Counts};
use crate::{refuse, Refusal};

pub const JOB_BYTES: usize = 19;
pub const PATTERN_HEAD: usize = 22;

#[derive(Clone, Debug, PartialEq, Eq)]
pub struct Job {
    pub size: u16,
    pub counts: Counts,
}

#[derive(Clone, Debug, PartialEq, Eq)]
pub struct Pattern {
    pub size: u16,
    pub counts: Counts,
    pub map: Vec<u8>,
}

/// The value of the field whose tag stands at this offset.
fn field(record: &[u8], at: usize, tag: u8, length: usize) -> Result<&[u8], Refusal> {
    let here = &record[at..];
    if here.is_empty() {
        return refuse(7, at);
    }
    if here[0] != tag {
        return refuse(8, at);
    }
    if here.len() < 3 {
        return refuse(7, at);
    }
    if usize::from(u16::from_be_bytes([here[1], here[2]])) != length {
        return refuse(9, at);
    }
    if here.len() < 3 + length {
        return refuse(7, at);
    }
    Ok(&here[3..3 + length])
}

/// The two fields that both records begin with.
fn head(record: &[u8]) -> Result<Job, Refusal> {
    let size = u16::from(field(record, 0, 1, 1)?[0]);
    served(size)?;
    let value = field(record, 4, 2, 12)?;
    let counts = std::array::from_fn(|i| u16::from_be_bytes([value[2 * i], value[2 * i + 1]]));
    Ok(Job { size, counts })
}

fn nothing_after(record: &[u8], end: usize) -> Result<(), Refusal> {
    if record.len() > end {
        return refuse(10, end);
    }
    Ok(())
}

pub fn read_job(record: &[u8]) -> Result<Job, Refusal> {
    let job = head(record)?;
    nothing_after(record, JOB_BYTES)?;
    Ok(job)
}

pub fn read_pattern(record: &[u8]) -> Result<Pattern, Refusal> {
    let Job { size, counts } = head(record)?;
    let m = map_bytes(size.into());
    let map = field(record, JOB_BYTES, 3, m)?.to_vec();
    nothing_after(record, PATTERN_HEAD + m)?;
    check_map(size, counts, &map)?;
    Ok(Pattern { size, counts, map })
}

fn put_field(record: &mut Vec<u8>, tag: u8, value: &[u8]) {
    record.push(tag);
    record.extend((value.len() as u16).to_be_bytes());
    record.extend(value);
}

fn job_bytes(size: u16, counts: Counts) -> Vec<u8> {
    let mut record = Vec::new();
    put_field(&mut record, 1, &[size as u8]);
    put_field(&mut record, 2, &counts.map(u16::to_be_bytes).concat());
    record
}

/// The record, or the refusal with a room of this length.
pub fn write_job(size: u16, counts: Counts, room: usize) -> Result<Vec<u8>, Refusal> {
    served(size)?;
    room_for(JOB_BYTES, room)?;
    Ok(job_bytes(size, counts))
}

/// The record, or the refusal with a room of this length.
pub fn write_pattern(
    size: u16,
    counts: Counts,
    map: &[u8],
    room: usize,
) -> Result<Vec<u8>, Refusal> {
    check_map(size, counts, map)?;
    room_for(PATTERN_HEAD + map.len(), room)?;
    let mut record = job_bytes(size, counts);
    put_field(&mut record, 3, map);
    Ok(record)
}
