//! One call to the library and one to the second program, and the comparison
//! of what both give.

use crate::lent::{hex, Lent};
use crate::library::{Answer, Library, Read, Routed};
use crate::maps::Question;
use crate::prng::Prng;
use crate::tally::Tally;
use second::frame::Counts;
use second::records::{self, JOB_BYTES, PATTERN_HEAD};
use second::rule::{self, NotRouted};
use second::{check, swift, Refusal};
use std::fmt::Debug;

/// A difference as text, with the whole input and both answers.
pub type Compared = Result<(), String>;

pub struct Both {
    pub library: Library,
    pub rng: Prng,
    pub tally: Tally,
}

pub(crate) fn answer_of<T>(result: &Result<T, Refusal>) -> Answer {
    match *result {
        Ok(_) => Answer { code: 0, number: 0 },
        Err(Refusal { code, number }) => Answer { code, number },
    }
}

fn routed_of(result: &Result<Vec<u8>, NotRouted>) -> Routed {
    let (answered, sums) = match *result {
        Ok(_) => (Ok(()), [0; 4]),
        Err(NotRouted { refusal, sums }) => (Err(refusal), sums),
    };
    Routed {
        answer: answer_of(&answered),
        sums,
    }
}

fn written<E>(result: &Result<Vec<u8>, E>) -> &[u8] {
    result.as_deref().unwrap_or(&[])
}

fn read_of(result: &Result<(u16, Counts, usize, usize), Refusal>) -> Read {
    let (size, counts, map_at, map_len) = (*result).unwrap_or_default();
    Read {
        answer: answer_of(result),
        size,
        counts,
        map_at,
        map_len,
    }
}

impl Both {
    pub fn new(seed: u64) -> Both {
        Both {
            library: Library {
                empty_is_null: false,
            },
            rng: Prng::new(seed),
            tally: Tally::default(),
        }
    }

    /// Compares a call that writes a room; the plain program says what it gives
    /// and what the room must begin with.
    fn room_call<A: Copy + Debug + PartialEq + Into<Answer>>(
        &mut self,
        entry: &'static str,
        input: String,
        (plain, written): (A, &[u8]),
        len: usize,
        call: impl Fn(&Library, &mut [u8]) -> A,
    ) -> Compared {
        let mut room = Lent::room(&mut self.rng, len);
        let given = call(&self.library, room.slice_mut());
        let answer: Answer = given.into();
        self.tally.code(entry, answer.code);
        if given == plain && room.holds_just(written) {
            return Ok(());
        }
        Err(format!(
            "{entry}\n{input}\nroom of {}\nlibrary: {given:?}\nplain:   {plain:?}, room begins with [{}]\n{:?}",
            room.describe(),
            hex(written),
            self.library,
        ))
    }

    pub fn route(&mut self, size: u16, counts: Counts, len: usize) -> Compared {
        let input = format!("size {size}, counts {counts:?}");
        let result = rule::route(size, counts, len);
        let plain = (routed_of(&result), written(&result));
        self.room_call("frame_route", input, plain, len, |library, room| {
            library.route(size, counts, room)
        })?;
        let Answer { code, number } = plain.0.answer;
        if code == 3 {
            self.tally.overfull(number);
        }
        self.swift_route(size, counts, len, plain)
    }

    /// The router of the measurement gives what the plain one gives.
    fn swift_route(
        &mut self,
        size: u16,
        counts: Counts,
        len: usize,
        (plain, written): (Routed, &[u8]),
    ) -> Compared {
        let mut room = Lent::room(&mut self.rng, len);
        let (code, number, sums) = swift::route(size, counts, room.slice_mut());
        let answer = Answer { code, number };
        if (Routed { answer, sums }) == plain && room.holds_just(written) {
            return Ok(());
        }
        Err(format!(
            "the two routers of the second program: size {size}, counts {counts:?}, room {len}"
        ))
    }

    pub fn check_map(&mut self, question: &Question) -> Compared {
        let Question { size, counts, map } = question;
        let plain = answer_of(&check::check_map(*size, *counts, map));
        let lent = Lent::holding(&mut self.rng, map);
        let answer = self.library.check_map(*size, *counts, lent.slice());
        self.tally.code("frame_check_map", answer.code);
        if answer == plain && lent.unchanged() {
            return Ok(());
        }
        Err(format!(
            "frame_check_map\nsize {size}, counts {counts:?}\nmap of {}\nlibrary: {answer:?}\nplain:   {plain:?}\n{:?}",
            lent.describe(),
            self.library,
        ))
    }

    /// Gives any bytes to both readers.
    pub fn read(&mut self, record: &[u8]) -> Compared {
        self.read_job(record)?;
        self.read_pattern(record)
    }

    fn read_job(&mut self, record: &[u8]) -> Compared {
        let plain = read_of(&records::read_job(record).map(|job| (job.size, job.counts, 0, 0)));
        let lent = Lent::holding(&mut self.rng, record);
        let read = self.library.read_job(lent.slice());
        self.read_alike("frame_read_job", &lent, read, plain)?;
        if read.answer.code == 0 {
            return self.job_again(record, read);
        }
        Ok(())
    }

    fn read_pattern(&mut self, record: &[u8]) -> Compared {
        let plain = records::read_pattern(record).map(|pattern| {
            (
                pattern.size,
                pattern.counts,
                PATTERN_HEAD,
                pattern.map.len(),
            )
        });
        let lent = Lent::holding(&mut self.rng, record);
        let read = self.library.read_pattern(lent.slice());
        self.read_alike("frame_read_pattern", &lent, read, read_of(&plain))?;
        if read.answer.code == 0 {
            return self.pattern_again(record, read);
        }
        Ok(())
    }

    fn read_alike(
        &mut self,
        entry: &'static str,
        lent: &Lent,
        read: Read,
        plain: Read,
    ) -> Compared {
        self.tally.code(entry, read.answer.code);
        if read == plain && lent.unchanged() {
            return Ok(());
        }
        Err(format!(
            "{entry}\nrecord of {}\nlibrary: {read:?}\nplain:   {plain:?}\n{:?}",
            lent.describe(),
            self.library,
        ))
    }

    /// A job record that was read gives the same bytes when written.
    fn job_again(&mut self, record: &[u8], read: Read) -> Compared {
        let mut room = [0; JOB_BYTES];
        let answer = self.library.write_job(read.size, read.counts, &mut room);
        self.tally.code("frame_write_job", answer.code);
        written_again(record, read, answer, &room)
    }

    /// A pattern record that was read gives the same bytes when written.
    fn pattern_again(&mut self, record: &[u8], read: Read) -> Compared {
        let map = &record[read.map_at..read.map_at + read.map_len];
        let mut room = vec![0; record.len()];
        let answer = self
            .library
            .write_pattern(read.size, read.counts, map, &mut room);
        self.tally.code("frame_write_pattern", answer.code);
        written_again(record, read, answer, &room)
    }

    pub fn write_job(&mut self, size: u16, counts: Counts, len: usize) -> Compared {
        let input = format!("size {size}, counts {counts:?}");
        let result = records::write_job(size, counts, len);
        let plain = (answer_of(&result), written(&result));
        self.room_call("frame_write_job", input, plain, len, |library, room| {
            library.write_job(size, counts, room)
        })?;
        match result {
            // The library wrote these same bytes; both readers take them back.
            Ok(record) => self.read_back(&record, size, counts, &[]),
            Err(_) => Ok(()),
        }
    }

    pub fn write_pattern(&mut self, question: &Question, len: usize) -> Compared {
        let Question { size, counts, map } = question;
        let input = format!("size {size}, counts {counts:?}, map [{}]", hex(map));
        let result = records::write_pattern(*size, *counts, map, len);
        let plain = (answer_of(&result), written(&result));
        let lent = Lent::holding(&mut self.rng, map);
        self.room_call("frame_write_pattern", input, plain, len, |library, room| {
            library.write_pattern(*size, *counts, lent.slice(), room)
        })?;
        if !lent.unchanged() {
            return Err(format!(
                "frame_write_pattern changed its map of {}",
                lent.describe()
            ));
        }
        match result {
            Ok(record) => self.read_back(&record, *size, *counts, map),
            Err(_) => Ok(()),
        }
    }

    /// What was written reads back to the values it was written from.
    fn read_back(&mut self, record: &[u8], size: u16, counts: Counts, map: &[u8]) -> Compared {
        let (entry, read) = if map.is_empty() {
            ("frame_read_job", self.library.read_job(record))
        } else {
            ("frame_read_pattern", self.library.read_pattern(record))
        };
        self.tally.code(entry, read.answer.code);
        let back = record.get(read.map_at..read.map_at.saturating_add(read.map_len));
        if read.answer.code == 0 && (read.size, read.counts, back) == (size, counts, Some(map)) {
            return Ok(());
        }
        Err(format!(
            "written record [{}]\nof size {size}, counts {counts:?}, map [{}]\nreads back to {read:?}",
            hex(record),
            hex(map)
        ))
    }
}

fn written_again(record: &[u8], read: Read, answer: Answer, room: &[u8]) -> Compared {
    if answer == (Answer { code: 0, number: 0 }) && room == record {
        return Ok(());
    }
    Err(format!(
        "record [{}]\nreads to {read:?}\nwritten again: {answer:?}, [{}]",
        hex(record),
        hex(room)
    ))
}
