//! The library's bench lister, if one is named, beside the second program's
//! text.

use crate::both::{Both, Compared};
use crate::lent::hex;
use crate::records;
use second::listing::listing;
use std::io::{self, Write};
use std::process::{Command, Stdio};
use std::thread::sleep;
use std::time::Duration;

const KIND: &str = "lister: records on standard input";

pub fn all_listings(both: &mut Both, program: &str, inputs: usize) -> Compared {
    compare_listing(both, program, &[], false)?;
    for i in 0..inputs {
        let record = match i % 8 {
            0 => records::random(&mut both.rng),
            1 => records::changed_byte(&mut both.rng),
            2 => records::appended(&mut both.rng),
            _ => records::job(&mut both.rng),
        };
        compare_listing(both, program, &record, i % 16 == 0)?;
    }
    Ok(())
}

fn compare_listing(both: &mut Both, program: &str, input: &[u8], slowly: bool) -> Compared {
    both.tally.input(KIND);
    let plain = listing(input);
    let answer = run(program, input, slowly).map_err(|e| format!("{program}: {e}"))?;
    if answer == plain.as_bytes() {
        return Ok(());
    }
    Err(format!(
        "lister, input [{}]\nlibrary:\n{}\nplain:\n{plain}",
        hex(input),
        String::from_utf8_lossy(&answer)
    ))
}

/// Standard output of the program; the input comes in two parts if slowly.
fn run(program: &str, input: &[u8], slowly: bool) -> io::Result<Vec<u8>> {
    let mut child = Command::new(program)
        .stdin(Stdio::piped())
        .stdout(Stdio::piped())
        .spawn()?;
    if let Some(mut stdin) = child.stdin.take() {
        let (first, rest) = input.split_at(if slowly { input.len() / 2 } else { 0 });
        // A lister that has read enough may be gone before all is written.
        stdin.write_all(first).or_else(when_gone)?;
        if slowly {
            sleep(Duration::from_millis(5));
        }
        stdin.write_all(rest).or_else(when_gone)?;
    }
    Ok(child.wait_with_output()?.stdout)
}

fn when_gone(error: io::Error) -> io::Result<()> {
    match error.kind() {
        io::ErrorKind::BrokenPipe => Ok(()),
        _ => Err(error),
    }
}
