//! What was compared, and which codes came back.

use std::collections::BTreeMap;
use std::fmt;

#[derive(Default)]
pub struct Tally {
    inputs: BTreeMap<&'static str, u64>,
    codes: BTreeMap<&'static str, BTreeMap<u32, u64>>,
    overfull: BTreeMap<u32, u64>,
}

impl Tally {
    pub fn input(&mut self, kind: &'static str) {
        *self.inputs.entry(kind).or_default() += 1;
    }

    pub fn code(&mut self, entry: &'static str, code: u32) {
        *self
            .codes
            .entry(entry)
            .or_default()
            .entry(code)
            .or_default() += 1;
    }

    /// The number beside the router's code 3: a set of sides.
    pub fn overfull(&mut self, number: u32) {
        *self.overfull.entry(number).or_default() += 1;
    }
}

fn write_times(out: &mut fmt::Formatter, times: &BTreeMap<u32, u64>) -> fmt::Result {
    for (number, times) in times {
        write!(out, "  {number}: {times}")?;
    }
    writeln!(out)
}

impl fmt::Display for Tally {
    fn fmt(&self, out: &mut fmt::Formatter) -> fmt::Result {
        writeln!(out, "inputs of each kind:")?;
        for (kind, inputs) in &self.inputs {
            writeln!(out, "{inputs:>9}  {kind}")?;
        }
        writeln!(
            out,
            "calls of each entry, and code: how often it came back:"
        )?;
        for (entry, codes) in &self.codes {
            let calls: u64 = codes.values().sum();
            write!(out, "{calls:>9}  {entry} ")?;
            write_times(out, codes)?;
        }
        write!(out, "frame_route, overfull sides:")?;
        write_times(out, &self.overfull)
    }
}
