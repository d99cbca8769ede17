//! All small inputs.

use crate::both::{Both, Compared};
use crate::calls::Call;
use crate::changes::Run;
use crate::maps::Question;
use second::frame::{closed_relays, map_bytes, Counts};
use second::records::{JOB_BYTES, PATTERN_HEAD};
use second::rule;

/// Every vector with entries 0 to the highest.
fn vectors(highest: u16) -> impl Iterator<Item = Counts> {
    let base = u32::from(highest) + 1;
    (0..base.pow(6)).map(move |v| std::array::from_fn(|i| (v / base.pow(i as u32) % base) as u16))
}

/// Every job of sizes 1 to 3 with counts up to one more than the size, routed
/// with every room up to three bytes too long, written and read; its map checked.
pub fn all_small_jobs(both: &mut Both) -> Compared {
    for size in 1..=3 {
        for counts in vectors(size + 1) {
            both.tally
                .input("all jobs of sizes 1 to 3, counts 0 to W + 1");
            small_job(both, size, counts)?;
        }
    }
    Ok(())
}

fn small_job(both: &mut Both, size: u16, counts: Counts) -> Compared {
    let m = map_bytes(size.into());
    (0..=m + 3).try_for_each(|len| both.route(size, counts, len))?;
    both.write_job(size, counts, JOB_BYTES)?;
    let Ok(map) = rule::route(size, counts, m) else {
        return Ok(());
    };
    let question = Question { size, counts, map };
    both.check_map(&question)?;
    both.write_pattern(&question, PATTERN_HEAD + m)
}

/// Every map of size 1 with all counts up to 2, and every map of size 2 with
/// the counts of its closed relays and with none.
pub fn all_small_maps(both: &mut Both) -> Compared {
    for byte in 0..=255u8 {
        for counts in vectors(2) {
            both.tally.input("all maps of size 1, counts 0 to 2");
            small_map(both, 1, counts, &[byte])?;
        }
    }
    for map in (0..=65535u16).map(u16::to_le_bytes) {
        both.tally.input("all maps of size 2, own counts and none");
        small_map(both, 2, closed_counts(&map), &map)?;
        small_map(both, 2, [0; 6], &map)?;
    }
    Ok(())
}

fn small_map(both: &mut Both, size: u16, counts: Counts, map: &[u8]) -> Compared {
    let map = map.to_vec();
    both.check_map(&Question { size, counts, map })
}

fn closed_counts(map: &[u8]) -> Counts {
    let mut counts = [0; 6];
    for relay in closed_relays(map, 2) {
        counts[relay.kind] += 1;
    }
    counts
}

/// Every relay at every size up to 66, and numbers past the last.
pub fn all_relays(both: &mut Both) -> Compared {
    for size in 0..=66 {
        for relay in (0..=6 * size + 16).chain([65535]) {
            both.tally
                .input("all relays of sizes 0 to 66, and some past the last");
            both.relay_terminals(size, relay)?;
        }
    }
    Ok(())
}

/// Every map of sizes 1 and 2, right or not, with every type up to 7 and every
/// relay up to the first past the map.
pub fn all_small_changes(both: &mut Both) -> Compared {
    (0..=255u8).try_for_each(|byte| small_changes(both, 1, &[byte]))?;
    (0..=65535u16).try_for_each(|bits| small_changes(both, 2, &bits.to_le_bytes()))
}

fn small_changes(both: &mut Both, size: u16, map: &[u8]) -> Compared {
    both.tally.input("all maps of sizes 1 and 2, every change");
    let adds = (0..=7).map(Call::Add);
    let drops = (0..=16).chain([65535]).map(Call::Drop);
    for call in adds.chain(drops).chain([Call::CheckStart]) {
        let mut run = Run::holding(&mut both.rng, size, map);
        both.change(&mut run, call)?;
    }
    Ok(())
}

/// All relays opened at every size up to 66 and in every room up to 64 bytes.
pub fn all_openings(both: &mut Both) -> Compared {
    for size in 0..=66 {
        for len in 0..=64 {
            both.tally.input("all rooms of 0 to 64 bytes, opened");
            let bytes = both.rng.bytes(len);
            let mut run = Run::holding(&mut both.rng, size, &bytes);
            both.change(&mut run, Call::OpenAll)?;
        }
    }
    Ok(())
}
