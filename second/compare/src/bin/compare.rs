//! compare [N] [SEED]: the library beside the second program, on all small
//! inputs and N random ones.

use compare::both::{Both, Compared};
use compare::kinds::RANDOM;
use compare::lister::all_listings;
use compare::small::{all_openings, all_relays, all_small_changes, all_small_jobs, all_small_maps};
use std::env;
use std::process::ExitCode;
use std::time::{SystemTime, UNIX_EPOCH};

const INPUTS: u64 = 200_000;
const LISTINGS: usize = 400;

fn main() -> ExitCode {
    let Some((inputs, seed)) = arguments() else {
        eprintln!("usage: compare [N] [SEED], both whole numbers; SEED in the environment too");
        return ExitCode::from(2);
    };
    // Said first too: a library that ends the program leaves the seed behind.
    println!("seed {seed}");
    let mut both = Both::new(seed);
    if let Err(difference) = compare_all(&mut both, inputs) {
        eprintln!("DIFFERENCE with seed {seed} in {difference}");
        return ExitCode::FAILURE;
    }
    print!("{}", both.tally);
    println!("no difference, seed {seed}");
    ExitCode::SUCCESS
}

/// The number of random inputs and the seed.
fn arguments() -> Option<(u64, u64)> {
    let mut given = env::args().skip(1);
    let inputs = given.next().map_or(Some(INPUTS), |n| n.parse().ok())?;
    let seed = given.next().or_else(|| env::var("SEED").ok());
    let seed = seed.map_or(Some(clock_seed()), |s| s.parse().ok())?;
    given.next().is_none().then_some((inputs, seed))
}

fn clock_seed() -> u64 {
    SystemTime::now()
        .duration_since(UNIX_EPOCH)
        .map_or(1, |since| since.as_nanos() as u64)
}

fn compare_all(both: &mut Both, inputs: u64) -> Compared {
    all_small_jobs(both)?;
    all_small_maps(both)?;
    all_relays(both)?;
    all_small_changes(both)?;
    all_openings(both)?;
    for _ in 0..inputs {
        let kind = &RANDOM[both.rng.below(RANDOM.len())];
        both.tally.input(kind.name);
        both.library.empty_is_null = both.rng.once_in(2);
        (kind.compare)(both)?;
    }
    match env::var("FRAME_LISTER") {
        Ok(program) => all_listings(both, &program, LISTINGS),
        Err(_) => {
            println!("lister not compared: FRAME_LISTER does not name one");
            Ok(())
        }
    }
}
