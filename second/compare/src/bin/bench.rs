//! bench [ROUNDS]: nanoseconds a job at size 64, the library's router beside a
//! straightforward one in Rust.

use compare::jobs;
use compare::library::{Library, Routed};
use compare::prng::Prng;
use second::frame::Counts;
use second::{rule, swift};
use std::env;
use std::hint::black_box;
use std::process::ExitCode;
use std::time::Instant;

const ROUNDS: usize = 60;
const JOBS: usize = 4000;
const SEED: u64 = 64;
const SIZE: u16 = 64;
const MAP: usize = 48;

const LIBRARY: Library = Library {
    empty_is_null: false,
};

struct Set {
    name: &'static str,
    jobs: Vec<Counts>,
    library: f64,
    rust: f64,
}

fn main() -> ExitCode {
    let Some(rounds) = rounds() else {
        eprintln!("usage: bench [ROUNDS], a whole number above 0");
        return ExitCode::from(2);
    };
    let mut sets = sets(&mut Prng::new(SEED));
    if let Err(difference) = sets.iter().try_for_each(same_maps) {
        eprintln!("DIFFERENCE {difference}");
        return ExitCode::FAILURE;
    }
    for round in 0..rounds {
        sets.iter_mut().for_each(|set| measure(set, round));
    }
    report(&sets, rounds);
    ExitCode::SUCCESS
}

fn rounds() -> Option<usize> {
    let mut given = env::args().skip(1);
    let rounds = given.next().map_or(Some(ROUNDS), |n| n.parse().ok())?;
    (rounds > 0 && given.next().is_none()).then_some(rounds)
}

fn sets(rng: &mut Prng) -> [Set; 4] {
    [
        set("dense", rng, jobs::full),
        set("sparse", rng, jobs::sparse),
        set("uniform", rng, jobs::uniform),
        set("mixed", rng, jobs::carried_counts),
    ]
}

fn set(name: &'static str, rng: &mut Prng, job: fn(&mut Prng, u16) -> Counts) -> Set {
    Set {
        name,
        jobs: (0..JOBS).map(|_| job(rng, SIZE)).collect(),
        library: f64::INFINITY,
        rust: f64::INFINITY,
    }
}

/// Both routers fill rooms of different contents with the plain program's map.
fn same_maps(set: &Set) -> Result<(), String> {
    let done = (0, 0, [0; 4]);
    for &counts in &set.jobs {
        let (mut one, mut other) = ([0x5A; MAP], [0xC3; MAP]);
        let Routed { answer, sums } = LIBRARY.route(SIZE, counts, &mut one);
        let library = (answer.code, answer.number, sums);
        let rust = swift::route(SIZE, counts, &mut other);
        let plain = rule::route(SIZE, counts, MAP).map_err(|refusal| format!("{refusal:?}"))?;
        if library != done || rust != done || one != *plain || other != *plain {
            return Err(format!(
                "size {SIZE}, counts {counts:?}\nlibrary: {library:?} {one:02X?}\nRust:    {rust:?} {other:02X?}\nplain:   {plain:02X?}"
            ));
        }
    }
    Ok(())
}

/// Both one after the other, each first in every second round.
fn measure(set: &mut Set, round: usize) {
    if round.is_multiple_of(2) {
        set.library = set.library.min(library_time(&set.jobs));
        set.rust = set.rust.min(rust_time(&set.jobs));
    } else {
        set.rust = set.rust.min(rust_time(&set.jobs));
        set.library = set.library.min(library_time(&set.jobs));
    }
}

fn library_time(jobs: &[Counts]) -> f64 {
    time(jobs, |counts, room| {
        LIBRARY.route(black_box(SIZE), counts, room)
    })
}

fn rust_time(jobs: &[Counts]) -> f64 {
    time(jobs, |counts, room| {
        swift::route(black_box(SIZE), counts, room)
    })
}

/// Nanoseconds a job. The room keeps what the job before left in it.
fn time<A>(jobs: &[Counts], route: impl Fn(Counts, &mut [u8]) -> A) -> f64 {
    let mut room = [0xA5; MAP];
    let start = Instant::now();
    for &counts in jobs {
        black_box(route(black_box(counts), black_box(&mut room[..])));
    }
    start.elapsed().as_nanos() as f64 / jobs.len() as f64
}

fn report(sets: &[Set], rounds: usize) {
    println!("size {SIZE}, {JOBS} jobs a set, seed {SEED}, best of {rounds} rounds, both in turn;");
    println!("rooms are not cleared beforehand: each router writes all {MAP} bytes itself");
    println!("set        library ns/job    Rust ns/job   library/Rust");
    for set in sets {
        line(set.name, set.library, set.rust);
    }
    let mean = |time: fn(&Set) -> f64| sets.iter().map(time).sum::<f64>() / sets.len() as f64;
    line("overall", mean(|set| set.library), mean(|set| set.rust));
}

fn line(name: &str, library: f64, rust: f64) {
    println!(
        "{name:<8} {library:>16.1} {rust:>14.1} {:>14.3}",
        library / rust
    );
}
