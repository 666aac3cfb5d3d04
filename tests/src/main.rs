//! Compares the static libraries `desk` and `probe` and the player with a second implementation, written from documents 01
//! and 02 and ISO 6166 in another style.
//!
//! An argument, if given, is the seed of the second round; else that round has a seed of its own in each run.

mod check;
mod compare;
mod probe;
mod xml;

use check::{Round, Tests};
use second::calendar::Calendar;
use std::process::ExitCode;
use std::thread;
use std::time::{SystemTime, UNIX_EPOCH};

const FIXED_SEED: u64 = 1;

fn main() -> ExitCode {
    let seed = match std::env::args().nth(1).map(|text| text.parse()) {
        None => seed_of_this_run(),
        Some(Ok(seed)) => seed,
        Some(Err(_)) => {
            eprintln!("the seed is a number below 2^64");
            return ExitCode::from(2);
        }
    };
    let calendar = Calendar::of_the_century();
    let mut tests = Tests::default();

    exhaustive(&mut tests, &calendar);
    for round in both_rounds([FIXED_SEED, seed], &calendar) {
        tests.passed += round.passed;
        tests.failed += round.failed;
    }

    println!("{} passed, {} failed", tests.passed, tests.failed);
    if tests.failed == 0 {
        ExitCode::SUCCESS
    } else {
        ExitCode::FAILURE
    }
}

/// The rounds of two seeds, side by side, since each by itself leaves a core idle.
fn both_rounds(seeds: [u64; 2], calendar: &Calendar) -> [Tests; 2] {
    println!("seeds {} and {}", seeds[0], seeds[1]);
    let round = |seed| {
        let mut tests = Tests::default();
        seeded(&mut Round { tests: &mut tests, seed }, calendar);
        tests
    };
    thread::scope(|scope| {
        let rounds = seeds.map(|seed| scope.spawn(move || round(seed)));
        rounds.map(|round| round.join().unwrap_or(Tests { passed: 0, failed: 1 }))
    })
}

fn exhaustive(tests: &mut Tests, calendar: &Calendar) {
    compare::charges::exhaustive(tests);
    compare::calendar::exhaustive(tests, calendar);
    compare::register::exhaustive(tests);
    compare::events::exhaustive(tests);
    compare::player::exhaustive(tests);
    compare::prices::exhaustive(tests);
    compare::one_price::exhaustive(tests);
    compare::kinds::exhaustive(tests);
    compare::cover::exhaustive(tests);
    compare::pair_off::exhaustive(tests);
    compare::sheets::exhaustive(tests);
    compare::lines::exhaustive(tests);
    compare::page::exhaustive(tests);
    compare::text::exhaustive(tests);
    compare::words::exhaustive(tests);
    compare::walk::exhaustive(tests);
    compare::csv::exhaustive(tests);
    compare::html::exhaustive(tests);
    // The checks of `./play` run the C programs that the checks of these build.
    compare::c_programs::exhaustive(tests);
    compare::builds::exhaustive(tests);
    compare::play::exhaustive(tests);
    compare::play_page::exhaustive(tests);
}

fn seeded(round: &mut Round, calendar: &Calendar) {
    compare::charges::seeded(round);
    compare::calendar::seeded(round, calendar);
    compare::register::seeded(round);
    compare::events::seeded(round);
    compare::player::seeded(round);
    compare::prices::seeded(round);
    compare::one_price::seeded(round);
    compare::kinds::seeded(round);
    compare::cover::seeded(round);
    compare::pair_off::seeded(round);
    compare::sheets::seeded(round);
    compare::lines::seeded(round);
    compare::page::seeded(round);
    compare::text::seeded(round);
    compare::words::seeded(round);
    compare::walk::seeded(round);
    compare::csv::seeded(round);
    compare::html::seeded(round);
    compare::play::seeded(round);
    compare::play_page::seeded(round);
}

fn seed_of_this_run() -> u64 {
    SystemTime::now().duration_since(UNIX_EPOCH).map_or(0, |since| since.as_nanos() as u64)
}
