//! The check of a file alone, in memory, nothing played.

use crate::in_process::median;
use fails_book_tests::desk::{self, Answer};
use fails_book_tests::scaling;
use second::events::{self, MOST_EVENTS};
use second::refusal::Refusal;
use std::hint::black_box;
use std::io;
use std::time::Instant;

const RUNS: usize = 101;

/// How often a run makes its call, which by itself is short for a clock.
const CALLS: u32 = 100;

/// The check of a file: the static library's, then the second implementation's.
const CHECKS: [fn(&[u8]) -> Answer; 2] = [desk::file, second_check];

pub fn measure() -> io::Result<()> {
    println!("The check of a file by itself: microseconds, medians of {RUNS} runs of {CALLS} calls.");
    println!("desk: desk_file of the static library; second: events::read, which also makes a list of the events.\n");
    println!("| file | desk | second | ratio |\n|---|---|---|---|");
    for (name, input) in [("2,048 closes", scaling::full_of_closes()), ("2,048 trades", scaling::full_of_trades())] {
        let [desk, second] = micros(&input.file())?;
        println!("| {name} | {desk:.2} | {second:.2} | {:.2} |", desk / second);
    }
    Ok(())
}

/// The median of either check, which take turns.
fn micros(file: &[u8]) -> io::Result<[f64; 2]> {
    let mut micros = [Vec::new(), Vec::new()];
    for _ in 0..RUNS {
        for (micros, check) in micros.iter_mut().zip(CHECKS) {
            micros.push(micros_of(check, file)?);
        }
    }
    Ok(micros.map(median))
}

/// Each call must accept the file with all its events, since a refusal may come sooner.
fn micros_of(check: fn(&[u8]) -> Answer, file: &[u8]) -> io::Result<f64> {
    let start = Instant::now();
    for _ in 0..CALLS {
        let answer = check(black_box(file));
        if answer != Answer::accepted(MOST_EVENTS as u32) {
            return Err(io::Error::other(format!("a full file is answered {answer:?}")));
        }
    }
    Ok(start.elapsed().as_secs_f64() * 1e6 / f64::from(CALLS))
}

fn second_check(file: &[u8]) -> Answer {
    let events = black_box(events::read(file));
    events.map(|events| events.len() as u32).map_err(Refusal::from).into()
}
