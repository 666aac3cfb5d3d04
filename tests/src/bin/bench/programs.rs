//! The player and the second implementation as programs of their own, with an input on standard input.

use crate::in_process::median;
use crate::loads::Load;
use crate::table::{number, row};
use crate::Both;
use std::io;
use std::process::Command;
use std::time::{Duration, Instant};
use tools::player;

const RUNS: usize = 101;

/// The player, and this program with the argument that makes it the second implementation.
pub fn both() -> io::Result<Both<Command>> {
    let mut second = Command::new(std::env::current_exe()?);
    second.arg("--play");
    Ok([Command::new(player::path()), second])
}

/// The inputs take turns, and each round begins with the next one.
pub fn measure(loads: &[Load]) -> io::Result<()> {
    let empty: (&str, &[u8]) = ("empty input", &[]);
    let inputs: Vec<(&str, &[u8])> =
        [empty].into_iter().chain(loads.iter().map(|load| (load.name, &load.played.input[..]))).collect();
    let mut times = vec![Both::<Vec<Duration>>::default(); inputs.len()];
    for round in 0..RUNS {
        for at in (0..inputs.len()).map(|at| (round + at) % inputs.len()) {
            run(inputs[at].1, &mut times[at])?;
        }
    }
    println!("Whole programs, start included: microseconds, medians of {RUNS} runs.\n");
    println!("| load | player | second | ratio |\n|---|---|---|---|");
    for ((name, _), times) in inputs.iter().zip(times) {
        let [player, second] = times.map(|times| median(times.iter().map(|time| time.as_secs_f64() * 1e6).collect()));
        println!("{}", row(name, &[number(player), number(second), format!("{:.2}", player / second)]));
    }
    println!();
    Ok(())
}

fn run(input: &[u8], times: &mut Both<Vec<Duration>>) -> io::Result<()> {
    let mut outputs = Vec::new();
    for (mut program, times) in both()?.into_iter().zip(times) {
        let start = Instant::now();
        outputs.push(player::output_of(&mut program, input)?);
        times.push(start.elapsed());
    }
    if outputs[0] != outputs[1] {
        return Err(io::Error::other("the player and the second implementation print different lines"));
    }
    Ok(())
}
