//! The loads: whole files, the last two of as many events as a file takes, all of one kind.

use crate::in_process::{Played, PLAYS};
use crate::instructions;
use crate::kinds::check_answers;
use crate::Both;
use fails_book_tests::random::Random;
use fails_book_tests::{histories, scaling};
use std::io;

const CLOSES: u16 = 2_000;

pub struct Load {
    pub name: &'static str,
    pub played: Played,
    /// Those of the programs, less those on an empty input.
    pub instructions: Both<f64>,
}

pub fn loads() -> io::Result<Vec<Load>> {
    let random = &mut Random::new(1, "benchmark");
    let full =
        [("2,048 closes without positions", scaling::full_of_closes()), ("2,048 trades", scaling::full_of_trades())];
    full.iter().try_for_each(|(name, input)| check_answers(name, input))?;
    let grown = [
        ("2,048 mixed events", histories::mixed(random)),
        ("1,024 positions, cash settlements", histories::full_book_in_cash(random)),
        ("2,000 closes", histories::closes(random, CLOSES)),
    ];
    let full = full.map(|(name, input)| (name, input.bytes()));
    let load = |(name, input)| Load { name, played: Played::new(input), instructions: Both::default() };
    Ok(grown.into_iter().chain(full).map(load).collect())
}

/// The loads take turns, so that other work on the machine, which comes and goes, falls on all of them.
pub fn time(loads: &mut [Load], page: &mut [u8]) -> io::Result<()> {
    (0..PLAYS).try_for_each(|_| loads.iter_mut().try_for_each(|load| load.played.play(page)))
}

pub fn count(loads: &mut [Load]) -> io::Result<()> {
    let none = instructions::of_both(&[])?;
    for load in loads {
        let all = instructions::of_both(&load.played.input)?;
        load.instructions = [0, 1].map(|program| all[program] - none[program]);
    }
    Ok(())
}
