//! Each kind of event: the time of one, and its instructions.

use crate::in_process::{Played, PLAYS};
use crate::instructions;
use crate::Both;
use fails_book_tests::scaling::{Input, Kind, Pair, KINDS, POSITIONS};
use std::io;
use tools::player;

/// The place of the number of positions at which each kind is shown.
pub const SHOWN: usize = 1;

/// The kind whose time depends on the number of positions.
const GROWING: &str = "close";

pub struct Row {
    pub kind: Kind,
    /// By the number of positions.
    pub entries: Vec<Entry>,
}

/// A kind of event at a number of positions.
pub struct Entry {
    inputs: [Played; 2],
    /// How many events of the kind the second input has more.
    events: usize,
    instructions: [Both<f64>; 2],
}

pub fn rows() -> io::Result<Vec<Row>> {
    KINDS.into_iter().map(Row::new).collect()
}

impl Row {
    fn new(kind: Kind) -> io::Result<Row> {
        let entry = |positions| Entry::new(kind.name, (kind.pair)(positions));
        let entries = POSITIONS.into_iter().map(entry).collect::<io::Result<_>>()?;
        Ok(Row { kind, entries })
    }

    /// The numbers of positions at which the kind is shown beside the loads, by their place.
    pub fn shown(&self) -> Vec<usize> {
        if self.kind.name == GROWING {
            (0..POSITIONS.len()).collect()
        } else {
            vec![SHOWN]
        }
    }

    /// What one event takes at a number of positions, by what an entry takes.
    pub fn taken(&self, at: usize, rows: &[Row], difference: fn(&Entry) -> Both<f64>) -> Both<f64> {
        let [player, second] = difference(&self.entries[at]);
        match rows.iter().find(|row| Some(row.kind.name) == self.kind.instead) {
            None => [player, second],
            Some(other) => {
                let [player_other, second_other] = other.taken(at, rows, difference);
                [player + player_other, second + second_other]
            }
        }
    }
}

impl Entry {
    /// The inputs, once the player has accepted and refused what it is meant to.
    fn new(name: &str, Pair { inputs, events }: Pair) -> io::Result<Entry> {
        inputs.iter().try_for_each(|input| check_answers(name, input))?;
        let inputs = inputs.map(|input| Played::new(input.bytes()));
        Ok(Entry { inputs, events, instructions: Default::default() })
    }

    /// Plays both inputs; the fewer the events, the more often.
    fn play(&mut self, page: &mut [u8]) -> io::Result<()> {
        let turns = (600 / self.events).clamp(1, 10);
        (0..turns).try_for_each(|_| self.inputs.iter_mut().try_for_each(|input| input.play(page)))
    }

    /// By how many nanoseconds an event the second input takes longer.
    pub fn nanos(&self) -> Both<f64> {
        let [fewer, more] = &self.inputs;
        fewer.more_nanos(more).map(|nanos| nanos / self.events as f64)
    }

    fn count(&mut self) -> io::Result<()> {
        for (input, instructions) in self.inputs.iter().zip(&mut self.instructions) {
            *instructions = instructions::of_both(&input.input)?;
        }
        Ok(())
    }

    /// How many instructions an event the second input takes more.
    pub fn instructions(&self) -> Both<f64> {
        let [fewer, more] = self.instructions;
        [0, 1].map(|program| (more[program] - fewer[program]) / self.events as f64)
    }
}

/// That the player accepts and refuses what it is meant to.
pub fn check_answers(name: &str, input: &Input) -> io::Result<()> {
    let transcript = player::play(&input.bytes())?;
    input.check(&transcript).map_err(|fault| io::Error::other(format!("{name}: {fault}")))
}

/// The entries of the table take turns, as the loads do.
pub fn time(rows: &mut [Row], page: &mut [u8]) -> io::Result<()> {
    for _ in 0..PLAYS {
        rows.iter_mut().flat_map(|row| &mut row.entries).try_for_each(|entry| entry.play(page))?;
    }
    Ok(())
}

/// Counts the instructions where they are shown.
pub fn count(rows: &mut [Row]) -> io::Result<()> {
    rows.iter_mut().try_for_each(|row| row.shown().into_iter().try_for_each(|at| row.entries[at].count()))
}
