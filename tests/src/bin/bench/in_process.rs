//! Plays inside this process: the whole text is made and none of it is printed.

use crate::Both;
use fails_book_tests::timed;
use second::transcript;
use std::hint::black_box;
use std::io;
use std::time::{Duration, Instant};

/// How often each input is played by either.
pub const PLAYS: usize = 401;

/// An input with the times of its plays.
pub struct Played {
    pub input: Vec<u8>,
    text: Vec<u8>,
    times: Both<Vec<Duration>>,
}

impl Played {
    pub fn new(input: Vec<u8>) -> Played {
        let text = transcript::transcript(&input);
        Played { input, text, times: Both::default() }
    }

    /// One play as the player plays, into this page, and one by the second implementation.
    pub fn play(&mut self, page: &mut [u8]) -> io::Result<()> {
        let start = Instant::now();
        let bytes = timed::play(black_box(&self.input), page) as usize;
        self.times[0].push(start.elapsed());
        self.check(&page[..bytes])?;
        let start = Instant::now();
        let text = transcript::transcript(black_box(&self.input));
        self.times[1].push(start.elapsed());
        self.check(&text)
    }

    fn check(&self, text: &[u8]) -> io::Result<()> {
        if text == self.text {
            Ok(())
        } else {
            Err(io::Error::other("a play made another text than the second implementation's first"))
        }
    }

    /// The median of the plays by either, in nanoseconds.
    pub fn nanos(&self) -> Both<f64> {
        [0, 1].map(|player| median(self.times[player].iter().map(nanos).collect()))
    }

    /// The median, over the plays, by how much another input took longer by either, in nanoseconds.
    pub fn more_nanos(&self, longer: &Played) -> Both<f64> {
        [0, 1].map(|player| {
            let pairs = self.times[player].iter().zip(&longer.times[player]);
            median(pairs.map(|(fewer, more)| nanos(more) - nanos(fewer)).collect())
        })
    }
}

fn nanos(time: &Duration) -> f64 {
    time.as_nanos() as f64
}

pub fn median(mut numbers: Vec<f64>) -> f64 {
    numbers.sort_by(f64::total_cmp);
    numbers[numbers.len() / 2]
}
