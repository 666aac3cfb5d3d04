//! The desk's page: the positions that a file leaves, one line each, written into a page that the caller lends.

pub mod arguments;
mod columns;
mod known;

pub use known::{around_the_length, faulty_files, faulty_registers};

use super::player::{example, input, shown, squeeze};
use crate::check::{Check, Round, Tests};
use fails_book_tests::desk::{self, Answer};
use fails_book_tests::histories;
use fails_book_tests::random::Random;
use second::book::Book;
use second::events::Event;
use second::page;
use second::register::{self, Security};
use second::transcript;
use std::collections::BTreeSet;
use std::fmt;

/// 80 columns and a line feed.
const LINE: usize = 81;

/// Bytes kept free on either side of a page, which no call may touch: more than a line.
const MARGIN: usize = 100;

/// All that a call can be refused for, and 0 for an accepted one.
const REACHABLE: [u32; 9] = [0, 1, 2, 3, 4, 5, 6, 7, 31];

const HISTORIES: usize = 250;
const LONG_HISTORIES: usize = 8;
const LARGE_QUANTITIES: usize = 40;

pub fn exhaustive(tests: &mut Tests) {
    tests.check("desk's page: document 01's example, pages of each length", &[0, 31], |check| {
        known::pages_of_each_length(check, &example(), &known::EXAMPLE);
    });
    tests.check("desk's page: document 01's squeeze, pages of each length", &[0, 31], |check| {
        known::pages_of_each_length(check, &squeeze(), &known::SQUEEZE);
    });
    tests.check("desk's page: nine digits in each quantity", &[0, 31], known::quantities_of_nine_digits);
    tests.check("desk's page: quantities of each number of digits", &[0, 31], known::quantities_of_each_width);
    tests.check("desk's page: delivery days of one to four digits", &[0, 31], known::delivery_days_of_each_width);
    tests.check("desk's page: 1,024 positions", &[0, 31], known::most_positions);
    tests.check("desk's page: books without positions", &[0], known::books_without_positions);
    tests.check("desk's page: each refusal before the later ones", &REACHABLE, known::refusals_in_order);
    tests.check("desk's page: registers and files of other bytes", &[1, 5], known::other_bytes);
    tests.check("desk's page: columns of each width read back", &[], columns::each_width_read_back);
}

pub fn seeded(round: &mut Round) {
    grown_histories(round);
    damaged_and_random_bytes(round);
}

fn grown_histories(round: &mut Round) {
    // The damaged ones among them are too few to want each refusal.
    round.check("desk's page: histories", &[0, 31], |check, random| {
        for _ in 0..HISTORIES {
            compare_sizes(check, random, |random| Given::parted(&histories::any(random)));
        }
    });
    round.check("desk's page: long histories", &[0, 31], |check, random| {
        for which in 0..LONG_HISTORIES {
            compare_sizes(check, random, |random| Given::parted(&histories::long(random, which)));
        }
        // It surely has 1,024 positions.
        compare_sizes(check, random, |random| Given::parted(&histories::full_book_in_cash(random)));
    });
    round.check("desk's page: large quantities", &[0, 31], |check, random| {
        for _ in 0..LARGE_QUANTITIES {
            compare_sizes(check, random, arguments::large_quantities);
        }
    });
    round.check("desk's page: columns of histories read back", &[], |check, random| {
        for _ in 0..HISTORIES {
            columns::read_back(check, &Given::parted(&histories::any(random)));
        }
        for which in 0..LONG_HISTORIES {
            columns::read_back(check, &Given::parted(&histories::long(random, which)));
        }
        for _ in 0..LARGE_QUANTITIES {
            columns::read_back(check, &arguments::large_quantities(random));
        }
    });
}

fn damaged_and_random_bytes(round: &mut Round) {
    round.check("desk's page: damaged registers and files", &REACHABLE, |check, random| {
        for _ in 0..2_000 {
            let (given, size) = arguments::damaged(random);
            compare(check, random, &given, size);
        }
    });
    round.check("desk's page: random bytes", &[0, 1, 2, 3, 5, 6, 7, 31], |check, random| {
        for _ in 0..3_000 {
            let given = arguments::of_random_bytes(random);
            let size = random.pick(&[0, 1, 80, 81, 82, 161, 162, 200, 324, 405, 1_000]);
            compare(check, random, &given, size);
        }
    });
}

/// What a call reads.
pub struct Given {
    pub register: Vec<u8>,
    pub file: Vec<u8>,
}

impl Given {
    /// Events on one security, document 01's.
    fn on_one_security(class: u8, events: &[Event]) -> Given {
        Given::parted(&input(class, events))
    }

    /// A player's input, parted where the register's count says, as far as there are bytes.
    pub fn parted(input: &[u8]) -> Given {
        let count = input.first_chunk().map_or(0, |&word| usize::from(u16::from_le_bytes(word)));
        let (register, file) = input.split_at(register::length(count).min(input.len()));
        Given { register: register.to_vec(), file: file.to_vec() }
    }

    fn as_input(&self) -> Vec<u8> {
        [&self.register[..], &self.file].concat()
    }

    /// The securities and the book at the end, unless register or file is refused.
    pub fn played(&self) -> Option<(Vec<Security>, Book)> {
        transcript::played(&self.register, &self.file).ok()
    }

    /// Lengths of pages around that of the lines.
    fn sizes(&self) -> BTreeSet<usize> {
        sizes(self.played().map_or(0, |(_, book)| book.positions().len()))
    }

    pub fn words(&self) -> String {
        let [register, file] = [&self.register, &self.file].map(Vec::len);
        format!("register of {register} bytes, file of {file}: {}", shown(&self.as_input()))
    }
}

/// Lengths around that of the lines, and such as leave a line, the line feeds or the length's high bytes out.
fn sizes(positions: usize) -> BTreeSet<usize> {
    let whole = LINE * positions;
    let near = whole.saturating_sub(2)..=whole + 2;
    let lines = [80 * positions, whole.saturating_sub(LINE), whole + LINE];
    near.chain(lines).chain([0, 1, 80, 81, 82, whole % 256, whole % 65_536, whole + 65_536]).collect()
}

/// The answer of a call, and the page with its margins after it. Both are compared whole; where the bytes differ is
/// said with the input.
#[derive(PartialEq, Eq)]
struct Outcome {
    answer: u64,
    bytes: Vec<u8>,
}

impl fmt::Debug for Outcome {
    fn fmt(&self, to: &mut fmt::Formatter) -> fmt::Result {
        write!(to, "{} on a page of {} bytes", self.answer, self.bytes.len() - 2 * MARGIN)
    }
}

impl Outcome {
    /// Makes the call on the bytes between the margins.
    fn of(call: impl Fn(&[u8], &[u8], &mut [u8]) -> u64, given: &Given, before: &[u8]) -> Outcome {
        let mut bytes = before.to_vec();
        let end = bytes.len() - MARGIN;
        let answer = call(&given.register, &given.file, &mut bytes[MARGIN..end]);
        Outcome { answer, bytes }
    }

    fn page(&self) -> &[u8] {
        &self.bytes[MARGIN..self.bytes.len() - MARGIN]
    }

    /// The lines at the start of the page, and all other bytes as they were.
    fn known(answer: u64, lines: &[u8], before: &[u8]) -> Outcome {
        let mut bytes = before.to_vec();
        bytes[MARGIN..][..lines.len()].copy_from_slice(lines);
        Outcome { answer, bytes }
    }

    /// The first byte that is not as wanted, with those that follow it.
    fn difference(&self, wanted: &Outcome) -> String {
        let Some(at) = self.bytes.iter().zip(&wanted.bytes).position(|(found, wanted)| found != wanted) else {
            return "bytes as wanted".to_string();
        };
        let [found, wanted] = [self, wanted].map(|outcome| {
            let end = outcome.bytes.len().min(at + LINE);
            outcome.bytes[at..end].escape_ascii().to_string()
        });
        format!("from byte {} on \"{found}\", wanted \"{wanted}\"", at as i64 - MARGIN as i64)
    }
}

/// As no line has under 81 bytes, no refusal is a number of bytes.
fn unpacked(answer: u64) -> Answer {
    match answer as u32 {
        refusal @ 1..81 => Answer::refused(refusal),
        written => Answer::accepted(written),
    }
}

fn compare_sizes(check: &mut Check, random: &mut Random, given: impl Fn(&mut Random) -> Given) {
    let given = given(random);
    for size in given.sizes() {
        compare(check, random, &given, size);
    }
}

/// What the desk writes on a page that is just long enough for so many positions.
fn on_a_fitting_page(given: &Given, positions: usize) -> Outcome {
    Outcome::of(desk::page, given, &vec![b'#'; MARGIN + positions * LINE + MARGIN])
}

/// Makes the call on a page of random bytes with both and compares the answers, the pages and the bytes around them.
fn compare(check: &mut Check, random: &mut Random, given: &Given, size: usize) {
    let before = random.bytes(MARGIN + size + MARGIN);
    let second = Outcome::of(page::page, given, &before);
    // This much is known: what no line has written is as it was.
    let written = unpacked(second.answer).quantity as usize;
    let known = Outcome::known(second.answer, &second.page()[..written], &before);
    all_alike(check, given, [Outcome::of(desk::page, given, &before), second, known]);
}

/// The text of all lines or a refusal, known beforehand and wanted of both alike.
fn known(check: &mut Check, random: &mut Random, given: &Given, size: usize, wanted: Result<&str, u32>) {
    let before = random.bytes(MARGIN + size + MARGIN);
    let known = match wanted {
        Ok(text) => Outcome::known(text.len() as u64, text.as_bytes(), &before),
        Err(refusal) => Outcome::known(refusal.into(), &[], &before),
    };
    all_alike(check, given, [Outcome::of(desk::page, given, &before), Outcome::of(page::page, given, &before), known]);
}

fn all_alike(check: &mut Check, given: &Given, [desk, second, known]: [Outcome; 3]) {
    check.count(unpacked(known.answer));
    let words = || {
        let [desk, second] = [&desk, &second].map(|outcome| outcome.difference(&known));
        format!("{}\n  desk: {desk}\n  second: {second}", given.words())
    };
    check.known(words, &desk, &second, &known);
}
