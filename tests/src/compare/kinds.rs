//! Own and client business: known histories, with numbers and pages worked out by hand, and a law of the positions that each
//! close of a history makes, read from the trades in the input's bytes.

mod known;
mod law;

use super::page::{around_the_length, Given};
use super::prices::{answers, input_of, Answered};
use crate::check::{Check, Round, Tests};
use fails_book_tests::histories;
pub use known::Known;
use known::KNOWN;
pub use law::{made, Made};
use second::book::MOST_TRADES;

const EXAMPLE: &[u8] = include_bytes!("../../../examples/kinds.bin");
const EXAMPLE_PAGE: &str = include_str!("../../../examples/kinds.page");

const HISTORIES: usize = 600;
const LONG_HISTORIES: usize = 8;

pub fn exhaustive(tests: &mut Tests) {
    for Known { name, classes, events, refusals, end, page } in KNOWN {
        tests.check(&format!("kinds: {name}"), refusals, |check| {
            answers(check, classes, events, end);
            around_the_length(check, &Given::parted(&input_of(classes, events)), page);
        });
    }
    tests.check("kinds: each byte, on either side, of two members and of one", &[0, 14, 33], each_byte);
    tests.check("kinds: a book that holds 512 trades", &[0, 14, 15, 33], full_book);
    tests.check("kinds: the example's page", &[0, 31], |check| {
        let lines: Vec<&str> = EXAMPLE_PAGE.lines().collect();
        around_the_length(check, &Given::parted(EXAMPLE), &lines);
    });
    tests.check("kinds: positions that the trades do not make", &[], law::known_faults);
}

pub fn seeded(round: &mut Round) {
    round.check("kinds: the positions of each close of histories", &[], |check, random| {
        let mut found = law::Found::default();
        for which in 0..HISTORIES + LONG_HISTORIES {
            let input = if which < HISTORIES { histories::any(random) } else { histories::long(random, which) };
            found.add(&law::each_close(check, &input));
        }
        check.reached("an own position", found.own);
        check.reached("a client position", found.client);
        check.reached("a member with both kinds in a security at one close", found.both_kinds);
        check.reached("an own position in security 2 or later before a client one in security 1", found.kind_first);
    });
}

/// The trades and what is answered to each: the seller's byte, the buyer's, a member with itself, and with equal bytes.
fn each_byte(check: &mut Check) {
    let answer = |byte: u8, if_kind: [&'static str; 2]| if_kind.get(usize::from(byte)).copied().unwrap_or("33 0");
    let events = (0..=u8::MAX).flat_map(|byte| {
        [
            (format!("trade 1 kind {byte} 2 1 3 1000"), answer(byte, ["0 3"; 2])),
            (format!("trade 1 2 kind {byte} 1 5 1000"), answer(byte, ["0 5"; 2])),
            (format!("trade 3 kind {byte} 3 1 7 1000"), answer(byte, ["14 0", "0 7"])),
            (format!("trade 3 client 3 kind {byte} 1 11 1000"), answer(byte, ["0 11", "14 0"])),
            (format!("trade 4 kind {byte} 4 kind {byte} 1 1 1000"), "14 0"),
        ]
    });
    let events: Vec<(String, &str)> = events.collect();
    let mut events: Vec<Answered> = events.iter().map(|(event, lines)| (event.as_str(), *lines)).collect();
    events.push(("close", "0 0"));
    // Member 1 sells 3, 5 and 5 for itself and 3 for a client, which member 2 buys, the last 5 for a client; of member 3 the
    // client sells 7 and 11 to itself.
    let end = "s 1 1 D 13 0 0 0 0 13\ns 2 1 D 3 0 0 0 0 3\ns 3 2 R 11 0 0 0 0 11\ns 4 2 R 5 0 0 0 0 5\n\
               s 5 3 R 18 0 0 0 0 18\ns 6 3 D 18 0 0 0 0 18\n";
    answers(check, &[1], &events, end);
}

/// 14 and 33 come before 15, and trades that are good in all else are 15 in whichever kind.
fn full_book(check: &mut Check) {
    let mut events = vec![("trade 1 2 client 1 2 1000", "0 2"); MOST_TRADES];
    events.extend([
        ("trade 1 2 1 2 1000", "15 0"),
        ("trade 1 client 2 client 1 2 1000", "15 0"),
        ("trade 1 client 1 1 2 1000", "15 0"),
        ("trade 1 1 client 1 2 1000", "15 0"),
        ("trade 1 1 1 2 1000", "14 0"),
        ("trade 1 client 1 client 1 2 1000", "14 0"),
        ("trade 1 kind 7 1 kind 7 1 2 1000", "14 0"),
        ("trade 1 kind 7 1 kind 8 1 2 1000", "33 0"),
        ("trade 1 kind 2 2 1 2 1000", "33 0"),
        ("trade 1 2 kind 255 1 2 1000", "33 0"),
        ("close", "0 0"),
    ]);
    answers(check, &[1], &events, "s 1 1 D 1024 0 0 0 0 1024\ns 2 2 R 1024 0 0 0 0 1024\n");
}
