//! The player program: its whole output on known and on grown histories.

use super::{hex, same};
use crate::check::{Check, Round, Tests};
use fails_book_tests::desk::Answer;
use fails_book_tests::histories::{self, survey::Survey};
use fails_book_tests::timed;
use second::events::{file_of, Event, Party};
use second::register::bytes_of;
use second::transcript;
use std::hash::{DefaultHasher, Hash, Hasher};
use tools::played::same_lines;
use tools::player;

/// What a file can meet: every refusal of register, file and call but for 8, as the player's sheets suffice, and 26, as
/// no file has enough closes.
const REACHABLE: [u32; 28] =
    [0, 1, 2, 3, 4, 5, 6, 7, 9, 10, 11, 12, 13, 14, 15, 16, 17, 18, 19, 20, 21, 22, 23, 24, 25, 32, 33, 34];

const HISTORIES: usize = 1_500;
const LONG_HISTORIES: usize = 16;

/// The bytes of a wrong input that are shown; all of it goes to a file.
const MOST_SHOWN: usize = 200;

pub fn exhaustive(tests: &mut Tests) {
    tests.check("player: document 01's example", &[0], |check| {
        known(check, &input(1, &example()), EXAMPLE.to_string());
    });
    tests.check("player: document 01's squeeze, with document 02's prices", &[0, 17], |check| {
        known(check, &input(1, &squeeze()), SQUEEZE.to_string());
    });
    tests.check("player: bought in below the reference price", &[0], |check| {
        let closes_and_price: String = (2..=31).map(|number| format!("e {number} 0 0\n")).collect();
        let auction = "e 32 0 0\ne 33 0 30\ne 34 0 30\ne 35 0 30\np 1 2 30 0\n";
        let end = "s 1 1 D 30 0 30 0 0 0\ns 2 2 R 30 0 30 0 0 0\na 0 -300\na 1 300\n";
        known(check, &input(2, &bought_in_below()), format!("e 1 0 30\n{closes_and_price}{auction}{end}"));
    });
    tests.check("player: input cut off at each byte", &[0, 1, 5], |check| {
        let whole = input(1, &example());
        for length in 0..=whole.len() {
            compare(check, &whole[..length]);
        }
    });
}

pub fn seeded(round: &mut Round) {
    let mut survey = Survey::default();
    round.check("player: histories", &REACHABLE, |check, random| {
        for _ in 0..HISTORIES {
            let input = histories::any(random);
            survey.add(&input);
            compare(check, &input);
        }
        // No short history holds 512 trades.
        compare(check, &histories::full_book(random));
    });
    round.check("player: long histories", &[0, 11, 14, 15, 17, 18, 24, 32, 33, 34], |check, random| {
        for which in 0..LONG_HISTORIES {
            let input = histories::long(random, which);
            survey.add(&input);
            compare(check, &input);
        }
    });
    round.check("player: states that the histories reach", &[], |check, _| {
        for (state, times) in survey.times() {
            check.reached(state, times);
        }
    });
}

const EXAMPLE: &str = "\
e 1 0 100
e 2 0 0
e 3 0 0
e 4 0 100
p 1 2 100 0
s 1 1 D 100 100 0 0 0 0
s 2 2 R 100 100 0 0 0 0
";

pub fn example() -> Vec<Event> {
    vec![own_trade(1, 2, 100, 1_000), Event::Close, Event::Close, Event::Delivery { short: 1, quantity: 100 }]
}

/// A trade in security 1 of members that trade for themselves.
pub const fn own_trade(seller: u8, buyer: u8, quantity: u32, price: u32) -> Event {
    Event::Trade { security: 1, seller: Party::own(seller), buyer: Party::own(buyer), quantity, price }
}

const SQUEEZE: &str = "\
e 1 0 100
e 2 0 50
e 3 0 0
e 4 0 0
e 5 17 0
e 6 0 0
e 7 0 30
p 1 2 30 0
e 8 0 0
e 9 0 0
e 10 0 0
e 11 0 0
e 12 0 0
e 13 0 0
e 14 0 0
e 15 0 40
e 16 0 30
e 17 0 70
e 18 0 30
p 1 2 30 0
e 19 0 0
e 20 0 0
e 21 0 0
e 22 0 0
e 23 0 90
p 1 2 40 88000
p 1 3 50 110000
s 1 1 D 150 30 30 90 0 0
s 2 2 R 100 30 30 40 0 0
s 3 3 R 50 0 0 50 0 0
a 0 126595
a 1 -224595
a 2 88000
a 3 110000
a 4 -100000
";

pub fn squeeze() -> Vec<Event> {
    let delivery = Event::Delivery { short: 1, quantity: 30 };
    let price = Event::Price { security: 1, price: 1_100 };
    let closes = |days| vec![Event::Close; days];
    [
        vec![own_trade(1, 2, 100, 1_000), own_trade(1, 3, 50, 1_200), price],
        closes(1),
        vec![delivery],
        closes(1),
        vec![delivery],
        closes(5),
        vec![
            price,
            Event::Attempt { short: 1 },
            Event::Offer { short: 1, offerer: 4, quantity: 40, price: 1_300 },
            Event::Offer { short: 1, offerer: 5, quantity: 30, price: 1_250 },
            Event::Award { short: 1 },
            Event::Confirm { award: 1 },
        ],
        closes(3),
        vec![price, Event::Cash { short: 1 }],
    ]
    .concat()
}

/// In class 2, which has no late fines.
pub fn bought_in_below() -> Vec<Event> {
    [
        vec![own_trade(1, 2, 30, 1_200)],
        vec![Event::Close; 29],
        vec![
            Event::Price { security: 1, price: 1_100 },
            Event::Attempt { short: 1 },
            Event::Offer { short: 1, offerer: 3, quantity: 30, price: 1_190 },
            Event::Award { short: 1 },
            Event::Confirm { award: 1 },
        ],
    ]
    .concat()
}

/// The player's input on one security, document 01's.
pub fn input(class: u8, events: &[Event]) -> Vec<u8> {
    [bytes_of(&[(class, *b"XX0000000002")]), file_of(events)].concat()
}

pub fn output(input: &[u8]) -> Vec<u8> {
    // An error is compared as if it were printed, and differs.
    player::play(input).unwrap_or_else(|error| error.to_string().into_bytes())
}

fn compare(check: &mut Check, input: &[u8]) {
    let second = transcript::transcript(input);
    count(check, &second);
    same(check, || shown(input), same_lines(&output(input), &second), Ok(()));
    // The play that is timed in one process.
    let page = &mut timed::page();
    let bytes = timed::play(input, page) as usize;
    same(check, || shown(input), same_lines(&page[..bytes], &second), Ok(()));
}

/// An output known beforehand, wanted of the player and of the second implementation alike.
pub fn known(check: &mut Check, input: &[u8], known: String) {
    let [player, second] =
        [output(input), transcript::transcript(input)].map(|bytes| String::from_utf8_lossy(&bytes).into_owned());
    count(check, known.as_bytes());
    check.known(|| shown(input), player, second, known);
}

/// Counts the answers to the calls, and the refusals of whole inputs.
pub fn count(check: &mut Check, output: &[u8]) {
    for line in String::from_utf8_lossy(output).lines() {
        let words: Vec<&str> = line.split(' ').collect();
        if let ["f", number] | ["e", _, number, _] = words[..] {
            check.count(Answer::refused(number.parse().expect("a refusal is a number")));
        }
    }
}

pub fn shown(input: &[u8]) -> String {
    let mut hasher = DefaultHasher::new();
    input.hash(&mut hasher);
    let file = std::env::temp_dir().join(format!("fails-book-input-{:016x}", hasher.finish()));
    let kept = match std::fs::write(&file, input) {
        Ok(()) => format!("whole in {}", file.display()),
        Err(error) => format!("not kept: {error}"),
    };
    let cut = if input.len() > MOST_SHOWN { ".." } else { "" };
    format!("{}{cut} ({} bytes, {kept})", hex(&input[..input.len().min(MOST_SHOWN)]), input.len())
}
