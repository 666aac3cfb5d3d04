//! The lines of the last event, whose call `probe` makes on a lent sheet: the pieces that it prints are read from there.

use super::player::{bought_in_below, example, input, own_trade, shown, squeeze};
use crate::check::{Check, Round, Tests};
use crate::probe;
use fails_book_tests::histories;
use fails_book_tests::random::Random;
use second::events::{file_of, Event, Party};
use second::transcript;

/// A page with fewer bytes takes no line.
const LEAST_PAGE: usize = 82_000;
const SIZES: [usize; 8] = [0, 1, 79, 80, LEAST_PAGE - 1, LEAST_PAGE, LEAST_PAGE + 1, 131_072];

/// Bytes kept free on either side of a page, which no call may touch.
const MARGIN: usize = 40;

/// Among the discharges of the long histories there is to be one in so many pieces.
const MANY_PIECES: usize = 400;

pub fn exhaustive(tests: &mut Tests) {
    tests.check("lines: known events on pages of each size", &[0, 11, 14, 19, 24, 32, 33, 34], known_events);
    tests.check("lines: input cut off at each byte", &[0, 1, 5], |check| {
        let whole = input(1, &example());
        for length in 0..=whole.len() {
            compare(check, &whole[..length], LEAST_PAGE);
        }
    });
}

pub fn seeded(round: &mut Round) {
    round.check("lines: histories that end in a discharge", &[0, 11, 16, 17, 24, 25, 32, 34], |check, random| {
        for _ in 0..1_200 {
            let input = histories::discharge_on_day(random, 0);
            let size = if random.one_in(10) { random.pick(&SIZES) } else { LEAST_PAGE };
            compare(check, &input, size);
        }
    });
    round.check("lines: histories that end in any event", &[0, 1, 2, 3, 5, 6, 7, 11, 18, 24], |check, random| {
        for _ in 0..1_200 {
            let whole = histories::any(random);
            let cut = cut_at(&whole, |events| random.below(events.len() + 1));
            compare(check, &cut, LEAST_PAGE);
        }
    });
    round.check("lines: histories that end in many pieces", &[0], |check, random| {
        let mut times = 0;
        for which in 0..400 {
            let whole = if which < 8 { histories::long(random, which) } else { histories::any(random) };
            let cut = cut_at(&whole, |_| most_pieces(&whole));
            compare(check, &cut, LEAST_PAGE);
            times += u64::from(second(&cut, LEAST_PAGE).lines() > MANY_PIECES);
        }
        check.reached("a discharge in many pieces", times);
    });
}

fn known_events(check: &mut Check) {
    let cash = "e 23 0 90\np 1 2 40 88000\np 1 3 50 110000\n";
    let confirm = "e 18 0 30\np 1 2 30 0\n";
    let without_prices: Vec<Event> = squeeze().into_iter().filter(|event| event.kind() != 2).collect();
    let on_old_price = [&squeeze()[..21], &[Event::Cash { short: 1 }]].concat();
    let with_itself = |kinds: [u8; 2]| {
        let [seller, buyer] = kinds.map(|kind| Party { member: 1, kind });
        Event::Trade { security: 1, seller, buyer, quantity: 100, price: 1_000 }
    };
    let across_kinds = [&[with_itself([0, 1])], &example()[1..]].concat();
    let both_ways = [own_trade(1, 2, 100, 1_000), Event::Close, own_trade(3, 1, 80, 1_000), Event::Close, Event::Close];
    let paired = |long, quantity| [&both_ways[..], &[Event::PairOff { short: 1, long, quantity }]].concat();
    for size in SIZES {
        known(check, &input(1, &paired(3, 60)), size, "e 6 0 60\np 1 3 60 0\n");
        known(check, &input(1, &paired(3, 81)), size, "e 6 24 0\n");
        known(check, &input(1, &paired(2, 60)), size, "e 6 34 0\n");
        known(check, &input(1, &paired(65_539, 60)), size, "e 6 11 0\n");
        known(check, &input(1, &[with_itself([7, 7])]), size, "e 1 14 0\n");
        known(check, &input(1, &[with_itself([7, 8])]), size, "e 1 33 0\n");
        known(check, &input(1, &across_kinds[..1]), size, "e 1 0 100\n");
        known(check, &input(1, &across_kinds), size, "e 4 0 100\np 1 2 100 0\n");
        known(check, &input(1, &example()), size, "e 4 0 100\np 1 2 100 0\n");
        known(check, &input(1, &squeeze()), size, cash);
        known(check, &input(1, &squeeze()[..18]), size, confirm);
        known(check, &input(1, &squeeze()[..17]), size, "e 17 0 70\n");
        known(check, &input(1, &squeeze()[..5]), size, "e 5 17 0\n");
        known(check, &input(1, &without_prices), size, "e 20 19 0\n");
        known(check, &input(1, &on_old_price), size, "e 22 32 0\n");
        known(check, &input(2, &bought_in_below()), size, "e 35 0 30\np 1 2 30 0\n");
        known(check, &input(1, &[Event::Cash { short: 1 }]), size, "e 1 11 0\n");
        known(check, &input(1, &[]), size, "");
        known(check, &input(4, &example()), size, "");
    }
}

/// What a call leaves of a page: the bytes that it says to have written, and whether all others are as they were.
#[derive(Debug, PartialEq, Eq)]
struct Written {
    count: usize,
    text: String,
    rest_kept: bool,
}

impl Written {
    fn lines(&self) -> usize {
        self.text.lines().count()
    }
}

fn first(input: &[u8], size: usize) -> Written {
    let before = Random::new(size as u64, "page").bytes(size + 2 * MARGIN);
    let mut after = before.clone();
    let count = probe::last_lines(input, &mut after[MARGIN..][..size]) as usize;
    let end = MARGIN + count.min(size);
    Written {
        count,
        text: String::from_utf8_lossy(&after[MARGIN..end]).into_owned(),
        rest_kept: after[..MARGIN] == before[..MARGIN] && after[end..] == before[end..],
    }
}

fn wanted(lines: &[u8], size: usize) -> Written {
    let lines = if size < LEAST_PAGE { &[] } else { lines };
    Written { count: lines.len(), text: String::from_utf8_lossy(lines).into_owned(), rest_kept: true }
}

fn second(input: &[u8], size: usize) -> Written {
    wanted(&transcript::last_lines(input), size)
}

fn compare(check: &mut Check, input: &[u8], size: usize) {
    count(check, input);
    check.same(|| words(input, size), first(input, size), second(input, size));
}

/// Lines known beforehand, wanted of `probe` and of the second implementation alike.
fn known(check: &mut Check, input: &[u8], size: usize, known: &str) {
    count(check, input);
    check.known(|| words(input, size), first(input, size), second(input, size), wanted(known.as_bytes(), size));
}

/// Counts the refusal of the input, or of its last event.
fn count(check: &mut Check, input: &[u8]) {
    check.count(transcript::last_call(input, 0, 1_024).map(|answer| answer.quantity).into());
}

fn words(input: &[u8], size: usize) -> String {
    format!("{} on a page of {size} bytes", shown(input))
}

/// The input with as many of its events as are wanted; one that is refused is left whole.
fn cut_at(input: &[u8], wanted: impl FnOnce(&[Event]) -> usize) -> Vec<u8> {
    let Ok((_, events)) = transcript::open(input) else {
        return input.to_vec();
    };
    let file = input.len() - file_of(&events).len();
    [&input[..file], &file_of(&events[..wanted(&events)])].concat()
}

/// The number of the event that hands out the most pieces.
fn most_pieces(input: &[u8]) -> usize {
    let Ok((mut book, events)) = transcript::open(input) else {
        return 0;
    };
    let pieces = |event| book.call(event, 1_024).map_or(0, |answer| answer.pieces.len());
    let counts: Vec<usize> = events.iter().map(pieces).collect();
    (1..=counts.len()).max_by_key(|number| counts[number - 1]).unwrap_or(0)
}
