//! Pair-offs: known histories, with numbers and pages worked out by hand; and laws of the pair-offs and positions of
//! histories, read from the input's bytes and from what is printed.

mod effect;
mod known;
mod law;

use super::kinds::Known;
use super::page::{around_the_length, Given};
use super::player::{known as known_lines, output, shown};
use super::prices::{answers, input_of};
use super::same;
use crate::check::{Check, Round, Tests};
use fails_book_tests::desk::Answer;
use fails_book_tests::histories;
use fails_book_tests::histories::registers::different;
use fails_book_tests::random::Random;
use known::KNOWN;
use second::book::MOST_TRADES;
use second::events::{file_of, Event, Party};
use second::register::bytes_of;
use second::transcript::transcript;

const HISTORIES: usize = 600;
const LONG_HISTORIES: usize = 8;

/// The pair-offs of a history around which it is cut off, and how many there are to be of all histories at least.
const MOST_CUT: usize = 2;
const LEAST_CUT: usize = 40;

/// All that a pair-off of a file can be refused for, and 0 for an accepted one. A sheet of the player suffices.
const REACHABLE: [u32; 8] = [0, 11, 12, 16, 17, 18, 24, 34];

pub fn exhaustive(tests: &mut Tests) {
    for Known { name, classes, events, refusals, end, page } in KNOWN {
        tests.check(&format!("pair-off: {name}"), refusals, |check| {
            answers(check, classes, events, end);
            around_the_length(check, &Given::parted(&input_of(classes, events)), page);
        });
    }
    tests.check("pair-off: each of 1,024 positions", &[0, 24], full_book);
    tests.check("pair-off: lines that the law finds fault with", &[], law::known_faults);
    tests.check("pair-off: ends that a pair-off does not lead to", &[], effect::known_faults);
}

pub fn seeded(round: &mut Round) {
    round.check("pair-off: each pair-off and position of histories", &REACHABLE, |check, random| {
        for which in 0..HISTORIES + LONG_HISTORIES {
            each_pair_off(check, &history(random, which));
        }
    });
    round.check("pair-off: histories cut off before and after a pair-off", &[0], |check, random| {
        let mut cut = 0;
        for which in 0..HISTORIES / 2 {
            cut += around_pair_offs(check, &history(random, which));
        }
        same(check, || "histories cut off around a pair-off".to_string(), cut >= LEAST_CUT, true);
    });
}

fn history(random: &mut Random, which: usize) -> Vec<u8> {
    if which < HISTORIES {
        histories::any(random)
    } else {
        histories::long(random, which)
    }
}

/// Wants the law of what either program prints, and counts the answers to pair-offs.
fn each_pair_off(check: &mut Check, input: &[u8]) {
    let second = transcript(input);
    for refusal in law::answers(input, &second).unwrap_or_default() {
        check.count(Answer::refused(refusal as u32));
    }
    check.known(|| shown(input), law::law(input, &output(input)), law::law(input, &second), Ok(()));
}

/// Wants the effect of some accepted pair-offs, as either program shows it in the file cut off before and after the
/// event; answers of how many.
fn around_pair_offs(check: &mut Check, input: &[u8]) -> usize {
    let accepted = law::accepted(input, &transcript(input)).unwrap_or_default();
    let chosen: Vec<usize> = accepted.iter().rev().copied().take(MOST_CUT).collect();
    for &number in &chosen {
        check.count(Answer::accepted(0));
        let programs: [fn(&[u8]) -> Vec<u8>; 2] = [output, transcript];
        let [player, second] = programs.map(|play| effect::effect(input, number, play));
        check.known(|| format!("event {number}, {}", shown(input)), player, second, Ok(()));
    }
    chosen.len()
}

/// Members 1 to 8 sell 5 units of each of 32 securities to members 33 to 40 on day 1 and buy them back on day 2, so that
/// each has a short and a long. Every short is set off against its member's long, and then nothing is open.
fn full_book(check: &mut Check) {
    const SECURITIES: u16 = 32;
    let half = MOST_TRADES as u16 / 2;
    let trades = |sides: fn(u8) -> [u8; 2]| {
        (0..half).map(move |at| {
            let [seller, buyer] = sides((1 + at / SECURITIES) as u8).map(Party::own);
            Event::Trade { security: 1 + at % SECURITIES, seller, buyer, quantity: 5, price: 1_000 }
        })
    };
    let pair_off = |short: u16, long: u16| Event::PairOff { short, long: long.into(), quantity: 5 };
    // The positions of a day are by member: 256 of the first eight, then 256 of the others.
    let pairs = (1..=half).map(|number| pair_off(number, number + 2 * half));
    let others = (half + 1..=2 * half).map(|number| pair_off(number + 2 * half, number));
    let mut events: Vec<Event> = trades(|member| [member, 32 + member]).chain([Event::Close]).collect();
    events.extend(trades(|member| [32 + member, member]));
    events.extend([Event::Close; 2]);
    events.extend(pairs.chain(others));
    events.push(pair_off(1, 1 + 2 * half));
    let register = different(&mut Random::new(0, "1,024 positions paired"), usize::from(SECURITIES));
    let lines = events.iter().zip(1..).map(|(event, number)| match *event {
        _ if number == events.len() => format!("e {number} 24 0\n"),
        Event::PairOff { short, long, .. } => format!("e {number} 0 5\np {short} {long} 5 0\n"),
        Event::Trade { .. } => format!("e {number} 0 5\n"),
        _ => format!("e {number} 0 0\n"),
    });
    let positions = (0..4 * half).map(|at| {
        let side = if [0, 3].contains(&(at / half)) { 'D' } else { 'R' };
        let first_member = if [0, 2].contains(&(at / half)) { 1 } else { 33 };
        let member = first_member + at % half / SECURITIES;
        format!("s {} {member} {side} 5 0 0 0 5 0\n", at + 1)
    });
    let known: String = lines.chain(positions).collect();
    known_lines(check, &[bytes_of(&register), file_of(&events)].concat(), known);
}
