//! What no file reaches: sheets that are too short or longer than the player's, and the last business days.

use super::hex;
use super::player::{input, own_trade};
use crate::check::{Check, Round, Tests};
use crate::probe;
use fails_book_tests::desk::Answer;
use fails_book_tests::histories;
use second::events::{Event, Party};
use second::transcript;

const SHEETS: [u32; 6] = [0, 1, 1_023, 1_024, 1_025, 65_536];

/// After 9,998 closes it is day 9,999; further ones are refused.
const CLOSES: [u32; 4] = [9_997, 9_998, 9_999, 20_000];

const TRADE: Event = own_trade(1, 2, 100, 1_000);
const DELIVERY: Event = Event::Delivery { short: 1, quantity: 60 };
/// Member 1 sells on one day and buys on the next: of its positions 1 is the short and 3 the long.
const PURCHASE: Event = own_trade(3, 1, 80, 1_000);
const PAIR_OFF: Event = pair_off(1, 3, 60);
const PRICE: Event = Event::Price { security: 1, price: 1_100 };

/// All that a pair-off can be refused for, and 0 for an accepted one.
const PAIR_OFF_REFUSALS: [u32; 9] = [0, 8, 11, 12, 16, 17, 18, 24, 34];

pub fn exhaustive(tests: &mut Tests) {
    tests.check("sheets: a delivery and what is no discharge", &[0, 8, 11], delivery_and_what_is_no_discharge);
    tests.check("sheets: trades of a member with itself, and what comes of them", &[0, 8, 14, 33], across_kinds);
    tests.check("sheets: a pair-off, and a short sheet before each other reason", &PAIR_OFF_REFUSALS, pair_offs);
    tests.check("sheets: day 9,999", &[0, 17, 26, 34], last_business_day);
    tests.check("sheets: buy-in and cash settlement on day 9,999", &[0, 8, 18, 26], last_buy_in_and_cash_settlement);
    tests.check("sheets: prices of days 9,998 and 9,999", &[0, 8, 32], prices_of_the_last_days);
}

pub fn seeded(round: &mut Round) {
    round.check("sheets: histories with sheets of any length", &[0, 8, 11, 16, 17, 24, 25, 32, 34], |check, random| {
        for _ in 0..600 {
            let input = histories::discharge_on_day(random, 0);
            for sheet in SHEETS.into_iter().chain([random.below(2_048) as u32, random.below(65_536) as u32]) {
                compare(check, &input, 0, sheet);
            }
        }
    });
    round.check("sheets: histories of the last days", &[0, 8, 11, 26], |check, random| {
        for _ in 0..300 {
            let late = if random.one_in(2) { random.pick(&CLOSES) } else { random.between(9_900, 9_998) as u32 };
            let input = histories::discharge_on_day(random, late);
            compare(check, &input, late, random.pick(&[1_023, 1_024, 1_024, 1_024]));
        }
    });
    round.check("sheets: damaged inputs", &[1, 2, 3, 4, 5, 6, 7], |check, random| {
        for _ in 0..1_000 {
            let sound = histories::discharge_on_day(random, 0);
            let input = histories::damaged(random, sound);
            compare(check, &input, random.below(3) as u32, random.pick(&SHEETS));
        }
    });
}

fn delivery_and_what_is_no_discharge(check: &mut Check) {
    for sheet in SHEETS {
        let enough = sheet >= 1_024;
        let delivered = if enough { Answer::accepted(60) } else { Answer::refused(8) };
        known(check, &[TRADE, Event::Close, Event::Close, DELIVERY], 0, sheet, delivered);
        // A short sheet is the first reason.
        let not_there = Answer::refused(if enough { 11 } else { 8 });
        for discharge in [DELIVERY, Event::Confirm { award: 1 }, Event::Cash { short: 1 }, PAIR_OFF] {
            known(check, &[discharge], 0, sheet, not_there);
        }
        // The other calls have no sheet.
        known(check, &[TRADE], 0, sheet, Answer::accepted(100));
        known(check, &[Event::Close], 0, sheet, Answer::accepted(0));
        known(check, &[Event::Attempt { short: 1 }], 0, sheet, Answer::refused(11));
        known(check, &[], 0, sheet, Answer::accepted(0));
    }
}

const fn pair_off(short: u16, long: u32, quantity: u32) -> Event {
    Event::PairOff { short, long, quantity }
}

fn pair_offs(check: &mut Check) {
    let book = |days: usize, events: &[Event]| {
        [&[TRADE, Event::Close, PURCHASE], &vec![Event::Close; days][..], events].concat()
    };
    // On day 3 positions 3 and 4 are not due, and on day 4 all are.
    let cases = [
        (book(2, &[PAIR_OFF]), Answer::accepted(60)),
        (book(2, &[pair_off(1, 3, 80)]), Answer::accepted(80)),
        (book(2, &[pair_off(5, 3, 60)]), Answer::refused(11)),
        (book(2, &[pair_off(1, 5, 60)]), Answer::refused(11)),
        (book(2, &[pair_off(1, 65_539, 60)]), Answer::refused(11)),
        (book(2, &[pair_off(1, 3, 0)]), Answer::refused(12)),
        (book(2, &[pair_off(3, 1, 60)]), Answer::refused(16)),
        (book(1, &[pair_off(4, 3, 60)]), Answer::refused(17)),
        (book(1, &[PAIR_OFF]), Answer::refused(34)),
        (book(2, &[pair_off(1, 2, 60)]), Answer::refused(34)),
        (book(7, &[PRICE, Event::Attempt { short: 1 }, PAIR_OFF]), Answer::refused(18)),
        (book(7, &[PRICE, Event::Attempt { short: 4 }, PAIR_OFF]), Answer::accepted(60)),
        (book(2, &[pair_off(1, 3, 81)]), Answer::refused(24)),
        (book(2, &[PAIR_OFF, pair_off(1, 3, 21)]), Answer::refused(24)),
        (book(2, &[PAIR_OFF, pair_off(1, 3, 20)]), Answer::accepted(20)),
    ];
    for sheet in SHEETS {
        for (events, answer) in &cases {
            known(check, events, 0, sheet, if sheet >= 1_024 { *answer } else { Answer::refused(8) });
        }
    }
}

fn across_kinds(check: &mut Check) {
    let trade = |kinds: [u8; 2]| {
        let [seller, buyer] = kinds.map(|kind| Party { member: 1, kind });
        Event::Trade { security: 1, seller, buyer, quantity: 100, price: 1_000 }
    };
    for sheet in SHEETS {
        let if_enough = |quantity| if sheet >= 1_024 { Answer::accepted(quantity) } else { Answer::refused(8) };
        known(check, &[trade([0, 1])], 0, sheet, Answer::accepted(100));
        known(check, &[trade([1, 1])], 0, sheet, Answer::refused(14));
        known(check, &[trade([255, 255])], 0, sheet, Answer::refused(14));
        known(check, &[trade([0, 2])], 0, sheet, Answer::refused(33));
        // From own to client position 1 is the short, and from client to own position 2.
        let closed = |kinds, days, step| [vec![trade(kinds)], vec![Event::Close; days], vec![PRICE, step]].concat();
        known(check, &closed([0, 1], 2, DELIVERY), 0, sheet, if_enough(60));
        known(check, &closed([1, 0], 10, Event::Cash { short: 2 }), 0, sheet, if_enough(100));
    }
}

fn last_business_day(check: &mut Check) {
    for (closes, refusal) in CLOSES.into_iter().zip([0, 26, 26, 26]) {
        known(check, &[Event::Close], closes, 1_024, Answer::refused(refusal));
        known(check, &[Event::Close, Event::Close], closes, 1_024, Answer::refused(26));
        known(check, &[Event::Close, TRADE], closes, 1_024, Answer::accepted(100));
    }
    // Traded on day 9,997 it is due on the last day, traded on day 9,998 it never is.
    let history = [TRADE, Event::Close, Event::Close, DELIVERY, Event::Close];
    known(check, &history[..4], 9_996, 1_024, Answer::accepted(60));
    known(check, &history, 9_996, 1_024, Answer::refused(26));
    known(check, &history[..4], 9_997, 1_024, Answer::refused(17));
    known(check, &history, 9_995, 1_024, Answer::accepted(0));
    // Bought on day 9,997 the long is due on the last day, bought on day 9,998 it never is.
    let pair_off = [TRADE, Event::Close, PURCHASE, Event::Close, Event::Close, PAIR_OFF];
    known(check, &pair_off, 9_995, 1_024, Answer::accepted(60));
    known(check, &pair_off, 9_996, 1_024, Answer::refused(34));
}

fn last_buy_in_and_cash_settlement(check: &mut Check) {
    let offer = Event::Offer { short: 1, offerer: 3, quantity: 60, price: 1_200 };
    let [attempt, award] = [Event::Attempt { short: 1 }, Event::Award { short: 1 }];
    let confirm = Event::Confirm { award: 1 };
    let late = |days: usize, steps: &[Event]| [&[TRADE], &vec![Event::Close; days][..], &[PRICE], steps].concat();
    // Traded on day 9,992, the short is in its attempt window on the last day.
    known(check, &late(7, &[attempt]), 9_991, 1_023, Answer::accepted(0));
    known(check, &late(7, &[attempt, Event::Close]), 9_991, 1_024, Answer::refused(18));
    known(check, &late(7, &[attempt, offer, award]), 9_991, 1_023, Answer::accepted(60));
    known(check, &late(7, &[attempt, offer, award, confirm]), 9_991, 1_023, Answer::refused(8));
    known(check, &late(7, &[attempt, offer, award, confirm]), 9_991, 1_024, Answer::accepted(60));
    known(check, &late(7, &[attempt, award, Event::Close]), 9_991, 1_024, Answer::refused(26));
    // Traded on day 9,989, it can be settled in cash.
    known(check, &late(10, &[Event::Cash { short: 1 }]), 9_988, 1_024, Answer::accepted(100));
    known(check, &late(10, &[Event::Cash { short: 1 }]), 9_988, 1_023, Answer::refused(8));
}

fn prices_of_the_last_days(check: &mut Check) {
    let [attempt, cash] = [Event::Attempt { short: 1 }, Event::Cash { short: 1 }];
    // A trade, so many closes, a price, a close and the step.
    let steps = |days: usize, step| [&[TRADE], &vec![Event::Close; days][..], &[PRICE, Event::Close, step]].concat();
    known(check, &steps(6, attempt), 9_991, 1_024, Answer::refused(32));
    known(check, &steps(9, cash), 9_988, 1_024, Answer::refused(32));
    // A short sheet is the first reason.
    known(check, &steps(9, cash), 9_988, 1_023, Answer::refused(8));
    // The close of day 9,999 is refused, so the price is still of today.
    known(check, &steps(7, attempt), 9_991, 1_024, Answer::accepted(0));
    known(check, &steps(10, cash), 9_988, 1_024, Answer::accepted(100));
}

fn second(input: &[u8], closes: u32, sheet: u32) -> Answer {
    transcript::last_call(input, closes, sheet as usize).map(|answer| answer.quantity).into()
}

fn compare(check: &mut Check, input: &[u8], closes: u32, sheet: u32) {
    let words = || format!("{} after {closes} closes with {sheet} places", hex(input));
    check.same_answer(words, probe::last_call(input, closes, sheet), second(input, closes, sheet));
}

/// An answer known beforehand, wanted of `probe` and of the second implementation alike.
fn known(check: &mut Check, events: &[Event], closes: u32, sheet: u32, known: Answer) {
    let input = input(1, events);
    let words = || format!("{events:?} after {closes} closes with {sheet} places");
    check.known_answer(words, probe::last_call(&input, closes, sheet), second(&input, closes, sheet), known);
}
