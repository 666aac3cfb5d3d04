//! How old a price is: what the player answers where the latest price is of an earlier day, and the latest price of a
//! security with the day on which it was given, as `probe` reads them.

use super::page::{arguments, faulty_files, faulty_registers, Given};
use super::player::{input, known as known_lines, own_trade, squeeze};
use crate::check::{Check, Round, Tests};
use crate::probe;
use fails_book_tests::desk::Answer;
use fails_book_tests::histories;
use fails_book_tests::histories::registers::different;
use fails_book_tests::random::Random;
use second::book::{LatestPrice, GREATEST_PRICE, MOST_ATTEMPTS};
use second::events::{file_of, Event, MOST_EVENTS};
use second::register::{bytes_of, MOST_SECURITIES};
use second::transcript;
use tools::text;

const HISTORIES: usize = 600;
const LONG_HISTORIES: usize = 8;

pub fn exhaustive(tests: &mut Tests) {
    known_events(tests);
    tests.check("latest price: the squeeze, cut after each event", &[0, 10], squeeze_cut_off);
    tests.check("latest price: known prices", &[0, 10], known_prices);
    tests.check("latest price: a security for each day", &[0, 10], a_security_for_each_day);
    tests.check("latest price: each refusal before the later ones", &REACHABLE, refusals_in_order);
}

/// All that a read can be refused for, and 0 for one that is not.
const REACHABLE: [u32; 9] = [0, 1, 2, 3, 4, 5, 6, 7, 10];

pub fn seeded(round: &mut Round) {
    round.check("latest price: histories", &[0, 10], |check, random| {
        let mut found = Found::default();
        for _ in 0..HISTORIES {
            found.add(each_security(check, &Given::parted(&histories::any(random))));
        }
        for which in 0..LONG_HISTORIES {
            found.add(each_security(check, &Given::parted(&histories::long(random, which))));
        }
        check.reached("a security that never had a price", found.never);
        check.reached("a price of the last day", found.of_today);
        check.reached("a price of an earlier day", found.of_earlier_days);
    });
    round.check("latest price: damaged registers and files", &REACHABLE, |check, random| {
        for _ in 0..1_500 {
            let (given, _) = arguments::damaged(random);
            each_security(check, &given);
        }
    });
    round.check("latest price: random bytes", &[0, 1, 2, 3, 5, 6, 7, 10], |check, random| {
        for _ in 0..2_000 {
            each_security(check, &arguments::of_random_bytes(random));
        }
    });
}

/// Events in text, each with what the player prints of it after its number; several closes print it each.
pub type Answered<'a> = (&'a str, &'a str);

fn known_events(tests: &mut Tests) {
    tests.check(
        "age of a price: of yesterday, refused at an attempt and in cash, and fined by",
        &[0, 13, 32],
        |check| {
            answers(check, &[1], &OF_YESTERDAY, "s 1 1 D 100 0 0 0 0 100\ns 2 2 R 100 0 0 0 0 100\na 0 57\na 1 -57\n");
        },
    );
    tests.check("age of a price: of today after one of yesterday", &[0, 22, 32], |check| {
        let end = "s 1 1 D 100 0 0 100 0 0\ns 2 2 R 100 0 0 100 0 0\na 0 125043\na 1 -285043\na 2 260000\n\
                   a 3 -100000\n";
        answers(check, &[1], &OF_TODAY, end);
    });
    tests.check("age of a price: two on one day, of which the later counts", &[0, 22], |check| {
        let end = "s 1 1 D 100 0 60 40 0 0\ns 2 2 R 100 0 60 40 0 0\na 0 97012\na 1 -201012\na 2 104000\n";
        answers(check, &[1], &TWO_ON_ONE_DAY, end);
    });
    tests.check("age of a price: old, and nothing open", &[0, 24, 32], |check| {
        answers(check, &[1], &NOTHING_OPEN, "s 1 1 D 100 100 0 0 0 0\ns 2 2 R 100 100 0 0 0 0\n");
    });
    tests.check("age of a price: none, beside a security that has one", &[0, 19], |check| {
        let end = "s 1 1 D 100 0 0 100 0 0\ns 2 2 R 100 0 0 100 0 0\na 0 25000\na 1 -225000\na 2 200000\n";
        answers(check, &[1, 1], &NEVER, end);
    });
    tests.check("age of a price: old, and an earlier reason", &[0, 16, 17, 18, 20, 32], |check| {
        let positions = "s 1 1 D 100 0 0 0 0 100\ns 2 2 R 100 0 0 0 0 100\ns 3 3 D 100 0 0 0 0 100\n\
                         s 4 4 R 100 0 0 0 0 100\n";
        answers(check, &[1, 1], &EARLIER_REASONS, &format!("{positions}a 0 100\na 1 -50\na 3 -50\n"));
    });
    tests.check("age of a price: old, in classes 2 and 3", &[0, 32], |check| {
        let settled = "s 1 1 D 100 0 0 100 0 0\ns 2 2 R 100 0 0 100 0 0\n";
        let end = "s 3 3 D 100 0 0 0 0 100\ns 4 4 R 100 0 0 0 0 100\na 0 25000\na 1 -225000\na 2 200000\n";
        answers(check, &[2, 3], &OTHER_CLASSES, &format!("{settled}{end}"));
    });
    tests.check("age of a price: old, at a seventeenth attempt", &[0, 19, 20, 32], seventeenth_attempt);
}

/// A price of day 7 on days 8 and 9, and one of day 10 on day 11. The late fines are 11 cents on days 7 to 9 and 12 on
/// days 10 and 11, by whichever price is the latest.
const OF_YESTERDAY: [Answered; 14] = [
    ("trade 1 2 1 100 1000", "0 100"),
    ("close 6", "0 0"),
    ("price 1 1100", "0 0"),
    ("close", "0 0"),
    ("attempt 1", "32 0"),
    // A price that is refused is not given.
    ("price 1 0", "13 0"),
    ("attempt 1", "32 0"),
    ("close", "0 0"),
    ("attempt 1", "32 0"),
    ("close", "0 0"),
    ("price 1 1150", "0 0"),
    ("close", "0 0"),
    ("cash 1", "32 0"),
    ("close", "0 0"),
];

/// On day 8 the ceiling is 2,200, by the price of that day, and on day 11 the cash price is 2,600. The late fines are
/// 10 cents on day 7 and 11 on days 8 to 10; the award is fined with 100,000.
const OF_TODAY: [Answered; 14] = [
    ("trade 1 2 1 100 1000", "0 100"),
    ("close 6", "0 0"),
    ("price 1 1000", "0 0"),
    ("close", "0 0"),
    ("attempt 1", "32 0"),
    ("price 1 1100", "0 0"),
    ("attempt 1", "0 0"),
    ("offer 1 3 100 2201", "22 0"),
    ("offer 1 3 100 2200", "0 100"),
    ("award 1", "0 100"),
    ("close 3", "0 0"),
    ("cash 1", "32 0"),
    ("price 1 1300", "0 0"),
    ("cash 1", "0 100\np 1 2 100 260000"),
];

/// The later price is the lower one on day 8, and the higher one on day 11. The late fines are 4 cents on days 8 to 10.
const TWO_ON_ONE_DAY: [Answered; 13] = [
    ("trade 1 2 1 100 1000", "0 100"),
    ("close 7", "0 0"),
    ("price 1 1500", "0 0"),
    ("price 1 1100", "0 0"),
    ("attempt 1", "0 0"),
    ("offer 1 3 60 2201", "22 0"),
    ("offer 1 3 60 2200", "0 60"),
    ("award 1", "0 60"),
    ("confirm 1", "0 60\np 1 2 60 0"),
    ("close 3", "0 0"),
    ("price 1 900", "0 0"),
    ("price 1 1300", "0 0"),
    ("cash 1", "0 40\np 1 2 40 104000"),
];

const NOTHING_OPEN: [Answered; 12] = [
    ("trade 1 2 1 100 1000", "0 100"),
    ("price 1 1000", "0 0"),
    ("close 2", "0 0"),
    ("delivery 1 100", "0 100\np 1 2 100 0"),
    ("close 5", "0 0"),
    ("attempt 1", "32 0"),
    ("price 1 1000", "0 0"),
    ("attempt 1", "24 0"),
    ("close 3", "0 0"),
    ("cash 1", "32 0"),
    ("price 1 1000", "0 0"),
    ("cash 1", "24 0"),
];

/// Without a price of its own, a short is not fined.
const NEVER: [Answered; 10] = [
    ("trade 1 2 1 100 1000", "0 100"),
    ("price 2 1100", "0 0"),
    ("close 7", "0 0"),
    ("price 2 1100", "0 0"),
    ("attempt 1", "19 0"),
    ("close 3", "0 0"),
    ("price 2 1100", "0 0"),
    ("cash 1", "19 0"),
    ("price 1 1000", "0 0"),
    ("cash 1", "0 100\np 1 2 100 200000"),
];

/// Shorts 1 and 3 are fined with 10 cents each on days 3 to 7, by the prices of day 1.
const EARLIER_REASONS: [Answered; 16] = [
    ("trade 1 2 1 100 1000", "0 100"),
    ("trade 3 4 2 100 1000", "0 100"),
    ("price 1 1000", "0 0"),
    ("price 2 1000", "0 0"),
    ("close 7", "0 0"),
    // Another security's price makes none of this one's.
    ("price 2 1000", "0 0"),
    ("attempt 1", "32 0"),
    ("attempt 3", "0 0"),
    ("attempt 1", "18 0"),
    ("award 3", "0 0"),
    ("attempt 2", "16 0"),
    ("cash 1", "17 0"),
    ("price 1 1000", "0 0"),
    ("attempt 1", "0 0"),
    ("award 1", "0 0"),
    ("attempt 1", "20 0"),
];

/// Prices of day 29 on day 30, and one of day 30 on day 33. These classes have no late fines.
const OTHER_CLASSES: [Answered; 19] = [
    ("trade 1 2 1 100 1000", "0 100"),
    ("trade 3 4 2 100 1000", "0 100"),
    ("price 1 1000", "0 0"),
    ("close 28", "0 0"),
    ("price 1 1000", "0 0"),
    ("price 2 1000", "0 0"),
    ("close", "0 0"),
    ("attempt 1", "32 0"),
    ("attempt 3", "32 0"),
    ("price 2 1000", "0 0"),
    ("attempt 3", "0 0"),
    ("award 3", "0 0"),
    ("attempt 1", "32 0"),
    ("close 3", "0 0"),
    ("cash 1", "32 0"),
    ("cash 3", "32 0"),
    ("price 1 1000", "0 0"),
    ("cash 1", "0 100\np 1 2 100 200000"),
    ("cash 3", "32 0"),
];

/// Shorts 1 to 17 are in security 1, which has a price of the day, short 18 in security 2 with an old one, and short 19
/// in security 3, which never had one.
fn seventeenth_attempt(check: &mut Check) {
    let trades = (1..=19).map(|seller| {
        let security = [1, 2, 3][(seller as usize).saturating_sub(17)];
        (format!("trade {seller} 20 {security} 1 1"), "0 1")
    });
    let auctions = (1..=MOST_ATTEMPTS).flat_map(|short| {
        let [attempt, award] = ["attempt", "award"].map(|word| (format!("{word} {short}"), "0 0"));
        [attempt, award]
    });
    let before = [("price 2 1", "0 0"), ("close 7", "0 0"), ("price 1 1", "0 0")];
    let after = [
        ("attempt 17", "20 0"),
        ("attempt 18", "32 0"),
        ("attempt 19", "19 0"),
        ("attempt 1", "20 0"),
        ("price 2 1", "0 0"),
        ("attempt 18", "20 0"),
    ];
    let [before, after] =
        [&before[..], &after].map(|events| events.iter().map(|&(event, lines)| (event.to_string(), lines)));
    let events: Vec<(String, &str)> = trades.chain(before).chain(auctions).chain(after).collect();
    let events: Vec<Answered> = events.iter().map(|(event, lines)| (event.as_str(), *lines)).collect();
    let shorts: String = (1..=19).map(|number| format!("s {number} {number} D 1 0 0 0 0 1\n")).collect();
    let longs = "s 20 20 R 17 0 0 0 0 17\ns 21 20 R 1 0 0 0 0 1\ns 22 20 R 1 0 0 0 0 1\n";
    answers(check, &[1, 1, 1], &events, &format!("{shorts}{longs}"));
}

const ISINS: [&str; 3] = ["XX0000000002", "XX0000000010", "XX0000000028"];

/// The player's input: a register of these classes, and the events.
pub fn input_of(classes: &[u8], events: &[Answered]) -> Vec<u8> {
    let securities = classes.iter().zip(ISINS).map(|(class, isin)| format!("security {class} {isin}\n"));
    let text: String = securities.chain(events.iter().map(|(event, _)| format!("{event}\n"))).collect();
    text::read(text.as_bytes()).map(|input| input.bytes()).expect("the text has no mistake")
}

/// What is to be printed of the events, and these lines at the end.
pub fn printed(events: &[Answered], end: &str) -> String {
    let each = events.iter().flat_map(|(event, lines)| {
        let times = event.strip_prefix("close ").map_or(1, |count| count.parse().expect("closes are counted"));
        std::iter::repeat_n(lines, times)
    });
    let lines: String = each.zip(1..).map(|(lines, number)| format!("e {number} {lines}\n")).collect();
    lines + end
}

/// Wants the player to answer each event with what stands beside it, and to print these lines at the end.
pub fn answers(check: &mut Check, classes: &[u8], events: &[Answered], end: &str) {
    known_lines(check, &input_of(classes, events), printed(events, end));
}

/// The numbers of so many securities, and numbers that none of them has: 0, the next one, 257 and 65,535.
fn securities(count: usize) -> impl Iterator<Item = u16> {
    (0..=count as u16 + 1).chain([257, u16::MAX])
}

/// As `probe` answers: price times 65,536 plus the day on which it was given, which no refusal is.
fn packed(price: u32, day: u16) -> u64 {
    u64::from(price) * 65_536 + u64::from(day)
}

fn second(given: &Given, security: u16) -> u64 {
    match transcript::latest_price(&given.register, &given.file, security) {
        Ok(Some(LatestPrice { price, day })) => packed(price, day),
        Ok(None) => 0,
        Err(refusal) => refusal as u64,
    }
}

fn count(check: &mut Check, answer: u64) {
    check.count(match u32::try_from(answer) {
        Ok(refusal @ 1..65_536) => Answer::refused(refusal),
        _ => Answer::accepted(0),
    });
}

fn words(given: &Given, security: u16) -> String {
    format!("security {security}, {}", given.words())
}

/// An answer known beforehand, wanted of `probe` and of the second implementation alike.
fn known(check: &mut Check, given: &Given, security: u16, known: u64) {
    count(check, known);
    let first = probe::latest_price(&given.register, &given.file, security);
    check.known(|| words(given, security), first, second(given, security), known);
}

/// The reads of securities by what they found.
#[derive(Default)]
struct Found {
    never: u64,
    of_today: u64,
    of_earlier_days: u64,
}

impl Found {
    fn add(&mut self, other: Found) {
        self.never += other.never;
        self.of_today += other.of_today;
        self.of_earlier_days += other.of_earlier_days;
    }
}

/// Compares the reads of every registered security and of numbers that none has.
fn each_security(check: &mut Check, given: &Given) -> Found {
    let mut found = Found::default();
    let played = given.played();
    let (registered, today) = played.map_or((1, 0), |(securities, book)| (securities.len(), u64::from(book.day)));
    for security in securities(registered) {
        let [first, second] = [probe::latest_price(&given.register, &given.file, security), second(given, security)];
        count(check, second);
        check.same(|| words(given, security), first, second);
        match second {
            0 => found.never += 1,
            1..65_536 => {}
            _ if second % 65_536 == today => found.of_today += 1,
            _ => found.of_earlier_days += 1,
        }
    }
    found
}

/// The prices are events 3, 13 and 22, on days 1, 8 and 11.
fn squeeze_cut_off(check: &mut Check) {
    for events in 0..=squeeze().len() {
        let given = Given::parted(&input(1, &squeeze()[..events]));
        let wanted = match events {
            0..3 => 0,
            3..13 => packed(1_100, 1),
            13..22 => packed(1_100, 8),
            _ => packed(1_100, 11),
        };
        for security in securities(1) {
            known(check, &given, security, if security == 1 { wanted } else { 10 });
        }
    }
}

fn known_prices(check: &mut Check) {
    let price = |security, price| Event::Price { security, price };
    let last_day = [vec![Event::Close; MOST_EVENTS - 1], vec![price(1, GREATEST_PRICE)]].concat();
    let cases = [
        (vec![price(1, 1)], packed(1, 1)),
        (last_day, packed(GREATEST_PRICE, 2_048)),
        // The later of two prices of a day, and the later day's though it is lower.
        (vec![price(1, 2_000), price(1, 1_000)], packed(1_000, 1)),
        (vec![price(1, 2_000), Event::Close, price(1, 1_000)], packed(1_000, 2)),
        // The same price again is of its own day; without one, the day goes on alone.
        (vec![price(1, 1_000), Event::Close, price(1, 1_000)], packed(1_000, 2)),
        (vec![price(1, 1_000), Event::Close, Event::Close], packed(1_000, 1)),
        // What is refused leaves the price as it was, and so does a trade.
        (vec![price(1, 0), price(1, GREATEST_PRICE + 1), price(2, 1), price(0, 1)], 0),
        (vec![price(1, 1_000), Event::Close, price(1, 0), price(2, 1), price(257, 1)], packed(1_000, 1)),
        (vec![own_trade(1, 2, 1, 1_000), Event::Close], 0),
    ];
    for (events, wanted) in cases {
        let given = Given::parted(&input(1, &events));
        for security in securities(1) {
            known(check, &given, security, if security == 1 { wanted } else { 10 });
        }
    }
}

/// On each day the next security gets a price, and then each second one another, a day apart.
fn a_security_for_each_day(check: &mut Check) {
    let random = &mut Random::new(0, "a security for each day");
    let price = |security: usize, price: u32| Event::Price { security: security as u16, price };
    let mut events = Vec::new();
    let mut wanted = [0; MOST_SECURITIES + 1];
    let later = (2..=MOST_SECURITIES).step_by(2);
    for (security, day) in (1..=MOST_SECURITIES).chain(later).zip(1..) {
        let cents = 1_000 * security as u32 + u32::from(day);
        events.extend([price(security, cents), Event::Close]);
        wanted[security] = packed(cents, day);
    }
    let given = Given { register: bytes_of(&different(random, MOST_SECURITIES)), file: file_of(&events) };
    for security in securities(MOST_SECURITIES) {
        let registered = (1..=MOST_SECURITIES).contains(&usize::from(security));
        known(check, &given, security, if registered { wanted[usize::from(security)] } else { 10 });
    }
}

/// Registers and files of the squeeze with each fault; the register has a second security, which gets no price.
fn refusals_in_order(check: &mut Check) {
    for (register, refused_register) in faulty_registers() {
        for (file, refused_file) in faulty_files() {
            let given = Given { register: register.clone(), file };
            for security in securities(2) {
                let read = match security {
                    1 => packed(1_100, 11),
                    2 => 0,
                    _ => 10,
                };
                let refused = refused_register.or(refused_file).map(u64::from);
                known(check, &given, security, refused.unwrap_or(read));
            }
        }
    }
}
