//! Pages that are known beforehand: document 01's examples, the widths of the columns, and refusals.

use super::{compare, known, on_a_fitting_page, sizes, Given, LINE};
use crate::check::Check;
use crate::compare::player::{example, own_trade, squeeze};
use crate::compare::same;
use fails_book_tests::histories;
use fails_book_tests::histories::registers::different;
use fails_book_tests::random::Random;
use second::book::{GREATEST_QUANTITY, MOST_OFFERS};
use second::events::{file_of, Event, MOST_EVENTS, WIDTH};
use second::register::{self, bytes_of};

const PAGE_TOO_SHORT: u32 = 31;

pub const EXAMPLE: [&str; 2] = [
    "   1  1 XX0000000002 D       100       100         0         0         0     3 O",
    "   2  2 XX0000000002 R       100       100         0         0         0     3 O",
];

pub const SQUEEZE: [&str; 3] = [
    "   1  1 XX0000000002 D       150        30        30        90         0     3 O",
    "   2  2 XX0000000002 R       100        30        30        40         0     3 O",
    "   3  3 XX0000000002 R        50         0         0        50         0     3 O",
];

const NINE_DIGITS: [&str; 3] = [
    "   1 61 XX0000000002 R 512000000 101234567 110617248 200000000 100148185  1003 O",
    "   2 62 XX0000000002 D 312000000 101234567 110617248         0 100148185  1003 O",
    "   3 63 XX0000000002 D 200000000         0         0 200000000         0  1003 O",
];

/// Member 62 sells 312,000,000 units and member 63 sells 200,000,000, all to member 61. Of member 62's, 101,234,567 are
/// delivered and seven auctions buy in 16 times 987,654 each; member 63's are settled in cash.
pub fn nine_digits() -> Given {
    let trade = |seller| own_trade(seller, 61, GREATEST_QUANTITY, 1_000);
    let closes = |days| vec![Event::Close; days];
    let price = Event::Price { security: 1, price: 1_000 };
    let auction_day = [vec![price], auction(2, 1, &[987_654; MOST_OFFERS]), closes(10)].concat();
    let events = [
        closes(1_000),
        vec![trade(62); 312],
        vec![trade(63); 200],
        closes(2),
        vec![Event::Delivery { short: 2, quantity: 101_234_567 }],
        closes(27),
        auction_day.repeat(7),
        closes(3),
        vec![price, Event::Cash { short: 3 }],
    ];
    Given::on_one_security(2, &events.concat())
}

pub fn quantities_of_nine_digits(check: &mut Check) {
    around_the_length(check, &nine_digits(), &NINE_DIGITS);
}

/// An attempt on the short, offers of these quantities, their award, and the confirmation of every award.
pub fn auction(short: u16, offerer: u8, quantities: &[u32]) -> Vec<Event> {
    let offers = quantities.iter().map(|&quantity| Event::Offer { short, offerer, quantity, price: 1_000 }).collect();
    let confirmations = (1..).take(quantities.len()).map(|award| Event::Confirm { award }).collect();
    [vec![Event::Attempt { short }], offers, vec![Event::Award { short }], confirmations].concat()
}

/// Quantities in their column: the ends of each number of digits, as far as the trades of a book reach.
pub const QUANTITIES: [&str; 18] = [
    "        1",
    "        9",
    "       10",
    "       99",
    "      100",
    "      999",
    "     1000",
    "     9999",
    "    10000",
    "    99999",
    "   100000",
    "   999999",
    "  1000000",
    "  9999999",
    " 10000000",
    " 99999999",
    "100000000",
    "512000000",
];

/// The quantity left open, delivered, settled in cash and, where one auction can, bought in.
pub fn quantities_of_each_width(check: &mut Check) {
    let none = "        0";
    for quantity in QUANTITIES {
        let units = units_of(quantity);
        around_the_length(check, &left_open(units), &two_lines([quantity, none, none, none, quantity]));
        around_the_length(check, &delivered(units), &two_lines([quantity, quantity, none, none, none]));
        around_the_length(check, &settled_in_cash(units), &two_lines([quantity, none, none, quantity, none]));
        if parts(units).len() <= MOST_OFFERS {
            around_the_length(check, &bought_in(units), &two_lines([quantity, none, quantity, none, none]));
        }
    }
}

pub fn units_of(quantity: &str) -> u32 {
    quantity.trim_start().parse().expect("a quantity is a number")
}

/// The lines of a short of member 1 and a long of member 2, alike in their quantities.
fn two_lines(quantities: [&str; 5]) -> [String; 2] {
    let quantities = quantities.join(" ");
    ["   1  1 XX0000000002 D", "   2  2 XX0000000002 R"].map(|start| format!("{start} {quantities}     3 O"))
}

/// The units in quantities that a trade or an offer can have.
fn parts(units: u32) -> Vec<u32> {
    let whole = vec![GREATEST_QUANTITY; (units / GREATEST_QUANTITY) as usize];
    let rest = Some(units % GREATEST_QUANTITY).filter(|&rest| rest > 0);
    whole.into_iter().chain(rest).collect()
}

/// Member 1 sells the units to member 2 on day 1; the class is 1, and after the closes a price and the steps follow.
fn sold(units: u32, closes: usize, steps: &[Event]) -> Given {
    let trade = |quantity| own_trade(1, 2, quantity, 1_000);
    let trades: Vec<Event> = parts(units).into_iter().map(trade).collect();
    let price = Event::Price { security: 1, price: 1_000 };
    Given::on_one_security(1, &[&trades[..], &vec![Event::Close; closes], &[price], steps].concat())
}

pub fn left_open(units: u32) -> Given {
    sold(units, 1, &[])
}

pub fn delivered(units: u32) -> Given {
    sold(units, 2, &[Event::Delivery { short: 1, quantity: units }])
}

pub fn bought_in(units: u32) -> Given {
    sold(units, 7, &auction(1, 3, &parts(units)))
}

pub fn settled_in_cash(units: u32) -> Given {
    sold(units, 10, &[Event::Cash { short: 1 }])
}

/// Closes before the day of a trade, and the delivery day in its column. No file has enough closes for five digits.
pub const DELIVERY_DAYS: [(usize, &str); 8] = [
    (0, "    3"),
    (6, "    9"),
    (7, "   10"),
    (96, "   99"),
    (97, "  100"),
    (996, "  999"),
    (997, " 1000"),
    (MOST_EVENTS - 2, " 2049"),
];

pub fn delivery_days_of_each_width(check: &mut Check) {
    for (closes, delivery_day) in DELIVERY_DAYS {
        let lines = ["   1 10 XX0000000002 R", "   2 63 XX0000000002 D"]
            .map(|start| format!("{start}         7         0         0         0         7 {delivery_day} O"));
        around_the_length(check, &sold_after(closes), &lines);
    }
}

pub fn sold_after(closes: usize) -> Given {
    let trade = own_trade(63, 10, 7, 1_000);
    Given::on_one_security(3, &[&vec![Event::Close; closes][..], &[trade, Event::Close]].concat())
}

/// Lines of the book of 1,024 positions by their first columns. Members 1 to 16 have sold and members 48 to 63 bought,
/// each in all of the 32 securities.
const STARTS: [&str; 14] = [
    "   1  1 ", "   9  1 ", "  10  1 ", "  32  1 ", "  33  2 ", "  99  4 ", " 100  4 ", " 288  9 ", " 289 10 ",
    " 512 16 ", " 513 48 ", " 999 63 ", "1000 63 ", "1024 63 ",
];

pub fn most_positions(check: &mut Check) {
    let mut random = Random::new(0, "1,024 positions");
    let given = Given::parted(&histories::full_book_in_cash(&mut random));
    for size in given.sizes() {
        compare(check, &mut random, &given, size);
    }
    let written = on_a_fitting_page(&given, 1_024);
    same(check, || "1,024 positions".to_string(), written.answer, 1_024 * 81);
    for start in STARTS {
        let number: usize = start[..4].trim_start().parse().expect("a line starts with a number");
        let found = String::from_utf8_lossy(&written.page()[(number - 1) * LINE..][..start.len()]).into_owned();
        same(check, || format!("line {number}"), found, start.to_string());
    }
}

pub fn books_without_positions(check: &mut Check) {
    let mut random = Random::new(0, "no positions");
    let trade = |seller, buyer| own_trade(seller, buyer, 100, 1_000);
    let refused =
        [trade(1, 64), trade(1, 1), Event::Delivery { short: 1, quantity: 1 }, Event::Attempt { short: 1 }].repeat(512);
    let books = [
        vec![],
        vec![trade(1, 2)],
        vec![trade(1, 2), trade(2, 3), Event::Price { security: 1, price: 1_000 }],
        vec![Event::Close; MOST_EVENTS],
        // What is bought is sold again.
        vec![trade(1, 2), trade(2, 1), Event::Close],
        refused.clone(),
        [&refused[..9], &[Event::Close]].concat(),
    ];
    for events in books {
        for size in [0, 1, 2, 80, 81, 82, 1_000] {
            known(check, &mut random, &Given::on_one_security(1, &events), size, Ok(""));
        }
    }
}

/// Registers and files of the squeeze with each fault, and pages that are too short or not: the first refusal answers.
pub fn refusals_in_order(check: &mut Check) {
    let mut random = Random::new(0, "refusals in order");
    let text = text_of(&SQUEEZE);
    for (register, refused_register) in faulty_registers() {
        for (file, refused_file) in faulty_files() {
            let given = Given { register: register.clone(), file };
            for size in [0, 1, 81, text.len() - 1, text.len(), text.len() + 1, 1_000] {
                let refused_page = (size < text.len()).then_some(PAGE_TOO_SHORT);
                let refusal = refused_register.or(refused_file).or(refused_page);
                known(check, &mut random, &given, size, refusal.map_or(Ok(&text), Err));
            }
        }
    }
}

/// Registers, each with its refusal. The squeeze needs the first entry alone.
pub fn faulty_registers() -> Vec<(Vec<u8>, Option<u32>)> {
    let [first, other] = [*b"XX0000000002", *b"DE0007164600"];
    let sound = bytes_of(&[(1, first), (2, other)]);
    vec![
        (sound.clone(), None),
        (vec![], Some(1)),
        (bytes_of(&[]), Some(1)),
        ([&sound[..], &[0]].concat(), Some(1)),
        (sound[..sound.len() - 1].to_vec(), Some(1)),
        (bytes_of(&[(0, *b"XX0000000003"), (2, other)]), Some(2)),
        (bytes_of(&[(1, first), (4, first)]), Some(2)),
        (bytes_of(&[(1, *b"XX0000000003"), (4, other)]), Some(3)),
        (bytes_of(&[(1, first), (2, *b"DE0007164601")]), Some(3)),
        (bytes_of(&[(1, first), (2, first)]), Some(4)),
    ]
}

/// Files of the squeeze, each with its refusal.
pub fn faulty_files() -> Vec<(Vec<u8>, Option<u32>)> {
    let sound = file_of(&squeeze());
    let changed = |changes: &[(usize, u8)]| {
        let mut file = sound.clone();
        changes.iter().for_each(|&(at, byte)| file[at] = byte);
        file
    };
    let (kinds, bodies, last) = (4, 4 + squeeze().len(), sound.len() - 1);
    vec![
        (sound.clone(), None),
        (vec![], Some(5)),
        ([&sound[..], &[0]].concat(), Some(5)),
        (sound[..last].to_vec(), Some(5)),
        (changed(&[(0, 20)]), Some(5)),
        (changed(&[(2, 17), (kinds, 0)]), Some(5)),
        (changed(&[(kinds, 0)]), Some(6)),
        (changed(&[(bodies - 1, 11), (last, 1)]), Some(6)),
        (changed(&[(last, 1)]), Some(7)),
        (changed(&[(bodies + WIDTH - 1, 1), (kinds + 1, 0)]), Some(7)),
    ]
}

/// A register with bytes too many or too few, and arguments that are each other's, both the same or empty.
pub fn other_bytes(check: &mut Check) {
    let mut random = Random::new(0, "other bytes");
    let file = file_of(&example());
    for count in 1..=register::MOST_SECURITIES {
        let register = bytes_of(&different(&mut random, count));
        let cases = [
            ([&register[..], &[0]].concat(), &file[..], 1),
            ([&register[..], &file].concat(), &file, 1),
            (register[..register.len() - 1].to_vec(), &file, 1),
            (register[..register.len() - 13].to_vec(), &file, 1),
            (file.clone(), &register, 1),
            (file.clone(), &file, 1),
            (vec![], &file, 1),
            (vec![], &[], 1),
            // The width of such a file would be two classes, or a class and a letter.
            (register.clone(), &register, 5),
            (register.clone(), &[], 5),
            (register.clone(), &file[1..], 5),
        ];
        for (register, file, refusal) in cases {
            let given = Given { register, file: file.to_vec() };
            for size in [0, 1, 2 * LINE - 1, 2 * LINE, 1_000] {
                known(check, &mut random, &given, size, Err(refusal));
            }
        }
    }
}

fn text_of(lines: &[impl AsRef<str>]) -> String {
    lines.iter().map(|line| format!("{}\n", line.as_ref())).collect()
}

/// Lines known beforehand, on pages of each length up to one that is longer than they are.
pub fn pages_of_each_length(check: &mut Check, events: &[Event], lines: &[&str]) {
    let mut random = Random::new(0, "pages of each length");
    let given = Given::on_one_security(1, events);
    for size in 0..=lines.len() * LINE + 2 * LINE {
        known_lines(check, &mut random, &given, size, lines);
    }
}

/// Lines known beforehand, on pages that are just long enough or just not.
pub fn around_the_length(check: &mut Check, given: &Given, lines: &[impl AsRef<str>]) {
    let mut random = Random::new(0, "pages around the length");
    for size in sizes(lines.len()) {
        known_lines(check, &mut random, given, size, lines);
    }
}

fn known_lines(check: &mut Check, random: &mut Random, given: &Given, size: usize, lines: &[impl AsRef<str>]) {
    let enough = size >= lines.len() * LINE;
    let text = text_of(lines);
    known(check, random, given, size, if enough { Ok(&text) } else { Err(PAGE_TOO_SHORT) });
}
