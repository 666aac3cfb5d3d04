//! A play in words: the examples, each reason for a refusal, charges that add up to the player's accounts, and outputs
//! that are not the player's.

mod pair_offs;

use super::{hex, kind_name, same};
use crate::check::{Check, Round, Tests};
use fails_book_tests::histories;
use fails_book_tests::histories::terms::Terms;
use fails_book_tests::random::Random;
use second::book::{Book, Business, Piece, Position, SHEET_PLACES};
use second::events::{Event, Party};
use second::refusal::Refusal;
use second::transcript;
use std::collections::BTreeMap;
use tools::check::Source;
use tools::output;
use tools::played::{Kind, Played, Refused};
use tools::words;

/// An example's name, its text, the player's output and the words.
const EXAMPLES: [(&str, &str, &str, &str); 4] = [
    (
        "example",
        include_str!("../../../examples/example.txt"),
        include_str!("../../../examples/example.out"),
        include_str!("../../../examples/example.words"),
    ),
    (
        "squeeze",
        include_str!("../../../examples/squeeze.txt"),
        include_str!("../../../examples/squeeze.out"),
        include_str!("../../../examples/squeeze.words"),
    ),
    (
        "kinds",
        include_str!("../../../examples/kinds.txt"),
        include_str!("../../../examples/kinds.out"),
        include_str!("../../../examples/kinds.words"),
    ),
    (
        "pairoff",
        include_str!("../../../examples/pairoff.txt"),
        include_str!("../../../examples/pairoff.out"),
        include_str!("../../../examples/pairoff.words"),
    ),
];

pub fn exhaustive(tests: &mut Tests) {
    tests.check("words: the examples", &[], |check| {
        for (name, text, output, words) in EXAMPLES {
            same(check, || name.to_string(), words_of(text, output.as_bytes()), Ok(words.to_string()));
        }
    });
    tests.check("words: the README's example", &[], readme);
    tests.check("words: known lines", &[], known_lines);
    tests.check("words: the price of a cash settlement, of one, three and 61 longs", &[], known_prices);
    tests.check("words: each reason for a refusal", &[], |check| {
        for (events, line) in REASONS {
            same(check, || events.to_string(), last_refusal(events), Ok(line.to_string()));
        }
    });
    tests.check("words: outputs cut off at each byte", &[], |check| {
        for (name, text, output, _) in EXAMPLES {
            for length in 0..output.len() {
                let found = words_of(text, &output.as_bytes()[..length]).is_err();
                same(check, || format!("{length} bytes of {name}.out"), found, true);
            }
        }
    });
    tests.check("words: outputs of other inputs", &[], other_outputs);
    tests.check("words: accounts that the charges do not add up to", &[], other_accounts);
}

pub fn seeded(round: &mut Round) {
    round.check("words: charges add up to the accounts", &[], |check, random| {
        let mut charged = 0;
        for _ in 0..400 {
            charged += u64::from(adds_up(check, &histories::any(random)));
        }
        for which in 0..4 {
            charged += u64::from(adds_up(check, &histories::long(random, which)));
        }
        check.reached("an account that is charged", charged);
    });
    round.check("words: the kind of each position and side", &[], kinds_of_histories);
    round.check("words: the terms of cash prices", &[], |check, random| {
        let [mut payments, mut of_several] = [0, 0];
        for which in 0..404 {
            let input = if which < 400 { histories::any(random) } else { histories::long(random, which) };
            for numbers in terms_in_words(check, &input) {
                payments += 1;
                of_several += u64::from(numbers.len() == MOST_NUMBERS);
            }
        }
        check.reached("a payment", payments);
        check.reached("a payment of a settlement with several longs in class 3", of_several);
    });
    round.check("words: pair-offs", &[], pair_offs::of_histories);
    round.check("words: outputs changed in one place", &[], |check, random| {
        for _ in 0..200 {
            let input = histories::any(random);
            changed_outputs(check, random, &input);
        }
    });
}

/// Events on a register of one security of each class, and the line of words that the last refused one gets.
const REASONS: [(&str, &str); 73] = [
    ("trade 0 64 1 1 1", "trade: member 0 own sells 1 unit of security 1 at 1 to member 64 own: refused, the seller 0 is not a member from 1 to 63, and the buyer 64 is not a member from 1 to 63 (9)"),
    ("trade 1 64 1 1 1", "trade: member 1 own sells 1 unit of security 1 at 1 to member 64 own: refused, the buyer 64 is not a member from 1 to 63 (9)"),
    ("trade 1 2 4 1 1", "trade: member 1 own sells 1 unit of security 4 at 1 to member 2 own: refused, security 4 is not registered; the register has 3 securities (10)"),
    ("price 0 1", "price of 1 for security 0: refused, security 0 is not registered; the register has 3 securities (10)"),
    ("delivery 1 1", "delivery of 1 from position 1: refused, position 1 is not there; there is none yet (11)"),
    ("trade 1 2 1 1 1\nclose\ncash 3", "cash settlement of position 3: refused, position 3 is not there; there are positions 1 to 2 (11)"),
    ("confirm 1", "confirmation of award 1: refused, award 1 is not there; none was made today (11)"),
    ("AUCTION\nconfirm 2", "confirmation of award 2: refused, award 2 is not there; today has award 1 alone (11)"),
    ("trade 1 2 1 0 1", "trade: member 1 own sells 0 units of security 1 at 1 to member 2 own: refused, the quantity is 0 (12)"),
    ("trade 1 2 1 1000001 1", "trade: member 1 own sells 1,000,001 units of security 1 at 1 to member 2 own: refused, the quantity is above 1,000,000 (12)"),
    ("DUE\ndelivery 1 0", "delivery of 0 from position 1: refused, the quantity is 0 (12)"),
    ("price 1 0", "price of 0 for security 1: refused, the price is 0 (13)"),
    ("price 1 10000001", "price of 10,000,001 for security 1: refused, the price is above 10,000,000 (13)"),
    ("trade 1 1 1 1 1", "trade: member 1 own sells 1 unit of security 1 at 1 to member 1 own: refused, seller is buyer, both sides own (14)"),
    ("trade 1 client 1 client 1 1 1", "trade: member 1 client sells 1 unit of security 1 at 1 to member 1 client: refused, seller is buyer, both sides client (14)"),
    ("trade 1 kind 7 1 kind 7 1 1 1", "trade: member 1 kind 7 sells 1 unit of security 1 at 1 to member 1 kind 7: refused, seller is buyer, both sides kind 7 (14)"),
    ("trade 1 kind 7 1 kind 8 1 1 1", "trade: member 1 kind 7 sells 1 unit of security 1 at 1 to member 1 kind 8: refused, the seller's kind is 7, not own or client, and the buyer's kind is 8, not own or client (33)"),
    ("trade 1 kind 2 2 1 1 1", "trade: member 1 kind 2 sells 1 unit of security 1 at 1 to member 2 own: refused, the seller's kind is 2, not own or client (33)"),
    ("trade 1 client 2 kind 255 1 1 1", "trade: member 1 client sells 1 unit of security 1 at 1 to member 2 kind 255: refused, the buyer's kind is 255, not own or client (33)"),
    ("FULL\ntrade 1 client 2 1 1 1", "trade: member 1 client sells 1 unit of security 1 at 1 to member 2 own: refused, 512 trades are held (15)"),
    ("FULL\ntrade 1 2 kind 2 1 1 1", "trade: member 1 own sells 1 unit of security 1 at 1 to member 2 kind 2: refused, the buyer's kind is 2, not own or client (33)"),
    ("FULL\ntrade 1 2 1 1 1", "trade: member 1 own sells 1 unit of security 1 at 1 to member 2 own: refused, 512 trades are held (15)"),
    ("DUE\ndelivery 2 1", "delivery of 1 from position 2: refused, position 2 is long (16)"),
    ("trade 1 2 1 1 1\nclose\ndelivery 1 1", "delivery of 1 from position 1: refused, outside the window: the position falls due on day 3 (17)"),
    ("DUE\nattempt 1", "attempt on position 1: refused, outside the window: today is 0 days after the delivery day, 3, and an attempt is made on days 5 to 7 after it (17)"),
    ("DUE\nclose\ncash 1", "cash settlement of position 1: refused, outside the window: today is 1 day after the delivery day, 3, and a cash settlement is made from day 8 after it on (17)"),
    ("trade 1 2 2 1 1\nclose\nattempt 1", "attempt on position 1: refused, outside the window: the position falls due on day 3, and an attempt is made on days 27, 37, 47 and so on after it (17)"),
    ("trade 1 2 3 1 1\nclose\ncash 1", "cash settlement of position 1: refused, outside the window: the position falls due on day 3, and a cash settlement is made on days 30 to 36, 40 to 46, 50 to 56 and so on after it (17)"),
    ("OPEN\nattempt 3", "attempt on position 3: refused, an auction runs, on position 1 (18)"),
    ("OPEN\nclose", "close of day 8: refused, an auction runs, on position 1 (18)"),
    ("OPEN\ndelivery 1 1", "delivery of 1 from position 1: refused, the auction runs on position 1 (18)"),
    ("OPEN\naward 3", "award on position 3: refused, the auction runs on position 1 and not on position 3 (18)"),
    ("DUE\noffer 1 3 1 1", "offer on position 1: member 3 offers 1 unit at 1: refused, no auction runs, so none on position 1 (18)"),
    ("DUE\nclose 5\nattempt 1", "attempt on position 1: refused, security 1 never had a price (19)"),
    ("price 1 100\nDUE\nclose 5\nattempt 1", "attempt on position 1: refused, the latest price of security 1 is of day 1, and today is day 8 (32)"),
    ("DUE\nclose 7\nprice 1 100\nclose\ncash 1", "cash settlement of position 1: refused, the latest price of security 1 is of day 10, and today is day 11 (32)"),
    ("close 1000\ntrade 1 2 2 1 1\nprice 2 100\nclose 29\nattempt 1", "attempt on position 1: refused, the latest price of security 2 is of day 1,001, and today is day 1,030 (32)"),
    ("AUCTION\nattempt 1", "attempt on position 1: refused, an attempt was opened on position 1 today (20)"),
    ("SIXTEEN\nattempt 17", "attempt on position 17: refused, sixteen attempts were opened today (20)"),
    ("OPEN\noffer 1 1 1 1", "offer on position 1: member 1 offers 1 unit at 1: refused, member 1 is failing in security 1 (21)"),
    ("OPEN\noffer 1 9 1 201", "offer on position 1: member 9 offers 1 unit at 201: refused, the price 201 exceeds the ceiling, 200 (22)"),
    ("OPEN\nOFFERS\noffer 1 9 1 1", "offer on position 1: member 9 offers 1 unit at 1: refused, 16 offers are in (23)"),
    ("DUE\ndelivery 1 11", "delivery of 11 from position 1: refused, 10 units of position 1 are open (24)"),
    ("AUCTION\ndelivery 1 8", "delivery of 8 from position 1: refused, 7 units of position 1 are free: 10 open, of which awards that are not confirmed take 3 (24)"),
    ("DUE\ndelivery 1 10\nclose 5\nprice 1 100\nattempt 1", "attempt on position 1: refused, nothing of position 1 is open (24)"),
    ("DUE\ndelivery 1 10\nclose 8\nprice 1 100\ncash 1", "cash settlement of position 1: refused, nothing of position 1 is open (24)"),
    ("AUCTION\nconfirm 1\nconfirm 1", "confirmation of award 1: refused, award 1 is confirmed already (25)"),
    ("pair 1 2 0", "pair-off of 0 units of position 1 with position 2: refused, positions 1 and 2 are not there; there is none yet (11)"),
    ("DUE\npair 3 3 1", "pair-off of 1 unit of position 3 with position 3: refused, position 3 is not there; there are positions 1 to 2 (11)"),
    ("DUE\npair 3 2 1", "pair-off of 1 unit of position 3 with position 2: refused, position 3 is not there; there are positions 1 to 2 (11)"),
    ("DUE\npair 2 0 0", "pair-off of 0 units of position 2 with position 0: refused, position 0 is not there; there are positions 1 to 2 (11)"),
    ("DUE\npair 65535 3 1", "pair-off of 1 unit of position 65535 with position 3: refused, positions 65,535 and 3 are not there; there are positions 1 to 2 (11)"),
    ("DUE\npair 1 65538 1", "pair-off of 1 unit of position 1 with position 65538: refused, position 65,538 is not there; there are positions 1 to 2 (11)"),
    ("DUE\npair 1 4294967295 1", "pair-off of 1 unit of position 1 with position 4294967295: refused, position 4,294,967,295 is not there; there are positions 1 to 2 (11)"),
    ("DUE\npair 2 1 0", "pair-off of 0 units of position 2 with position 1: refused, the quantity is 0 (12)"),
    ("DUE\npair 2 1 1", "pair-off of 1 unit of position 2 with position 1: refused, position 2 is long (16)"),
    ("PAIRS\npair 8 7 1", "pair-off of 1 unit of position 8 with position 7: refused, outside the window: position 8 falls due on day 4 (17)"),
    ("PAIRS\npair 1 1 1", "pair-off of 1 unit of position 1 with position 1: refused, position 1 is no due long of member 1 own in security 1: it is the short itself (34)"),
    ("PAIRS\nclose\npair 5 8 1", "pair-off of 1 unit of position 5 with position 8: refused, position 8 is no due long of member 3 own in security 1: it is short (34)"),
    ("PAIRS\npair 1 7 1", "pair-off of 1 unit of position 1 with position 7: refused, position 7 is no due long of member 1 own in security 1: it falls due on day 4 (34)"),
    ("PAIRS\npair 1 4 1", "pair-off of 1 unit of position 1 with position 4: refused, position 4 is no due long of member 1 own in security 1: its member is 2 (34)"),
    ("PAIRS\npair 1 3 1", "pair-off of 1 unit of position 1 with position 3: refused, position 3 is no due long of member 1 own in security 1: its kind is client (34)"),
    ("PAIRS\npair 1 2 1", "pair-off of 1 unit of position 1 with position 2: refused, position 2 is no due long of member 1 own in security 1: its security is 2 (34)"),
    ("PAIRS\npair 6 3 1", "pair-off of 1 unit of position 6 with position 3: refused, position 3 is no due long of member 3 own in security 2: its member is 1, and its kind is client, and its security is 1 (34)"),
    ("PAIRS\npair 1 9 1", "pair-off of 1 unit of position 1 with position 9: refused, position 9 is no due long of member 1 own in security 1: it is short, and it falls due on day 4, and its member is 4, and its kind is client, and its security is 3 (34)"),
    ("PAIRS\nclose 5\nprice 1 100\nattempt 1\npair 1 7 6", "pair-off of 6 units of position 1 with position 7: refused, the auction runs on position 1 (18)"),
    ("PAIRS\nclose\npair 1 7 6", "pair-off of 6 units of position 1 with position 7: refused, 5 units of position 7 are open (24)"),
    ("PAIRS\nclose\npair 1 7 5\npair 1 7 1", "pair-off of 1 unit of position 1 with position 7: refused, 0 units of position 7 are open (24)"),
    ("PAIRS\nclose\ndelivery 1 6\npair 1 7 5", "pair-off of 5 units of position 1 with position 7: refused, 4 units of position 1 are open (24)"),
    ("PAIRS\nclose\ndelivery 1 9\npair 1 7 4294967295", "pair-off of 4,294,967,295 units of position 1 with position 7: refused, 1 unit of position 1 is open, and 5 units of position 7 are open (24)"),
    ("PAIRS\nTAKEN\npair 1 7 3", "pair-off of 3 units of position 1 with position 7: refused, 2 units of position 1 are free: 10 open, of which awards that are not confirmed take 8 (24)"),
    ("PAIRS\nTAKEN\npair 1 7 6", "pair-off of 6 units of position 1 with position 7: refused, 2 units of position 1 are free: 10 open, of which awards that are not confirmed take 8, and 5 units of position 7 are open (24)"),
    ("PAIRS\nclose\npair 1 7 4\ndelivery 1 7", "delivery of 7 from position 1: refused, 6 units of position 1 are open (24)"),
];

const REGISTER: &str = "security 1 XX0000000002\nsecurity 2 XX0000000010\nsecurity 3 XX0000000028\n";

/// The words in capitals of `REASONS` stand for the events that lead to a state.
fn events_of(line: &str) -> String {
    let due = "trade 1 2 1 10 100\nclose\nclose";
    let open = "trade 1 2 1 10 100\ntrade 3 4 1 10 100\nclose\nclose 6\nprice 1 100\nattempt 1";
    match line {
        "DUE" => due.to_string(),
        "OPEN" => open.to_string(),
        "AUCTION" => format!("{open}\noffer 1 9 3 50\naward 1"),
        "OFFERS" => ["offer 1 9 1 1"; 16].join("\n"),
        // Day 3, on which the shorts 1, 5 and 6 and the longs 2, 3 and 4 are due; 7 to 10 are a day later.
        "PAIRS" => "trade 1 2 1 10 100\ntrade 3 1 client 1 7 100\ntrade 3 1 2 6 100\nclose\n\
                    trade 3 1 1 5 100\ntrade 4 client 5 3 1 100\nclose"
            .to_string(),
        "TAKEN" => "close 5\nprice 1 100\nattempt 1\noffer 1 9 8 50\naward 1".to_string(),
        "FULL" => ["trade 1 2 1 1 1"; 512].join("\n"),
        "SIXTEEN" => {
            let trades: Vec<String> = (1..18).map(|seller| format!("trade {seller} 20 1 1 1")).collect();
            let attempts: Vec<String> = (1..17).map(|short| format!("attempt {short}\naward {short}")).collect();
            format!("{}\nclose 7\nprice 1 100\n{}", trades.join("\n"), attempts.join("\n"))
        }
        event => event.to_string(),
    }
}

/// The words of the last event, without its number, day and line.
fn last_refusal(events: &str) -> Result<String, String> {
    let events: Vec<String> = events.lines().map(events_of).collect();
    let source = Source::of_text(format!("{REGISTER}{}\n", events.join("\n")).as_bytes())?;
    let words = words::refused(&played(&source, &transcript::transcript(&source.bytes))?);
    let last = words.lines().last().ok_or("no event is refused")?;
    let number = format!("{}. ", transcript::read(&source.bytes).map_or(0, |(_, events)| events.len()));
    let last = last.strip_prefix(&number).ok_or_else(|| format!("the last event is not refused: {last}"))?;
    Ok(last.split_once(": ").ok_or("a line has a place")?.1.to_string())
}

/// Events of class 3 with single units.
const SINGLE_UNITS: &str = "\
security 3 XX0000000002
trade 1 2 1 1 99
close 29
price 1 100
attempt 1
offer 1 3 1 98
award 1
confirm 1
trade 1 2 1 1 101
trade 4 5 1 1 1
close 32
price 1 100
cash 3
attempt 5
";

/// Singular forms, a credit, class 3, and an account without a charge.
fn known_lines(check: &mut Check) {
    let output = Source::of_text(SINGLE_UNITS.as_bytes()).map(|source| transcript::transcript(&source.bytes));
    let words = output.and_then(|output| words_of(SINGLE_UNITS, &output)).unwrap_or_else(|wrong| wrong);
    let lines = [
        "1. day 1, line 2: trade: member 1 own sells 1 unit of security 1 at 99 to member 2 own: accepted",
        "   the ceiling is 103",
        "   award 1: 1 unit of member 3 at 98",
        "35. day 30, line 8: confirmation of award 1: 1 unit bought in",
        "   buy-in difference: the house pays member 1 1 cent: 1 unit of award 1 times (its price 98 minus reference price 99 of position 1)",
        "71. day 62, line 13: cash settlement of position 3: 1 unit",
        "   1 unit from position 3 (member 1 own) to position 4 (member 2 own) for 400 cents",
        "   cash settlement: member 1 pays member 2 400 cents: 1 unit of position 4 times 400, the highest of reference price 101 of position 3, reference price 101 of position 4 and the latest price 100 plus 300",
        "position 3: member 1 own, short: 1 netted, 0 delivered, 0 bought in, 1 settled in cash, 0 paired, 0 open",
        "account  holder     buy-in difference  cash settlement  cash settlement fee  unconfirmed award  late fine  cents in all",
        "      0  the house                 -1                0               25,000                  0          0        24,999",
        "      1  member 1                   1             -400              -25,000                  0          0       -25,399",
        "      2  member 2                   0              400                    0                  0          0           400",
    ];
    for line in lines {
        same(check, || format!("{line:?} in {words}"), words.lines().any(|found| found == line), true);
    }
    let example = words_of(EXAMPLES[0].1, EXAMPLES[0].2.as_bytes()).unwrap_or_else(|wrong| wrong);
    same(check, || example.clone(), example.lines().last(), Some("no account was charged"));
}

/// Trades on day 1 before a cash settlement of position 1, at the price of 1,100 on day 11, and what is said of the last
/// of its payments.
const PRICES: [(&str, &str); 4] = [
    (
        "trade 1 2 1 5 2300\n",
        "5 units of position 2 times 2,300, the highest of reference price 2,300 of position 1, reference price 2,300 of position 2 and the latest price 1,100 doubled",
    ),
    // Longs 4 and 5 have the highest reference price, and long 3 a lower one.
    (
        "trade 1 3 1 4 1000\ntrade 2 4 1 3 2500\ntrade 1 5 1 6 1200\ntrade 2 5 1 1 2500\n",
        "3 units of position 5 times 2,500, the highest of reference price 1,200 of position 1, reference price 2,500 of position 4 (the highest among the settlement's 3 longs) and the latest price 1,100 doubled",
    ),
    // Long 4, with 9,000, has no share.
    (
        "trade 1 3 1 4 1000\ntrade 2 4 1 3 9000\n",
        "4 units of position 3 times 2,200, the highest of reference price 1,000 of position 1, reference price 1,000 of position 3 and the latest price 1,100 doubled",
    ),
    // Member 1 sells a unit to each of the members 3 to 63.
    (
        "MANY",
        "1 unit of position 62 times 2,200, the highest of reference price 1,097 of position 1, reference price 1,097 of position 2 (the highest among the settlement's 61 longs) and the latest price 1,100 doubled",
    ),
];

fn known_prices(check: &mut Check) {
    let many: String = (3..=63).map(|buyer| format!("trade 1 {buyer} 1 1 {}\n", 1_100 - buyer)).collect();
    for (trades, said) in PRICES {
        let trades = trades.replace("MANY", &many);
        let text = format!("{REGISTER}{trades}close 10\nprice 1 1100\ncash 1\n");
        let output = Source::of_text(text.as_bytes()).map(|source| transcript::transcript(&source.bytes));
        let words = output.and_then(|output| words_of(&text, &output)).unwrap_or_else(|wrong| wrong);
        let mut payments = words.lines().filter(|line| line.starts_with("   cash settlement: "));
        let last = payments.next_back().and_then(|line| line.split_once(" cents: "));
        same(check, || text.clone(), last.map(|(_, figures)| figures), Some(said));
    }
}

fn kinds_of_histories(check: &mut Check, random: &mut Random) {
    let mut found = Found::default();
    for which in 0..204 {
        let input = if which < 200 { histories::any(random) } else { histories::long(random, which) };
        let Ok(played) = played(&Source::of_bytes(input.clone()), &transcript::transcript(&input)) else {
            continue;
        };
        let wanted = holders_of(&played, &mut found);
        same(check, || hex(&input), holders_in(&words::words(&played)), wanted);
    }
    check.reached("a client position", found.client_positions);
    check.reached("a piece between two kinds", found.pieces_across);
    check.reached("a trade with a client", found.client_trades);
}

/// What the plays of histories have of clients.
#[derive(Default)]
struct Found {
    client_positions: u64,
    pieces_across: u64,
    client_trades: u64,
}

/// The sides and positions of a play in the order in which its words name them, each as `1 client`: of each event its
/// sides, then the short of a pair-off that has no such long, the positions of its pieces and those that it makes, and at
/// the end all positions.
fn holders_of(played: &Played, found: &mut Found) -> Vec<String> {
    let holder = |position: &Position| format!("{} {}", position.member, kind_name(position.kind));
    let mut wanted = Vec::new();
    for step in &played.steps {
        if let Event::Trade { seller, buyer, .. } = step.event {
            found.client_trades += u64::from([seller, buyer].iter().any(|party| *party == Party::client(party.member)));
            wanted.extend([seller, buyer].map(side));
        }
        if let (Event::PairOff { short, .. }, Err(Refused { refusal: Refusal::NoPair, .. })) =
            (step.event, &step.result)
        {
            wanted.push(holder(played.position(short)));
        }
        let done = step.result.as_ref().ok();
        let pieces = done.iter().flat_map(|done| &done.pieces);
        let ends: Vec<[&Position; 2]> =
            pieces.map(|piece| [piece.short, piece.long].map(|number| played.position(number))).collect();
        found.pieces_across += ends.iter().filter(|[short, long]| short.kind != long.kind).count() as u64;
        let made = done.iter().flat_map(|done| &played.book.positions()[done.positions.clone()]);
        wanted.extend(ends.into_iter().flatten().chain(made).map(holder));
    }
    let clients = played.book.positions().iter().filter(|position| position.kind == Business::Client);
    found.client_positions += clients.count() as u64;
    wanted.extend(played.book.positions().iter().map(holder));
    wanted
}

/// A side of a trade, whose byte may be no kind.
fn side(party: Party) -> String {
    match Business::of(party.kind) {
        Some(kind) => format!("{} {}", party.member, kind_name(kind)),
        None => format!("{} kind {}", party.member, party.kind),
    }
}

/// Each member that is named with a kind, with that kind, in the order of the words.
fn holders_in(words: &str) -> Vec<String> {
    let plain = words.replace(['(', ',', ')', ':'], "");
    let words: Vec<&str> = plain.split_whitespace().collect();
    let after_member = words.windows(4).filter_map(|words| match *words {
        ["member", member, kind @ ("own" | "client"), _] => Some(format!("{member} {kind}")),
        ["member", member, "kind", byte] => Some(format!("{member} kind {byte}")),
        _ => None,
    });
    after_member.collect()
}

/// The numbers in the words of a payment of several longs in class 3: units, long, price, the short's reference price
/// and the short, the highest reference price of the longs and its long, how many longs there are, the latest price,
/// and 300.
const MOST_NUMBERS: usize = 10;

/// The numbers of each payment as its words have them, compared with those of the book before the event.
fn terms_in_words(check: &mut Check, input: &[u8]) -> Vec<Vec<u64>> {
    let (Ok((mut book, _)), Ok(played)) =
        (transcript::open(input), played(&Source::of_bytes(input.to_vec()), &transcript::transcript(input)))
    else {
        return Vec::new();
    };
    let mut all = Vec::new();
    for step in &played.steps {
        if let (Event::Cash { short }, Ok(done)) = (step.event, &step.result) {
            let payments = done.charges.iter().filter(|charge| Kind::of(charge) == Kind::Payment);
            let found: Vec<Vec<u64>> = payments.map(|charge| numbers_of(&words::figures(&played, charge))).collect();
            same(check, || hex(input), &found, &numbers_wanted(&book, short, &done.pieces));
            all.extend(found);
        }
        // A refused call changes nothing.
        let _ = book.call(&step.event, SHEET_PLACES);
    }
    all
}

fn numbers_of(words: &str) -> Vec<u64> {
    words.split(' ').filter_map(|word| word.trim_end_matches(',').replace(',', "").parse().ok()).collect()
}

fn numbers_wanted(book: &Book, short: u16, pieces: &[Piece]) -> Vec<Vec<u64>> {
    let short = u64::from(short);
    let Some(terms) = Terms::of(book, short, pieces.iter().map(|piece| piece.long.into())) else {
        return Vec::new();
    };
    let highest = terms.longs.iter().copied().max().unwrap_or(0);
    let first = terms.longs.iter().position(|&reference| reference == highest).map_or(0, |at| pieces[at].long.into());
    let security = &book.securities[book.positions[short as usize - 1].security];
    let latest = security.latest_price.map_or(0, |latest| latest.price.into());
    let numbers = |piece: &Piece| {
        let own = [piece.quantity.into(), piece.long.into(), terms.highest(), terms.short, short, highest, first];
        let several = (pieces.len() > 1).then_some(pieces.len() as u64);
        let raise = (security.class == 3).then_some(300);
        own.into_iter().chain(several).chain([latest]).chain(raise).collect()
    };
    pieces.iter().map(numbers).collect()
}

/// What is changed in the example's output, to what, and what is said of it.
const OTHER_OUTPUTS: [(&str, &str, &str); 9] = [
    (
        "e 1 0 100\n",
        "e 1 0 99\n",
        r#"output line 1: the player has "e 1 0 99\n", and the second implementation "e 1 0 100\n""#,
    ),
    ("e 2 0 0\n", "", r#"output line 2: the player has "e 3 0 0\n", and the second implementation "e 2 0 0\n""#),
    (
        "p 1 2 100 0\n",
        "",
        r#"output line 5: the player has "s 1 1 D 100 100 0 0 0 0\n", and the second implementation "p 1 2 100 0\n""#,
    ),
    (
        "p 1 2 100 0\n",
        "p 1 2 100 1\n",
        r#"output line 5: the player has "p 1 2 100 1\n", and the second implementation "p 1 2 100 0\n""#,
    ),
    ("s 1 1 D 100 100 0 0 0 0\ns 2 2 R 100 100 0 0 0 0\n", "", "the output is cut off: it has 5 of 7 lines"),
    ("s 2 2 R 100 100 0 0 0 0\n", "", "the output is cut off: it has 6 of 7 lines"),
    (
        "R 100 100 0 0 0 0\n",
        "R 100 100 0 0 0 0",
        r#"output line 7: the player has "s 2 2 R 100 100 0 0 0 0", and the second implementation "s 2 2 R 100 100 0 0 0 0\n""#,
    ),
    (
        "R 100 100 0 0 0 0\n",
        "R 100 100 0 0 0 0\na 2 5\n",
        r#"output line 8: the output should have ended, and has "a 2 5\n""#,
    ),
    ("e 1 0 100\n", "f 4\n", r#"output line 1: the player has "f 4\n", and the second implementation "e 1 0 100\n""#),
];

fn other_outputs(check: &mut Check) {
    let (_, text, output, _) = EXAMPLES[0];
    for (from, to, message) in OTHER_OUTPUTS {
        let output = output.replacen(from, to, 1);
        same(check, || output.clone(), words_of(text, output.as_bytes()), Err(message.to_string()));
    }
    let (_, text, output, _) = EXAMPLES[1];
    let output = output.replacen("a 1 -224595\n", "", 1);
    let message = r#"output line 32: the player has "a 2 88000\n", and the second implementation "a 1 -224595\n""#;
    same(check, || output.clone(), words_of(text, output.as_bytes()), Err(message.to_string()));
}

/// Lines in place of the squeeze's `a 1 -224595`, and what is said of the accounts then.
const OTHER_ACCOUNTS: [(&str, &str); 5] = [
    ("", "the charges of account 1 add up to -224,595 cents, and the player has 0"),
    ("a 1 -224594\n", "the charges of account 1 add up to -224,595 cents, and the player has -224,594"),
    ("a 1 224595\n", "the charges of account 1 add up to -224,595 cents, and the player has 224,595"),
    ("a 1 -224595\na 63 1\n", "the charges of account 63 add up to 0 cents, and the player has 1"),
    ("a 1 -224595\na 64 1\n", "the player has an account 64, and 63 is the last"),
];

fn other_accounts(check: &mut Check) {
    let (_, text, output, _) = EXAMPLES[1];
    let played = Source::of_text(text.as_bytes()).and_then(|source| played(&source, output.as_bytes()));
    let meet = |output: &str| {
        let played = played.as_ref().map_err(String::clone)?;
        played.accounts_meet(&output::lines(output.as_bytes())?)
    };
    same(check, || output.to_string(), meet(output), Ok(()));
    for (line, message) in OTHER_ACCOUNTS {
        let output = output.replacen("a 1 -224595\n", line, 1);
        same(check, || output.clone(), meet(&output), Err(message.to_string()));
    }
}

/// What the README shows of the squeeze are lines of its words, in their order.
fn readme(check: &mut Check) {
    let readme = include_str!("../../../README.md");
    let (_, after) = readme.split_once("`./play --text examples/squeeze.txt` shows:").unwrap_or_default();
    let (shown, _) = after.split_once("\nEach play").unwrap_or_default();
    let shown: Vec<&str> = shown.lines().filter_map(|line| line.strip_prefix("    ")).collect();
    let mut words = EXAMPLES[1].3.lines();
    for line in &shown {
        same(check, || line.to_string(), words.any(|word| word == *line), true);
    }
    check.reached("a line of words in the README", shown.len() as u64);
}

/// Whether the input is charged anything. The amounts that its words name, paid and received, are its accounts.
fn adds_up(check: &mut Check, input: &[u8]) -> bool {
    let output = transcript::transcript(input);
    let Ok(played) = played(&Source::of_bytes(input.to_vec()), &output) else {
        return false;
    };
    let words = words::words(&played);
    let mut accounts: BTreeMap<String, i128> = BTreeMap::new();
    for (payer, payee, cents) in words.lines().filter_map(payment) {
        *accounts.entry(payer).or_default() -= cents;
        *accounts.entry(payee).or_default() += cents;
    }
    accounts.retain(|_, cents| *cents != 0);
    let printed = String::from_utf8_lossy(&output).lines().filter_map(account).collect();
    same(check, || hex(input), &accounts, &printed);
    !accounts.is_empty()
}

/// Who pays whom how many cents, if the line says so.
fn payment(line: &str) -> Option<(String, String, i128)> {
    let (_, said) = line.strip_prefix("   ")?.split_once(": ")?;
    let (payer, rest) = said.split_once(" pays ")?;
    let words: Vec<&str> = rest.split(' ').collect();
    let (payee, cents) = match words[..] {
        ["the", "house", cents, ..] => ("the house".to_string(), cents),
        ["member", number, cents, ..] => (format!("member {number}"), cents),
        _ => return None,
    };
    Some((payer.to_string(), payee, cents.replace(',', "").parse().ok()?))
}

/// The holder and the cents of an `a` line.
fn account(line: &str) -> Option<(String, i128)> {
    let (account, cents) = line.strip_prefix("a ")?.split_once(' ')?;
    let holder = if account == "0" { "the house".to_string() } else { format!("member {account}") };
    Some((holder, cents.parse().ok()?))
}

/// What is put in one place of an output: parts of other lines.
const CHANGES: [&str; 18] = [
    "",
    "0",
    "1",
    "2",
    "9",
    "-",
    " ",
    "\n",
    "e",
    "p",
    "s",
    "a",
    "f",
    "D",
    "R",
    "\na 9 1",
    "\np 1 2 1 0",
    "1 0\ne 2 0 ",
];

/// No output that is changed in one place passes for the input's.
fn changed_outputs(check: &mut Check, random: &mut Random, input: &[u8]) {
    let source = Source::of_bytes(input.to_vec());
    let output = transcript::transcript(input);
    for _ in 0..20 {
        let mut changed = output.clone();
        let from = random.below(output.len() + 1);
        let to = output.len().min(from + random.below(2));
        changed.splice(from..to, random.pick(&CHANGES).bytes());
        if changed != output {
            let shown = || format!("{} with output {:?}", hex(input), String::from_utf8_lossy(&changed));
            same(check, shown, Played::of(&source, &changed).is_err(), true);
        }
    }
}

fn words_of(text: &str, output: &[u8]) -> Result<String, String> {
    played(&Source::of_text(text.as_bytes())?, output).map(|played| words::words(&played))
}

fn played(source: &Source, output: &[u8]) -> Result<Played, String> {
    Played::of(source, output)?.map_err(|fault| fault.words)
}
