//! One price for all pieces of a cash settlement: known histories, with numbers worked out by hand, and a law of each
//! settlement in what the player prints of histories.

use super::player::{output, shown};
use super::prices::{answers, Answered};
use super::same;
use crate::check::{Check, Round, Tests};
use fails_book_tests::histories;
use fails_book_tests::histories::terms::{Term, Terms};
use second::book::{Book, SHEET_PLACES};
use second::events::Event;
use second::transcript;
use tools::output::{lines, Line, Piece};
use tools::text;

const HISTORIES: usize = 600;
const LONG_HISTORIES: usize = 4;

pub fn exhaustive(tests: &mut Tests) {
    for Known { name, classes, events, end } in KNOWN {
        tests.check(&format!("one price: {name}"), &[0], |check| answers(check, classes, events, end));
    }
    tests.check("one price: pieces that no price fits", &[], known_faults);
}

pub fn seeded(round: &mut Round) {
    round.check("one price: each cash settlement of histories", &[], |check, random| {
        let mut found = Found::default();
        for which in 0..HISTORIES + LONG_HISTORIES {
            let input = if which < HISTORIES { histories::any(random) } else { histories::long(random, which) };
            found.add(each_settlement(check, &input));
        }
        check.reached("a cash settlement", found.settlements);
        check.reached("a cash settlement at a long's reference price alone", found.at_a_long);
        check.reached("a cash settlement whose longs would have different prices", found.different);
    });
}

/// A history, and what the player prints of it: of each event, then at its end.
struct Known {
    name: &'static str,
    classes: &'static [u8],
    events: &'static [Answered<'static>],
    end: &'static str,
}

/// Where nothing else is said, the security is of class 1, the price of day 11 is 1,100, doubled 2,200, and the fee is
/// 25,000, the least. Positions are numbered by member. Without an earlier price there are no late fines.
const KNOWN: [Known; 21] = [
    Known {
        name: "two longs, the first the highest, with 3,000",
        classes: &[1],
        events: &[
            ("trade 1 4 1 10 1000", "0 10"),
            ("trade 2 3 1 5 3000", "0 5"),
            ("close 10", "0 0"),
            ("price 1 1100", "0 0"),
            ("cash 1", "0 10\np 1 3 5 15000\np 1 4 5 15000"),
        ],
        end: "s 1 1 D 10 0 0 10 0 0\ns 2 2 D 5 0 0 0 0 5\ns 3 3 R 5 0 0 5 0 0\ns 4 4 R 10 0 0 5 0 5\n\
              a 0 25000\na 1 -55000\na 3 15000\na 4 15000\n",
    },
    Known {
        name: "two longs, the last the highest, with 3,000",
        classes: &[1],
        events: &[
            ("trade 1 3 1 6 1000", "0 6"),
            ("trade 1 5 1 4 900", "0 4"),
            ("trade 2 4 1 5 3000", "0 5"),
            ("close 10", "0 0"),
            ("price 1 1100", "0 0"),
            ("cash 1", "0 10\np 1 3 6 18000\np 1 4 4 12000"),
        ],
        end: "s 1 1 D 10 0 0 10 0 0\ns 2 2 D 5 0 0 0 0 5\ns 3 3 R 6 0 0 6 0 0\ns 4 4 R 5 0 0 4 0 1\n\
              s 5 5 R 4 0 0 0 0 4\n\
              a 0 25000\na 1 -55000\na 3 18000\na 4 12000\n",
    },
    Known {
        name: "three longs, the first the highest, with 2,500",
        classes: &[1],
        events: &[
            ("trade 2 3 1 4 2500", "0 4"),
            ("trade 1 4 1 3 1000", "0 3"),
            ("trade 1 5 1 6 1200", "0 6"),
            ("close 10", "0 0"),
            ("price 1 1100", "0 0"),
            ("cash 1", "0 9\np 1 3 4 10000\np 1 4 3 7500\np 1 5 2 5000"),
        ],
        end:
            "s 1 1 D 9 0 0 9 0 0\ns 2 2 D 4 0 0 0 0 4\ns 3 3 R 4 0 0 4 0 0\ns 4 4 R 3 0 0 3 0 0\ns 5 5 R 6 0 0 2 0 4\n\
              a 0 25000\na 1 -47500\na 3 10000\na 4 7500\na 5 5000\n",
    },
    Known {
        name: "three longs, the middle one the highest, with 2,500",
        classes: &[1],
        events: &[
            ("trade 1 3 1 4 1000", "0 4"),
            ("trade 2 4 1 3 2500", "0 3"),
            ("trade 1 5 1 6 1200", "0 6"),
            ("close 10", "0 0"),
            ("price 1 1100", "0 0"),
            ("cash 1", "0 10\np 1 3 4 10000\np 1 4 3 7500\np 1 5 3 7500"),
        ],
        end: "s 1 1 D 10 0 0 10 0 0\ns 2 2 D 3 0 0 0 0 3\ns 3 3 R 4 0 0 4 0 0\ns 4 4 R 3 0 0 3 0 0\n\
              s 5 5 R 6 0 0 3 0 3\n\
              a 0 25000\na 1 -50000\na 3 10000\na 4 7500\na 5 7500\n",
    },
    Known {
        name: "three longs, the last the highest, with 2,500",
        classes: &[1],
        events: &[
            ("trade 1 3 1 4 1000", "0 4"),
            ("trade 1 4 1 3 1200", "0 3"),
            ("trade 2 5 1 6 2500", "0 6"),
            ("trade 1 6 1 2 900", "0 2"),
            ("close 10", "0 0"),
            ("price 1 1100", "0 0"),
            ("cash 1", "0 9\np 1 3 4 10000\np 1 4 3 7500\np 1 5 2 5000"),
        ],
        end:
            "s 1 1 D 9 0 0 9 0 0\ns 2 2 D 6 0 0 0 0 6\ns 3 3 R 4 0 0 4 0 0\ns 4 4 R 3 0 0 3 0 0\ns 5 5 R 6 0 0 2 0 4\n\
              s 6 6 R 2 0 0 0 0 2\na 0 25000\na 1 -47500\na 3 10000\na 4 7500\na 5 5000\n",
    },
    Known {
        name: "one long, with 2,500",
        classes: &[1],
        events: &[
            ("trade 2 3 1 9 2500", "0 9"),
            ("trade 1 4 1 5 1000", "0 5"),
            ("close 10", "0 0"),
            ("price 1 1100", "0 0"),
            ("cash 1", "0 5\np 1 3 5 12500"),
        ],
        end: "s 1 1 D 5 0 0 5 0 0\ns 2 2 D 9 0 0 0 0 9\ns 3 3 R 9 0 0 5 0 4\ns 4 4 R 5 0 0 0 0 5\n\
              a 0 25000\na 1 -37500\na 3 12500\n",
    },
    Known {
        name: "the short the highest, with 2,600",
        classes: &[1],
        events: &[
            ("trade 2 3 1 4 1000", "0 4"),
            ("trade 2 4 1 6 1500", "0 6"),
            ("trade 1 5 1 7 2600", "0 7"),
            ("close 10", "0 0"),
            ("price 1 1100", "0 0"),
            ("cash 1", "0 7\np 1 3 4 10400\np 1 4 3 7800"),
        ],
        end: "s 1 1 D 7 0 0 7 0 0\ns 2 2 D 10 0 0 0 0 10\ns 3 3 R 4 0 0 4 0 0\ns 4 4 R 6 0 0 3 0 3\n\
              s 5 5 R 7 0 0 0 0 7\n\
              a 0 25000\na 1 -43200\na 3 10400\na 4 7800\n",
    },
    Known {
        name: "the latest price doubled the highest, by a cent",
        classes: &[1],
        events: &[
            ("trade 2 3 1 4 2199", "0 4"),
            ("trade 1 4 1 3 1000", "0 3"),
            ("trade 1 5 1 6 1200", "0 6"),
            ("close 10", "0 0"),
            ("price 1 1100", "0 0"),
            ("cash 1", "0 9\np 1 3 4 8800\np 1 4 3 6600\np 1 5 2 4400"),
        ],
        end:
            "s 1 1 D 9 0 0 9 0 0\ns 2 2 D 4 0 0 0 0 4\ns 3 3 R 4 0 0 4 0 0\ns 4 4 R 3 0 0 3 0 0\ns 5 5 R 6 0 0 2 0 4\n\
              a 0 25000\na 1 -44800\na 3 8800\na 4 6600\na 5 4400\n",
    },
    Known {
        name: "a long with 9,000 is due and gets no share",
        classes: &[1],
        events: &[
            ("trade 1 3 1 4 1000", "0 4"),
            ("trade 1 4 1 3 1200", "0 3"),
            ("trade 2 5 1 6 9000", "0 6"),
            ("close 10", "0 0"),
            ("price 1 1100", "0 0"),
            ("cash 1", "0 7\np 1 3 4 8800\np 1 4 3 6600"),
        ],
        end:
            "s 1 1 D 7 0 0 7 0 0\ns 2 2 D 6 0 0 0 0 6\ns 3 3 R 4 0 0 4 0 0\ns 4 4 R 3 0 0 3 0 0\ns 5 5 R 6 0 0 0 0 6\n\
              a 0 25000\na 1 -40400\na 3 8800\na 4 6600\n",
    },
    Known {
        name: "a long with 9,000 has nothing open",
        classes: &[1],
        events: &[
            ("trade 2 3 1 4 9000", "0 4"),
            ("trade 1 4 1 3 1000", "0 3"),
            ("trade 1 5 1 6 1200", "0 6"),
            ("close 2", "0 0"),
            ("delivery 2 4", "0 4\np 2 3 4 0"),
            ("close 8", "0 0"),
            ("price 1 1100", "0 0"),
            ("cash 1", "0 9\np 1 4 3 6600\np 1 5 6 13200"),
        ],
        end:
            "s 1 1 D 9 0 0 9 0 0\ns 2 2 D 4 4 0 0 0 0\ns 3 3 R 4 4 0 0 0 0\ns 4 4 R 3 0 0 3 0 0\ns 5 5 R 6 0 0 6 0 0\n\
              a 0 25000\na 1 -44800\na 4 6600\na 5 13200\n",
    },
    // A share of 1 unit is enough for its long to count.
    Known {
        name: "a long with 9,000 has a unit open",
        classes: &[1],
        events: &[
            ("trade 2 3 1 4 9000", "0 4"),
            ("trade 1 4 1 3 1000", "0 3"),
            ("trade 1 5 1 6 1200", "0 6"),
            ("close 2", "0 0"),
            ("delivery 2 3", "0 3\np 2 3 3 0"),
            ("close 8", "0 0"),
            ("price 1 1100", "0 0"),
            ("cash 1", "0 9\np 1 3 1 9000\np 1 4 3 27000\np 1 5 5 45000"),
        ],
        end:
            "s 1 1 D 9 0 0 9 0 0\ns 2 2 D 4 3 0 0 0 1\ns 3 3 R 4 3 0 1 0 0\ns 4 4 R 3 0 0 3 0 0\ns 5 5 R 6 0 0 5 0 1\n\
              a 0 25000\na 1 -106000\na 3 9000\na 4 27000\na 5 45000\n",
    },
    // The trade of day 10 is due on day 12.
    Known {
        name: "a long with 9,000 is not due",
        classes: &[1],
        events: &[
            ("trade 1 4 1 7 1000", "0 7"),
            ("trade 1 5 1 2 1200", "0 2"),
            ("close 9", "0 0"),
            ("trade 2 3 1 5 9000", "0 5"),
            ("close", "0 0"),
            ("price 1 1100", "0 0"),
            ("cash 1", "0 9\np 1 2 7 15400\np 1 3 2 4400"),
        ],
        end:
            "s 1 1 D 9 0 0 9 0 0\ns 2 4 R 7 0 0 7 0 0\ns 3 5 R 2 0 0 2 0 0\ns 4 2 D 5 0 0 0 0 5\ns 5 3 R 5 0 0 0 0 5\n\
              a 0 25000\na 1 -44800\na 4 15400\na 5 4400\n",
    },
    Known {
        name: "a long with 9,000 is in another security",
        classes: &[1, 1],
        events: &[
            ("trade 1 4 1 7 1000", "0 7"),
            ("trade 2 3 2 5 9000", "0 5"),
            ("trade 1 5 1 2 1200", "0 2"),
            ("close 10", "0 0"),
            ("price 2 9000", "0 0"),
            ("price 1 1100", "0 0"),
            ("cash 1", "0 9\np 1 4 7 15400\np 1 5 2 4400"),
        ],
        end:
            "s 1 1 D 9 0 0 9 0 0\ns 2 2 D 5 0 0 0 0 5\ns 3 3 R 5 0 0 0 0 5\ns 4 4 R 7 0 0 7 0 0\ns 5 5 R 2 0 0 2 0 0\n\
              a 0 25000\na 1 -44800\na 4 15400\na 5 4400\n",
    },
    // 1,100 plus 300, on day 33.
    Known {
        name: "class 3, a long the highest by a cent, with 1,401",
        classes: &[3],
        events: &[
            ("trade 1 3 1 4 1000", "0 4"),
            ("trade 2 4 1 3 1401", "0 3"),
            ("trade 1 5 1 6 1200", "0 6"),
            ("close 32", "0 0"),
            ("price 1 1100", "0 0"),
            ("cash 1", "0 10\np 1 3 4 5604\np 1 4 3 4203\np 1 5 3 4203"),
        ],
        end: "s 1 1 D 10 0 0 10 0 0\ns 2 2 D 3 0 0 0 0 3\ns 3 3 R 4 0 0 4 0 0\ns 4 4 R 3 0 0 3 0 0\n\
              s 5 5 R 6 0 0 3 0 3\n\
              a 0 25000\na 1 -39010\na 3 5604\na 4 4203\na 5 4203\n",
    },
    Known {
        name: "class 3, the latest price plus 300 the highest by a cent",
        classes: &[3],
        events: &[
            ("trade 1 3 1 4 1000", "0 4"),
            ("trade 2 4 1 3 1399", "0 3"),
            ("trade 1 5 1 6 1200", "0 6"),
            ("close 32", "0 0"),
            ("price 1 1100", "0 0"),
            ("cash 1", "0 10\np 1 3 4 5600\np 1 4 3 4200\np 1 5 3 4200"),
        ],
        end: "s 1 1 D 10 0 0 10 0 0\ns 2 2 D 3 0 0 0 0 3\ns 3 3 R 4 0 0 4 0 0\ns 4 4 R 3 0 0 3 0 0\n\
              s 5 5 R 6 0 0 3 0 3\n\
              a 0 25000\na 1 -39000\na 3 5600\na 4 4200\na 5 4200\n",
    },
    Known {
        name: "class 2, a long the highest by a cent, with 2,201",
        classes: &[2],
        events: &[
            ("trade 1 3 1 4 1000", "0 4"),
            ("trade 2 4 1 3 2201", "0 3"),
            ("trade 1 5 1 6 1200", "0 6"),
            ("close 32", "0 0"),
            ("price 1 1100", "0 0"),
            ("cash 1", "0 10\np 1 3 4 8804\np 1 4 3 6603\np 1 5 3 6603"),
        ],
        end: "s 1 1 D 10 0 0 10 0 0\ns 2 2 D 3 0 0 0 0 3\ns 3 3 R 4 0 0 4 0 0\ns 4 4 R 3 0 0 3 0 0\n\
              s 5 5 R 6 0 0 3 0 3\n\
              a 0 25000\na 1 -47010\na 3 8804\na 4 6603\na 5 6603\n",
    },
    // The price is 600, doubled 1,200. Short 1 is settled at long 4's 3,000, short 2 at its own 1,300 and short 3 at its
    // own 3,000; long 5 has a piece of the first two, long 6 of the last two.
    Known {
        name: "three settlements, each with a price of its own",
        classes: &[1],
        events: &[
            ("trade 3 4 1 4 3000", "0 4"),
            ("trade 1 5 1 6 1000", "0 6"),
            ("trade 1 6 1 2 1200", "0 2"),
            ("trade 2 6 1 6 1300", "0 6"),
            ("close 10", "0 0"),
            ("price 1 600", "0 0"),
            ("cash 1", "0 8\np 1 4 4 12000\np 1 5 4 12000"),
            ("cash 2", "0 6\np 2 5 2 2600\np 2 6 4 5200"),
            ("cash 3", "0 4\np 3 6 4 12000"),
        ],
        end:
            "s 1 1 D 8 0 0 8 0 0\ns 2 2 D 6 0 0 6 0 0\ns 3 3 D 4 0 0 4 0 0\ns 4 4 R 4 0 0 4 0 0\ns 5 5 R 6 0 0 6 0 0\n\
              s 6 6 R 8 0 0 8 0 0\na 0 75000\na 1 -49000\na 2 -32800\na 3 -37000\na 4 12000\na 5 14600\na 6 17200\n",
    },
    // The same positions, settled from the last short on: each has one piece, short 1 at long 6's 1,300.
    Known {
        name: "three settlements in another order",
        classes: &[1],
        events: &[
            ("trade 3 4 1 4 3000", "0 4"),
            ("trade 1 5 1 6 1000", "0 6"),
            ("trade 1 6 1 2 1200", "0 2"),
            ("trade 2 6 1 6 1300", "0 6"),
            ("close 10", "0 0"),
            ("price 1 600", "0 0"),
            ("cash 3", "0 4\np 3 4 4 12000"),
            ("cash 2", "0 6\np 2 5 6 7800"),
            ("cash 1", "0 8\np 1 6 8 10400"),
        ],
        end:
            "s 1 1 D 8 0 0 8 0 0\ns 2 2 D 6 0 0 6 0 0\ns 3 3 D 4 0 0 4 0 0\ns 4 4 R 4 0 0 4 0 0\ns 5 5 R 6 0 0 6 0 0\n\
              s 6 6 R 8 0 0 8 0 0\na 0 75000\na 1 -35400\na 2 -32800\na 3 -37000\na 4 12000\na 5 7800\na 6 10400\n",
    },
    // Member 1 is short on day 1 and long, at 2,500, on day 2; what it pays itself leaves its account as it was.
    Known {
        name: "one member on both sides, its long the highest",
        classes: &[1],
        events: &[
            ("trade 1 3 1 10 1000", "0 10"),
            ("close", "0 0"),
            ("trade 2 1 1 6 2500", "0 6"),
            ("close 2", "0 0"),
            ("delivery 4 6", "0 6\np 4 2 6 0"),
            ("close 7", "0 0"),
            ("price 1 1100", "0 0"),
            ("cash 1", "0 10\np 1 2 4 10000\np 1 3 6 15000"),
        ],
        end: "s 1 1 D 10 0 0 10 0 0\ns 2 3 R 10 6 0 4 0 0\ns 3 1 R 6 0 0 6 0 0\ns 4 2 D 6 6 0 0 0 0\n\
              a 0 25000\na 1 -35000\na 3 10000\n",
    },
    // 1,000,000 units at 1,100 over 40,000; at the cash price of 3,000 the fee would be 75,000.
    Known {
        name: "the fee goes by the latest price",
        classes: &[1],
        events: &[
            ("trade 2 3 1 400000 3000", "0 400000"),
            ("trade 1 4 1 1000000 1000", "0 1000000"),
            ("close 10", "0 0"),
            ("price 1 1100", "0 0"),
            ("cash 1", "0 1000000\np 1 3 400000 1200000000\np 1 4 600000 1800000000"),
        ],
        end: "s 1 1 D 1000000 0 0 1000000 0 0\ns 2 2 D 400000 0 0 0 0 400000\ns 3 3 R 400000 0 0 400000 0 0\n\
              s 4 4 R 1000000 0 0 600000 0 400000\na 0 27500\na 1 -3000027500\na 3 1200000000\na 4 1800000000\n",
    },
    // The second purchase of member 3 raises the reference price of its one long to 2,400.
    Known {
        name: "a long's highest purchase, with 2,400",
        classes: &[1],
        events: &[
            ("trade 2 3 1 2 900", "0 2"),
            ("trade 2 3 1 1 2400", "0 1"),
            ("trade 1 4 1 5 1000", "0 5"),
            ("close 10", "0 0"),
            ("price 1 1100", "0 0"),
            ("cash 1", "0 5\np 1 3 3 7200\np 1 4 2 4800"),
        ],
        end: "s 1 1 D 5 0 0 5 0 0\ns 2 2 D 3 0 0 0 0 3\ns 3 3 R 3 0 0 3 0 0\ns 4 4 R 5 0 0 2 0 3\n\
              a 0 25000\na 1 -37000\na 3 7200\na 4 4800\n",
    },
];

/// The cash settlements of histories.
#[derive(Default)]
struct Found {
    settlements: u64,
    at_a_long: u64,
    different: u64,
}

impl Found {
    fn add(&mut self, other: Found) {
        self.settlements += other.settlements;
        self.at_a_long += other.at_a_long;
        self.different += other.different;
    }

    fn add_settlement(&mut self, terms: &Terms) {
        self.settlements += 1;
        self.at_a_long += u64::from(matches!(terms.above_all_others(), Some(Term::Long(_))));
        let others = terms.short.max(terms.raised);
        let by_itself = |place: usize| terms.longs[place].max(others);
        self.different += u64::from((1..terms.longs.len()).any(|place| by_itself(place) != by_itself(0)));
    }
}

/// Wants the law of what the player printed on the input, and of what the second implementation would print.
fn each_settlement(check: &mut Check, input: &[u8]) -> Found {
    let mut found = Found::default();
    let player = faults(input, &output(input), &mut Found::default());
    let second = faults(input, &transcript::transcript(input), &mut found);
    check.known(|| shown(input), player, second, Ok(Vec::new()));
    found
}

/// What is wrong with the accepted cash settlements of an output. The reference prices and the latest prices are those
/// of the second implementation's book, and so are the classes; which longs have a piece, and its cents, is printed.
fn faults(input: &[u8], output: &[u8], found: &mut Found) -> Result<Vec<String>, String> {
    let Ok((mut book, events)) = transcript::open(input) else {
        return Ok(Vec::new());
    };
    let mut faults = Vec::new();
    let mut lines = lines(output)?.into_iter().peekable();
    for (event, number) in events.iter().zip(1..) {
        let line = lines.next();
        let mut pieces = Vec::new();
        while let Some(&Line::Piece(piece)) = lines.peek() {
            pieces.push(piece);
            lines.next();
        }
        let fault = match (event, line) {
            (&Event::Cash { short }, Some(Line::Event { refusal: 0, .. })) => fault(&book, short, &pieces, found),
            (_, Some(Line::Event { .. })) => None,
            _ => Some("its line is not there".to_string()),
        };
        faults.extend(fault.map(|fault| format!("event {number}: {fault}")));
        // A refused call changes nothing.
        let _ = book.call(event, SHEET_PLACES);
    }
    Ok(faults)
}

/// What is wrong with the pieces of a cash settlement, if anything: there is to be one price such that the cents of each
/// piece are its quantity times that, that is one of the terms, and that no term exceeds.
fn fault(book: &Book, short: u16, pieces: &[Piece], found: &mut Found) -> Option<String> {
    let Some(terms) = Terms::of(book, short.into(), pieces.iter().map(|piece| piece.long)) else {
        return Some("a position or the price is not there".to_string());
    };
    found.add_settlement(&terms);
    let Some(price) = pieces.first().and_then(|piece| piece.cents.checked_div(piece.quantity)) else {
        return Some("there is no piece, or one without units".to_string());
    };
    if let Some(piece) = pieces.iter().find(|piece| piece.cents != piece.quantity * price) {
        return Some(format!("{piece:?} is not at the price {price}"));
    }
    let highest = terms.highest();
    (price != highest).then(|| format!("the price is {price}, and the highest of {terms:?} is {highest}"))
}

/// Pieces of the cash settlement of the first known history, and whether they have a fault.
const PIECES: [(&str, bool); 9] = [
    ("p 1 3 5 15000\np 1 4 5 15000\n", false),
    // Each by its own long; all by the short; all by the latest price doubled.
    ("p 1 3 5 15000\np 1 4 5 11000\n", true),
    ("p 1 3 5 5000\np 1 4 5 5000\n", true),
    ("p 1 3 5 11000\np 1 4 5 11000\n", true),
    // One price that is none of the terms, and cents that are no multiple of the units.
    ("p 1 3 5 15005\np 1 4 5 15005\n", true),
    ("p 1 3 5 15001\np 1 4 5 15001\n", true),
    // No piece; only the long with 1,000, at 3,000 and at 2,200.
    ("", true),
    ("p 1 4 10 30000\n", true),
    ("p 1 4 10 22000\n", false),
];

fn known_faults(check: &mut Check) {
    let events: String = KNOWN[0].events.iter().map(|(event, _)| format!("{event}\n")).collect();
    let input = text::read(format!("security 1 XX0000000002\n{events}").as_bytes()).map(|input| input.bytes());
    let input = input.expect("the text has no mistake");
    let closes_and_price: String = (3..=13).map(|number| format!("e {number} 0 0\n")).collect();
    for (pieces, has_fault) in PIECES {
        let output = format!("e 1 0 10\ne 2 0 5\n{closes_and_price}e 14 0 10\n{pieces}");
        let found = faults(&input, output.as_bytes(), &mut Found::default()).map(|faults| !faults.is_empty());
        same(check, || pieces.to_string(), found, Ok(has_fault));
    }
}
