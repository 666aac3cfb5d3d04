//! Known auctions, with numbers worked out by hand, as the player prints them.

use crate::check::Check;
use crate::compare::prices::{answers, Answered};

/// A history, the refusals in it, and what the player prints of it: of each event, then at its end.
pub struct Known {
    pub name: &'static str,
    pub classes: &'static [u8],
    pub events: &'static [Answered<'static>],
    pub refusals: &'static [u32],
    pub end: &'static str,
}

/// Where nothing else is said, the security is of class 1 and its price 1,000 on day 8, so that the ceiling is 2,000;
/// the reference price is 1,000; an award that is not confirmed costs its offerer 100,000, which shows whose it is; and
/// the short's late fine is below half a cent.
pub const KNOWN: [Known; 15] = [
    // Award 1 is of member 3 and award 2, of the 4 units left, of member 4. 6 times 50 are 300.
    Known {
        name: "two offers at one price, of which the earlier takes first",
        classes: &[1],
        events: &[
            ("trade 1 2 1 10 1000", "0 10"),
            ("close 7", "0 0"),
            ("price 1 1000", "0 0"),
            ("attempt 1", "0 0"),
            ("offer 1 3 6 1050", "0 6"),
            ("offer 1 4 6 1050", "0 6"),
            ("award 1", "0 10"),
            ("confirm 1", "0 6\np 1 2 6 0"),
            ("confirm 3", "11 0"),
            ("close", "0 0"),
        ],
        refusals: &[0, 11],
        end: "s 1 1 D 10 0 6 0 0 4\ns 2 2 R 10 0 6 0 0 4\na 0 100300\na 1 -300\na 4 -100000\n",
    },
    // 4 times -50 and 6 times 100.
    Known {
        name: "the last offer in part",
        classes: &[1],
        events: &[
            ("trade 1 2 1 10 1000", "0 10"),
            ("close 7", "0 0"),
            ("price 1 1000", "0 0"),
            ("attempt 1", "0 0"),
            ("offer 1 3 7 1100", "0 7"),
            ("offer 1 4 4 950", "0 4"),
            ("award 1", "0 10"),
            ("confirm 1", "0 4\np 1 2 4 0"),
            ("confirm 2", "0 6\np 1 2 6 0"),
            ("confirm 3", "11 0"),
        ],
        refusals: &[0, 11],
        end: "s 1 1 D 10 0 10 0 0 0\ns 2 2 R 10 0 10 0 0 0\na 0 400\na 1 -400\n",
    },
    // 6 times -200, 2 times 0 and 4 times 200. The 8 units left are open and free.
    Known {
        name: "too few offers, all of which are taken",
        classes: &[1],
        events: &[
            ("trade 1 2 1 20 1000", "0 20"),
            ("close 7", "0 0"),
            ("price 1 1000", "0 0"),
            ("attempt 1", "0 0"),
            ("offer 1 3 4 1200", "0 4"),
            ("offer 1 4 6 800", "0 6"),
            ("offer 1 5 2 1000", "0 2"),
            ("award 1", "0 12"),
            ("confirm 1", "0 6\np 1 2 6 0"),
            ("confirm 2", "0 2\np 1 2 2 0"),
            ("confirm 3", "0 4\np 1 2 4 0"),
            ("delivery 1 9", "24 0"),
            ("delivery 1 8", "0 8\np 1 2 8 0"),
        ],
        refusals: &[0, 24],
        end: "s 1 1 D 20 8 12 0 0 0\ns 2 2 R 20 8 12 0 0 0\na 0 -400\na 1 400\n",
    },
    // The auction is over all the same. The late fine of day 8 is 1 cent; the awards of day 9 are numbered from 1
    // again.
    Known {
        name: "no offers, a total of 0",
        classes: &[1],
        events: &[
            ("trade 1 2 1 10 1000", "0 10"),
            ("close 7", "0 0"),
            ("price 1 1000", "0 0"),
            ("attempt 1", "0 0"),
            ("award 1", "0 0"),
            ("confirm 1", "11 0"),
            ("offer 1 3 10 1000", "18 0"),
            ("attempt 1", "20 0"),
            ("close", "0 0"),
            ("price 1 1000", "0 0"),
            ("attempt 1", "0 0"),
            ("offer 1 3 10 1000", "0 10"),
            ("award 1", "0 10"),
            ("confirm 1", "0 10\np 1 2 10 0"),
        ],
        refusals: &[0, 11, 18, 20],
        end: "s 1 1 D 10 0 10 0 0 0\ns 2 2 R 10 0 10 0 0 0\na 0 1\na 1 -1\n",
    },
    // 2 times 100, 3 times 200 and 3 times 300.
    Known {
        name: "offers that arrive dearest first",
        classes: &[1],
        events: &[
            ("trade 1 2 1 8 1000", "0 8"),
            ("close 7", "0 0"),
            ("price 1 1000", "0 0"),
            ("attempt 1", "0 0"),
            ("offer 1 3 5 1400", "0 5"),
            ("offer 1 4 4 1300", "0 4"),
            ("offer 1 5 3 1200", "0 3"),
            ("offer 1 6 2 1100", "0 2"),
            ("award 1", "0 8"),
            ("confirm 1", "0 2\np 1 2 2 0"),
            ("confirm 2", "0 3\np 1 2 3 0"),
            ("confirm 3", "0 3\np 1 2 3 0"),
            ("confirm 4", "11 0"),
        ],
        refusals: &[0, 11],
        end: "s 1 1 D 8 0 8 0 0 0\ns 2 2 R 8 0 8 0 0 0\na 0 1700\na 1 -1700\n",
    },
    // Award 1 is of member 4, award 2 of member 3 and award 3, of 2 units, of member 5. 4 times 100 and 3 times 200.
    Known {
        name: "equal prices taken across a cheaper one",
        classes: &[1],
        events: &[
            ("trade 1 2 1 9 1000", "0 9"),
            ("close 7", "0 0"),
            ("price 1 1000", "0 0"),
            ("attempt 1", "0 0"),
            ("offer 1 3 3 1200", "0 3"),
            ("offer 1 4 4 1100", "0 4"),
            ("offer 1 5 5 1200", "0 5"),
            ("award 1", "0 9"),
            ("confirm 1", "0 4\np 1 2 4 0"),
            ("confirm 2", "0 3\np 1 2 3 0"),
            ("close", "0 0"),
        ],
        refusals: &[0],
        end: "s 1 1 D 9 0 7 0 0 2\ns 2 2 R 9 0 7 0 0 2\na 0 101000\na 1 -1000\na 5 -100000\n",
    },
    // Neither the dearer offer nor the later one of the same price makes an award, and neither is fined.
    Known {
        name: "offers that find nothing left",
        classes: &[1],
        events: &[
            ("trade 1 2 1 10 1000", "0 10"),
            ("close 7", "0 0"),
            ("price 1 1000", "0 0"),
            ("attempt 1", "0 0"),
            ("offer 1 3 10 1000", "0 10"),
            ("offer 1 4 5 1001", "0 5"),
            ("offer 1 5 1 1000", "0 1"),
            ("award 1", "0 10"),
            ("confirm 2", "11 0"),
            ("confirm 1", "0 10\np 1 2 10 0"),
            ("close", "0 0"),
        ],
        refusals: &[0, 11],
        end: "s 1 1 D 10 0 10 0 0 0\ns 2 2 R 10 0 10 0 0 0\n",
    },
    // 6 units are open: 5 times 0 and 1 times 100.
    Known {
        name: "units delivered before are not awarded",
        classes: &[1],
        events: &[
            ("trade 1 2 1 10 1000", "0 10"),
            ("close 7", "0 0"),
            ("price 1 1000", "0 0"),
            ("delivery 1 4", "0 4\np 1 2 4 0"),
            ("attempt 1", "0 0"),
            ("offer 1 3 5 1100", "0 5"),
            ("offer 1 4 5 1000", "0 5"),
            ("award 1", "0 6"),
            ("confirm 1", "0 5\np 1 2 5 0"),
            ("confirm 2", "0 1\np 1 2 1 0"),
        ],
        refusals: &[0],
        end: "s 1 1 D 10 4 6 0 0 0\ns 2 2 R 10 4 6 0 0 0\na 0 100\na 1 -100\n",
    },
    // 10 times -10.
    Known {
        name: "one offer of more than is open, below the reference price",
        classes: &[1],
        events: &[
            ("trade 1 2 1 10 1000", "0 10"),
            ("close 7", "0 0"),
            ("price 1 1000", "0 0"),
            ("attempt 1", "0 0"),
            ("offer 1 3 1000000 990", "0 1000000"),
            ("award 1", "0 10"),
            ("confirm 1", "0 10\np 1 2 10 0"),
            ("confirm 2", "11 0"),
        ],
        refusals: &[0, 11],
        end: "s 1 1 D 10 0 10 0 0 0\ns 2 2 R 10 0 10 0 0 0\na 0 -100\na 1 100\n",
    },
    // Award 1 is of 4 units of member 3, award 2 of 4 of member 4 and award 3 of 2 of member 3. The 6 units left open
    // make a late fine of 1 cent.
    Known {
        name: "two offers of one member",
        classes: &[1],
        events: &[
            ("trade 1 2 1 10 1000", "0 10"),
            ("close 7", "0 0"),
            ("price 1 1000", "0 0"),
            ("attempt 1", "0 0"),
            ("offer 1 3 4 1100", "0 4"),
            ("offer 1 3 4 900", "0 4"),
            ("offer 1 4 4 1000", "0 4"),
            ("award 1", "0 10"),
            ("confirm 2", "0 4\np 1 2 4 0"),
            ("close", "0 0"),
        ],
        refusals: &[0],
        end: "s 1 1 D 10 0 4 0 0 6\ns 2 2 R 10 0 4 0 0 6\na 0 200001\na 1 -1\na 3 -200000\n",
    },
    // Member 1 pays 6 times 0 and 4 times 100, member 2 3 times -100 and 2 times 100. The offer at 700 finds nothing
    // left.
    Known {
        name: "two auctions on one day",
        classes: &[1, 1],
        events: &[
            ("trade 1 3 1 10 1000", "0 10"),
            ("trade 2 3 2 5 500", "0 5"),
            ("close 7", "0 0"),
            ("price 1 1000", "0 0"),
            ("price 2 500", "0 0"),
            ("attempt 1", "0 0"),
            ("offer 1 4 6 1100", "0 6"),
            ("offer 1 5 6 1000", "0 6"),
            ("award 1", "0 10"),
            ("attempt 2", "0 0"),
            ("offer 2 4 3 600", "0 3"),
            ("offer 2 5 1 700", "0 1"),
            ("offer 2 6 3 400", "0 3"),
            ("award 2", "0 5"),
            ("confirm 4", "0 2\np 2 4 2 0"),
            ("confirm 1", "0 6\np 1 3 6 0"),
            ("confirm 3", "0 3\np 2 4 3 0"),
            ("confirm 2", "0 4\np 1 3 4 0"),
            ("confirm 5", "11 0"),
        ],
        refusals: &[0, 11],
        end: "s 1 1 D 10 0 10 0 0 0\ns 2 2 D 5 0 5 0 0 0\ns 3 3 R 10 0 10 0 0 0\ns 4 3 R 5 0 5 0 0 0\n\
              a 0 300\na 1 -400\na 2 100\n",
    },
    // The ceiling is 1,030. 3 times -10 and 1 times 10.
    Known {
        name: "class 3, a charge and a credit",
        classes: &[3],
        events: &[
            ("trade 1 2 1 4 1020", "0 4"),
            ("close 29", "0 0"),
            ("price 1 1000", "0 0"),
            ("attempt 1", "0 0"),
            ("offer 1 3 3 1031", "22 0"),
            ("offer 1 3 3 1030", "0 3"),
            ("offer 1 4 3 1010", "0 3"),
            ("award 1", "0 4"),
            ("confirm 1", "0 3\np 1 2 3 0"),
            ("confirm 2", "0 1\np 1 2 1 0"),
        ],
        refusals: &[0, 22],
        end: "s 1 1 D 4 0 4 0 0 0\ns 2 2 R 4 0 4 0 0 0\na 0 -20\na 1 20\n",
    },
    // The reference price is 1,100. 3 times 0 and 5 times 100.
    Known {
        name: "class 2, an award dealt out to two longs",
        classes: &[2],
        events: &[
            ("trade 1 2 1 3 1000", "0 3"),
            ("trade 1 3 1 5 1100", "0 5"),
            ("close 29", "0 0"),
            ("price 1 1000", "0 0"),
            ("attempt 1", "0 0"),
            ("offer 1 4 5 1200", "0 5"),
            ("offer 1 5 3 1100", "0 3"),
            ("award 1", "0 8"),
            ("confirm 2", "0 5\np 1 2 3 0\np 1 3 2 0"),
            ("confirm 1", "0 3\np 1 3 3 0"),
        ],
        refusals: &[0],
        end: "s 1 1 D 8 0 8 0 0 0\ns 2 2 R 3 0 3 0 0 0\ns 3 3 R 5 0 5 0 0 0\na 0 500\na 1 -500\n",
    },
    // 8 times 1,000.
    Known {
        name: "offers that are refused, each cheaper or larger, take no part",
        classes: &[1],
        events: &[
            ("trade 1 2 1 10 1000", "0 10"),
            ("close 7", "0 0"),
            ("price 1 1000", "0 0"),
            ("attempt 1", "0 0"),
            ("offer 1 1 10 1", "21 0"),
            ("offer 1 3 1000001 900", "12 0"),
            ("offer 1 3 8 2000", "0 8"),
            ("offer 1 3 10 2001", "22 0"),
            ("award 1", "0 8"),
            ("confirm 1", "0 8\np 1 2 8 0"),
            ("confirm 2", "11 0"),
        ],
        refusals: &[0, 11, 12, 21, 22],
        end: "s 1 1 D 10 0 8 0 0 2\ns 2 2 R 10 0 8 0 0 2\na 0 8000\na 1 -8000\n",
    },
    // 3 times 100, 3 times 200 and 4 times 300; the first offer alone would cost 10 times 300.
    Known {
        name: "an offer that would do alone, and cheaper ones",
        classes: &[1],
        events: &[
            ("trade 1 2 1 10 1000", "0 10"),
            ("close 7", "0 0"),
            ("price 1 1000", "0 0"),
            ("attempt 1", "0 0"),
            ("offer 1 3 10 1300", "0 10"),
            ("offer 1 4 3 1100", "0 3"),
            ("offer 1 5 3 1200", "0 3"),
            ("award 1", "0 10"),
            ("confirm 3", "0 4\np 1 2 4 0"),
            ("confirm 2", "0 3\np 1 2 3 0"),
            ("confirm 1", "0 3\np 1 2 3 0"),
        ],
        refusals: &[0],
        end: "s 1 1 D 10 0 10 0 0 0\ns 2 2 R 10 0 10 0 0 0\na 0 2100\na 1 -2100\n",
    },
];

/// Members 3 to 18 offer a unit each at 1,050, and 10 are open: awards 1 to 10 are of members 3 to 12. 9 are confirmed,
/// at 50 each, and the last is fined.
pub fn sixteen_offers(check: &mut Check) {
    let offers: Vec<String> = (3..=18).map(|member| format!("offer 1 {member} 1 1050")).collect();
    let confirmations: Vec<String> = (1..=9).map(|award| format!("confirm {award}")).collect();
    let mut events: Vec<Answered> =
        vec![("trade 1 2 1 10 1000", "0 10"), ("close 7", "0 0"), ("price 1 1000", "0 0"), ("attempt 1", "0 0")];
    events.extend(offers.iter().map(|offer| (offer.as_str(), "0 1")));
    events.extend([("offer 1 19 1 1000", "23 0"), ("award 1", "0 10")]);
    events.extend(confirmations.iter().map(|confirm| (confirm.as_str(), "0 1\np 1 2 1 0")));
    events.extend([("confirm 11", "11 0"), ("close", "0 0")]);
    let end = "s 1 1 D 10 0 9 0 0 1\ns 2 2 R 10 0 9 0 0 1\na 0 100450\na 1 -450\na 12 -100000\n";
    answers(check, &[1], &events, end);
}
