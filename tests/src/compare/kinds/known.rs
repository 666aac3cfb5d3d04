//! Histories with own and client business, what the player prints of them, and the desk's page at their end.

use crate::compare::prices::Answered;

pub struct Known {
    pub name: &'static str,
    pub classes: &'static [u8],
    pub events: &'static [Answered<'static>],
    /// The answers that occur, 0 for accepted.
    pub refusals: &'static [u32],
    /// What the player prints after the events.
    pub end: &'static str,
    pub page: &'static [&'static str],
}

/// Where nothing else is said, the security is of class 1, and the price of the day is 1,100, doubled 2,200, the ceiling
/// and least cash price. The fee of a cash settlement is 25,000, the least. Without an earlier price there are no late
/// fines.
pub const KNOWN: [Known; 13] = [
    // Each member trades in each kind and security, in no order. Client before own, security before kind, or kind before
    // member would each number them otherwise.
    Known {
        name: "positions by member, kind and security",
        classes: &[1, 2],
        events: &[
            ("trade 2 client 1 client 2 10 100", "0 10"),
            ("trade 1 2 2 20 200", "0 20"),
            ("trade 1 client 2 1 30 300", "0 30"),
            ("trade 2 client 1 1 40 400", "0 40"),
            ("close", "0 0"),
        ],
        refusals: &[0],
        end: "s 1 1 R 40 0 0 0 0 40\ns 2 1 D 20 0 0 0 0 20\ns 3 1 D 30 0 0 0 0 30\ns 4 1 R 10 0 0 0 0 10\n\
              s 5 2 R 30 0 0 0 0 30\ns 6 2 R 20 0 0 0 0 20\ns 7 2 D 40 0 0 0 0 40\ns 8 2 D 10 0 0 0 0 10\n",
        page: &[
            "   1  1 XX0000000002 R        40         0         0         0        40     3 O",
            "   2  1 XX0000000010 D        20         0         0         0        20     3 O",
            "   3  1 XX0000000002 D        30         0         0         0        30     3 C",
            "   4  1 XX0000000010 R        10         0         0         0        10     3 C",
            "   5  2 XX0000000002 R        30         0         0         0        30     3 O",
            "   6  2 XX0000000010 R        20         0         0         0        20     3 O",
            "   7  2 XX0000000002 D        40         0         0         0        40     3 C",
            "   8  2 XX0000000010 D        10         0         0         0        10     3 C",
        ],
    },
    // Two closes: the own position of the second comes after the client's of the first.
    Known {
        name: "positions of two closes",
        classes: &[1],
        events: &[
            ("trade 1 client 2 client 1 10 100", "0 10"),
            ("close", "0 0"),
            ("trade 1 2 1 20 200", "0 20"),
            ("close", "0 0"),
        ],
        refusals: &[0],
        end: "s 1 1 D 10 0 0 0 0 10\ns 2 2 R 10 0 0 0 0 10\ns 3 1 D 20 0 0 0 0 20\ns 4 2 R 20 0 0 0 0 20\n",
        page: &[
            "   1  1 XX0000000002 D        10         0         0         0        10     3 C",
            "   2  2 XX0000000002 R        10         0         0         0        10     3 C",
            "   3  1 XX0000000002 D        20         0         0         0        20     4 O",
            "   4  2 XX0000000002 R        20         0         0         0        20     4 O",
        ],
    },
    // Member 1 sells 10 for itself and buys 10 for a client: together nothing, apart a short and a long. Member 2 buys
    // and sells 10 for itself and has no position. Member 3 sells 4 and buys 9 for a client, and sells 6 for itself.
    Known {
        name: "quantities that would be nothing together",
        classes: &[1],
        events: &[
            ("trade 1 2 1 10 1000", "0 10"),
            ("trade 2 1 client 1 10 1100", "0 10"),
            ("trade 3 client 4 1 4 1000", "0 4"),
            ("trade 4 3 client 1 9 1000", "0 9"),
            ("trade 3 4 1 6 1000", "0 6"),
            ("close 2", "0 0"),
            ("delivery 1 10", "0 10\np 1 2 10 0"),
        ],
        refusals: &[0],
        end: "s 1 1 D 10 10 0 0 0 0\ns 2 1 R 10 10 0 0 0 0\ns 3 3 D 6 0 0 0 0 6\ns 4 3 R 5 0 0 0 0 5\n\
              s 5 4 R 1 0 0 0 0 1\n",
        page: &[
            "   1  1 XX0000000002 D        10        10         0         0         0     3 O",
            "   2  1 XX0000000002 R        10        10         0         0         0     3 C",
            "   3  3 XX0000000002 D         6         0         0         0         6     3 O",
            "   4  3 XX0000000002 R         5         0         0         0         5     3 C",
            "   5  4 XX0000000002 R         1         0         0         0         1     3 O",
        ],
    },
    Known {
        name: "a trade of a member with itself, own to client, delivered to itself",
        classes: &[1],
        events: &[
            ("trade 1 1 client 1 10 1000", "0 10"),
            ("close 2", "0 0"),
            ("delivery 1 4", "0 4\np 1 2 4 0"),
            ("delivery 2 6", "16 0"),
            ("delivery 1 7", "24 0"),
            ("delivery 1 6", "0 6\np 1 2 6 0"),
        ],
        refusals: &[0, 16, 24],
        end: "s 1 1 D 10 10 0 0 0 0\ns 2 1 R 10 10 0 0 0 0\n",
        page: &[
            "   1  1 XX0000000002 D        10        10         0         0         0     3 O",
            "   2  1 XX0000000002 R        10        10         0         0         0     3 C",
        ],
    },
    // What it pays itself, 22,000, leaves its account as it was; the fee does not.
    Known {
        name: "a trade of a member with itself, client to own, settled in cash with itself",
        classes: &[1],
        events: &[
            ("trade 1 client 1 1 10 1000", "0 10"),
            ("close 10", "0 0"),
            ("price 1 1100", "0 0"),
            ("cash 2", "0 10\np 2 1 10 22000"),
        ],
        refusals: &[0],
        end: "s 1 1 R 10 0 0 10 0 0\ns 2 1 D 10 0 0 10 0 0\na 0 25000\na 1 -25000\n",
        page: &[
            "   1  1 XX0000000002 R        10         0         0        10         0     3 O",
            "   2  1 XX0000000002 D        10         0         0        10         0     3 C",
        ],
    },
    // Of member 1's shorts the own one has reference price 1,000 and the client one 1,500: at 1,200 the first costs 2,000
    // and the second brings 3,000. The member's one account has both.
    Known {
        name: "a short's reference price within its kind, bought in",
        classes: &[1],
        events: &[
            ("trade 1 2 1 7 1000", "0 7"),
            ("trade 1 client 2 1 10 1500", "0 10"),
            ("trade 1 2 1 3 900", "0 3"),
            ("close 7", "0 0"),
            ("price 1 1100", "0 0"),
            ("attempt 1", "0 0"),
            ("offer 1 3 10 1200", "0 10"),
            ("award 1", "0 10"),
            ("confirm 1", "0 10\np 1 3 10 0"),
            ("attempt 2", "0 0"),
            ("offer 2 3 10 1200", "0 10"),
            ("award 2", "0 10"),
            ("confirm 2", "0 10\np 2 3 10 0"),
        ],
        refusals: &[0],
        end: "s 1 1 D 10 0 10 0 0 0\ns 2 1 D 10 0 10 0 0 0\ns 3 2 R 20 0 20 0 0 0\na 0 -1000\na 1 1000\n",
        page: &[
            "   1  1 XX0000000002 D        10         0        10         0         0     3 O",
            "   2  1 XX0000000002 D        10         0        10         0         0     3 C",
            "   3  2 XX0000000002 R        20         0        20         0         0     3 O",
        ],
    },
    // Of member 1's longs the own one has reference price 1,000 and the client one 3,000. The first is settled at 2,200,
    // the latest price doubled, and the second at 3,000.
    Known {
        name: "a long's reference price within its kind, settled in cash",
        classes: &[1],
        events: &[
            ("trade 2 1 1 10 1000", "0 10"),
            ("trade 3 1 client 1 5 3000", "0 5"),
            ("close 10", "0 0"),
            ("price 1 1100", "0 0"),
            ("cash 3", "0 10\np 3 1 10 22000"),
            ("cash 4", "0 5\np 4 2 5 15000"),
        ],
        refusals: &[0],
        end: "s 1 1 R 10 0 0 10 0 0\ns 2 1 R 5 0 0 5 0 0\ns 3 2 D 10 0 0 10 0 0\ns 4 3 D 5 0 0 5 0 0\n\
              a 0 50000\na 1 37000\na 2 -47000\na 3 -40000\n",
        page: &[
            "   1  1 XX0000000002 R        10         0         0        10         0     3 O",
            "   2  1 XX0000000002 R         5         0         0         5         0     3 C",
            "   3  2 XX0000000002 D        10         0         0        10         0     3 O",
            "   4  3 XX0000000002 D         5         0         0         5         0     3 O",
        ],
    },
    // Member 1's two shorts are settled apart, each with its fee, and both are paid from its one account.
    Known {
        name: "one account for both kinds",
        classes: &[1],
        events: &[
            ("trade 1 2 1 10 1000", "0 10"),
            ("trade 1 client 3 client 1 5 1000", "0 5"),
            ("close 10", "0 0"),
            ("price 1 1100", "0 0"),
            ("cash 1", "0 10\np 1 3 10 22000"),
            ("cash 2", "0 5\np 2 4 5 11000"),
        ],
        refusals: &[0],
        end: "s 1 1 D 10 0 0 10 0 0\ns 2 1 D 5 0 0 5 0 0\ns 3 2 R 10 0 0 10 0 0\ns 4 3 R 5 0 0 5 0 0\n\
              a 0 50000\na 1 -83000\na 2 22000\na 3 11000\n",
        page: &[
            "   1  1 XX0000000002 D        10         0         0        10         0     3 O",
            "   2  1 XX0000000002 D         5         0         0         5         0     3 C",
            "   3  2 XX0000000002 R        10         0         0        10         0     3 O",
            "   4  3 XX0000000002 R         5         0         0         5         0     3 C",
        ],
    },
    // 5 units at 1,100 are 5,500, and a late fine of 1 cent for each kind; 10 units together would cost 1 cent in all.
    Known {
        name: "a late fine for each kind",
        classes: &[1],
        events: &[
            ("trade 1 2 1 5 1000", "0 5"),
            ("trade 1 client 2 1 5 1000", "0 5"),
            ("price 1 1100", "0 0"),
            ("close 3", "0 0"),
        ],
        refusals: &[0],
        end: "s 1 1 D 5 0 0 0 0 5\ns 2 1 D 5 0 0 0 0 5\ns 3 2 R 10 0 0 0 0 10\na 0 2\na 1 -2\n",
        page: &[
            "   1  1 XX0000000002 D         5         0         0         0         5     3 O",
            "   2  1 XX0000000002 D         5         0         0         0         5     3 C",
            "   3  2 XX0000000002 R        10         0         0         0        10     3 O",
        ],
    },
    // The longs of member 2, own and client, take what there is in the order of their numbers, of whichever kind the short
    // is.
    Known {
        name: "shorts of each kind dealt to longs of each kind",
        classes: &[1],
        events: &[
            ("trade 1 client 2 1 4 1000", "0 4"),
            ("trade 1 client 2 client 1 6 1000", "0 6"),
            ("trade 3 2 client 1 5 1000", "0 5"),
            ("close 2", "0 0"),
            ("delivery 1 1", "0 1\np 1 2 1 0"),
            ("delivery 4 4", "0 4\np 4 2 3 0\np 4 3 1 0"),
            ("delivery 1 9", "0 9\np 1 3 9 0"),
            ("delivery 4 1", "0 1\np 4 3 1 0"),
        ],
        refusals: &[0],
        end: "s 1 1 D 10 10 0 0 0 0\ns 2 2 R 4 4 0 0 0 0\ns 3 2 R 11 11 0 0 0 0\ns 4 3 D 5 5 0 0 0 0\n",
        page: &[
            "   1  1 XX0000000002 D        10        10         0         0         0     3 C",
            "   2  2 XX0000000002 R         4         4         0         0         0     3 O",
            "   3  2 XX0000000002 R        11        11         0         0         0     3 C",
            "   4  3 XX0000000002 D         5         5         0         0         0     3 O",
        ],
    },
    // On day 8 members 1 (client), 2 (own) and 6 (both, then client alone) fail in security 1. Member 3 fails in security 2
    // alone, member 5's client short is due today, and member 4 has longs.
    Known {
        name: "a member failing in either kind may not offer",
        classes: &[1, 1],
        events: &[
            ("trade 1 client 4 1 10 1000", "0 10"),
            ("trade 2 4 1 10 1000", "0 10"),
            ("trade 3 client 4 2 10 1000", "0 10"),
            ("trade 6 4 1 5 1000", "0 5"),
            ("trade 6 client 4 1 5 1000", "0 5"),
            ("close 5", "0 0"),
            ("trade 5 client 4 1 1 1000", "0 1"),
            ("close 2", "0 0"),
            ("price 1 1100", "0 0"),
            ("attempt 2", "0 0"),
            ("offer 2 1 1 1000", "21 0"),
            ("offer 2 2 1 1000", "21 0"),
            ("offer 2 6 1 1000", "21 0"),
            ("delivery 6 5", "0 5\np 6 4 5 0"),
            ("offer 2 6 1 1000", "21 0"),
            ("delivery 7 5", "0 5\np 7 4 5 0"),
            ("offer 2 6 1 1000", "0 1"),
            ("offer 2 3 1 1000", "0 1"),
            ("offer 2 4 1 1000", "0 1"),
            ("offer 2 5 1 1000", "0 1"),
            ("award 2", "0 4"),
            ("attempt 1", "0 0"),
            ("offer 1 1 1 1000", "21 0"),
            ("offer 1 2 1 1000", "21 0"),
            ("offer 1 6 1 1000", "0 1"),
            ("award 1", "0 1"),
        ],
        refusals: &[0, 21],
        end: "s 1 1 D 10 0 0 0 0 10\ns 2 2 D 10 0 0 0 0 10\ns 3 3 D 10 0 0 0 0 10\ns 4 4 R 30 10 0 0 0 20\n\
              s 5 4 R 10 0 0 0 0 10\ns 6 6 D 5 5 0 0 0 0\ns 7 6 D 5 5 0 0 0 0\ns 8 4 R 1 0 0 0 0 1\n\
              s 9 5 D 1 0 0 0 0 1\n",
        page: &[
            "   1  1 XX0000000002 D        10         0         0         0        10     3 C",
            "   2  2 XX0000000002 D        10         0         0         0        10     3 O",
            "   3  3 XX0000000010 D        10         0         0         0        10     3 C",
            "   4  4 XX0000000002 R        30        10         0         0        20     3 O",
            "   5  4 XX0000000010 R        10         0         0         0        10     3 O",
            "   6  6 XX0000000002 D         5         5         0         0         0     3 O",
            "   7  6 XX0000000002 D         5         5         0         0         0     3 C",
            "   8  4 XX0000000002 R         1         0         0         0         1     8 O",
            "   9  5 XX0000000002 D         1         0         0         0         1     8 C",
        ],
    },
    // Member 1 fails for itself and has a client long, member 4 fails for a client and has an own long. Once both have
    // delivered they may offer. At the close of day 8 the award costs member 2 100,000, and 20 open units member 3 2.
    Known {
        name: "a member failing in one kind and long in the other may not offer",
        classes: &[1],
        events: &[
            ("trade 1 2 1 10 1000", "0 10"),
            ("trade 3 1 client 1 10 1000", "0 10"),
            ("trade 4 client 2 1 10 1000", "0 10"),
            ("trade 3 4 1 10 1000", "0 10"),
            ("close 7", "0 0"),
            ("price 1 1100", "0 0"),
            ("attempt 4", "0 0"),
            ("offer 4 1 1 1000", "21 0"),
            ("offer 4 4 1 1000", "21 0"),
            ("offer 4 2 1 1000", "0 1"),
            ("award 4", "0 1"),
            ("delivery 1 10", "0 10\np 1 2 10 0"),
            ("delivery 6 10", "0 10\np 6 3 10 0"),
            ("attempt 1", "24 0"),
            ("close", "0 0"),
            ("price 1 1100", "0 0"),
            ("attempt 4", "0 0"),
            ("offer 4 1 1 1000", "0 1"),
            ("offer 4 4 1 1000", "0 1"),
            ("offer 4 3 1 1000", "21 0"),
            ("award 4", "0 2"),
        ],
        refusals: &[0, 21, 24],
        end: "s 1 1 D 10 10 0 0 0 0\ns 2 1 R 10 10 0 0 0 0\ns 3 2 R 20 10 0 0 0 10\ns 4 3 D 20 0 0 0 0 20\n\
              s 5 4 R 10 0 0 0 0 10\ns 6 4 D 10 10 0 0 0 0\na 0 100002\na 2 -100000\na 3 -2\n",
        page: &[
            "   1  1 XX0000000002 D        10        10         0         0         0     3 O",
            "   2  1 XX0000000002 R        10        10         0         0         0     3 C",
            "   3  2 XX0000000002 R        20        10         0         0        10     3 O",
            "   4  3 XX0000000002 D        20         0         0         0        20     3 O",
            "   5  4 XX0000000002 R        10         0         0         0        10     3 O",
            "   6  4 XX0000000002 D        10        10         0         0         0     3 C",
        ],
    },
    // 14 goes by members and bytes as they are, 33 by each byte; both after 9, 10, 12 and 13.
    Known {
        name: "refusals 14 and 33 after the earlier ones, and before each other",
        classes: &[1],
        events: &[
            ("trade 1 1 1 10 1000", "14 0"),
            ("trade 1 client 1 client 1 10 1000", "14 0"),
            ("trade 1 kind 7 1 kind 7 1 10 1000", "14 0"),
            ("trade 1 kind 7 1 kind 8 1 10 1000", "33 0"),
            ("trade 1 kind 2 1 1 10 1000", "33 0"),
            ("trade 1 client 1 kind 255 1 10 1000", "33 0"),
            ("trade 1 kind 2 2 1 10 1000", "33 0"),
            ("trade 1 2 kind 2 1 10 1000", "33 0"),
            ("trade 64 kind 7 1 1 10 1000", "9 0"),
            ("trade 1 0 kind 7 1 10 1000", "9 0"),
            ("trade 1 kind 7 2 2 10 1000", "10 0"),
            ("trade 1 2 kind 7 1 0 1000", "12 0"),
            ("trade 1 kind 7 2 1 1000001 1000", "12 0"),
            ("trade 1 2 kind 7 1 10 0", "13 0"),
            ("trade 64 client 64 client 1 10 1000", "9 0"),
            ("trade 1 client 1 client 2 10 1000", "10 0"),
            ("trade 1 client 1 client 1 0 1000", "12 0"),
            ("trade 1 client 1 client 1 10 10000001", "13 0"),
            ("trade 1 1 client 1 10 1000", "0 10"),
            ("trade 1 kind 1 1 kind 0 1 4 1000", "0 4"),
            ("close", "0 0"),
        ],
        refusals: &[0, 9, 10, 12, 13, 14, 33],
        end: "s 1 1 D 6 0 0 0 0 6\ns 2 1 R 6 0 0 0 0 6\n",
        page: &[
            "   1  1 XX0000000002 D         6         0         0         0         6     3 O",
            "   2  1 XX0000000002 R         6         0         0         0         6     3 C",
        ],
    },
];
