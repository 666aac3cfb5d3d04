//! The lines that the player prints.

use second::book::Side;

#[derive(Clone, Copy, Debug, PartialEq, Eq)]
pub enum Line {
    Refused { refusal: u64 },
    Event { number: u64, refusal: u64, quantity: u64 },
    Piece(Piece),
    Position(Position),
    Account { account: u64, cents: i64 },
}

#[derive(Clone, Copy, Debug, PartialEq, Eq)]
pub struct Piece {
    pub short: u64,
    pub long: u64,
    pub quantity: u64,
    pub cents: u64,
}

#[derive(Clone, Copy, Debug, PartialEq, Eq)]
pub struct Position {
    pub number: u64,
    pub member: u64,
    pub side: Side,
    pub netted: u64,
    pub delivered: u64,
    pub bought_in: u64,
    pub cash: u64,
    pub paired: u64,
    pub open: u64,
}

/// The lines, each of which must end with a line feed.
pub fn lines(output: &[u8]) -> Result<Vec<Line>, String> {
    let text = String::from_utf8_lossy(output);
    let line = |(line, number): (&str, usize)| {
        let whole = line.strip_suffix('\n').and_then(Line::read);
        whole.ok_or_else(|| format!("output line {number}: the player prints no such line: {line:?}"))
    };
    text.split_inclusive('\n').zip(1..).map(line).collect()
}

impl Line {
    fn read(line: &str) -> Option<Line> {
        let words: Vec<&str> = line.split(' ').collect();
        Some(match words[..] {
            ["f", refusal] => Line::Refused { refusal: whole(refusal)? },
            ["e", number, refusal, quantity] => {
                Line::Event { number: whole(number)?, refusal: whole(refusal)?, quantity: whole(quantity)? }
            }
            ["p", short, long, quantity, cents] => Line::Piece(Piece {
                short: whole(short)?,
                long: whole(long)?,
                quantity: whole(quantity)?,
                cents: whole(cents)?,
            }),
            ["s", number, member, side, netted, delivered, bought_in, cash, paired, open] => Line::Position(Position {
                number: whole(number)?,
                member: whole(member)?,
                side: side_of(side)?,
                netted: whole(netted)?,
                delivered: whole(delivered)?,
                bought_in: whole(bought_in)?,
                cash: whole(cash)?,
                paired: whole(paired)?,
                open: whole(open)?,
            }),
            ["a", account, cents] => Line::Account { account: whole(account)?, cents: signed(cents)? },
            _ => return None,
        })
    }
}

fn side_of(word: &str) -> Option<Side> {
    match word {
        "D" => Some(Side::Short),
        "R" => Some(Side::Long),
        _ => None,
    }
}

/// The number, written as the player writes it.
fn signed(word: &str) -> Option<i64> {
    word.parse().ok().filter(|number: &i64| number.to_string() == word)
}

fn whole(word: &str) -> Option<u64> {
    signed(word)?.try_into().ok()
}
