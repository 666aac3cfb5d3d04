//! The walk both ways: its text on the examples, its figures on histories, and what it says of lines that do not meet.

use super::player::shown;
use super::{kind_name, same};
use crate::check::{Check, Round, Tests};
use fails_book_tests::histories;
use fails_book_tests::random::Random;
use second::book::{Book, Manner, Piece, Position, Side, SHEET_PLACES};
use second::events::Event;
use second::register::Security;
use second::transcript;
use std::collections::BTreeMap;
use tools::check::Source;
use tools::numbers::counted;
use tools::played::Played;
use tools::{output, player, walk};

const EXAMPLE: &str = include_str!("../../../examples/example.txt");
const SQUEEZE: &str = include_str!("../../../examples/squeeze.txt");
const SQUEEZE_WALK: &str = include_str!("../../../examples/squeeze.walk");
const PAIR_OFF: &str = include_str!("../../../examples/pairoff.txt");
const PAIR_OFF_WALK: &str = include_str!("../../../examples/pairoff.walk");

const HISTORIES: usize = 300;
const LONG_HISTORIES: usize = 8;

/// The walk is to be readable at so many columns.
const COLUMNS: usize = 100;

pub fn exhaustive(tests: &mut Tests) {
    tests.check("walk: the squeeze and the pair-offs", &[], |check| {
        for (name, text, walk) in [("squeeze.txt", SQUEEZE, SQUEEZE_WALK), ("pairoff.txt", PAIR_OFF, PAIR_OFF_WALK)] {
            same(check, || name.to_string(), changed(text, &[]), Ok(walk.to_string()));
        }
    });
    tests.check("walk: books with little in them", &[], |check| {
        for (events, walk) in LITTLE {
            let text = format!("security 1 XX0000000002\n{events}");
            same(check, || events.to_string(), changed(&text, &[]), Ok(walk.to_string()));
        }
    });
    tests.check("walk: lines that do not meet", &[], |check| {
        for (text, changes, message) in NOT_MET {
            same(check, || format!("{changes:?}"), changed(text, changes), Err(message.to_string()));
        }
    });
}

pub fn seeded(round: &mut Round) {
    round.check("walk: histories", &[], |check, random| {
        let [mut pieces, mut paired] = [0, 0];
        for which in 0..HISTORIES + LONG_HISTORIES {
            let input = if which < HISTORIES { histories::any(random) } else { histories::long(random, which) };
            let found = figures(check, &input);
            pieces += found.len() as u64;
            paired += found.iter().filter(|row| row.manner == "paired").count() as u64;
        }
        check.reached("a piece", pieces);
        check.reached("a paired piece", paired);
    });
    round.check("walk: one number of a piece or position changed", &[], changed_numbers);
}

/// A play of the input by the player, with what it printed; none where the input is refused.
pub fn played(source: &Source) -> Result<Option<(Played, Vec<u8>)>, String> {
    let output = player::play(&source.bytes).map_err(|error| error.to_string())?;
    Ok(Played::of(source, &output)?.ok().map(|played| (played, output)))
}

/// The walk of a text in whose output the second line of each change stands for the first.
fn changed(text: &str, changes: &[(&str, &str)]) -> Result<String, String> {
    let (played, output) = played(&Source::of_text(text.as_bytes())?)?.ok_or("the text is refused")?;
    let mut output = String::from_utf8_lossy(&output).into_owned();
    for (old, new) in changes {
        let at = output.find(&format!("{old}\n")).ok_or_else(|| format!("the output has no {old}"))?;
        output.replace_range(at..at + old.len(), new);
    }
    walk::walk(&played, &output::lines(output.as_bytes())?)
}

/// Events on one security, and their walk.
const LITTLE: [(&str, &str); 4] = [
    (
        "",
        "forward, from each short to its longs:\nnone\n\nback, from each long to its shorts:\nnone\n\n\
         side by side, for each pair:\n short  long  units forward  units back  cents forward  cents back\n\
         in all                    0           0              0           0\n\
         both walks meet: 0 pairs, 0 units, 0 cents\n",
    ),
    (
        "trade 1 2 1 1 1000\nclose\n",
        "forward, from each short to its longs:\n\
         short 1: member 1 own, security 1 (XX0000000002), delivery day 3, no pieces, 1 open\n\n\
         back, from each long to its shorts:\n\
         long 2: member 2 own, security 1 (XX0000000002), delivery day 3, no pieces, 1 open\n\n\
         side by side, for each pair:\n short  long  units forward  units back  cents forward  cents back\n\
         in all                    0           0              0           0\n\
         both walks meet: 0 pairs, 0 units, 0 cents\n",
    ),
    (
        "trade 1 client 1 1 3 1000\nclose 2\ndelivery 2 2\n",
        "forward, from each short to its longs:\n\
         short 2: member 1 client, security 1 (XX0000000002), delivery day 3, 3 units netted\n  \
           day  event  manner     units  long  member  kind  cents  left open\n    \
           3      4  delivered      2     1       1   own                 1\n  \
           2 delivered, 0 bought in, 0 in cash for 0 cents\n\n\
         back, from each long to its shorts:\n\
         long 1: member 1 own, security 1 (XX0000000002), delivery day 3, 3 units netted\n  \
           day  event  manner     units  short  member    kind  cents  left open\n    \
           3      4  delivered      2      2       1  client                 1\n  \
           2 delivered, 0 bought in, 0 in cash for 0 cents\n\n\
         side by side, for each pair:\n short  long  units forward  units back  cents forward  cents back\n     \
              2     1              2           2              0           0  equal\n\
         in all                    2           2              0           0\n\
         both walks meet: 1 pair, 2 units, 0 cents\n",
    ),
    (
        "trade 1 2 1 3 1000\nclose\ntrade 3 1 1 2 1000\nclose 2\npair 1 3 1\n",
        "forward, from each short to its longs:\n\
         short 1: member 1 own, security 1 (XX0000000002), delivery day 3, 3 units netted\n  \
           day  event  manner  units  long  member  kind  cents  left open\n    \
           4      6  paired      1     3       1   own                 2\n  \
           0 delivered, 0 bought in, 0 in cash for 0 cents\n  1 paired\n\
         short 4: member 3 own, security 1 (XX0000000002), delivery day 4, no pieces, 2 open\n\n\
         back, from each long to its shorts:\n\
         long 2: member 2 own, security 1 (XX0000000002), delivery day 3, no pieces, 3 open\n\
         long 3: member 1 own, security 1 (XX0000000002), delivery day 4, 2 units netted\n  \
           day  event  manner  units  short  member  kind  cents  left open\n    \
           4      6  paired      1      1       1   own                 1\n  \
           0 delivered, 0 bought in, 0 in cash for 0 cents\n  1 paired\n\n\
         side by side, for each pair:\n short  long  units forward  units back  cents forward  cents back\n     \
              1     3              1           1              0           0  equal\n\
         in all                    1           1              0           0\n\
         both walks meet: 1 pair, 1 unit, 0 cents\n",
    ),
];

const SHORT_LINE: &str = "s 1 1 D 150 30 30 90 0 0";
const LONG_LINE: &str = "s 2 2 R 100 30 30 40 0 0";
const CASH_LINE: &str = "p 1 2 40 88000";

/// A text, what is changed in its output, and what does not meet then.
type NotMet = (&'static str, &'static [(&'static str, &'static str)], &'static str);

const NOT_MET: [NotMet; 28] = [
    (SQUEEZE, &[(CASH_LINE, "p 1 2 39 88000")], "position 1: its pieces leave 1 unit open, and the player has 0"),
    (SQUEEZE, &[("p 1 2 30 0", "p 2 2 30 0")], "position 1: its pieces leave 30 units open, and the player has 0"),
    (SQUEEZE, &[("p 1 2 30 0", "p 1 3 30 0")], "position 2: its pieces leave 30 units open, and the player has 0"),
    (SQUEEZE, &[("p 1 2 30 0", "p 1 9 30 0")], "position 2: its pieces leave 30 units open, and the player has 0"),
    (
        SQUEEZE,
        &[("p 1 2 30 0", "p 1 2 30 0\np 1 2 30 0")],
        "position 1: event 23 has a piece of 50 units, and what is open is 20",
    ),
    (
        SQUEEZE,
        &[("p 1 2 30 0", "p 1 2 9223372036854775807 0")],
        "position 1: event 7 has a piece of 9,223,372,036,854,775,807 units, and what is open is 150",
    ),
    (
        SQUEEZE,
        &[(CASH_LINE, "p 1 2 40 88001")],
        "position 1: its pieces come to 198,001 cents, and its payments to 198,000",
    ),
    (
        SQUEEZE,
        &[("p 1 2 30 0", "p 1 2 30 1")],
        "position 1: its pieces come to 198,001 cents, and its payments to 198,000",
    ),
    (
        SQUEEZE,
        &[(CASH_LINE, "p 1 2 40 110000"), ("p 1 3 50 110000", "p 1 3 50 88000")],
        "position 2: its pieces come to 110,000 cents, and its payments to 88,000",
    ),
    (
        SQUEEZE,
        &[(SHORT_LINE, "s 1 1 D 150 30 30 80 0 10")],
        "position 1: its pieces leave 0 units open, and the player has 10",
    ),
    (
        SQUEEZE,
        &[(LONG_LINE, "s 2 2 R 100 40 20 40 0 0")],
        "position 2: its pieces have 30 units delivered, and the player has 40",
    ),
    (
        SQUEEZE,
        &[(SHORT_LINE, "s 1 1 D 150 30 40 80 0 0")],
        "position 1: its pieces have 30 units bought in, and the player has 40",
    ),
    (
        SQUEEZE,
        &[(SHORT_LINE, "s 1 1 D 150 30 30 91 0 0")],
        "position 1: its pieces have 90 units in cash, and the player has 91",
    ),
    (
        SQUEEZE,
        &[(SHORT_LINE, "s 1 1 D 150 30 30 90 1 0")],
        "position 1: its pieces have 0 units paired, and the player has 1",
    ),
    (
        PAIR_OFF,
        &[("e 12 0 40\np 1 5 40 0", "e 12 0 40"), ("e 7 0 30", "e 7 0 30\np 1 5 40 0")],
        "position 1: its pieces have 70 units delivered, and the player has 30",
    ),
    (PAIR_OFF, &[("p 1 5 40 0", "p 1 6 40 0")], "position 5: its pieces leave 50 units open, and the player has 10"),
    (
        PAIR_OFF,
        &[("p 1 5 40 0", "p 1 5 40 1")],
        "position 1: its pieces come to 44,001 cents, and its payments to 44,000",
    ),
    (PAIR_OFF, &[("e 12 0 40", "e 12 0 41")], "event 12: its pieces have 40 units, and it answers 41"),
    (
        SQUEEZE,
        &[(LONG_LINE, "s 2 2 R 150 30 30 40 0 50")],
        "the player has position 2 (member 2, long, 150 units netted), \
         and the play position 2 (member 2, long, 100 units netted)",
    ),
    (
        SQUEEZE,
        &[(LONG_LINE, "s 2 3 D 100 30 30 40 0 0")],
        "the player has position 2 (member 3, short, 100 units netted), \
         and the play position 2 (member 2, long, 100 units netted)",
    ),
    (SQUEEZE, &[("s 3 3 R 50 0 0 50 0 0", "a 63 0")], "the player has 2 positions, and the play 3 positions"),
    // The long's line is changed as well, so that the pair alone does not meet.
    (
        EXAMPLE,
        &[("p 1 2 100 0", "p 1 1 100 0"), ("s 2 2 R 100 100 0 0 0 0", "s 2 2 R 100 0 0 0 0 100")],
        "short 1 and long 1: 1 piece with 100 units and 0 cents forward, 0 pieces with 0 units and 0 cents back",
    ),
    (
        SQUEEZE,
        &[("p 1 2 30 0", "p 1 2 30 0\np 1 0 0 0")],
        "short 1 and long 0: 1 piece with 0 units and 0 cents forward, 0 pieces with 0 units and 0 cents back",
    ),
    (SQUEEZE, &[("p 1 2 30 0", "p 1 2 30 0\np 2 1 30 0")], "the player has 5 pieces, and the walks 4"),
    (
        SQUEEZE,
        &[("e 7 0 30\np 1 2 30 0", "e 7 0 30"), ("e 5 17 0", "e 5 17 0\np 1 2 30 0")],
        "event 5: its pieces have 30 units, and it answers 0",
    ),
    (SQUEEZE, &[("e 4 0 0", "e 4 0 0\np 1 2 30 0")], "event 4: it has a piece, and discharges nothing"),
    (SQUEEZE, &[("e 23 0 90", "e 24 0 90")], "event 24: the play has 23 events"),
    (SQUEEZE, &[("e 1 0 100", "p 1 2 30 0\ne 1 0 100")], "a piece stands before the first event"),
];

/// What a walk says of a piece.
#[derive(Debug, PartialEq, Eq)]
struct Row {
    event: u64,
    day: u64,
    manner: &'static str,
    short: u64,
    long: u64,
    /// The member and the kind of the position that the walk comes to.
    member: u64,
    kind: &'static str,
    units: u64,
    cents: u64,
    open: u64,
}

/// What a walk says of a play, or is to say of it.
#[derive(Debug, Default, PartialEq, Eq)]
struct Figures {
    /// In the order of the events.
    forward: Vec<Row>,
    back: Vec<Row>,
    /// By number: side, member, kind, security, ISIN and delivery day, in words.
    headings: BTreeMap<u64, String>,
    /// By number: netted, delivered, bought in, cash, paired, open, and the cents of the pieces.
    positions: BTreeMap<u64, [u64; 7]>,
    /// By short and long: units, then cents, each forward and back.
    pairs: BTreeMap<(u64, u64), [u64; 4]>,
    in_all: [u64; 4],
    last: String,
}

/// Compares the walk of the input with what the second implementation's book holds, and answers the pieces.
fn figures(check: &mut Check, input: &[u8]) -> Vec<Row> {
    let walk = match played(&Source::of_bytes(input.to_vec())) {
        Ok(None) => return Vec::new(),
        Ok(Some((played, output))) => output::lines(&output).and_then(|lines| walk::walk(&played, &lines)),
        Err(wrong) => Err(wrong),
    };
    let columns = walk.iter().flat_map(|text| text.lines()).map(str::len).max();
    same(check, || shown(input), columns.is_some_and(|columns| columns <= COLUMNS), true);
    let found = walk.and_then(|text| read(&text));
    let wanted = Ok(wanted(input));
    same(check, || shown(input), &found, &wanted);
    wanted.map_or_else(|_: String| Vec::new(), |figures| figures.forward)
}

/// The text read back; a line of no known form is wrong.
fn read(text: &str) -> Result<Figures, String> {
    let mut figures = Figures::default();
    let mut reader = Reader { side: Side::Short, number: 0, netted: 0, open: 0 };
    for line in text.lines() {
        let plain = line.replace(',', "").replace("bought in", "bought-in").replace("1 unit ", "1 units ");
        let words: Vec<&str> = plain.split_whitespace().collect();
        reader.line(&mut figures, line, &words).ok_or_else(|| format!("the walk has no such line: {line:?}"))?;
    }
    figures.forward.sort_by_key(|row| row.event);
    figures.back.sort_by_key(|row| row.event);
    Ok(figures)
}

/// The position whose pieces are read, and what the last of them left open.
struct Reader {
    side: Side,
    number: u64,
    netted: u64,
    open: u64,
}

impl Reader {
    fn line(&mut self, figures: &mut Figures, line: &str, words: &[&str]) -> Option<()> {
        match *words {
            [] | ["day" | "forward" | "back" | "side" | "none", ..] | ["short", "long", ..] => {}
            ["both", "walks", "meet:", ..] => figures.last = line.to_string(),
            [side, number, "member", member, kind, "security", security, isin, "delivery", "day", day, ref end @ ..] => {
                self.side = if side == "short" { Side::Short } else { Side::Long };
                self.number = number.strip_suffix(':')?.parse().ok()?;
                figures.headings.insert(self.number, [side, member, kind, security, isin, day].join(" "));
                self.units(figures, end)?;
            }
            [delivered, "delivered", bought_in, "bought-in", cash, "in", "cash", "for", cents, _] => {
                let [delivered, bought_in, cash, cents] = numbers([delivered, bought_in, cash, cents])?;
                figures.positions.insert(self.number, [self.netted, delivered, bought_in, cash, 0, self.open, cents]);
            }
            // It follows the line of the other manners, and is left out where there are none.
            [paired, "paired"] => figures.positions.get_mut(&self.number)?[4] = paired.parse().ok()?,
            ["in", "all", a, b, c, d] => figures.in_all = numbers([a, b, c, d])?,
            [short, long, a, b, c, d, "equal"] => {
                let [short, long] = numbers([short, long])?;
                figures.pairs.insert((short, long), numbers([a, b, c, d])?);
            }
            [day, event, manner, units, other, member, kind, ref end @ ..] => {
                let (cents, open) = match *end {
                    [open] if manner != "cash" => ("0", open),
                    [cents, open] if manner == "cash" => (cents, open),
                    _ => return None,
                };
                self.piece(figures, [manner, kind], numbers([day, event, units, other, member, cents, open])?)?;
            }
            _ => return None,
        }
        Some(())
    }

    fn units(&mut self, figures: &mut Figures, words: &[&str]) -> Option<()> {
        match *words {
            [netted, "units", "netted"] => self.netted = netted.parse().ok()?,
            ["no", "pieces", open, "open"] => {
                let open = open.parse().ok()?;
                figures.positions.insert(self.number, [open, 0, 0, 0, 0, open, 0]);
            }
            _ => return None,
        }
        Some(())
    }

    fn piece(&mut self, figures: &mut Figures, [manner, kind]: [&str; 2], numbers: [u64; 7]) -> Option<()> {
        let [day, event, units, other, member, cents, open] = numbers;
        let manner = ["delivered", "bought-in", "cash", "paired"].into_iter().find(|&name| name == manner)?;
        let kind = ["own", "client"].into_iter().find(|&name| name == kind)?;
        let (rows, short, long) = match self.side {
            Side::Short => (&mut figures.forward, self.number, other),
            Side::Long => (&mut figures.back, other, self.number),
        };
        rows.push(Row { event, day, manner, short, long, member, kind, units, cents, open });
        self.open = open;
        Some(())
    }
}

fn numbers<const COUNT: usize>(words: [&str; COUNT]) -> Option<[u64; COUNT]> {
    let numbers: Vec<u64> = words.iter().filter_map(|word| word.parse().ok()).collect();
    numbers.try_into().ok()
}

/// The figures of a sound input, from the second implementation's book.
fn wanted(input: &[u8]) -> Figures {
    let Ok((register, events)) = transcript::read(input) else {
        return Figures::default();
    };
    let mut book = Book::open(&register);
    let pieces = pieces(&mut book, &events);
    let mut figures =
        Figures { headings: headings(&register, &book), positions: positions(&book), ..Figures::default() };
    let mut open: Vec<u64> = book.positions().iter().map(|position| u64::from(position.netted)).collect();
    for (event, day, piece) in pieces {
        figures.add(&book, &mut open, event, day, &piece);
    }
    let [units, _, cents, _] = figures.in_all;
    let [pairs, units, cents] = [(figures.pairs.len() as u64, "pair"), (units, "unit"), (cents, "cent")]
        .map(|(number, name)| counted(number, name));
    figures.last = format!("both walks meet: {pairs}, {units}, {cents}");
    figures
}

/// The pieces of the events, each with its event's number and day.
fn pieces(book: &mut Book, events: &[Event]) -> Vec<(u64, u64, Piece)> {
    let mut pieces = Vec::new();
    for (event, number) in events.iter().zip(1..) {
        let day = u64::from(book.day);
        // A refused call has none.
        let own = book.call(event, SHEET_PLACES).unwrap_or_default().pieces;
        pieces.extend(own.into_iter().map(|piece| (number, day, piece)));
    }
    pieces
}

fn headings(register: &[Security], book: &Book) -> BTreeMap<u64, String> {
    let heading = |position: &Position| {
        let &Position { member, security, side, delivery_day, .. } = position;
        let side = if side == Side::Short { "short" } else { "long" };
        let isin = String::from_utf8_lossy(&register[security].1);
        format!("{side} {member} {} {} ({isin}) {delivery_day}", kind_name(position.kind), security + 1)
    };
    (1..).zip(book.positions().iter().map(heading)).collect()
}

fn positions(book: &Book) -> BTreeMap<u64, [u64; 7]> {
    let figures = |position: &Position| {
        let &Position { netted, delivered, bought_in, cash, paired, .. } = position;
        [netted, delivered, bought_in, cash, paired, position.open(), 0].map(u64::from)
    };
    (1..).zip(book.positions().iter().map(figures)).collect()
}

impl Figures {
    /// Adds a piece, the next in the order of the events; `open` is what it finds open, by place.
    fn add(&mut self, book: &Book, open: &mut [u64], event: u64, day: u64, piece: &Piece) {
        let manner = match piece.manner {
            Manner::Delivered => "delivered",
            Manner::BoughtIn => "bought-in",
            Manner::Cash => "cash",
            Manner::Paired => "paired",
        };
        let [short, long] = [piece.short, piece.long].map(u64::from);
        let (units, cents) = (u64::from(piece.quantity), piece.cents);
        let ways = [(&mut self.forward, short, long), (&mut self.back, long, short)];
        for (rows, from, to) in ways {
            let left = &mut open[from as usize - 1];
            *left -= units;
            let other = &book.positions()[to as usize - 1];
            let (member, kind) = (u64::from(other.member), kind_name(other.kind));
            rows.push(Row { event, day, manner, short, long, member, kind, units, cents, open: *left });
            self.positions.entry(from).or_default()[6] += cents;
        }
        for sums in [self.pairs.entry((short, long)).or_default(), &mut self.in_all] {
            *sums = [sums[0] + units, sums[1] + units, sums[2] + cents, sums[3] + cents];
        }
    }
}

/// Each number of a piece or position line has something that it must meet.
fn changed_numbers(check: &mut Check, random: &mut Random) {
    let [mut pieces, mut positions] = [0, 0];
    for _ in 0..HISTORIES {
        let input = histories::any(random);
        if let Ok(Some((played, output))) = played(&Source::of_bytes(input.clone())) {
            let output = String::from_utf8_lossy(&output);
            pieces += refused_changes(check, &input, &played, with_changes(random, "p", &output));
            positions += refused_changes(check, &input, &played, with_changes(random, "s", &output));
        }
    }
    check.reached("a changed piece", pieces);
    check.reached("a changed position", positions);
}

/// Wants none of the outputs to meet, and counts them.
fn refused_changes(check: &mut Check, input: &[u8], played: &Played, outputs: Vec<String>) -> u64 {
    for output in &outputs {
        let walk = output::lines(output.as_bytes()).map(|lines| walk::walk(played, &lines).is_err());
        same(check, || format!("{}, printed as {output}", shown(input)), walk, Ok(true));
    }
    outputs.len() as u64
}

/// The output with one field of a line of this kind changed, for each field in turn; none where there is no such line.
fn with_changes(random: &mut Random, kind: &str, output: &str) -> Vec<String> {
    let lines: Vec<Vec<&str>> = output.lines().map(|line| line.split(' ').collect()).collect();
    let places: Vec<usize> = (0..lines.len()).filter(|&place| lines[place][0] == kind).collect();
    if places.is_empty() {
        return Vec::new();
    }
    let place = random.pick(&places);
    let change = |field| {
        let other = match lines[place][field] {
            "D" => "R".to_string(),
            "R" => "D".to_string(),
            number => another(random, number.parse().unwrap_or(0)).to_string(),
        };
        let mut lines = lines.clone();
        lines[place][field] = other.as_str();
        lines.iter().map(|line| line.join(" ") + "\n").collect()
    };
    (1..lines[place].len()).map(change).collect()
}

fn another(random: &mut Random, number: u64) -> u64 {
    match random.pick(&[number.saturating_sub(1), number + 1, number / 2, number * 2, 0]) {
        same if same == number => number + 1,
        other => other,
    }
}
