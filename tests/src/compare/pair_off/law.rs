//! Of each pair-off, its answer and its piece; of each position at the end, that its netted quantity is what is open and
//! the units of its pieces, by the kind of their event. The positions come from the trades in the input's bytes, all else
//! from its other bytes and the lines that are printed: the refusal of a pair-off is worked out from these alone.

use super::known::KNOWN;
use crate::check::Check;
use crate::compare::bytes::{parts, price, quantity, word, Parts, WIDTH};
use crate::compare::kinds::{made, Made};
use crate::compare::prices::{input_of, printed};
use crate::compare::same;
use fails_book_tests::event_kinds::{ATTEMPT, AWARD, CLOSE, CONFIRM, DISCHARGES, PAIR_OFF};
use std::collections::BTreeMap;
use tools::output::{lines, Line, Piece, Position};

/// A position's days from trade to delivery.
const DAYS_TO_DELIVERY: u32 = 2;

/// An event with what is printed of it.
struct Printed<'a> {
    number: usize,
    kind: u8,
    body: &'a [u8],
    refusal: u64,
    quantity: u64,
    pieces: Vec<Piece>,
}

/// Each event with what is printed of it; an input that is refused has none.
fn events<'a>(input: &'a [u8], lines: &[Line]) -> Result<Vec<Printed<'a>>, String> {
    if matches!(lines, [Line::Refused { .. }]) {
        return Ok(Vec::new());
    }
    let Parts { kinds, bodies, .. } = parts(input);
    let mut events = kinds.iter().zip(bodies.chunks(WIDTH)).zip(1..);
    let mut all = Vec::new();
    for printed in lines.chunk_by(|_, next| matches!(next, Line::Piece(_))) {
        if let Line::Event { number, refusal, quantity } = printed[0] {
            let event = events.next().filter(|&(_, expected)| expected as u64 == number);
            let ((&kind, body), number) = event.ok_or_else(|| format!("the file has no event {number} here"))?;
            all.push(Printed { number, kind, body, refusal, quantity, pieces: pieces(&printed[1..]) });
        }
    }
    match events.next() {
        None => Ok(all),
        Some((_, number)) => Err(format!("nothing is printed of event {number}")),
    }
}

fn pieces(lines: &[Line]) -> Vec<Piece> {
    let piece = |line: &Line| match line {
        Line::Piece(piece) => Some(*piece),
        _ => None,
    };
    lines.iter().filter_map(piece).collect()
}

/// The refusals of the pair-offs, 0 for an accepted one.
pub fn answers(input: &[u8], output: &[u8]) -> Result<Vec<u64>, String> {
    let lines = lines(output)?;
    let pair_offs = events(input, &lines)?.into_iter().filter(|event| event.kind == PAIR_OFF);
    Ok(pair_offs.map(|event| event.refusal).collect())
}

/// The numbers of the events that are accepted pair-offs.
pub fn accepted(input: &[u8], output: &[u8]) -> Result<Vec<usize>, String> {
    let lines = lines(output)?;
    let events = events(input, &lines)?.into_iter();
    Ok(events.filter(|event| event.kind == PAIR_OFF && event.refusal == 0).map(|event| event.number).collect())
}

/// Whether the law holds of the output.
pub fn law(input: &[u8], output: &[u8]) -> Result<(), String> {
    let lines = lines(output)?;
    let made = made(input, &lines);
    let taken = vec![[0; DISCHARGES.len()]; made.len()];
    let mut play = Play { day: 1, made, taken, running: None, awarded: BTreeMap::new() };
    for event in events(input, &lines)? {
        play.event(&event).map_err(|fault| format!("event {}: {fault}", event.number))?;
    }
    let positions: Vec<&Position> = lines
        .iter()
        .filter_map(|line| match line {
            Line::Position(position) => Some(position),
            _ => None,
        })
        .collect();
    if positions.len() != play.made.len() {
        return Err(format!("{} positions are printed, and the trades make {}", positions.len(), play.made.len()));
    }
    play.taken.iter().zip(positions).try_for_each(|(taken, position)| figures(taken, position))
}

/// Whether a position's figures are the units of its pieces, and add up to its netted quantity with what is open.
fn figures(taken: &[u64; 4], position: &Position) -> Result<(), String> {
    let &Position { number, netted, delivered, bought_in, cash, paired, open, .. } = position;
    let found = [delivered, bought_in, cash, paired];
    if found != *taken {
        return Err(format!("position {number}: the figures are {found:?}, and its pieces have {taken:?}"));
    }
    match found.iter().sum::<u64>() + open == netted {
        true => Ok(()),
        false => Err(format!("position {number}: {found:?} and {open} open are not {netted}")),
    }
}

/// How far a play is read.
struct Play {
    day: u32,
    /// All positions of the file; those of trades before today are there.
    made: Vec<Made>,
    /// The units of each position's pieces so far, by the kind of their event.
    taken: Vec<[u64; DISCHARGES.len()]>,
    /// The short on which an auction runs.
    running: Option<u64>,
    /// Of today's awards, the units that are not confirmed, by short.
    awarded: BTreeMap<u64, u64>,
}

impl Play {
    fn event(&mut self, event: &Printed) -> Result<(), String> {
        if event.kind == PAIR_OFF {
            self.pair_off(event)?;
        }
        if event.refusal != 0 {
            return no_pieces(event);
        }
        match DISCHARGES.iter().position(|&kind| kind == event.kind) {
            Some(manner) => event.pieces.iter().try_for_each(|piece| self.take(manner, piece))?,
            None => no_pieces(event)?,
        }
        match event.kind {
            ATTEMPT => self.running = Some(word(event.body).into()),
            AWARD => {
                self.running = None;
                *self.awarded.entry(word(event.body).into()).or_default() += event.quantity;
            }
            CONFIRM => self.confirm(event)?,
            CLOSE => {
                self.awarded.clear();
                self.day += 1;
            }
            _ => {}
        }
        Ok(())
    }

    /// The answer to a pair-off, and its one piece.
    fn pair_off(&self, event: &Printed) -> Result<(), String> {
        let [short, long, quantity] = [u64::from(word(event.body)), price(event.body), quantity(event.body)];
        let refusal = self.refusal(short, long, quantity);
        if event.refusal != refusal {
            return Err(format!("the refusal is {}, and by what is printed before {refusal}", event.refusal));
        }
        let (reported, wanted) = match refusal {
            0 => (quantity, vec![Piece { short, long, quantity, cents: 0 }]),
            _ => (0, Vec::new()),
        };
        match event.quantity == reported && event.pieces == wanted {
            true => Ok(()),
            false => Err(format!("it reports {} and has {:?}, not {wanted:?}", event.quantity, event.pieces)),
        }
    }

    /// Which refusal a pair-off is to have, or 0.
    fn refusal(&self, short: u64, long: u64, quantity: u64) -> u64 {
        let (Some(first), Some(second)) = (self.position(short), self.position(long)) else {
            return 11;
        };
        let is_due = |made: &Made| made.day + DAYS_TO_DELIVERY <= self.day;
        let holder = |made: &Made| (made.member, made.kind, made.security);
        let awarded = self.awarded.get(&short).copied().unwrap_or(0);
        let reasons = [
            (12, quantity == 0),
            (16, first.net > 0),
            (17, !is_due(first)),
            (34, second.net < 0 || !is_due(second) || holder(first) != holder(second)),
            (18, self.running == Some(short)),
            (24, quantity + awarded > self.open(short) || quantity > self.open(long)),
        ];
        reasons.into_iter().find(|&(_, applies)| applies).map_or(0, |(number, _)| number)
    }

    /// A position by number, if it is there today.
    fn position(&self, number: u64) -> Option<&Made> {
        let place = usize::try_from(number.checked_sub(1)?).ok()?;
        self.made.get(place).filter(|made| made.day < self.day)
    }

    /// What is open of a position that is there.
    fn open(&self, number: u64) -> u64 {
        let place = number as usize - 1;
        self.made[place].net.unsigned_abs() - self.taken[place].iter().sum::<u64>()
    }

    fn take(&mut self, manner: usize, piece: &Piece) -> Result<(), String> {
        for number in [piece.short, piece.long] {
            if self.position(number).is_none() || self.open(number) < piece.quantity {
                return Err(format!("{piece:?} is more than is open of position {number}"));
            }
            self.taken[number as usize - 1][manner] += piece.quantity;
        }
        Ok(())
    }

    /// A confirmation shows the short of its award by its pieces.
    fn confirm(&mut self, event: &Printed) -> Result<(), String> {
        let short = event.pieces.first().ok_or("a confirmation has no piece")?.short;
        let awarded = self.awarded.get_mut(&short).ok_or("a confirmation is of a short without awards")?;
        *awarded = awarded.checked_sub(event.quantity).ok_or("more is confirmed than was awarded")?;
        Ok(())
    }
}

fn no_pieces(event: &Printed) -> Result<(), String> {
    match event.pieces[..] {
        [] => Ok(()),
        _ => Err(format!("it has {:?}, and discharges nothing", event.pieces)),
    }
}

/// What is printed of the first known history, and what stands in place of it: a pair-off without its piece, with two,
/// with cents, with another quantity, another long, both positions exchanged, another quantity reported, refused; one
/// that is to be refused accepted, or refused otherwise; a piece of a refused event and of a close; figures in which it
/// is delivered, settled in cash, still open or open besides, of the short or of the long alone; a position less.
const CHANGES: [(&str, &str); 18] = [
    ("p 1 3 3 0\n", ""),
    ("p 1 3 3 0\n", "p 1 3 3 0\np 1 3 3 0\n"),
    ("p 1 3 3 0\n", "p 1 3 3 1\n"),
    ("p 1 3 3 0\n", "p 1 3 2 0\n"),
    ("p 1 3 3 0\n", "p 1 2 3 0\n"),
    ("p 1 3 3 0\n", "p 3 1 3 0\n"),
    ("e 6 0 3\n", "e 6 0 0\n"),
    ("e 6 0 3\np 1 3 3 0\n", "e 6 34 0\n"),
    ("e 7 24 0\n", "e 7 0 6\np 1 3 6 0\n"),
    ("e 7 24 0\n", "e 7 34 0\n"),
    ("e 9 24 0\n", "e 9 24 0\np 1 3 1 0\n"),
    ("e 5 0 0\n", "e 5 0 0\np 1 3 1 0\n"),
    ("s 1 1 D 10 2 0 0 8 0\n", "s 1 1 D 10 10 0 0 0 0\n"),
    ("s 1 1 D 10 2 0 0 8 0\n", "s 1 1 D 10 2 0 8 0 0\n"),
    ("s 1 1 D 10 2 0 0 8 0\n", "s 1 1 D 10 2 0 0 0 8\n"),
    ("s 3 1 R 8 0 0 0 8 0\n", "s 3 1 R 8 0 0 0 0 8\n"),
    ("s 3 1 R 8 0 0 0 8 0\n", "s 3 1 R 8 0 0 0 8 8\n"),
    ("s 4 3 D 8 8 0 0 0 0\n", ""),
];

/// The law finds fault with other lines than the first known history's, or it would with none.
pub fn known_faults(check: &mut Check) {
    let input = input_of(KNOWN[0].classes, KNOWN[0].events);
    let right = printed(KNOWN[0].events, KNOWN[0].end);
    same(check, || right.clone(), law(&input, right.as_bytes()), Ok(()));
    for (from, to) in CHANGES {
        let changed = right.replacen(from, to, 1);
        let found = (changed != right, law(&input, changed.as_bytes()).is_err());
        same(check, || format!("{to:?} for {from:?}"), found, (true, true));
    }
}
