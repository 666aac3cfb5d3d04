//! A fail walked both ways: from each short to its longs, and from each long back to its shorts.
//!
//! Pieces and figures are those that the player printed; days, manners and payments are the play's. A walk starts from
//! the netted units of a position and takes off its pieces in order. What is left must be what the player has open,
//! and both walks must come to the same units and cents for each pair of a short and a long.

use crate::kinds;
use crate::numbers::{counted, grouped};
use crate::output::{Line, Piece, Position};
use crate::played::{manner_name, side_name, Played, Step};
use crate::table::{aligned, widths, Row};
use second::book::{self, Cause, Manner, Side};
use second::events::Event;
use std::collections::{BTreeMap, BTreeSet};

/// Both walks as text, or the first thing that does not meet.
pub fn walk(played: &Played, lines: &[Line]) -> Result<String, String> {
    let positions = positions(played, lines)?;
    let pieces = pieces(played, lines)?;
    let payments = payments(played);
    let forward = walked(Side::Short, &positions, &pieces, &payments)?;
    let back = walked(Side::Long, &positions, &pieces, &payments)?;
    let pairs = pairs_text(&side_by_side(&totals(&forward), &totals(&back)))?;
    all_walked(&pieces, &forward)?;
    events_meet(&pieces, played, lines)?;
    let [forward, back] =
        [(Side::Short, forward), (Side::Long, back)].map(|(side, walked)| text(side, played, &positions, &walked));
    Ok(format!("{forward}\n{back}\n{pairs}"))
}

/// A position as the player printed it and as the play made it.
type Both<'a> = (Position, &'a book::Position);

/// A piece as the player printed it, with its event.
struct Taken<'a> {
    step: &'a Step,
    manner: Manner,
    piece: Piece,
}

impl Taken<'_> {
    fn position(&self, side: Side) -> u64 {
        match side {
            Side::Short => self.piece.short,
            Side::Long => self.piece.long,
        }
    }
}

/// A position with its pieces in order, and what is left open after each.
struct Walked<'a> {
    position: &'a Both<'a>,
    pieces: Vec<(&'a Taken<'a>, u64)>,
}

#[derive(Clone, Copy, Debug, Default, PartialEq, Eq)]
struct Totals {
    pieces: i128,
    units: i128,
    cents: i128,
}

impl Totals {
    fn plus(self, more: Totals) -> Totals {
        Totals { pieces: self.pieces + more.pieces, units: self.units + more.units, cents: self.cents + more.cents }
    }
}

/// By short and long.
type Pairs = BTreeMap<(u64, u64), Totals>;

/// A pair with its totals forward and back.
type BothWays = ((u64, u64), [Totals; 2]);

/// The player's positions, which must be the play's.
fn positions<'a>(played: &'a Played, lines: &[Line]) -> Result<Vec<Both<'a>>, String> {
    let printed = lines.iter().filter_map(|line| match line {
        Line::Position(position) => Some(*position),
        _ => None,
    });
    let [found, wanted] = [printed.clone().count(), played.book.positions().len()];
    if found != wanted {
        let [found, wanted] = [found, wanted].map(|count| counted(count as u64, "position"));
        return Err(format!("the player has {found}, and the play {wanted}"));
    }
    let positions: Vec<Both> = printed.zip(played.book.positions()).collect();
    for ((printed, made), number) in positions.iter().zip(1..) {
        let found = (printed.number, printed.member, printed.side, printed.netted);
        let wanted = (number, u64::from(made.member), made.side, u64::from(made.netted));
        if found != wanted {
            let [found, wanted] = [found, wanted].map(|(number, member, side, netted)| {
                let [side, netted] = [side_name(side).to_string(), counted(netted, "unit")];
                format!("position {number} (member {member}, {side}, {netted} netted)")
            });
            return Err(format!("the player has {found}, and the play {wanted}"));
        }
    }
    Ok(positions)
}

/// The player's pieces in order, each with the event that it stands under.
fn pieces<'a>(played: &'a Played, lines: &[Line]) -> Result<Vec<Taken<'a>>, String> {
    let mut pieces = Vec::new();
    let mut step = None;
    for line in lines {
        match *line {
            Line::Event { number, .. } => step = Some(step_of(played, number)?),
            Line::Piece(piece) => {
                let step = step.ok_or("a piece stands before the first event")?;
                let manner = manner(&step.event)
                    .ok_or_else(|| format!("event {}: it has a piece, and discharges nothing", step.number))?;
                pieces.push(Taken { step, manner, piece });
            }
            _ => {}
        }
    }
    Ok(pieces)
}

fn step_of(played: &Played, event: u64) -> Result<&Step, String> {
    let step = played.steps.iter().find(|step| step.number as u64 == event);
    step.ok_or_else(|| format!("event {event}: the play has {}", counted(played.steps.len() as u64, "event")))
}

/// How the event discharges, if it does.
fn manner(event: &Event) -> Option<Manner> {
    match event {
        Event::Delivery { .. } => Some(Manner::Delivered),
        Event::Confirm { .. } => Some(Manner::BoughtIn),
        Event::Cash { .. } => Some(Manner::Cash),
        Event::PairOff { .. } => Some(Manner::Paired),
        _ => None,
    }
}

/// What the play charged for pieces, by position: the shorts' payments and the longs'.
fn payments(played: &Played) -> BTreeMap<u64, i128> {
    let mut payments = BTreeMap::new();
    for (_, charge) in played.charges() {
        if let Cause::Payment { short, long, .. } = charge.cause {
            *payments.entry(u64::from(short)).or_default() += i128::from(charge.cents);
            *payments.entry(u64::from(long)).or_default() += i128::from(charge.cents);
        }
    }
    payments
}

/// The walk from each position of the side.
fn walked<'a>(
    side: Side,
    positions: &'a [Both],
    pieces: &'a [Taken],
    payments: &BTreeMap<u64, i128>,
) -> Result<Vec<Walked<'a>>, String> {
    let mut all = Vec::new();
    for position in positions.iter().filter(|(printed, _)| printed.side == side) {
        let number = position.0.number;
        let own = pieces.iter().filter(|taken| taken.position(side) == number);
        let walked = Walked { position, pieces: left_open(&position.0, own)? };
        figures_meet(&walked)?;
        cents_meet(&walked, payments.get(&number).copied().unwrap_or(0))?;
        all.push(walked);
    }
    Ok(all)
}

/// Each piece with what it leaves open.
fn left_open<'a>(
    position: &Position,
    pieces: impl Iterator<Item = &'a Taken<'a>>,
) -> Result<Vec<(&'a Taken<'a>, u64)>, String> {
    let mut open = position.netted;
    let mut all = Vec::new();
    for taken in pieces {
        let units = taken.piece.quantity;
        open = open.checked_sub(units).ok_or_else(|| {
            let [event, number] = [taken.step.number as u64, position.number];
            let [units, open] = [counted(units, "unit"), grouped(open)];
            format!("position {number}: event {event} has a piece of {units}, and what is open is {open}")
        })?;
        all.push((taken, open));
    }
    Ok(all)
}

impl Walked<'_> {
    fn open(&self) -> u64 {
        self.pieces.last().map_or(self.position.0.netted, |&(_, open)| open)
    }

    /// No more than was netted, as the pieces were taken off that.
    fn units(&self, manner: Manner) -> u64 {
        let pieces = self.pieces.iter().filter(|(taken, _)| taken.manner == manner);
        pieces.map(|(taken, _)| taken.piece.quantity).sum()
    }

    fn cents(&self) -> i128 {
        self.pieces.iter().map(|(taken, _)| i128::from(taken.piece.cents)).sum()
    }
}

/// The walk ends at the figures that the player has.
fn figures_meet(walked: &Walked) -> Result<(), String> {
    let Position { number, delivered, bought_in, cash, paired, open, .. } = walked.position.0;
    if walked.open() != open {
        let [left, open] = [counted(walked.open(), "unit"), grouped(open)];
        return Err(format!("position {number}: its pieces leave {left} open, and the player has {open}"));
    }
    let manners = [
        ("delivered", Manner::Delivered, delivered),
        ("bought in", Manner::BoughtIn, bought_in),
        ("in cash", Manner::Cash, cash),
        ("paired", Manner::Paired, paired),
    ];
    for (name, manner, printed) in manners {
        let units = walked.units(manner);
        if units != printed {
            let [units, printed] = [counted(units, "unit"), grouped(printed)];
            return Err(format!("position {number}: its pieces have {units} {name}, and the player has {printed}"));
        }
    }
    Ok(())
}

fn cents_meet(walked: &Walked, paid: i128) -> Result<(), String> {
    if walked.cents() == paid {
        return Ok(());
    }
    let [cents, paid] = [counted(walked.cents(), "cent"), grouped(paid)];
    Err(format!("position {}: its pieces come to {cents}, and its payments to {paid}", walked.position.0.number))
}

fn totals(walked: &[Walked]) -> Pairs {
    let mut pairs = Pairs::new();
    for (taken, _) in walked.iter().flat_map(|walked| &walked.pieces) {
        let Piece { short, long, quantity, cents } = taken.piece;
        let totals = pairs.entry((short, long)).or_default();
        *totals = totals.plus(Totals { pieces: 1, units: quantity.into(), cents: cents.into() });
    }
    pairs
}

/// The totals of each pair forward and back.
fn side_by_side(forward: &Pairs, back: &Pairs) -> Vec<BothWays> {
    let pairs: BTreeSet<(u64, u64)> = forward.keys().chain(back.keys()).copied().collect();
    let totals = |pair| [forward, back].map(|walk| walk.get(&pair).copied().unwrap_or_default());
    pairs.into_iter().map(|pair| (pair, totals(pair))).collect()
}

/// A row for each pair, whose totals must be the same both ways: a piece that names a long as its short, or a short as
/// its long, is in one walk alone.
fn pair_rows(pairs: &[BothWays]) -> Result<Vec<Row>, String> {
    let mut rows = Vec::new();
    for &((short, long), [forward, back]) in pairs {
        if forward != back {
            let [forward, back] = [forward, back].map(in_words);
            return Err(format!("short {short} and long {long}: {forward} forward, {back} back"));
        }
        rows.push(totals_row([&short.to_string(), &long.to_string()], [forward, back], "equal"));
    }
    Ok(rows)
}

fn in_words(Totals { pieces, units, cents }: Totals) -> String {
    format!("{} with {} and {}", counted(pieces, "piece"), counted(units, "unit"), counted(cents, "cent"))
}

fn totals_row(names: [&str; 2], [forward, back]: [Totals; 2], end: &str) -> Row {
    let figures = [forward.units, back.units, forward.cents, back.cents].map(grouped);
    names.map(str::to_string).into_iter().chain(figures).chain([end.to_string()]).collect()
}

/// A piece whose short is a long and whose long is a short is in neither walk.
fn all_walked(pieces: &[Taken], forward: &[Walked]) -> Result<(), String> {
    let found: usize = forward.iter().map(|walked| walked.pieces.len()).sum();
    if found == pieces.len() {
        return Ok(());
    }
    let [found, wanted] = [found, pieces.len()].map(|count| count as u64);
    Err(format!("the player has {}, and the walks {}", counted(wanted, "piece"), grouped(found)))
}

/// The pieces of each event that discharges have the units that the event answers.
fn events_meet(pieces: &[Taken], played: &Played, lines: &[Line]) -> Result<(), String> {
    let discharges = |number: u64| step_of(played, number).is_ok_and(|step| manner(&step.event).is_some());
    let answers = lines.iter().filter_map(|line| match *line {
        Line::Event { number, quantity, .. } if discharges(number) => Some((number, quantity)),
        _ => None,
    });
    for (number, quantity) in answers {
        let own = pieces.iter().filter(|taken| taken.step.number as u64 == number);
        let units: i128 = own.map(|taken| i128::from(taken.piece.quantity)).sum();
        if units != i128::from(quantity) {
            let [units, quantity] = [counted(units, "unit"), grouped(quantity)];
            return Err(format!("event {number}: its pieces have {units}, and it answers {quantity}"));
        }
    }
    Ok(())
}

/// The columns that hold no numbers: the manner of a piece, and whether a pair is equal.
const PIECE_WORDS: usize = 2;
const PAIR_WORDS: usize = 6;

fn text(side: Side, played: &Played, positions: &[Both], walked: &[Walked]) -> String {
    let (title, other) = match side {
        Side::Short => ("forward, from each short to its longs:", Side::Long),
        Side::Long => ("back, from each long to its shorts:", Side::Short),
    };
    let head: Row = ["day", "event", "manner", "units", side_name(other), "member", "kind", "cents", "left open"]
        .map(str::to_string)
        .into();
    let rows: Vec<Vec<Row>> = walked.iter().map(|walked| rows(other, positions, walked)).collect();
    let widths = widths(rows.iter().flatten().chain([&head]));
    let mut text = format!("{title}\n");
    for (walked, rows) in walked.iter().zip(&rows) {
        text += &heading(played, walked);
        if !rows.is_empty() {
            let lines = [&head].into_iter().chain(rows).map(|row| aligned(row, &widths, PIECE_WORDS));
            text.extend(lines.map(|line| format!("  {line}\n")));
            text.extend(by_manner(walked).map(|line| format!("  {line}\n")));
        }
    }
    if walked.is_empty() {
        text += "none\n";
    }
    text
}

/// A position without pieces has no other line; all that it netted is open.
fn heading(played: &Played, walked: &Walked) -> String {
    let (Position { number, side, netted, .. }, made) = walked.position;
    let (_, isin) = played.register[made.security];
    let units = match walked.pieces[..] {
        [] => format!("no pieces, {} open", grouped(walked.open())),
        _ => format!("{} netted", counted(*netted, "unit")),
    };
    format!(
        "{} {number}: {}, security {} ({}), delivery day {}, {units}\n",
        side_name(*side),
        kinds::holder(made),
        made.security + 1,
        isin.escape_ascii(),
        grouped(made.delivery_day)
    )
}

/// A row for each piece of the position; the other position of a piece is on the side given.
fn rows(other: Side, positions: &[Both], walked: &Walked) -> Vec<Row> {
    let row = |&(taken, open): &(&Taken, u64)| {
        let number = taken.position(other);
        // Where both walks meet, it is there.
        let (Position { member, .. }, made) = positions[number as usize - 1];
        let cents = match taken.manner {
            Manner::Cash => grouped(taken.piece.cents),
            _ => String::new(),
        };
        vec![
            grouped(taken.step.day),
            taken.step.number.to_string(),
            manner_name(taken.manner).to_string(),
            grouped(taken.piece.quantity),
            number.to_string(),
            member.to_string(),
            kinds::name(made.kind).to_string(),
            cents,
            grouped(open),
        ]
    };
    walked.pieces.iter().map(row).collect()
}

/// The units by manner; what is left open stands beside the last piece. Paired units, where there are some, have a line of
/// their own: with them a line could be longer than any other of the walk.
fn by_manner(walked: &Walked) -> impl Iterator<Item = String> {
    let [delivered, bought_in, cash] =
        [Manner::Delivered, Manner::BoughtIn, Manner::Cash].map(|manner| grouped(walked.units(manner)));
    let cents = counted(walked.cents(), "cent");
    let paired = walked.units(Manner::Paired);
    let paired = (paired > 0).then(|| format!("{} paired", grouped(paired)));
    [format!("{delivered} delivered, {bought_in} bought in, {cash} in cash for {cents}")].into_iter().chain(paired)
}

/// Both walks for each pair, then in all.
fn pairs_text(pairs: &[BothWays]) -> Result<String, String> {
    let head = ["short", "long", "units forward", "units back", "cents forward", "cents back", ""];
    let mut rows: Vec<Row> = vec![head.map(str::to_string).into()];
    rows.extend(pair_rows(pairs)?);
    let all = [0, 1].map(|way| pairs.iter().fold(Totals::default(), |all, (_, totals)| all.plus(totals[way])));
    rows.push(totals_row(["in all", ""], all, ""));
    let widths = widths(&rows);
    let table: String = rows.iter().map(|row| format!("{}\n", aligned(row, &widths, PAIR_WORDS))).collect();
    let [Totals { units, cents, .. }, _] = all;
    let [pairs, units, cents] =
        [(pairs.len() as i128, "pair"), (units, "unit"), (cents, "cent")].map(|(number, name)| counted(number, name));
    Ok(format!("side by side, for each pair:\n{table}both walks meet: {pairs}, {units}, {cents}\n"))
}
