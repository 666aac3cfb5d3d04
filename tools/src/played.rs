//! A play: what becomes of each event of an input. It is made by the second implementation, and only where that has
//! the same lines as the player printed.

use crate::check::{self, Fault, Source};
use crate::numbers::grouped;
use crate::output::{self, Line};
use crate::reasons;
use second::book::{Answer, Award, Book, Cause, Charge, Manner, Piece, Position, Side, MEMBERS, SHEET_PLACES};
use second::events::Event;
use second::refusal::Refusal;
use second::register::Security;
use second::transcript;
use std::ops::Range;

pub struct Played {
    pub register: Vec<Security>,
    pub steps: Vec<Step>,
    /// The book after the last event.
    pub book: Book,
    totals: Totals,
}

/// What the charges of each kind add to each account.
type Totals = [[i64; KINDS.len()]; MEMBERS + 1];

/// One event, and what became of it.
pub struct Step {
    /// Its number in the file, from 1.
    pub number: usize,
    /// The business day that it was played on.
    pub day: u16,
    /// Its line of the text, if there was one.
    pub line: Option<usize>,
    pub event: Event,
    pub result: Result<Done, Refused>,
}

/// What an accepted call did.
#[derive(Default)]
pub struct Done {
    pub quantity: u32,
    pub pieces: Vec<Piece>,
    pub charges: Vec<Charge>,
    /// The places of the positions that a close made, in the book's table.
    pub positions: Range<usize>,
    /// The awards that an award made, each with its number.
    pub awards: Vec<(usize, Award)>,
    /// The ceiling of the auction that an attempt opened.
    pub ceiling: Option<u64>,
}

pub struct Refused {
    pub refusal: Refusal,
    /// The one reason that applied, in words.
    pub reason: String,
}

/// The kinds of charges, in the order in which tables show them.
#[derive(Clone, Copy, Debug, PartialEq, Eq)]
pub enum Kind {
    BuyIn,
    Payment,
    Fee,
    UnconfirmedAward,
    Late,
}

pub const KINDS: [Kind; 5] = [Kind::BuyIn, Kind::Payment, Kind::Fee, Kind::UnconfirmedAward, Kind::Late];

impl Kind {
    pub fn of(charge: &Charge) -> Kind {
        match charge.cause {
            Cause::BuyIn { .. } => Kind::BuyIn,
            Cause::Payment { .. } => Kind::Payment,
            Cause::Fee { .. } => Kind::Fee,
            Cause::UnconfirmedAward { .. } => Kind::UnconfirmedAward,
            Cause::Late { .. } => Kind::Late,
        }
    }

    pub fn name(self) -> &'static str {
        match self {
            Kind::BuyIn => "buy-in difference",
            Kind::Payment => "cash settlement",
            Kind::Fee => "cash settlement fee",
            Kind::UnconfirmedAward => "unconfirmed award",
            Kind::Late => "late fine",
        }
    }
}

impl Played {
    /// The play of a source, if what the player printed on it is whole and true.
    pub fn of(source: &Source, output: &[u8]) -> Result<Result<Played, Fault>, String> {
        same_lines(output, &transcript::transcript(&source.bytes))?;
        let (register, events) = match transcript::read(&source.bytes) {
            Ok(read) => read,
            Err(_) => return Ok(Err(fault(source)?)),
        };
        let mut book = Book::open(&register);
        book.keep_charges();
        let mut steps = Vec::new();
        for (place, event) in events.into_iter().enumerate() {
            let (day, line) = (book.day, source.lines.events.get(place).copied());
            let result = step(&mut book, &event);
            steps.push(Step { number: place + 1, day, line, event, result });
        }
        let totals = totals(&steps);
        let played = Played { register, steps, book, totals };
        played.accounts_meet(&output::lines(output)?)?;
        Ok(Ok(played))
    }

    pub fn position(&self, number: u16) -> &Position {
        &self.book.positions()[usize::from(number) - 1]
    }

    /// All charges, each with the step that it fell in.
    pub fn charges(&self) -> impl Iterator<Item = (&Step, &Charge)> {
        charges(&self.steps)
    }

    /// What the charges of a kind add to an account.
    pub fn total(&self, account: u8, kind: Kind) -> i64 {
        self.totals[usize::from(account)][kind as usize]
    }

    /// The charges of each account add up to what the player printed of it.
    pub fn accounts_meet(&self, lines: &[Line]) -> Result<(), String> {
        let mut printed = [0; MEMBERS + 1];
        for line in lines {
            if let Line::Account { account, cents } = line {
                let place = usize::try_from(*account).ok().and_then(|account| printed.get_mut(account));
                *place.ok_or_else(|| format!("the player has an account {account}, and {MEMBERS} is the last"))? =
                    *cents;
            }
        }
        for ((kinds, printed), account) in self.totals.iter().zip(printed).zip(0..) {
            let items: i64 = kinds.iter().sum();
            if items != printed {
                let [items, printed] = [items, printed].map(grouped);
                return Err(format!(
                    "the charges of account {account} add up to {items} cents, and the player has {printed}"
                ));
            }
        }
        Ok(())
    }
}

/// The charges of the steps that were accepted, each with its step.
fn charges(steps: &[Step]) -> impl Iterator<Item = (&Step, &Charge)> {
    let done = steps.iter().filter_map(|step| step.result.as_ref().ok().map(|done| (step, done)));
    done.flat_map(|(step, done)| done.charges.iter().map(move |charge| (step, charge)))
}

fn totals(steps: &[Step]) -> Totals {
    let mut totals = [[0; KINDS.len()]; MEMBERS + 1];
    for (_, charge) in charges(steps) {
        let kind = Kind::of(charge) as usize;
        totals[usize::from(charge.payer)][kind] -= charge.cents;
        totals[usize::from(charge.payee)][kind] += charge.cents;
    }
    totals
}

fn fault(source: &Source) -> Result<Fault, String> {
    match check::checked(source) {
        Err(fault) => Ok(fault),
        Ok(_) => Err("an input that is refused passes its check".to_string()),
    }
}

fn step(book: &mut Book, event: &Event) -> Result<Done, Refused> {
    let [positions, awards] = [book.positions().len(), book.awards.len()];
    match book.call(event, SHEET_PLACES) {
        Ok(Answer { quantity, pieces }) => Ok(Done {
            quantity,
            pieces,
            charges: book.take_charges(),
            positions: positions..book.positions().len(),
            awards: (awards + 1..).zip(book.awards.iter().skip(awards).copied()).collect(),
            ceiling: match event {
                Event::Attempt { .. } => book.auction.as_ref().map(|auction| auction.ceiling),
                _ => None,
            },
        }),
        // A refused call changes nothing, so the book still shows why.
        Err(refusal) => Err(Refused { refusal, reason: reasons::reason(book, event, refusal) }),
    }
}

/// Wants the player's output to be the second implementation's, and names the first line that is not.
pub fn same_lines(player: &[u8], second: &[u8]) -> Result<(), String> {
    same_output("the player", player, second)
}

/// Wants a program's output to be the second implementation's, and names the first line that is not.
pub fn same_output(program: &str, output: &[u8], second: &[u8]) -> Result<(), String> {
    if output == second {
        return Ok(());
    }
    let [output_lines, second_lines] = [output, second].map(|output| output.split_inclusive(|&byte| byte == b'\n'));
    let same = output_lines.clone().zip(second_lines.clone()).take_while(|(output, second)| output == second).count();
    let shown = |line: &[u8]| format!("{:?}", String::from_utf8_lossy(line));
    Err(match (output_lines.clone().nth(same), second_lines.clone().nth(same)) {
        (Some(output), Some(second)) => {
            let [output, second] = [output, second].map(shown);
            format!("output line {}: {program} has {output}, and the second implementation {second}", same + 1)
        }
        (Some(output), None) => {
            format!("output line {}: the output should have ended, and has {}", same + 1, shown(output))
        }
        _ => format!(
            "the output is cut off: it has {} of {} lines",
            grouped(same as u64),
            grouped(second_lines.count() as u64)
        ),
    })
}

pub fn side_name(side: Side) -> &'static str {
    match side {
        Side::Short => "short",
        Side::Long => "long",
    }
}

pub fn manner_name(manner: Manner) -> &'static str {
    match manner {
        Manner::Delivered => "delivered",
        Manner::BoughtIn => "bought in",
        Manner::Cash => "cash",
        Manner::Paired => "paired",
    }
}

/// An account by its holder.
pub fn holder(account: u8) -> String {
    if account == 0 {
        "the house".to_string()
    } else {
        format!("member {account}")
    }
}
