//! The player: a register and a file on its input, lines on its output. What is read of a book once a file is played.

use crate::book::{Answer, Book, LatestPrice, Piece, Position, Side, SHEET_PLACES};
use crate::events::{self, Event};
use crate::refusal::{Located, Refusal};
use crate::register::{self, Security};

/// All that the player prints on this input.
pub fn transcript(input: &[u8]) -> Vec<u8> {
    let mut page = Page(Vec::new());
    match open(input) {
        Ok((book, events)) => page.play(book, &events),
        Err(refusal) => page.line("f", &[refusal as i64]),
    }
    page.0
}

/// The answer to the last call of the file. First `closes` closes are made on the new book; the last call has a sheet
/// of `sheet` places, all others one that suffices. A file without events answers nothing.
pub fn last_call(input: &[u8], closes: u32, sheet: usize) -> Result<Answer, Refusal> {
    let (mut book, events) = open(input)?;
    for _ in 0..closes {
        // Day 9,999 is never closed.
        if book.call(&Event::Close, SHEET_PLACES).is_err() {
            break;
        }
    }
    last_of(book, &events, sheet).unwrap_or_else(|| Ok(Answer::default()))
}

/// The lines of the last event of the file. An input that is refused or has no event has none.
pub fn last_lines(input: &[u8]) -> Vec<u8> {
    let mut page = Page(Vec::new());
    if let Ok((book, events)) = open(input) {
        if let Some(result) = last_of(book, &events, SHEET_PLACES) {
            page.call(events.len() as i64, &result);
        }
    }
    page.0
}

/// The answer to the last of the events, on a sheet of `sheet` places, once the others are played.
fn last_of(mut book: Book, events: &[Event], sheet: usize) -> Option<Result<Answer, Refusal>> {
    let (last, earlier) = events.split_last()?;
    for event in earlier {
        // A refused call changes nothing, so the next one follows it as it would an accepted one.
        let _ = book.call(event, SHEET_PLACES);
    }
    Some(book.call(last, sheet))
}

/// The latest price of a security once the file is played on a new book, if it ever had one.
pub fn latest_price(register: &[u8], file: &[u8], security: u16) -> Result<Option<LatestPrice>, Refusal> {
    played(register, file)?.1.latest_price(security)
}

/// The securities, and the book after the last event, once register and file have passed.
pub fn played(register: &[u8], file: &[u8]) -> Result<(Vec<Security>, Book), Refusal> {
    let securities = register::read(register)?;
    let events = events::read(file)?;
    let mut book = Book::open(&securities);
    for event in &events {
        // A refused call changes nothing, so the file is played on.
        let _ = book.call(event, SHEET_PLACES);
    }
    Ok((securities, book))
}

/// The new book and the events, once register and file have passed.
pub fn open(input: &[u8]) -> Result<(Book, Vec<Event>), Refusal> {
    let (register, events) = read(input)?;
    Ok((Book::open(&register), events))
}

/// The register and the events.
pub fn read(input: &[u8]) -> Result<(Vec<Security>, Vec<Event>), Located> {
    let count = input.first_chunk().map(|&word| usize::from(u16::from_le_bytes(word))).ok_or(Refusal::RegisterSize)?;
    let (register, file) = input.split_at_checked(register::length(count)).ok_or(Refusal::RegisterSize)?;
    Ok((register::read(register)?, events::read(file)?))
}

struct Page(Vec<u8>);

impl Page {
    fn play(&mut self, mut book: Book, events: &[Event]) {
        for (event, number) in events.iter().zip(1..) {
            self.call(number, &book.call(event, SHEET_PLACES));
        }
        for (position, number) in book.positions().iter().zip(1..) {
            self.position(number, position);
        }
        for (&cents, account) in book.accounts().iter().zip(0..).filter(|(&cents, _)| cents != 0) {
            self.line("a", &[account, cents]);
        }
    }

    fn call(&mut self, number: i64, result: &Result<Answer, Refusal>) {
        match result {
            Err(refusal) => self.line("e", &[number, *refusal as i64, 0]),
            Ok(answer) => {
                self.line("e", &[number, 0, answer.quantity.into()]);
                for &Piece { short, long, quantity, cents, .. } in &answer.pieces {
                    self.line("p", &[short.into(), long.into(), quantity.into(), cents as i64]);
                }
            }
        }
    }

    fn position(&mut self, number: i64, position: &Position) {
        let &Position { member, side, netted, delivered, bought_in, cash, paired, .. } = position;
        self.words("s", &[number, member.into()]);
        let side = match side {
            Side::Short => " D",
            Side::Long => " R",
        };
        self.line(side, &[netted, delivered, bought_in, cash, paired, position.open()].map(i64::from));
    }

    fn line(&mut self, first: &str, numbers: &[i64]) {
        self.words(first, numbers);
        self.0.push(b'\n');
    }

    fn words(&mut self, first: &str, numbers: &[i64]) {
        self.0.extend(first.as_bytes());
        for &number in numbers {
            self.0.push(b' ');
            self.number(number);
        }
    }

    /// Digits are made by hand: formatting would take most of the player's time.
    fn number(&mut self, number: i64) {
        if number < 0 {
            self.0.push(b'-');
        }
        let start = self.0.len();
        let mut rest = number.unsigned_abs();
        loop {
            self.0.push(b'0' + (rest % 10) as u8);
            rest /= 10;
            if rest == 0 {
                break;
            }
        }
        self.0[start..].reverse();
    }
}
