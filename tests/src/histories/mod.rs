//! Histories: event files grown event by event. Each event is played on a book at once, which then shows what fits
//! next, so that the files reach states deep in the procedure.

mod contrary;
mod damage;
mod fitting;
mod market;
mod pairing;
pub mod registers;
mod scenes;
pub mod survey;
pub mod terms;

pub use contrary::random_event;
pub use damage::{damage, damaged};
pub use scenes::{any, closes, discharge_on_day, full_book, full_book_in_cash, long, mixed};

use crate::random::Random;
use second::book::{Book, MEMBERS, SHEET_PLACES};
use second::events::{file_of, Event};
use second::register::{self, Security};

pub struct History<'a> {
    random: &'a mut Random,
    register: Vec<Security>,
    book: Book,
    events: Vec<Event>,
    /// The most events that the file is to have.
    limit: usize,
    /// Members 1 to this one trade.
    traders: usize,
    /// A security that gets no price.
    unpriced: Option<usize>,
    /// One side of a trade in so many is a client's; without it members trade for themselves alone, as in the histories
    /// that are timed.
    clients: Option<usize>,
    /// Whether shorts are set off against longs, as in all histories but those that are timed.
    pairs_off: bool,
}

impl<'a> History<'a> {
    fn new(random: &'a mut Random, register: Vec<Security>, limit: usize) -> History<'a> {
        let book = Book::open(&register);
        History {
            random,
            register,
            book,
            events: Vec::new(),
            limit,
            traders: MEMBERS,
            unpriced: None,
            clients: None,
            pairs_off: true,
        }
    }

    /// Closes made on the book before the file begins.
    fn close_before(&mut self, closes: u32) {
        for _ in 0..closes {
            let _ = self.book.call(&Event::Close, SHEET_PLACES);
        }
    }

    fn is_full(&self) -> bool {
        self.events.len() >= self.limit
    }

    /// Adds the event if there is room, and plays it.
    fn play(&mut self, event: Event) {
        if !self.is_full() {
            // A refused call changes nothing.
            let _ = self.book.call(&event, SHEET_PLACES);
            self.events.push(event);
        }
    }

    fn close(&mut self, days: u16) {
        for _ in 0..days {
            self.play(Event::Close);
        }
    }

    /// The player's input: register, then file.
    fn input(&self) -> Vec<u8> {
        [register::bytes_of(&self.register), file_of(&self.events)].concat()
    }
}
