//! The terms of a cash price, read from a book: the price of a cash settlement is the highest of them.

use second::book::{Book, Position};

/// In cents a unit.
#[derive(Debug)]
pub struct Terms {
    /// The short's reference price.
    pub short: u64,
    /// The latest price doubled, or in class 3 plus 300.
    pub raised: u64,
    /// The reference prices of the longs, in the order of the pieces.
    pub longs: Vec<u64>,
}

/// One of the terms; a long by its place among the pieces.
#[derive(Clone, Copy, PartialEq, Eq)]
pub enum Term {
    Short,
    Raised,
    Long(usize),
}

impl Terms {
    /// Of the settlement of a short, in pieces to these longs, all given by number. There are none where a position or
    /// the price is missing.
    pub fn of(book: &Book, short: u64, longs: impl IntoIterator<Item = u64>) -> Option<Terms> {
        let short = position(book, short)?;
        let security = &book.securities[short.security];
        let latest = u64::from(security.latest_price?.price);
        let reference = |number| position(book, number).map(|long| u64::from(long.reference_price));
        Some(Terms {
            short: short.reference_price.into(),
            raised: if security.class == 3 { latest + 300 } else { latest * 2 },
            longs: longs.into_iter().map(reference).collect::<Option<_>>()?,
        })
    }

    pub fn all(&self) -> impl Iterator<Item = (Term, u64)> + '_ {
        let longs = self.longs.iter().enumerate().map(|(place, &reference)| (Term::Long(place), reference));
        [(Term::Short, self.short), (Term::Raised, self.raised)].into_iter().chain(longs)
    }

    pub fn highest(&self) -> u64 {
        self.all().map(|(_, cents)| cents).fold(0, u64::max)
    }

    /// The term that is above every other, if one is.
    pub fn above_all_others(&self) -> Option<Term> {
        let highest = self.highest();
        let mut terms = self.all().filter(|&(_, cents)| cents == highest).map(|(term, _)| term);
        terms.next().filter(|_| terms.next().is_none())
    }
}

fn position(book: &Book, number: u64) -> Option<&Position> {
    book.positions.get(usize::try_from(number.checked_sub(1)?).ok()?)
}
