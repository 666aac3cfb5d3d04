//! The pieces of a play by the positions that they discharge, and what is to be said of a position because of them.

use crate::numbers::grouped;
use crate::played::{Played, Step};
use second::book::{Manner, Piece, Position, Side};

/// The pieces of each position, by its place, in the order in which they fell.
pub struct Pieces<'a> {
    played: &'a Played,
    of: Vec<Vec<(&'a Step, &'a Piece)>>,
}

/// What a long got from one short.
#[derive(Default)]
pub struct Share {
    pub long: u16,
    pub delivered: u32,
    pub bought_in: u32,
    pub cash: u32,
    pub paired: u32,
    pub cents: u64,
}

impl Share {
    fn add(&mut self, piece: &Piece) {
        match piece.manner {
            Manner::Delivered => self.delivered += piece.quantity,
            Manner::BoughtIn => self.bought_in += piece.quantity,
            Manner::Cash => self.cash += piece.quantity,
            Manner::Paired => self.paired += piece.quantity,
        }
        self.cents += piece.cents;
    }

    pub fn units(&self) -> u32 {
        self.delivered + self.bought_in + self.cash + self.paired
    }
}

impl<'a> Pieces<'a> {
    pub fn new(played: &'a Played) -> Pieces<'a> {
        let mut of = vec![Vec::new(); played.book.positions().len()];
        let done = played.steps.iter().filter_map(|step| step.result.as_ref().ok().map(|done| (step, done)));
        for (step, piece) in done.flat_map(|(step, done)| done.pieces.iter().map(move |piece| (step, piece))) {
            of[usize::from(piece.short) - 1].push((step, piece));
            of[usize::from(piece.long) - 1].push((step, piece));
        }
        Pieces { played, of }
    }

    pub fn of(&self, number: u16) -> &[(&'a Step, &'a Piece)] {
        &self.of[usize::from(number) - 1]
    }

    /// A short fails where it is due and was not discharged whole on its delivery day. A pair-off discharges, as a delivery
    /// does.
    pub fn is_fail(&self, number: u16) -> bool {
        let position = self.played.position(number);
        let is_due = position.is_due(self.played.book.day);
        position.side == Side::Short && is_due && !self.is_discharged_on_its_day(number)
    }

    fn is_discharged_on_its_day(&self, number: u16) -> bool {
        let &Position { delivery_day, netted, .. } = self.played.position(number);
        let on_its_day = self.of(number).iter().filter(|(step, _)| step.day == delivery_day);
        on_its_day.map(|(_, piece)| piece.quantity).sum::<u32>() == netted
    }

    /// What each long got from the short, by the longs' numbers.
    pub fn shares(&self, short: u16) -> Vec<Share> {
        let mut shares: Vec<Share> = Vec::new();
        for &(_, piece) in self.of(short) {
            let place = shares.binary_search_by_key(&piece.long, |share| share.long).unwrap_or_else(|place| {
                shares.insert(place, Share { long: piece.long, ..Share::default() });
                place
            });
            shares[place].add(piece);
        }
        shares
    }

    /// How the position stands at the end, in words.
    pub fn state(&self, number: u16) -> String {
        let position = self.played.position(number);
        let last = self.of(number).last().map_or(0, |(step, _)| step.day);
        match (position.open(), position.r(self.played.book.day)) {
            (0, _) if self.is_discharged_on_its_day(number) => format!("{} on its day", how_discharged(position)),
            (0, _) => format!("settled on day {}", grouped(last)),
            (_, None) => format!("due on day {}", grouped(position.delivery_day)),
            (_, Some(0)) => "due today".to_string(),
            (_, Some(1)) => "open, 1 day late".to_string(),
            (_, Some(days)) => format!("open, {} days late", grouped(days)),
        }
    }
}

/// How all of a position was discharged. A pair-off is no delivery, and a long may be due on the day of another's buy-in.
fn how_discharged(position: &Position) -> &'static str {
    let &Position { netted, delivered, paired, .. } = position;
    match [delivered, paired].map(|units| units == netted) {
        [true, _] => "delivered",
        [_, true] => "paired",
        _ => "settled",
    }
}
