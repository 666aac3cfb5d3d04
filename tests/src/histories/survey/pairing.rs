//! The states that have to do with pair-offs.

use super::{position, State, Survey};
use second::book::{Answer, Book, LatestPrice, Manner, Position, Side};
use second::charges;
use second::refusal::Refusal;

/// The fields of a pair-off.
#[derive(Clone, Copy)]
pub(super) struct Pairing {
    pub short: u16,
    pub long: u32,
    pub quantity: u32,
}

impl Survey {
    pub(super) fn paired(&mut self, book: &Book, Pairing { short, long, .. }: Pairing) {
        let free = book.free(usize::from(short) - 1);
        let [short, long] = [position(book, short), position(book, long as u16)];
        let state = match [short.open(), long.open()] {
            [0, 0] => State::PairedBoth,
            [0, _] => State::PairedShort,
            [_, 0] => State::PairedLong,
            _ => State::PairedPart,
        };
        self.reach_if(true, state);
        let is_short_first = short.delivery_day < long.delivery_day;
        self.reach_if(true, if is_short_first { State::PairedShortFirst } else { State::PairedLongFirst });
        self.reach_if(short.r(book.day) == Some(0), State::PairedShortToday);
        self.reach_if(long.r(book.day) == Some(0), State::PairedLongToday);
        let state = match book.securities[short.security].class {
            1 => State::Paired1,
            2 => State::Paired2,
            _ => State::Paired3,
        };
        self.reach_if(true, state);
        self.reach_if(book.auction.is_some(), State::PairedBesideAuction);
        self.reach_if(free < short.open(), State::PairedAwarded);
        self.reach_if(free == 0 && short.open() > 0, State::PairedAllFree);
        self.reach_if(short.bought_in > 0, State::PairedBoughtIn);
        self.reach_if(long.delivered > 0, State::PairedDelivered);
    }

    /// An accepted discharge by another call than a pair-off.
    pub(super) fn discharged_beside(&mut self, book: &Book, answer: &Answer) {
        let Some(piece) = answer.pieces.last().filter(|piece| piece.manner != Manner::Paired) else {
            return;
        };
        let short = position(book, piece.short);
        let state = match piece.manner {
            Manner::Cash => State::CashOfRest,
            Manner::BoughtIn => State::BoughtInRest,
            _ => State::DeliveredRest,
        };
        self.reach_if(short.paired > 0, state);
        let longs = book.securities[short.security].longs.iter();
        let mut in_front = longs.filter(|&&place| place + 1 < usize::from(piece.long));
        self.reach_if(in_front.any(|&place| book.positions[place].paired > 0), State::PastPaired);
    }

    /// A member whose offer was accepted in the security.
    pub(super) fn offered(&mut self, book: &Book, offerer: u8, security: usize) {
        let shorts = book.securities[security].shorts.iter().map(|&place| &book.positions[place]);
        let mut late = shorts.filter(|short| short.member == offerer && short.r(book.day) > Some(0));
        self.reach_if(late.any(|short| short.paired > 0), State::OfferAfterPairing);
    }

    /// A late short of class 1 that is about to be fined.
    pub(super) fn late_after_pairing(&mut self, short: &Position, latest: Option<LatestPrice>) {
        let price = latest.map_or(0, |latest| u64::from(latest.price));
        let fine = |quantity: u32| charges::late_fine(u64::from(quantity) * price);
        self.reach_if(fine(short.open()) < fine(short.open() + short.paired), State::LessFine);
    }

    pub(super) fn wholly_paired(&mut self, book: &Book) {
        let whole = |side| book.positions.iter().any(|held| held.side == side && held.paired == held.netted);
        self.reach_if(whole(Side::Short), State::WholeShort);
        self.reach_if(whole(Side::Long), State::WholeLong);
    }

    pub(super) fn refused_pair_off(&mut self, book: &Book, pairing: Pairing, refusal: Refusal) {
        match refusal {
            Refusal::NotThere => self.position_missing(book, pairing),
            Refusal::Quantity => {
                let is_long = position(book, pairing.short).side == Side::Long;
                self.reach_if(true, if is_long { State::NothingFromLong } else { State::PairNothing });
            }
            Refusal::Long => self.reach_if(true, State::PairFromLong),
            Refusal::Window => {
                let fits = is_due_long_beside(book, pairing.short, pairing.long as u16);
                self.reach_if(true, if fits { State::PairEarly } else { State::EarlyNoPair });
            }
            Refusal::NoPair => self.no_pair(book, pairing),
            Refusal::Auction => {
                let is_beyond = pairing.quantity > position(book, pairing.short).open();
                self.reach_if(true, if is_beyond { State::BeyondInAuction } else { State::PairInAuction });
            }
            Refusal::NotFree => self.beyond(book, pairing),
            _ => {}
        }
    }

    fn position_missing(&mut self, book: &Book, Pairing { short, long, quantity }: Pairing) {
        let is_there = |number: u32| (1..=book.positions.len() as u32).contains(&number);
        let [short_there, long_there] = [short.into(), long].map(is_there);
        self.reach_if(short == 0 && long_there, State::PairNoShort);
        self.reach_if(short_there && long == 0, State::PairNoLong);
        self.reach_if(quantity == 0, State::MissingNothing);
        if short_there {
            self.reach_if(position(book, short).side == Side::Long, State::MissingFromLong);
            let low = long as u16;
            let fits = is_there(low.into()) && is_due_long_beside(book, short, low);
            let is_due_short = position(book, short).side == Side::Short && position(book, short).is_due(book.day);
            self.reach_if(fits && is_due_short && quantity > 0, State::PairWide);
        }
    }

    fn no_pair(&mut self, book: &Book, Pairing { short, long, quantity }: Pairing) {
        let [place, other_place] = [usize::from(short), long as usize].map(|number| number - 1);
        let [short, other] = [place, other_place].map(|place| &book.positions[place]);
        let is_due = other.is_due(book.day);
        let state = match (other.side, is_due, differences(short, other)) {
            (Side::Short, ..) if place == other_place => Some(State::PairItself),
            (Side::Short, true, [false, false, false]) => Some(State::PairOtherShort),
            (Side::Long, false, [false, false, false]) => Some(State::PairNotDue),
            (Side::Long, true, [true, false, false]) => Some(State::PairMember),
            (Side::Long, true, [false, true, false]) => Some(State::PairKind),
            (Side::Long, true, [false, false, true]) => Some(State::PairSecurity),
            _ => None,
        };
        if let Some(state) = state {
            self.reach_if(true, state);
        }
        self.reach_if(book.auction_runs_on(place), State::NoPairInAuction);
        self.reach_if(quantity > book.free(place), State::NoPairBeyond);
    }

    /// Refused for more than the short has free or the long open.
    fn beyond(&mut self, book: &Book, Pairing { short, long, quantity }: Pairing) {
        let free = book.free(usize::from(short) - 1);
        let [short_open, long_open] = [short, long as u16].map(|number| position(book, number).open());
        self.reach_if(quantity > free && quantity <= short_open && quantity <= long_open, State::PairBeyondFree);
        self.reach_if(quantity > short_open && quantity <= long_open, State::PairBeyondShort);
        self.reach_if(quantity <= free && quantity > long_open, State::PairBeyondLong);
    }
}

/// Whether member, kind and security of two positions differ.
fn differences(one: &Position, other: &Position) -> [bool; 3] {
    [one.member != other.member, one.kind != other.kind, one.security != other.security]
}

/// Whether the other position, by number, is a due long of the first one's holder in its security.
fn is_due_long_beside(book: &Book, first: u16, other: u16) -> bool {
    let [first, other] = [first, other].map(|number| position(book, number));
    other.side == Side::Long && other.is_due(book.day) && differences(first, other) == [false; 3]
}
