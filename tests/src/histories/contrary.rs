//! Events that the book should turn down, and events with fields of any value.

use super::fitting::{age_of_price, in_other_kind, number};
use super::History;
use crate::random::Random;
use second::book::{Book, Side, GREATEST_PRICE, GREATEST_QUANTITY, MEMBERS};
use second::events::{Event, Party};
use second::windows::Step;

/// The refusals that depend on the state of the book.
const BY_STATE: [u8; 13] = [14, 15, 16, 17, 18, 19, 20, 21, 22, 23, 24, 25, 32];

/// With those that are aimed at where there are clients.
const BY_STATE_AND_KIND: [u8; 16] = [14, 15, 16, 17, 18, 19, 20, 21, 22, 23, 24, 25, 32, 33, 33, 14];

/// Bytes that are no kind: the first and the last of them, and others.
const NO_KINDS: [u8; 8] = [2, 2, 3, 7, 128, 254, 255, 255];

/// An event of the kind, whose fields have any value.
pub fn random_event(random: &mut Random, kind: u8) -> Event {
    let named = random.word() as u16;
    let parties = [(); 2].map(|_| {
        // Bytes that are kinds are to be frequent.
        let kinds = [0, 1, random.byte()];
        Party { member: random.byte(), kind: random.pick(&kinds) }
    });
    let [quantity, price] = [(); 2].map(|_| random.sized_word() as u32);
    Event::of(kind, named, parties, quantity, price).expect("a kind from 1 to 10")
}

impl History<'_> {
    pub(super) fn contrary(&mut self) -> Event {
        if self.pairs_off && self.random.one_in(6) {
            if let Some(event) = self.contrary_pair_off() {
                return event;
            }
        }
        let against_state = if self.random.one_in(2) { self.against_state() } else { None };
        against_state.unwrap_or_else(|| self.arbitrary())
    }

    /// An event of any kind, each field either as it should be or at an edge.
    pub(super) fn arbitrary(&mut self) -> Event {
        match self.random.between(1, if self.pairs_off { 10 } else { 9 }) {
            1 => Event::Trade {
                security: self.any_security(),
                seller: self.any_party(),
                buyer: self.any_party(),
                quantity: self.any_quantity(),
                price: self.any_price(),
            },
            2 => Event::Price { security: self.any_security(), price: self.any_price() },
            3 => Event::Delivery { short: self.any_position(), quantity: self.any_quantity() },
            4 => Event::Attempt { short: self.any_position() },
            5 => Event::Offer {
                short: self.any_position(),
                offerer: self.any_member(),
                quantity: self.any_quantity(),
                price: self.any_price(),
            },
            6 => Event::Award { short: self.any_position() },
            7 => Event::Confirm { award: self.any_award() },
            8 => Event::Cash { short: self.any_position() },
            9 => Event::Close,
            _ => self.arbitrary_pair_off(),
        }
    }

    /// A discharge of any kind, with fields of any value.
    pub(super) fn arbitrary_discharge(&mut self) -> Event {
        match self.random.below(4) {
            0 => Event::Delivery { short: self.any_position(), quantity: self.any_quantity() },
            1 => Event::Confirm { award: self.any_award() },
            2 => Event::Cash { short: self.any_position() },
            _ => self.arbitrary_pair_off(),
        }
    }

    /// An event with good fields that the state of the book forbids, by the number of a refusal to aim at.
    fn against_state(&mut self) -> Option<Event> {
        let aims = if self.clients.is_some() { &BY_STATE_AND_KIND[..] } else { &BY_STATE };
        let position = match self.random.pick(aims) {
            14 => return Some(self.trade_with_oneself()),
            33 => return Some(self.trade_of_no_kind()),
            16 => self.pick_position(|book, at| book.positions[at].side == Side::Long),
            17 => self.pick_short(|book, at| !book.positions[at].is_due(book.day)),
            18 => return self.against_auction(),
            19 => self.pick_short(|book, at| is_unpriced(book, at) && has_window(book, at)),
            20 => self.pick_short(|book, at| book.attempts.contains(&at)),
            21 => return self.offer_of_failing_member(),
            22 => return self.offer_above_ceiling(),
            24 => return self.beyond_free(),
            25 => return self.second_confirmation(),
            32 => return self.step_on_old_price(),
            _ => self.pick_short(|_, _| true),
        };
        position.map(|at| self.step_on(at))
    }

    /// Good but for its members and kinds, which are alike, also where the book takes no more trades.
    fn trade_with_oneself(&mut self) -> Event {
        let member = self.random.between(1, MEMBERS) as u8;
        let security = self.random.below(self.register.len());
        let (quantity, price) = (self.quantity(), self.price_near_latest(security));
        let mut party = self.party(member);
        if self.clients.is_some() && self.random.one_in(3) {
            party.kind = self.random.pick(&NO_KINDS);
        }
        Event::Trade { security: number(security), seller: party, buyer: party, quantity, price }
    }

    /// Good but for a kind, of the seller, of the buyer or of both, also where the book takes no more trades. Seller and
    /// buyer are at times one member.
    fn trade_of_no_kind(&mut self) -> Event {
        let security = self.random.below(self.register.len());
        let (quantity, price) = (self.quantity(), self.price_near_latest(security));
        let members = [(); 2].map(|_| self.random.between(1, self.traders) as u8);
        let [mut seller, mut buyer] = members.map(|member| self.party(member));
        let [first, second] = [(); 2].map(|_| self.random.pick(&NO_KINDS));
        match self.random.below(4) {
            0 => [seller.kind, buyer.kind] = [first, second],
            1 | 2 => seller.kind = first,
            _ => buyer.kind = second,
        }
        Event::Trade { security: number(security), seller, buyer, quantity, price }
    }

    pub(super) fn second_confirmation(&mut self) -> Option<Event> {
        let awards = &self.book.awards;
        let confirmed: Vec<usize> = (0..awards.len()).filter(|&at| awards[at].confirmed).collect();
        (!confirmed.is_empty()).then(|| Event::Confirm { award: number(self.random.pick(&confirmed)) })
    }

    /// A delivery, attempt or cash settlement.
    fn step_on(&mut self, position: usize) -> Event {
        let short = number(position);
        match self.random.below(3) {
            0 => Event::Delivery { short, quantity: self.quantity() },
            1 => Event::Attempt { short },
            _ => Event::Cash { short },
        }
    }

    /// The attempt or cash settlement that the short's window allows today.
    fn step_in_window(&self, position: usize) -> Event {
        let short = number(position);
        match self.book.allows(position, Step::Attempt) {
            true => Event::Attempt { short },
            false => Event::Cash { short },
        }
    }

    /// A step on a price of an earlier day, at times with nothing open, which is a later reason.
    fn step_on_old_price(&mut self) -> Option<Event> {
        let is_old =
            |book: &Book, at: usize| has_window(book, at) && age_of_price(book, at).is_some_and(|days| days > 0);
        let empty = self.pick_short(|book, at| is_old(book, at) && book.positions[at].open() == 0);
        let at = match (empty, self.random.one_in(2)) {
            (Some(at), true) => at,
            _ => self.pick_short(is_old)?,
        };
        Some(self.step_in_window(at))
    }

    /// What a running auction forbids, or what needs one that does not run.
    fn against_auction(&mut self) -> Option<Event> {
        let running = self.book.auction.as_ref().map(|auction| auction.short);
        let other = self.pick_position(|_, at| Some(at) != running)?;
        Some(match (self.random.below(4), running) {
            (0, Some(_)) => Event::Close,
            (1, Some(at)) => Event::Delivery { short: number(at), quantity: self.any_quantity() },
            (2, Some(_)) => {
                let unpriced = self.pick_short(|book, at| book.allows(at, Step::Attempt) && is_unpriced(book, at));
                let waiting = unpriced.or_else(|| self.pick_short(|book, at| book.allows(at, Step::Attempt)))?;
                Event::Attempt { short: number(waiting) }
            }
            (0 | 1, None) | (3, _) => Event::Offer {
                short: number(other),
                offerer: self.any_member(),
                quantity: self.quantity(),
                price: self.any_price(),
            },
            _ => Event::Award { short: number(other) },
        })
    }

    pub(super) fn offer_of_failing_member(&mut self) -> Option<Event> {
        let short = self.book.auction.as_ref()?.short;
        let security = self.book.positions[short].security;
        let failing: Vec<u8> = (1..=MEMBERS as u8).filter(|&member| self.book.is_failing(member, security)).collect();
        if failing.is_empty() {
            return None;
        }
        let (offerer, quantity, price) = (self.random.pick(&failing), self.quantity(), self.any_price());
        Some(Event::Offer { short: number(short), offerer, quantity, price })
    }

    pub(super) fn offer_above_ceiling(&mut self) -> Option<Event> {
        let auction = self.book.auction.as_ref()?;
        let (short, ceiling) = (auction.short, auction.ceiling as u32);
        let price = (ceiling + self.random.pick(&[1, 1, 2, 1_000])).min(GREATEST_PRICE);
        let offerer = self.willing_member(self.book.positions[short].security)?;
        Some(Event::Offer { short: number(short), offerer, quantity: self.quantity(), price })
    }

    /// A delivery of more than is free, or a step on a short with nothing open, most often on a price of today.
    fn beyond_free(&mut self) -> Option<Event> {
        let empty = self.pick_short(|book, at| book.positions[at].open() == 0 && has_window(book, at));
        if let (Some(at), true) = (empty, self.random.one_in(2)) {
            let event = if self.random.one_in(3) { self.step_on(at) } else { self.step_in_window(at) };
            if !self.random.one_in(4) {
                self.price_for(&event);
            }
            return Some(event);
        }
        let awarded = self.pick_short(|book, at| book.free(at) < book.positions[at].open());
        if let Some(at) = awarded {
            return Some(Event::Delivery { short: number(at), quantity: self.book.positions[at].open() });
        }
        let due = self.pick_short(|book, at| book.positions[at].is_due(book.day))?;
        let quantity = self.book.free(due) + self.random.pick(&[1, 1, 2, 1_000]);
        Some(Event::Delivery { short: number(due), quantity })
    }

    fn any_security(&mut self) -> u16 {
        let count = self.register.len();
        match self.random.below(16) {
            0 => self.random.pick(&[0, 256, 257, u16::MAX]),
            1 => number(count),
            2 => self.random.word() as u16,
            _ => number(self.random.below(count)),
        }
    }

    pub(super) fn any_position(&mut self) -> u16 {
        let count = self.book.positions.len();
        let running = self.book.auction.as_ref().map(|auction| auction.short);
        match (self.random.below(12), running) {
            (0, _) => self.random.pick(&[0, 256, 257, 1_024, 1_025, u16::MAX]),
            (1, _) => number(count),
            (2, _) => self.random.word() as u16,
            (3..=6, Some(short)) => number(short),
            _ => number(self.random.below(count.max(1))),
        }
    }

    fn any_award(&mut self) -> u16 {
        let count = self.book.awards.len();
        match self.random.below(6) {
            0 => self.random.pick(&[0, 256, 257, u16::MAX]),
            1 => number(count),
            _ => number(self.random.below(count.max(1))),
        }
    }

    fn any_member(&mut self) -> u8 {
        match self.random.below(16) {
            0 => self.random.pick(&[0, 64, 65, 127, 128, 255]),
            1 => self.random.byte(),
            2 | 3 => self.random.between(1, MEMBERS) as u8,
            _ => self.random.between(1, self.traders) as u8,
        }
    }

    /// Where there are clients, with any kind.
    fn any_party(&mut self) -> Party {
        let member = self.any_member();
        let party = self.party(member);
        match self.clients {
            Some(_) if self.random.one_in(12) => Party { member, kind: self.random.byte() },
            Some(_) if self.random.one_in(4) => in_other_kind(party),
            _ => party,
        }
    }

    pub(super) fn any_quantity(&mut self) -> u32 {
        match self.random.below(16) {
            0 => 0,
            1 => GREATEST_QUANTITY + 1,
            2 => self.random.pick(&[GREATEST_QUANTITY, u32::MAX, 1 << 31, 1 << 16]),
            3 => self.random.sized_word() as u32,
            _ => self.quantity(),
        }
    }

    fn any_price(&mut self) -> u32 {
        match self.random.below(16) {
            0 => 0,
            1 => GREATEST_PRICE + 1,
            2 => self.random.pick(&[GREATEST_PRICE, u32::MAX, 1 << 31]),
            3 => self.random.sized_word() as u32,
            4 => self.book.auction.as_ref().map_or(1, |auction| auction.ceiling as u32),
            _ => {
                let security = self.random.below(self.register.len());
                self.price_near_latest(security)
            }
        }
    }
}

/// Whether today is in one of the short's windows.
fn has_window(book: &Book, short: usize) -> bool {
    book.allows(short, Step::Attempt) || book.allows(short, Step::Cash)
}

fn is_unpriced(book: &Book, position: usize) -> bool {
    age_of_price(book, position).is_none()
}
