//! Events that fit the state of the book, so that it accepts them.

use super::History;
use second::book::{
    Book, Business, Holder, Side, Trade, GREATEST_PRICE, GREATEST_QUANTITY, MEMBERS, MOST_ATTEMPTS, MOST_OFFERS,
    MOST_TRADES,
};
use second::events::{Event, Party};
use second::windows::Step;

impl History<'_> {
    pub(super) fn fitting_trade(&mut self) -> Option<Event> {
        if self.book.trades.len() == MOST_TRADES {
            return None;
        }
        if self.random.one_in(8) && !self.book.todays_trades().is_empty() {
            return Some(self.returned_trade());
        }
        if self.clients.is_some() && self.random.one_in(10) {
            return Some(self.trade_across_kinds());
        }
        let security = self.random.below(self.register.len());
        let seller = self.random.between(1, self.traders);
        let away = self.random.between(1, self.traders - 1);
        let buyer = (seller - 1 + away) % self.traders + 1;
        let (quantity, price) = (self.quantity(), self.price_near_latest(security));
        let [seller, buyer] = [seller, buyer].map(|member| self.party(member as u8));
        Some(Event::Trade { security: number(security), seller, buyer, quantity, price })
    }

    /// The member for itself or for a client.
    pub(super) fn party(&mut self, member: u8) -> Party {
        match self.clients {
            Some(often) if self.random.one_in(often) => Party::client(member),
            _ => Party::own(member),
        }
    }

    /// One of today's trades again with seller and buyer changed, so that nothing may be left to deliver. Where there
    /// are clients, the buyer is at times the seller of then in its other kind, so that its two kinds would be nothing
    /// together.
    fn returned_trade(&mut self) -> Event {
        let Trade { security, seller, buyer, quantity, .. } = self.random.pick(self.book.todays_trades());
        let price = self.price_near_latest(security);
        let [seller, buyer] = [seller, buyer].map(party_of);
        let is_changed = self.clients.is_some() && seller.member != buyer.member && self.random.one_in(2);
        let seller = if is_changed { in_other_kind(seller) } else { seller };
        Event::Trade { security: number(security), seller: buyer, buyer: seller, quantity, price }
    }

    /// A trade of a member with itself, which its kind bytes alone allow.
    fn trade_across_kinds(&mut self) -> Event {
        let security = self.random.below(self.register.len());
        let member = self.random.between(1, self.traders) as u8;
        let (quantity, price) = (self.quantity(), self.price_near_latest(security));
        let seller = self.random.pick(&[Party::own(member), Party::client(member)]);
        Event::Trade { security: number(security), seller, buyer: in_other_kind(seller), quantity, price }
    }

    pub(super) fn fitting_price(&mut self) -> Option<Event> {
        let security = self.random.below(self.register.len());
        self.price_of(security)
    }

    /// A price of the security, unless it is to get none.
    pub(super) fn price_of(&mut self, security: usize) -> Option<Event> {
        if self.unpriced == Some(security) {
            return None;
        }
        let price = self.price_near_latest(security);
        Some(Event::Price { security: number(security), price })
    }

    pub(super) fn fitting_delivery(&mut self) -> Option<Event> {
        let at = self.pick_short(|book, at| {
            book.positions[at].is_due(book.day) && !book.auction_runs_on(at) && book.free(at) > 0
        })?;
        let free = self.book.free(at);
        let quantity = match self.random.below(4) {
            0 => free,
            1 => 1,
            2 => free.div_ceil(2),
            _ => self.random.between(1, free as usize) as u32,
        };
        Some(Event::Delivery { short: number(at), quantity })
    }

    /// An attempt that fits once its security has a price of today; the latest may be older.
    pub(super) fn fitting_attempt(&mut self) -> Option<Event> {
        self.attempt_on(|_| true)
    }

    pub(super) fn attempt_on_price_of_today(&mut self) -> Option<Event> {
        self.attempt_on(|days| days == 0)
    }

    /// An attempt on a short of whose security the latest price was given so many days ago.
    fn attempt_on(&mut self, fits: fn(u16) -> bool) -> Option<Event> {
        if self.book.auction.is_some() || self.book.attempts.len() == MOST_ATTEMPTS {
            return None;
        }
        let at = self.pick_short(|book, at| {
            let priced = age_of_price(book, at).is_some_and(fits);
            let open = book.positions[at].open() > 0;
            priced && open && book.allows(at, Step::Attempt) && !book.attempts.contains(&at)
        })?;
        Some(Event::Attempt { short: number(at) })
    }

    /// An offer in the running auction; its price often equals another's.
    pub(super) fn fitting_offer(&mut self) -> Option<Event> {
        let auction = self.book.auction.as_ref().filter(|auction| auction.offers.len() < MOST_OFFERS)?;
        let (at, ceiling) = (auction.short, auction.ceiling.min(GREATEST_PRICE.into()) as u32);
        let prices: Vec<u32> = auction.offers.iter().map(|offer| offer.price).collect();
        let short = &self.book.positions[at];
        let (security, open, reference) = (short.security, short.open(), short.reference_price);
        let price = match self.random.below(6) {
            0 => ceiling,
            1 => reference,
            2 => 1,
            3 | 4 if !prices.is_empty() => self.random.pick(&prices),
            _ => self.random.between(1, ceiling as usize) as u32,
        };
        let quantity = match self.random.below(6) {
            0 => open,
            1 => open.saturating_add(1),
            2 => open.div_ceil(2),
            3 => 1,
            4 => self.quantity(),
            _ => self.random.between(1, open as usize) as u32,
        };
        let offerer = self.willing_member(security)?;
        let quantity = quantity.min(GREATEST_QUANTITY);
        Some(Event::Offer { short: number(at), offerer, quantity, price: price.min(ceiling) })
    }

    /// A member that is not failing, often one that holds a short all the same.
    pub(super) fn willing_member(&mut self, security: usize) -> Option<u8> {
        let willing: Vec<u8> = (1..=MEMBERS as u8).filter(|&member| !self.book.is_failing(member, security)).collect();
        let holds = |member: u8| {
            let shorts = &self.book.securities[security].shorts;
            shorts.iter().any(|&short| self.book.positions[short].member == member)
        };
        let holders: Vec<u8> = willing.iter().copied().filter(|&member| holds(member)).collect();
        let chosen = if holders.is_empty() || self.random.one_in(2) { willing } else { holders };
        (!chosen.is_empty()).then(|| self.random.pick(&chosen))
    }

    pub(super) fn fitting_award(&mut self) -> Option<Event> {
        self.book.auction.as_ref().map(|auction| Event::Award { short: number(auction.short) })
    }

    pub(super) fn fitting_confirmation(&mut self) -> Option<Event> {
        let awards: Vec<usize> = (0..self.book.awards.len()).filter(|&at| !self.book.awards[at].confirmed).collect();
        if awards.is_empty() {
            return None;
        }
        Some(Event::Confirm { award: number(self.random.pick(&awards)) })
    }

    /// A cash settlement that fits once its security has a price of today; the latest may be older.
    pub(super) fn fitting_cash(&mut self) -> Option<Event> {
        let at = self.pick_short(|book, at| {
            let priced = age_of_price(book, at).is_some();
            priced && book.positions[at].open() > 0 && book.allows(at, Step::Cash)
        })?;
        Some(Event::Cash { short: number(at) })
    }

    /// One of the shorts that fit.
    pub(super) fn pick_short(&mut self, fits: impl Fn(&Book, usize) -> bool) -> Option<usize> {
        self.pick_position(|book, at| book.positions[at].side == Side::Short && fits(book, at))
    }

    pub(super) fn pick_position(&mut self, fits: impl Fn(&Book, usize) -> bool) -> Option<usize> {
        let fitting: Vec<usize> = (0..self.book.positions.len()).filter(|&at| fits(&self.book, at)).collect();
        (!fitting.is_empty()).then(|| self.random.pick(&fitting))
    }

    pub(super) fn quantity(&mut self) -> u32 {
        match self.random.below(8) {
            0 => self.random.pick(&[1, 2, GREATEST_QUANTITY - 1, GREATEST_QUANTITY]),
            1 => self.random.between(1, GREATEST_QUANTITY as usize) as u32,
            2 => 100,
            _ => self.random.between(1, 300) as u32,
        }
    }

    pub(super) fn price_near_latest(&mut self, security: usize) -> u32 {
        let latest = self.book.securities[security].latest_price.map_or(1_000, |latest| latest.price);
        let price = match self.random.below(8) {
            0 => self.random.pick(&[1, 2, 101, 1_000, 20_000, GREATEST_PRICE - 1, GREATEST_PRICE]),
            1 => 2 * latest,
            2 | 3 => latest,
            _ => latest - latest / 10 + self.random.below(latest as usize / 5 + 1) as u32,
        };
        price.clamp(1, GREATEST_PRICE)
    }
}

/// How many days ago the latest price of a position's security was given, if it ever had one.
pub(super) fn age_of_price(book: &Book, position: usize) -> Option<u16> {
    let latest = book.securities[book.positions[position].security].latest_price?;
    Some(book.day - latest.day)
}

/// A side of a trade that the book holds, as an event says it.
fn party_of(holder: Holder) -> Party {
    match holder.kind {
        Business::Own => Party::own(holder.member),
        Business::Client => Party::client(holder.member),
    }
}

/// The same member for its client in place of itself, or for itself in place of its client.
pub(super) fn in_other_kind(party: Party) -> Party {
    Party { member: party.member, kind: 1 - party.kind }
}

/// The number of a security, position or award at a place.
pub(super) fn number(place: usize) -> u16 {
    (place + 1) as u16
}
