//! Whole histories, each as an input of the player.

use super::fitting::{in_other_kind, number};
use super::registers::{different, with_classes};
use super::{damaged, random_event, History};
use crate::random::Random;
use second::book::{MEMBERS, MOST_ATTEMPTS, MOST_TRADES};
use second::events::{Event, Party, MOST_EVENTS};
use std::collections::HashSet;

/// Any input, most often of a few hundred events at most.
pub fn any(random: &mut Random) -> Vec<u8> {
    let limit = random.pick(&[5, 20, 60, 60, 150, 150, 400]);
    match random.below(26) {
        0 => tiny(random),
        1 => random_fields(random),
        2..=5 => {
            let limit = random.pick(&[0, 1, 3, 10, 30]);
            let input = market(random, limit);
            damaged(random, input)
        }
        6 | 7 => many_attempts(random),
        8 => many_pieces(random, 100),
        9 | 10 => waiting(random, limit),
        11 | 12 => settled_in_cash(random),
        13..=16 => both_ways(random),
        _ => market(random, limit),
    }
}

/// A history of many trades or of as many events as a file takes; one in four is of the same shape.
pub fn long(random: &mut Random, which: usize) -> Vec<u8> {
    match which % 4 {
        0 => full_book(random),
        1 => many_pieces(random, MOST_TRADES - 1),
        2 => waiting(random, MOST_EVENTS),
        _ => market(random, MOST_EVENTS),
    }
}

/// For the benchmark: as many events as a file takes, of every kind.
pub fn mixed(random: &mut Random) -> Vec<u8> {
    let register = with_classes(random, &[1, 1, 1, 1, 1, 1, 2, 3]);
    let mut history = History::new(random, register, MOST_EVENTS);
    history.pairs_off = false;
    history.run_busy_market();
    history.input()
}

/// For the benchmark: 1,024 positions, each short settled in cash. In each security the largest short goes first, and
/// takes a piece of every long.
pub fn full_book_in_cash(random: &mut Random) -> Vec<u8> {
    const SECURITIES: usize = 32;
    let register = with_classes(random, &[1; SECURITIES]);
    let mut history = History::new(random, register, MOST_EVENTS);
    let sellers = MOST_TRADES / SECURITIES;
    for seller in 1..=sellers {
        for security in 0..SECURITIES {
            let quantity = if seller == 1 { 100_000 } else { history.random.between(1, 100) as u32 };
            let [seller, buyer] = [seller, MEMBERS + 1 - seller].map(|member| Party::own(member as u8));
            history.play(Event::Trade { security: number(security), seller, buyer, quantity, price: 1_000 });
        }
    }
    // The late fines on the way go by the prices of day 1, and a cash settlement goes by a price of its day.
    history.price_all(1_100);
    history.close(2 + 8);
    history.price_all(1_100);
    // Positions are numbered by member, so member 1, with the largest shorts, comes first.
    for at in 0..MOST_TRADES {
        history.play(Event::Cash { short: number(at) });
    }
    history.input()
}

/// For the benchmark: closes on a book whose shorts are late and have a price.
pub fn closes(random: &mut Random, closes: u16) -> Vec<u8> {
    let register = with_classes(random, &[1; 4]);
    let mut history = History::new(random, register, MOST_EVENTS);
    for security in 0..4 {
        history.play(Event::Price { security: number(security), price: 1_100 });
    }
    // A book holds no more trades, however few closes there are to be.
    while history.events.len() < MOST_EVENTS - usize::from(closes) && history.book.trades.len() < MOST_TRADES {
        history.try_to_play(History::fitting_trade);
    }
    history.close(closes);
    history.input()
}

/// An input whose last call is most often a discharge. `closes` closes are to come before its first event.
pub fn discharge_on_day(random: &mut Random, closes: u32) -> Vec<u8> {
    let limit = random.between(1, 120);
    let mut history = some_history(random, limit);
    history.close_before(closes);
    history.run_market();
    history.limit += 100;
    if history.random.one_in(2) {
        history.hold_auction();
        history.confirm();
    }
    if history.random.one_in(3) {
        history.trade_both_ways();
    }
    let event = match history.random.below(9) {
        0 => history.fitting_confirmation().or_else(|| history.fitting_cash()),
        1 => history.second_confirmation().or_else(|| history.fitting_delivery()),
        2 => history.fitting_cash(),
        3 => history.fitting_delivery(),
        4 => Some(history.arbitrary_discharge()),
        5 | 6 => history.fitting_pair_off(),
        7 => history.contrary_pair_off(),
        _ => Some(history.contrary()),
    };
    let event = event.unwrap_or(Event::Close);
    // A cash settlement in its window is refused on an old price, and accepted on one of today.
    if history.random.one_in(2) {
        history.price_for(&event);
    }
    history.play(event);
    history.input()
}

fn some_history(random: &mut Random, limit: usize) -> History<'_> {
    let securities = random.pick(&[1, 1, 2, 3, 5, 32]);
    let register = different(random, securities);
    let mut history = History::new(random, register, limit);
    history.traders = history.random.pick(&[2, 3, 5, 10, MEMBERS]);
    if history.random.one_in(2) {
        history.unpriced = Some(history.random.below(securities));
    }
    history.clients = some_clients(history.random);
    history
}

/// How often a side of a trade is a client's, if ever.
fn some_clients(random: &mut Random) -> Option<usize> {
    random.pick(&[None, None, Some(2), Some(2), Some(5)])
}

fn market(random: &mut Random, limit: usize) -> Vec<u8> {
    let mut history = some_history(random, limit);
    history.run_market();
    history.input()
}

/// No event, or one.
fn tiny(random: &mut Random) -> Vec<u8> {
    let limit = random.below(2);
    let mut history = some_history(random, limit);
    let event = history.arbitrary();
    history.play(event);
    history.input()
}

fn random_fields(random: &mut Random) -> Vec<u8> {
    let limit = random.pick(&[10, 100]);
    let mut history = some_history(random, limit);
    while !history.is_full() {
        // Closes would be most of what is accepted.
        let kind = history.random.pick(&[1, 2, 3, 4, 5, 6, 7, 8, 10]);
        let event = random_event(history.random, kind);
        history.play(event);
    }
    history.input()
}

/// More shorts in their attempt window on one day than may be attempted, some of them without a price or with an old
/// one.
fn many_attempts(random: &mut Random) -> Vec<u8> {
    let class = random.between(1, 3) as u8;
    let register = with_classes(random, &[class; 4]);
    let mut history = History::new(random, register, 400);
    history.unpriced = Some(2);
    history.clients = some_clients(history.random);
    let sellers = history.random.between(MOST_ATTEMPTS + 4, 35) as u8;
    for seller in 1..=sellers {
        let security = history.random.pick(&[1, 1, 1, 1, 2, 2, 2, 2, 3, 4]);
        let (quantity, price) = (history.quantity(), history.price_near_latest(0));
        let [seller, buyer] = [seller, MEMBERS as u8].map(|member| history.party(member));
        history.play(Event::Trade { security, seller, buyer, quantity, price });
    }
    history.close_to_attempts(class);
    for _ in 0..MOST_ATTEMPTS {
        history.try_to_play(History::attempt_on_price_of_today);
        match history.random.below(8) {
            0 => history.fill_auction(),
            offers => (0..offers / 2).for_each(|_| history.try_to_play(History::fitting_offer)),
        }
        history.try_to_play(History::fitting_award);
        if history.random.one_in(2) {
            history.try_to_play(History::fitting_confirmation);
        }
    }
    for short in 1..=u16::from(sellers) {
        history.play(Event::Attempt { short });
    }
    history.run_market();
    history.input()
}

impl History<'_> {
    /// A price for each security.
    fn price_all(&mut self, price: u32) {
        for security in 0..self.register.len() {
            self.play(Event::Price { security: number(security), price });
        }
    }

    /// Trades on a full book: good ones, one of a member with itself across kinds among them, one of a member with itself
    /// in one kind, and such as have a byte that is no kind.
    fn trades_too_many(&mut self) {
        let (own, client) = (Party::own(1), Party::client(2));
        let other = Party { member: 3, kind: self.random.pick(&[2, 7, 255]) };
        let sides =
            [[own, client], [client, own], [own, in_other_kind(own)], [own, own], [other, own], [client, other]];
        for [seller, buyer] in sides.into_iter().chain([[other, other]]) {
            self.play(Event::Trade { security: 1, seller, buyer, quantity: 1, price: 1 });
        }
    }

    /// A trade in security 1. Each seller has a level, in hundredths of the price, and sells at prices near it.
    fn trade_near(&mut self, price: usize, levels: &[usize]) {
        let seller = self.random.below(levels.len());
        let buyer = levels.len() + self.random.between(1, 5);
        let price = price * (levels[seller] + self.random.below(11)) / 100;
        let quantity = self.random.between(1, 40) as u32;
        let [seller, buyer] = [seller + 1, buyer].map(|member| self.party(member as u8));
        self.play(Event::Trade { security: 1, seller, buyer, quantity, price: price as u32 });
    }

    /// A member sells in one security and kind on one day and buys on another, and once all is due it holds a short and a
    /// long.
    fn trade_both_ways(&mut self) {
        let security = self.random.below(self.register.len());
        let member = self.random.between(1, self.traders);
        let [member, other] = [member, member % self.traders + 1].map(|member| self.party(member as u8));
        let mut sides = [member, other];
        let mut quantity = self.quantity();
        for _ in 0..self.random.between(2, 3) {
            let [seller, buyer] = sides;
            let price = self.price_near_latest(security);
            self.play(Event::Trade { security: number(security), seller, buyer, quantity, price });
            self.play(Event::Close);
            sides.reverse();
            // The same quantity back leaves nothing open of both positions.
            quantity = if self.random.one_in(2) { quantity } else { self.quantity() };
        }
        self.close(2);
    }

    /// Some pair-offs, of which most fit.
    fn set_off(&mut self) {
        for _ in 0..self.random.between(1, 5) {
            match self.random.below(3) {
                0 => self.try_to_play(History::contrary_pair_off),
                _ => self.try_to_play(History::fitting_pair_off),
            }
        }
    }

    /// Closes to a day on which the shorts of day 1 may be attempted. Securities 1, 2 and 4 get a price on an earlier
    /// day, 1 and 2 another on this one.
    fn close_to_attempts(&mut self, class: u8) {
        let r = if class == 1 { self.random.between(5, 7) } else { self.random.pick(&[27, 37]) };
        let closes = 2 + r as u16;
        let age = self.random.pick(&[1, 2, closes]);
        for (days, securities) in [(closes - age, &[0, 1, 3][..]), (age, &[0, 1][..])] {
            self.close(days);
            for &security in securities {
                let price = self.price_near_latest(security);
                self.play(Event::Price { security: number(security), price });
            }
        }
    }
}

/// One member sells to many in one security over several days, another sells a large quantity last: its discharge is
/// dealt out in a piece for nearly every trade.
fn many_pieces(random: &mut Random, trades: usize) -> Vec<u8> {
    let class = random.between(1, 3) as u8;
    let register = with_classes(random, &[class]);
    let mut history = History::new(random, register, MOST_EVENTS);
    history.clients = some_clients(history.random);
    for trade in 0..trades {
        let buyer = (3 + trade % (MEMBERS - 2)) as u8;
        let quantity = history.random.between(1, 3) as u32;
        let price = history.price_near_latest(0);
        let [seller, buyer] = [1, buyer].map(|member| history.party(member));
        history.play(Event::Trade { security: 1, seller, buyer, quantity, price });
        if usize::from(buyer.member) == MEMBERS {
            history.play(Event::Close);
        }
    }
    let price = history.price_near_latest(0);
    let [seller, buyer] = [2, 3].map(|member| history.party(member));
    history.play(Event::Trade { security: 1, seller, buyer, quantity: 1_000_000, price });
    history.play(Event::Price { security: 1, price });
    history.play(Event::Close);
    let large = history.pick_short(|book, at| book.positions[at].member == 2);
    history.close(if class == 1 { 1 + 8 } else { 1 + 30 });
    if let Some(at) = large {
        let delivered = history.random.between(0, trades / 5) as u32;
        history.play(Event::Delivery { short: number(at), quantity: delivered });
        let cash = Event::Cash { short: number(at) };
        if history.random.one_in(2) {
            // Refused, since the price is an old one.
            history.play(cash);
        }
        history.play_on_price_of_today(cash);
    }
    history.limit = history.limit.min(history.events.len() + 100);
    history.run_market();
    history.input()
}

/// Members sell to others in one security, each at prices of its own above or below the latest price raised, and are
/// settled in cash on one day: so each term of a cash price is the highest at times. Deliveries leave some longs with
/// nothing open, and trades of the last day make longs that are not due.
fn settled_in_cash(random: &mut Random) -> Vec<u8> {
    let class = random.between(1, 3) as u8;
    let register = with_classes(random, &[class]);
    let mut history = History::new(random, register, 150);
    history.clients = some_clients(history.random);
    let latest = history.random.pick(&[400, 1_100, 5_000, 20_000]);
    let raised = if class == 3 { latest + 300 } else { 2 * latest };
    let sellers: Vec<usize> = (0..history.random.between(2, 4)).map(|_| history.random.between(70, 130)).collect();
    for _ in 0..history.random.between(1, 3) {
        (0..history.random.between(3, 8)).for_each(|_| history.trade_near(raised, &sellers));
        history.play(Event::Close);
    }
    history.close(if class == 1 { 8 } else { 30 });
    (0..history.random.below(4)).for_each(|_| history.try_to_play(History::fitting_delivery));
    (0..history.random.below(3)).for_each(|_| history.trade_near(raised, &sellers));
    history.play(Event::Close);
    history.play(Event::Price { security: 1, price: latest as u32 });
    for _ in 0..3 * sellers.len() {
        history.try_to_play(History::fitting_cash);
        if history.random.one_in(8) {
            history.try_to_play(History::fitting_price);
        }
    }
    history.limit = history.limit.min(history.events.len() + 20);
    history.run_market();
    history.input()
}

/// Few members trade on several days, so that they hold shorts and longs in one security, and set these off against each
/// other: as soon as some of them are due, once all are, around an auction, and before cash settlements.
fn both_ways(random: &mut Random) -> Vec<u8> {
    let class = random.between(1, 3) as u8;
    let register = with_classes(random, &[class; 2]);
    let mut history = History::new(random, register, 200);
    history.traders = history.random.between(2, 4);
    history.clients = some_clients(history.random);
    let price = history.price_near_latest(0);
    history.price_all(price);
    for _ in 0..history.random.between(2, 3) {
        (0..history.random.between(2, 6)).for_each(|_| history.try_to_play(History::fitting_trade));
        history.play(Event::Close);
    }
    // The first positions are due, the last ones are not.
    (0..4).for_each(|_| history.try_to_play(History::contrary_pair_off));
    for _ in 0..2 {
        history.close(1);
        history.set_off();
    }
    history.auction_beside_a_long();
    history.confirm();
    history.hold_auction();
    history.set_off();
    history.confirm();
    if history.random.one_in(2) {
        history.trade_both_ways();
    }
    history.set_off();
    history.close(3);
    (0..history.random.below(3)).for_each(|_| history.try_step(History::fitting_cash));
    history.limit = history.limit.min(history.events.len() + 60);
    history.run_market();
    history.input()
}

/// Trades on one day, then long waits for the windows of classes 2 and 3, which come again.
fn waiting(random: &mut Random, limit: usize) -> Vec<u8> {
    let classes = random.pick(&[[2, 3], [3, 2], [2, 2], [3, 3]]);
    let register = with_classes(random, &classes);
    let mut history = History::new(random, register, limit);
    history.traders = history.random.between(2, 6);
    history.clients = some_clients(history.random);
    for _ in 0..history.random.between(1, 8) {
        history.try_to_play(History::fitting_trade);
    }
    for security in [1, 2] {
        let price = history.price_near_latest(0);
        history.play(Event::Price { security, price });
    }
    history.close(2 + 27);
    for _ in 0..history.random.below(3) {
        history.try_step(History::fitting_attempt);
        history.try_to_play(History::fitting_offer);
        history.try_to_play(History::fitting_award);
        history.close(10);
    }
    history.run_market();
    history.input()
}

/// As many trades as a book holds, each of which makes two positions, and more that are refused: for the number of trades
/// alone, or for their kinds first.
pub fn full_book(random: &mut Random) -> Vec<u8> {
    let securities = random.pick(&[24, 32]);
    let register = different(random, securities);
    let mut history = History::new(random, register, MOST_EVENTS);
    history.clients = some_clients(history.random);
    let a_day = history.random.pick(&[100, 200, MOST_TRADES]);
    let mut used = HashSet::new();
    while history.book.trades.len() < MOST_TRADES {
        let Some(event) = history.fitting_trade() else { break };
        let Event::Trade { security, seller, buyer, .. } = event else { break };
        // A second trade of a member in a kind and security would be netted with the first.
        let keys = [seller, buyer].map(|party| (security, party.member, party.kind));
        if keys.iter().any(|key| used.contains(key)) {
            continue;
        }
        used.extend(keys);
        history.play(event);
        if history.book.trades.len().is_multiple_of(a_day) {
            history.play(Event::Close);
            used.clear();
        }
    }
    history.trades_too_many();
    for security in 0..securities {
        let price = history.price_near_latest(security);
        history.play(Event::Price { security: number(security), price });
    }
    history.run_market();
    history.input()
}
