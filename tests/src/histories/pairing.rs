//! Pair-offs: those that fit, and those that the book should turn down.

use super::fitting::number;
use super::History;
use second::book::{Book, Side, GREATEST_QUANTITY};
use second::events::Event;
use second::windows::Step;

/// A short and another position, by their places.
type Pair = (usize, usize);

/// Numbers that 16 bits do not hold, above a number that they do.
const ABOVE: [u32; 4] = [1 << 16, 1 << 17, 1 << 31, 0xffff_0000];

impl History<'_> {
    /// A pair-off of a part, or of as much as the short and the long allow.
    pub(super) fn fitting_pair_off(&mut self) -> Option<Event> {
        let (short, long) = self.pick_pair(|book, (short, long)| {
            !book.auction_runs_on(short) && book.free(short) > 0 && book.positions[long].open() > 0
        })?;
        let most = self.book.free(short).min(self.book.positions[long].open());
        let quantity = match self.random.below(5) {
            0 | 1 => most,
            2 => 1,
            3 => most.div_ceil(2),
            _ => self.random.between(1, most as usize) as u32,
        };
        Some(pair_off((short, long), quantity))
    }

    /// A pair-off that is wrong in one respect, or in two of which the earlier reason counts.
    pub(super) fn contrary_pair_off(&mut self) -> Option<Event> {
        match self.random.below(12) {
            0 | 1 => self.pair_off_with_no_position(),
            2 => self.pair_off_of_nothing(),
            3 => self.pair_off_from_a_long(),
            4 => self.pair_off_before_the_window(),
            5..=8 => self.pair_off_with_another(),
            9 => self.pair_off_in_auction(),
            _ => self.pair_off_beyond(),
        }
    }

    /// A pair-off of any fields, each as it should be or at an edge.
    pub(super) fn arbitrary_pair_off(&mut self) -> Event {
        let long = u32::from(self.any_position());
        let above = if self.random.one_in(12) { self.random.pick(&ABOVE) } else { 0 };
        Event::PairOff { short: self.any_position(), long: long + above, quantity: self.any_quantity() }
    }

    /// Where a number is 0, the next one, or one that 16 bits do not hold; at times the quantity or the first position
    /// is wrong too, which is a later reason.
    fn pair_off_with_no_position(&mut self) -> Option<Event> {
        let pair = self.pick_pair(|_, _| true)?;
        let next = number(self.book.positions.len());
        let mut numbers = [pair.0, pair.1].map(number);
        if self.random.one_in(4) {
            numbers.reverse();
        }
        let [first, second] = numbers;
        let (short, long) = match self.random.below(6) {
            0 => (0, second.into()),
            1 => (next, second.into()),
            2 => (first, 0),
            3 => (first, next.into()),
            _ => (first, u32::from(second) + self.random.pick(&ABOVE)),
        };
        let quantity = if self.random.one_in(3) { 0 } else { self.quantity() };
        Some(Event::PairOff { short, long, quantity })
    }

    fn pair_off_of_nothing(&mut self) -> Option<Event> {
        let pair = self.pick_pair(|_, _| true)?;
        let pair = if self.random.one_in(4) { (pair.1, pair.0) } else { pair };
        Some(pair_off(pair, 0))
    }

    /// The long first, with its short, itself or any other position as the second.
    fn pair_off_from_a_long(&mut self) -> Option<Event> {
        let (short, long) = self.pick_pair(|_, _| true)?;
        let any = self.random.below(self.book.positions.len());
        let other = self.random.pick(&[short, short, long, any]);
        Some(pair_off((long, other), 1))
    }

    /// A short that is not due, with a long that would fit or with any position.
    fn pair_off_before_the_window(&mut self) -> Option<Event> {
        let short = self.pick_short(|book, at| !book.positions[at].is_due(book.day))?;
        let fitting = self.pick_position(|book, at| is_due_long(book, at) && is_one_holder(book, short, at));
        let any = self.random.below(self.book.positions.len());
        let other = if self.random.one_in(3) { any } else { fitting.unwrap_or(any) };
        Some(pair_off((short, other), 1))
    }

    /// A due short with a position that is no due long of its holder, most often one that is wrong in one respect.
    fn pair_off_with_another(&mut self) -> Option<Event> {
        let short = self.pick_short(|book, at| book.positions[at].is_due(book.day) && book.positions[at].open() > 0)?;
        let other = match self.random.below(8) {
            0 => Some(short),
            1 => self.pick_position(|book, at| {
                let is_short = book.positions[at].side == Side::Short && book.positions[at].is_due(book.day);
                is_short && at != short && is_one_holder(book, short, at)
            }),
            2 | 3 => self.pick_position(|book, at| {
                let is_long = book.positions[at].side == Side::Long;
                is_long && !book.positions[at].is_due(book.day) && is_one_holder(book, short, at)
            }),
            4 => self.pick_other(short, |[member, kind, security]| !member && kind && security),
            5 => self.pick_other(short, |[member, kind, security]| member && !kind && security),
            6 => self.pick_other(short, |[member, kind, security]| member && kind && !security),
            _ => Some(self.random.below(self.book.positions.len())),
        };
        other.map(|other| pair_off((short, other), 1))
    }

    /// On the short on which an auction runs: with its long, at times of more than there is, or with another position.
    pub(super) fn pair_off_in_auction(&mut self) -> Option<Event> {
        let running = self.book.auction.as_ref()?.short;
        let fitting = self.pick_position(|book, at| is_due_long(book, at) && is_one_holder(book, running, at));
        let any = self.random.below(self.book.positions.len());
        let other = if self.random.one_in(3) { any } else { fitting.unwrap_or(any) };
        let quantity = self.random.pick(&[1, 1, 0, u32::MAX]);
        Some(pair_off((running, other), quantity))
    }

    /// Of more than is free of the short, at times no more than is open of it, or of more than is open of the long.
    fn pair_off_beyond(&mut self) -> Option<Event> {
        let awarded = self.pick_pair(|book, (short, _)| book.free(short) < book.positions[short].open());
        if let (Some(pair), true) = (awarded, self.random.one_in(2)) {
            return Some(pair_off(pair, self.book.free(pair.0) + 1));
        }
        let pair = self.pick_pair(|book, (short, _)| !book.auction_runs_on(short))?;
        let [free, open] = [self.book.free(pair.0), self.book.positions[pair.1].open()];
        let most = self.random.pick(&[free, open, free.min(open), free.max(open)]);
        Some(pair_off(pair, most + self.random.pick(&[1, 1, 1_000])))
    }

    /// An auction on a short beside a long of its holder, in which offers take a part, with pair-offs while it runs and
    /// after it.
    pub(super) fn auction_beside_a_long(&mut self) {
        let of_several = |book: &Book, (short, long): Pair| {
            [short, long].iter().all(|&at| book.positions[at].open() > 1) && book.auction.is_none()
        };
        let Some(pair) = self.pick_pair(of_several) else {
            return;
        };
        for _ in 0..40 {
            if self.book.allows(pair.0, Step::Attempt) {
                break;
            }
            self.play(Event::Close);
        }
        self.play_on_price_of_today(Event::Attempt { short: number(pair.0) });
        (0..self.random.below(3)).for_each(|_| self.try_to_play(History::pair_off_in_auction));
        self.offer_of_a_part(pair.0);
        self.try_to_play(History::fitting_award);
        self.pair_off_beside_awards(pair);
    }

    fn offer_of_a_part(&mut self, short: usize) {
        let position = &self.book.positions[short];
        let (security, open, price) = (position.security, position.open() as usize, position.reference_price);
        if let Some(offerer) = self.willing_member(security) {
            let quantity = self.random.between(1, (open - 1).min(GREATEST_QUANTITY as usize)) as u32;
            self.play(Event::Offer { short: number(short), offerer, quantity, price });
        }
    }

    /// More than is free of the short, and then all that is, or a part of it, as far as the long has it open.
    fn pair_off_beside_awards(&mut self, pair: Pair) {
        let free = self.book.free(pair.0);
        self.play(pair_off(pair, free + 1));
        let most = free.min(self.book.positions[pair.1].open());
        let quantity = self.random.pick(&[most, most, most.div_ceil(2)]);
        self.play(pair_off(pair, quantity));
    }

    /// A due short and a due long of one holder in one security.
    fn pick_pair(&mut self, fits: impl Fn(&Book, Pair) -> bool) -> Option<Pair> {
        let book = &self.book;
        let due = |&at: &usize| book.positions[at].is_due(book.day);
        let pairs_of = |short: usize| {
            let longs = &book.securities[book.positions[short].security].longs;
            longs.iter().copied().filter(due).map(move |long| (short, long))
        };
        let shorts = book.securities.iter().flat_map(|security| &security.shorts).copied().filter(due);
        let is_fitting = |&(short, long): &Pair| is_one_holder(book, short, long) && fits(book, (short, long));
        let pairs: Vec<Pair> = shorts.flat_map(pairs_of).filter(is_fitting).collect();
        (!pairs.is_empty()).then(|| self.random.pick(&pairs))
    }

    /// A due long, by whether its member, kind and security are the short's.
    fn pick_other(&mut self, short: usize, fits: fn([bool; 3]) -> bool) -> Option<usize> {
        self.pick_position(|book, at| is_due_long(book, at) && fits(alike(book, short, at)))
    }
}

fn pair_off((short, long): Pair, quantity: u32) -> Event {
    Event::PairOff { short: number(short), long: number(long).into(), quantity }
}

fn is_due_long(book: &Book, at: usize) -> bool {
    book.positions[at].side == Side::Long && book.positions[at].is_due(book.day)
}

/// Whether member, kind and security of two positions are the same.
fn alike(book: &Book, one: usize, other: usize) -> [bool; 3] {
    let [one, other] = [one, other].map(|at| &book.positions[at]);
    [one.member == other.member, one.kind == other.kind, one.security == other.security]
}

fn is_one_holder(book: &Book, one: usize, other: usize) -> bool {
    alike(book, one, other) == [true; 3]
}
