//! A market: members trade for some days, and what is due is delivered, bought in, settled in cash or left.

use super::fitting::age_of_price;
use super::History;
use second::book::MOST_OFFERS;
use second::events::Event;

/// The steps of a market without an auction. A step that finds nothing to do leaves the turn to the next choice.
const STEPS: [fn(&mut History); 10] = [
    |history| history.try_to_play(History::fitting_trade),
    |history| history.try_to_play(History::fitting_price),
    |history| history.try_to_play(History::fitting_delivery),
    |history| history.try_step(History::fitting_attempt),
    |history| history.confirm(),
    |history| history.try_step(History::fitting_cash),
    |history| history.play(Event::Close),
    |history| history.wait_for_a_window(),
    |history| history.try_to_play(History::fitting_pair_off),
    |history| history.try_to_play(History::contrary_pair_off),
];

/// How often each step is chosen; no market is without attempts and closes.
const WEIGHTS: [&[usize]; 10] =
    [&[2, 4, 8], &[1, 2], &[0, 1, 3], &[2, 6], &[0, 2, 6], &[0, 1, 2], &[1, 2], &[0, 1, 1, 2], &[0, 1, 3], &[0, 1]];

/// The days after the delivery day at which windows open or have just shut.
const TURNS: [u16; 16] = [0, 1, 4, 5, 7, 8, 26, 27, 28, 30, 36, 37, 40, 46, 47, 57];

struct Market {
    weights: [usize; 10],
    /// After this day no more trades are made.
    last_trade_day: u16,
    /// One event in so many is contrary.
    contrary: usize,
}

impl History<'_> {
    /// A market of random habits that goes on until the file is full.
    pub(super) fn run_market(&mut self) {
        let market = Market {
            weights: WEIGHTS.map(|weights| self.random.pick(weights)),
            last_trade_day: self.book.day + self.random.pick(&[0, 1, 3, 8, 40]),
            contrary: self.random.pick(&[3, 6, 12, 1_000]),
        };
        self.run(&market);
    }

    /// A market that never ends and does everything often.
    pub(super) fn run_busy_market(&mut self) {
        self.run(&Market { weights: [8, 2, 4, 12, 8, 4, 2, 0, 0, 0], last_trade_day: u16::MAX, contrary: 12 });
    }

    fn run(&mut self, market: &Market) {
        while !self.is_full() {
            if self.random.one_in(market.contrary) {
                let event = self.contrary();
                self.play(event);
            } else if self.book.auction.is_some() {
                self.auction_step(market);
            } else {
                self.market_step(market);
            }
        }
    }

    fn market_step(&mut self, market: &Market) {
        let mut weights = market.weights;
        if self.book.day > market.last_trade_day {
            weights[0] = 0;
        }
        let step = self.random.weighted(&weights);
        STEPS[step](self);
    }

    fn auction_step(&mut self, market: &Market) {
        let fitting = match self.random.below(if self.pairs_off { 27 } else { 24 }) {
            0 => return self.fill_auction(),
            1..=3 => return self.market_step(market),
            4 => History::offer_of_failing_member,
            5 => History::offer_above_ceiling,
            6..=17 => History::fitting_offer,
            24 => History::fitting_pair_off,
            25 | 26 => History::pair_off_in_auction,
            _ => History::fitting_award,
        };
        self.try_to_play(fitting);
    }

    /// Confirms an award, at times twice.
    pub(super) fn confirm(&mut self) {
        let times = if self.random.one_in(6) { 2 } else { 1 };
        if let Some(event) = self.fitting_confirmation() {
            (0..times).for_each(|_| self.play(event));
        }
    }

    /// Ends the auction that runs, and holds another on the first day that allows one.
    pub(super) fn hold_auction(&mut self) {
        self.try_to_play(History::fitting_award);
        for _ in 0..40 {
            if self.fitting_attempt().is_some() {
                break;
            }
            self.play(Event::Close);
        }
        if let Some(attempt) = self.fitting_attempt() {
            self.play_on_price_of_today(attempt);
        }
        for _ in 0..self.random.between(1, 4) {
            self.try_to_play(History::fitting_offer);
        }
        self.try_to_play(History::fitting_award);
    }

    /// Sixteen offers in all, and more that are wrong for that and at times for another reason.
    pub(super) fn fill_auction(&mut self) {
        let mut last = None;
        for _ in 0..=MOST_OFFERS {
            last = self.fitting_offer().or(last);
            if let Some(event) = last {
                self.play(event);
            }
        }
        self.try_to_play(History::offer_above_ceiling);
        self.try_to_play(History::offer_of_failing_member);
    }

    /// Closes until a short comes to a turn of its windows.
    fn wait_for_a_window(&mut self) {
        let short = self.pick_short(|book, at| book.positions[at].open() > 0);
        if let (Some(at), None) = (short, &self.book.auction) {
            let day = self.book.positions[at].delivery_day + self.random.pick(&TURNS);
            self.close(day.saturating_sub(self.book.day));
        }
    }

    /// An attempt or a cash settlement, most often on a price of today, else on the latest, whatever its age.
    pub(super) fn try_step(&mut self, fitting: fn(&mut Self) -> Option<Event>) {
        if let Some(event) = fitting(self) {
            match self.random.below(6) {
                0 => self.play(event),
                _ => self.play_on_price_of_today(event),
            }
        }
    }

    pub(super) fn play_on_price_of_today(&mut self, event: Event) {
        self.price_for(&event);
        self.play(event);
    }

    /// Gives the security of an attempt or a cash settlement a price of today unless it has one; at times one more, so
    /// that the later of two counts.
    pub(super) fn price_for(&mut self, event: &Event) {
        let (Event::Attempt { short } | Event::Cash { short }) = *event else {
            return;
        };
        let Some(at) = usize::from(short).checked_sub(1).filter(|&at| at < self.book.positions.len()) else {
            return;
        };
        let needed = usize::from(age_of_price(&self.book, at) != Some(0));
        let more = usize::from(self.random.one_in(8));
        for _ in 0..needed + more {
            if let Some(price) = self.price_of(self.book.positions[at].security) {
                self.play(price);
            }
        }
    }

    pub(super) fn try_to_play(&mut self, fitting: fn(&mut Self) -> Option<Event>) {
        if let Some(event) = fitting(self) {
            self.play(event);
        }
    }
}
