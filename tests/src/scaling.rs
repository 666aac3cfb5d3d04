//! For the benchmark: inputs that show the time of one event of each kind, by the number of positions, and inputs whose
//! file has as many events as it takes, all of one kind.
//!
//! For each kind there are two inputs, alike but for events of that kind, of which the second has more. The difference
//! of their times, divided by the number of these events, is the time in which one is read, played and printed.
//!
//! Trade i is in security i mod 32, and each trade makes a short and a long; the first half is made on day 1, the other
//! on day 2. The first trade in each security is large: its long is the first in line and takes all that is discharged,
//! so that a discharge is one piece on that long at every number of positions.
//!
//! Attempts and cash settlements go by a price of their day, so prices are given on the day of these.

use crate::event_kinds::DISCHARGES;
use crate::histories::registers::with_classes;
use crate::random::Random;
use second::book::{GREATEST_QUANTITY, MOST_ATTEMPTS, MOST_OFFERS, MOST_TRADES};
use second::events::{file_of, Event, Party, MOST_EVENTS};
use second::refusal::Refusal;
use second::register::{self, Security};

pub const POSITIONS: [usize; 3] = [64, 256, 1_022];

/// The most positions where trades are to follow: 128 trades are left then.
pub const MOST_BEFORE_TRADES: usize = 768;

const SECURITIES: usize = 32;
const PRICE: u32 = 1_000;
const QUANTITY: u32 = 1_000;

/// A member that never trades.
const OFFERER: u8 = 63;

/// On this day the shorts of day 1 are at r 27, at which class 2 allows the first attempt.
const FIRST_AUCTION_DAY: usize = 30;

/// Attempts are allowed every so many days.
const ROUND: usize = 10;

const ACCEPTED: u32 = 0;

/// An event and the refusal that it is to have.
type Call = (Event, u32);

/// Two inputs, and how many events of the kind the second has more.
pub struct Pair {
    pub inputs: [Input; 2],
    pub events: usize,
}

pub struct Kind {
    pub name: &'static str,
    /// The inputs for a number of positions.
    pub pair: fn(usize) -> Pair,
    /// The kind that the first input has in place of this one. Its time is to be added to the difference.
    pub instead: Option<&'static str>,
}

pub const KINDS: [Kind; 11] = [
    Kind { name: "trade", pair: trades, instead: Some("price") },
    Kind { name: "price", pair: prices, instead: None },
    Kind { name: "delivery", pair: deliveries, instead: None },
    Kind { name: "delivery refused", pair: refused_deliveries, instead: None },
    Kind { name: "attempt refused", pair: refused_attempts, instead: None },
    Kind { name: "attempt and award", pair: attempts_and_awards, instead: None },
    Kind { name: "offer", pair: offers, instead: None },
    Kind { name: "confirm", pair: confirms, instead: None },
    Kind { name: "cash", pair: cash_settlements, instead: Some("delivery") },
    Kind { name: "pair-off", pair: pair_offs, instead: None },
    Kind { name: "close", pair: closes, instead: None },
];

/// Trades on a day that is not closed, or prices in their place. A book takes no more than 512 trades, so the fullest
/// has 768 positions instead of 1,022.
fn trades(positions: usize) -> Pair {
    let positions = positions.min(MOST_BEFORE_TRADES);
    in_place(Input::new(1, positions, 5), (positions / 2..MOST_TRADES).map(|at| [price(at), trade(at)]))
}

/// Prices of one security after the other.
fn prices(positions: usize) -> Pair {
    with_more(Input::new(1, positions, 5), ACCEPTED, (0..).map(price))
}

/// Deliveries of one unit, of one short after the other.
fn deliveries(positions: usize) -> Pair {
    let delivery = |trade| Event::Delivery { short: short(trade, positions), quantity: 1 };
    with_more(Input::new(1, positions, 5), ACCEPTED, (0..positions / 2).cycle().map(delivery))
}

/// Deliveries of more than any short has open, of one short after the other.
fn refused_deliveries(positions: usize) -> Pair {
    let delivery = |trade| Event::Delivery { short: short(trade, positions), quantity: GREATEST_QUANTITY + 1 };
    let deliveries = (0..positions / 2).cycle().map(delivery);
    with_more(Input::new(1, positions, 5), Refusal::NotFree as u32, deliveries)
}

/// Attempts on shorts of which nothing is open, one after the other: all other checks pass.
fn refused_attempts(positions: usize) -> Pair {
    let mut book = Input::new(2, positions, FIRST_AUCTION_DAY);
    let shorts = (0..MOST_ATTEMPTS).map(|trade| short(trade, positions));
    let deliveries = shorts.clone().map(|short| Event::Delivery { short, quantity: GREATEST_QUANTITY });
    book.calls.extend(accepted(deliveries));
    with_more(book, Refusal::NotFree as u32, shorts.cycle().map(|short| Event::Attempt { short }))
}

/// Auctions without offers, or none. An auction has one attempt and one award, so neither is timed without the other.
fn attempts_and_awards(positions: usize) -> Pair {
    auctions(positions, 1, |short| [Vec::new(), auction(short, 0, 0)])
}

/// Auctions of sixteen offers, or of one. The first takes the whole open quantity, so each auction ends in one award.
fn offers(positions: usize) -> Pair {
    auctions(positions, MOST_OFFERS - 1, |short| {
        [1, MOST_OFFERS].map(|offers| auction(short, offers, GREATEST_QUANTITY))
    })
}

/// The 256 awards of a day, of one unit each, confirmed one after the other. The day is not closed: a close would fine
/// the awards.
fn confirms(positions: usize) -> Pair {
    let awards = 1..=(MOST_ATTEMPTS * MOST_OFFERS) as u16;
    with_more(day_of_auctions(positions), ACCEPTED, awards.map(|award| Event::Confirm { award }))
}

/// Shorts settled one after the other, each in one piece, or deliveries of one unit in their place. The shorts of the
/// large trades are settled only if there are no others.
fn cash_settlements(positions: usize) -> Pair {
    let trades = positions / 2;
    let first = if trades > SECURITIES { SECURITIES } else { 0 };
    let shorts = (first..trades).map(|trade| short(trade, positions));
    let events = shorts.map(|short| [Event::Delivery { short, quantity: 1 }, Event::Cash { short }]);
    in_place(Input::new(1, positions, 4 + 8), events)
}

/// Closes that fine each short; no trades are netted.
fn closes(positions: usize) -> Pair {
    with_more(Input::new(1, positions, 5), ACCEPTED, std::iter::repeat(Event::Close))
}

/// Pair-offs of one unit, of one short after the other. The trades of day 2 are those of day 1 with seller and buyer
/// exchanged, so that each seller of day 1 has a long as well.
fn pair_offs(positions: usize) -> Pair {
    let first_day = first_day_trades(positions);
    let trades = 0..positions / 2 - first_day;
    let book = Input::of_two_days(1, positions, 5, trades.clone().map(exchanged));
    // The buyers of day 2 have lower numbers than its sellers, so that the longs come first.
    let long = |trade| (1 + 2 * first_day + trade) as u32;
    let pair_off = |trade| Event::PairOff { short: short(trade, positions), long: long(trade), quantity: 1 };
    with_more(book, ACCEPTED, trades.cycle().map(pair_off))
}

/// A file of closes alone, on a book without positions.
pub fn full_of_closes() -> Input {
    Input::of_calls(accepted([Event::Close; MOST_EVENTS]).collect())
}

/// A file of trades alone. The book takes the first 512; no day is closed, so none makes a position.
pub fn full_of_trades() -> Input {
    let refusal = |at| if at < MOST_TRADES { ACCEPTED } else { Refusal::TradesFull as u32 };
    Input::of_calls((0..MOST_EVENTS).map(|at| (trade(at % MOST_TRADES), refusal(at))).collect())
}

/// The input with one of these events, and the same with as many of them as the file has room for. What a program does
/// just at its first event of the kind is thus in both.
fn with_more(mut fewer: Input, refusal: u32, events: impl Iterator<Item = Event>) -> Pair {
    let mut calls = events.map(|event| (event, refusal));
    fewer.calls.extend(calls.next());
    let mut more = fewer.clone();
    more.calls.extend(calls.take(fewer.room()));
    let events = more.calls.len() - fewer.calls.len();
    Pair { inputs: [fewer, more], events }
}

/// One event or the other in each place. The first two are in both inputs. Where there are few events, this is better
/// than inputs of two lengths, since reading and printing slow down at certain lengths.
fn in_place(mut book: Input, mut events: impl Iterator<Item = [Event; 2]>) -> Pair {
    book.calls.extend(accepted(events.next().into_iter().flatten()));
    let mut inputs = [book.clone(), book];
    let events: Vec<[Event; 2]> = events.collect();
    for (at, input) in inputs.iter_mut().enumerate() {
        input.calls.extend(accepted(events.iter().map(|events| events[at])));
    }
    Pair { inputs, events: events.len() }
}

/// As many rounds of auctions as the file has room for, each with sixteen shorts of either trade day. The calls for a
/// short are given for both inputs; the second's have so many events of the kind more. A first auction is in both.
fn auctions(positions: usize, events: usize, calls: impl Fn(u16) -> [Vec<Call>; 2]) -> Pair {
    let mut book = Input::unpriced(2, positions, FIRST_AUCTION_DAY);
    book.calls.extend(accepted([price(0)]));
    book.calls.extend(auction(short(0, positions), 1, 1));
    book.close(ROUND);
    // For each short there is a price, too.
    let rounds = book.room() / (2 * MOST_ATTEMPTS * (1 + calls(1)[1].len()) + ROUND);
    let mut inputs = [book.clone(), book];
    let first_day = first_day_trades(positions);
    for round in 0..rounds {
        for (trades, days) in [(0..first_day, 1), (first_day..positions / 2, ROUND - 1)] {
            let next = trades.cycle().skip(round * MOST_ATTEMPTS).take(MOST_ATTEMPTS);
            inputs.iter_mut().for_each(|input| input.calls.extend(accepted(next.clone().map(price))));
            for short in next.map(|trade| short(trade, positions)) {
                for (input, calls) in inputs.iter_mut().zip(calls(short)) {
                    input.calls.extend(calls);
                }
            }
            inputs.iter_mut().for_each(|input| input.close(days));
        }
    }
    Pair { inputs, events: rounds * 2 * MOST_ATTEMPTS * events }
}

/// A book with sixteen auctions on its last day, each of sixteen offers of one unit.
fn day_of_auctions(positions: usize) -> Input {
    let mut book = Input::new(2, positions, FIRST_AUCTION_DAY);
    for trade in 0..MOST_ATTEMPTS {
        book.calls.extend(auction(short(trade, positions), MOST_OFFERS, 1));
    }
    book
}

/// An attempt, so many offers of this quantity, and the award.
fn auction(short: u16, offers: usize, quantity: u32) -> Vec<Call> {
    let mut events = vec![Event::Attempt { short }];
    events.extend(vec![Event::Offer { short, offerer: OFFERER, quantity, price: PRICE }; offers]);
    events.push(Event::Award { short });
    accepted(events).collect()
}

fn accepted(events: impl IntoIterator<Item = Event>) -> impl Iterator<Item = Call> {
    events.into_iter().map(|event| (event, ACCEPTED))
}

/// Sellers are members 1 to 16, buyers 33 to 48, all for themselves.
fn trade(at: usize) -> Event {
    let seller = (1 + at / SECURITIES) as u8;
    let [seller, buyer] = [seller, 32 + seller].map(Party::own);
    let quantity = if at < SECURITIES { GREATEST_QUANTITY } else { QUANTITY };
    Event::Trade { security: security(at), seller, buyer, quantity, price: PRICE }
}

/// A trade with seller and buyer exchanged.
fn exchanged(at: usize) -> Event {
    match trade(at) {
        Event::Trade { security, seller, buyer, quantity, price } => {
            Event::Trade { security, seller: buyer, buyer: seller, quantity, price }
        }
        other => other,
    }
}

fn price(at: usize) -> Event {
    Event::Price { security: security(at), price: PRICE + at as u32 }
}

fn security(at: usize) -> u16 {
    (1 + at % SECURITIES) as u16
}

fn register_of(class: u8) -> Vec<Security> {
    with_classes(&mut Random::new(1, "scaling"), &[class; SECURITIES])
}

fn first_day_trades(positions: usize) -> usize {
    (positions / 2).div_ceil(2)
}

/// The number of the short that a trade makes. On each day the shorts come first, in the order of the trades.
fn short(trade: usize, positions: usize) -> u16 {
    let first_day = first_day_trades(positions);
    let earlier_longs = if trade < first_day { 0 } else { first_day };
    (1 + trade + earlier_longs) as u16
}

#[derive(Clone)]
pub struct Input {
    register: Vec<Security>,
    calls: Vec<Call>,
    positions: usize,
}

impl Input {
    /// As `unpriced`, with a price of the last day for each security.
    fn new(class: u8, positions: usize, day: usize) -> Input {
        let mut input = Input::unpriced(class, positions, day);
        input.calls.extend(accepted((0..SECURITIES).map(price)));
        input
    }

    /// A book of so many positions and securities of one class, on a day after the second. The shorts of the second
    /// trade day are at r = day - 4.
    fn unpriced(class: u8, positions: usize, day: usize) -> Input {
        Input::of_two_days(class, positions, day, (first_day_trades(positions)..positions / 2).map(trade))
    }

    /// As `unpriced`, with these trades on the second day.
    fn of_two_days(class: u8, positions: usize, day: usize, second: impl Iterator<Item = Event>) -> Input {
        let mut input = Input { register: register_of(class), calls: Vec::new(), positions };
        input.calls.extend(accepted((0..first_day_trades(positions)).map(trade)));
        input.close(1);
        input.calls.extend(accepted(second));
        input.close(day - 2);
        input
    }

    /// These calls on a new book, which leave it without positions.
    fn of_calls(calls: Vec<Call>) -> Input {
        Input { register: register_of(1), calls, positions: 0 }
    }

    fn close(&mut self, days: usize) {
        self.calls.extend(vec![(Event::Close, ACCEPTED); days]);
    }

    /// How many events the file still takes.
    fn room(&self) -> usize {
        MOST_EVENTS - self.calls.len()
    }

    /// The player's input: register, then file.
    pub fn bytes(&self) -> Vec<u8> {
        [register::bytes_of(&self.register), self.file()].concat()
    }

    pub fn file(&self) -> Vec<u8> {
        let events: Vec<Event> = self.calls.iter().map(|&(event, _)| event).collect();
        file_of(&events)
    }

    /// That a transcript has for each event the refusal meant here, for each accepted discharge one piece, and the
    /// number of positions.
    pub fn check(&self, transcript: &[u8]) -> Result<(), String> {
        let text = String::from_utf8_lossy(transcript);
        let lines = |word: &'static str| text.lines().filter(move |line| line.split(' ').next() == Some(word));
        let refusals: Vec<&str> = lines("e").filter_map(|line| line.split(' ').nth(2)).collect();
        if refusals.len() != self.calls.len() {
            return Err(format!("{} events instead of {}", refusals.len(), self.calls.len()));
        }
        for ((event, meant), refusal) in self.calls.iter().zip(refusals) {
            if refusal != meant.to_string() {
                return Err(format!("{event:?} has refusal {refusal} instead of {meant}"));
            }
        }
        let is_discharge = |call: &&Call| DISCHARGES.contains(&call.0.kind()) && call.1 == ACCEPTED;
        let discharges = self.calls.iter().filter(is_discharge).count();
        let [pieces, positions] = [lines("p").count(), lines("s").count()];
        if (pieces, positions) != (discharges, self.positions) {
            return Err(format!("{pieces} pieces of {discharges} discharges, {positions} positions"));
        }
        Ok(())
    }
}
