//! Days with several auctions, in which each award can be told by what the player prints.
//!
//! A confirmation prints the quantity of an award, and nothing prints whose offer it was of. But an award that is not
//! confirmed is fined, and here each offer of a day has an offerer of its own. So a day is played several times, for
//! each binary digit of an award's number with the awards left unconfirmed that have it: the digits for which an
//! offerer is fined are those of its award's number.

use super::auctions::{Auction, Play};
use super::plans::{Size, BUYERS};
use super::ways::Cover;
use crate::check::Check;
use crate::compare::player::own_trade;
use crate::compare::same;
use fails_book_tests::histories::registers::with_classes;
use fails_book_tests::random::Random;
use second::events::{file_of, Event};
use second::register::bytes_of;
use second::transcript::transcript;
use std::cell::Cell;

/// Numbers of six binary digits. There are fewer awards, as there are fewer offerers.
const MOST_AWARDS: u16 = 63;
const DIGITS: u32 = 6;

/// What an unconfirmed award costs here: in class 3 just that, and in the others the least, as no offer times the
/// latest price is above 250,000,000.
const FINE: i64 = 100_000;

pub struct Day {
    register: Vec<u8>,
    /// Up to the last award.
    events: Vec<Event>,
}

impl Day {
    pub fn drawn(random: &mut Random, size: &Size) -> Day {
        let class = random.between(1, 3) as u8;
        let register = bytes_of(&with_classes(random, &vec![class; size.auctions]));
        Day { register, events: size.drawn(random, class) }
    }

    /// All awards are confirmed. The day is not closed, so that the sellers are charged for these alone.
    pub fn confirmed(&self) -> Vec<u8> {
        self.input(|_| true, &[])
    }

    /// All awards are confirmed but those whose number has the binary digit. The close fines these.
    fn unconfirmed(&self, digit: u32) -> Vec<u8> {
        self.input(|award| award >> digit & 1 == 0, &[Event::Close])
    }

    fn input(&self, is_confirmed: impl Fn(u16) -> bool, end: &[Event]) -> Vec<u8> {
        let awards = (1..=MOST_AWARDS).filter(|&award| is_confirmed(award));
        let confirmations: Vec<Event> = awards.map(|award| Event::Confirm { award }).collect();
        let events = [&self.events[..], &confirmations, end].concat();
        [self.register.clone(), file_of(&events)].concat()
    }

    /// What the auctions took, as a program plays them.
    pub fn covers(&self, play: impl Fn(&[u8]) -> Vec<u8>) -> Result<Vec<Cover>, String> {
        let played = |input: Vec<u8>| Play::read(&input, &play(&input));
        let confirmed = played(self.confirmed())?;
        let fined: Vec<Play> = (0..DIGITS).map(|digit| played(self.unconfirmed(digit))).collect::<Result<_, _>>()?;
        if fined.iter().any(|play| !is_alike(play, &confirmed)) {
            return Err("auctions differ by what is confirmed after them".to_string());
        }
        confirmed.auctions.iter().map(|auction| cover(auction, &confirmed, &fined)).collect()
    }
}

fn cover(auction: &Auction, confirmed: &Play, fined: &[Play]) -> Result<Cover, String> {
    let mut awards = auction.confirmed.clone();
    let mut taken = Vec::new();
    for offer in &auction.offers {
        let quantity = match award_number(offer.offerer, confirmed, fined)? {
            0 => 0,
            number => awards.remove(&number).ok_or_else(|| format!("award {number}, of {offer:?}, is not there"))?,
        };
        taken.push(quantity);
    }
    if !awards.is_empty() {
        return Err(format!("the awards {awards:?} of short {} are of no offer", auction.short));
    }
    Ok(Cover {
        open: auction.open,
        offers: auction.offers.clone(),
        reported: auction.total,
        taken,
        reference: auction.reference,
        charged: -confirmed.account(auction.seller),
    })
}

/// Whether the auctions ended alike.
fn is_alike(one: &Play, other: &Play) -> bool {
    let ends = |play: &Play| play.auctions.iter().map(|auction| (auction.event, auction.total)).collect::<Vec<_>>();
    ends(one) == ends(other)
}

/// The number of the award of an offerer, or 0 where it has none.
fn award_number(offerer: u8, confirmed: &Play, fined: &[Play]) -> Result<u16, String> {
    let digits = (0..).zip(fined).map(|(digit, play)| match play.account(offerer) {
        0 => Ok(0),
        cents if cents == -FINE => Ok(1 << digit),
        cents => Err(format!("member {offerer}, with one offer, has {cents} cents")),
    });
    let number = digits.sum::<Result<u16, String>>()?;
    match confirmed.account(offerer) {
        0 => Ok(number),
        cents => Err(format!("member {offerer}, whose award is confirmed, has {cents} cents")),
    }
}

/// What is printed of a day with one auction, on a short of 10 units with reference price 1,000, and what stands in
/// place of it. The offers are 4 at 1,100 of member 2, 6 at 1,050 of member 3 and 3 at 1,050 of member 4: awards 1 to 3
/// are of 6, 3 and 1 units of members 3, 4 and 2, and 300, 150 and 100 are charged.
const CHANGES: [(&str, &str); 12] = [
    // A unit less reported, or awarded; a piece of less than the award; quantities exchanged, one of which is then more
    // than its offer; an award that is not there.
    ("e 14 0 10\n", "e 14 0 9\n"),
    ("e 15 0 6\np 1 2 6 0\n", "e 15 0 5\np 1 2 5 0\n"),
    ("e 15 0 6\np 1 2 6 0\n", "e 15 0 6\np 1 2 5 0\n"),
    ("e 15 0 6\np 1 2 6 0\ne 16 0 3\np 1 2 3 0\n", "e 15 0 3\np 1 2 3 0\ne 16 0 6\np 1 2 6 0\n"),
    ("e 17 0 1\np 1 2 1 0\n", "e 17 11 0\n"),
    // A charge without the reference price, and none.
    ("a 1 -550\n", "a 1 -10550\n"),
    ("a 1 -550\n", ""),
    // The fine falls on another member, is that of two awards, or falls though the award is confirmed.
    ("a 2 -100000\n", "a 5 -100000\n"),
    ("a 2 -100000\n", "a 2 -200000\n"),
    ("a 1 -550\n", "a 1 -550\na 2 -100000\n"),
    // An offer that has an award is said to be refused, and a line is left out.
    ("e 13 0 3\n", "e 13 22 0\n"),
    ("e 14 0 10\n", ""),
];

/// Fault is found with other lines than those of the day, or it would be with none.
pub fn known_faults(check: &mut Check) {
    let offer = |offerer, quantity, price| Event::Offer { short: 1, offerer, quantity, price };
    let offers = [offer(2, 4, 1_100), offer(3, 6, 1_050), offer(4, 3, 1_050)];
    let start = [own_trade(1, BUYERS[0], 10, 1_000)].into_iter().chain([Event::Close; 7]);
    let attempt = [Event::Price { security: 1, price: 1_000 }, Event::Attempt { short: 1 }];
    let events = start.chain(attempt).chain(offers).chain([Event::Award { short: 1 }]).collect();
    let day = Day { register: bytes_of(&[(1, *b"XX0000000002")]), events };
    let printed = |input: &[u8]| String::from_utf8_lossy(&transcript(input)).into_owned();
    same(check, || "the day".to_string(), is_cheapest(&day, |input| printed(input).into_bytes()), true);
    for (from, to) in CHANGES {
        let is_there = Cell::new(false);
        let changed = |input: &[u8]| {
            let lines = printed(input);
            is_there.set(is_there.get() || lines.contains(from));
            lines.replacen(from, to, 1).into_bytes()
        };
        let holds = is_cheapest(&day, changed);
        same(check, || format!("{to:?} for {from:?}"), (is_there.get(), holds), (true, false));
    }
}

/// Whether the one auction of a day is read, and read as a cheapest cover.
fn is_cheapest(day: &Day, play: impl Fn(&[u8]) -> Vec<u8>) -> bool {
    day.covers(play).is_ok_and(|covers| covers.len() == 1 && covers.iter().all(Cover::is_cheapest))
}
