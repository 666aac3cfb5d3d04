//! The auctions of grown histories: the total of each, and what some of them cost, as far as it can be told in any
//! book.

use super::auctions::{Auction, Play};
use super::ways::least_cost;
use crate::compare::bytes::{parts, Parts, WIDTH};
use fails_book_tests::event_kinds::CONFIRM;
use second::events::MOST_EVENTS;

/// A day has no more awards: sixteen attempts of sixteen offers.
const MOST_AWARDS: u16 = 256;

/// What is wrong with the total of an auction, if anything: no way takes more within the open quantity.
pub fn total_fault(auction: &Auction) -> Option<String> {
    let most = auction.open.min(auction.offered());
    (auction.total != most).then(|| format!("event {}: the total is {} and not {most}", auction.event, auction.total))
}

/// Whether the confirmations of all awards fit into the file once it is cut off after the auction.
pub fn has_room(auction: &Auction) -> bool {
    auction.event as usize + usize::from(MOST_AWARDS) <= MOST_EVENTS
}

/// What an auction cost the short's seller, as a program plays it.
pub struct Charged {
    /// The quantities of its awards, by number.
    pub awards: Vec<u64>,
    pub cents: i64,
}

/// Cuts the history off after the auction and confirms its awards. Their numbers are found by confirming all awards of
/// the day in a play before that, and the charge by another in which none is confirmed.
pub fn charged(input: &[u8], auction: &Auction, play: impl Fn(&[u8]) -> Vec<u8>) -> Result<Charged, String> {
    let confirmed = |awards: &[u16]| {
        let input = cut(input, auction.event as usize, awards);
        Play::read(&input, &play(&input))
    };
    let all = confirmed(&(1..=MOST_AWARDS).collect::<Vec<u16>>())?;
    let awards = &all.auctions.last().ok_or("the auction is not there once the history is cut off")?.confirmed;
    let [none, own] = [confirmed(&[])?, confirmed(&awards.keys().copied().collect::<Vec<u16>>())?];
    let cents = none.account(auction.seller) - own.account(auction.seller);
    Ok(Charged { awards: awards.values().copied().collect(), cents })
}

/// What is wrong with an auction that was charged so, if anything: its awards are to have its total, and to be no more
/// than its offers, and no way of that total costs less.
pub fn cost_fault(auction: &Auction, charged: &Charged) -> Option<String> {
    let awarded: u64 = charged.awards.iter().sum();
    if awarded != auction.total || charged.awards.len() > auction.offers.len() {
        return Some(format!("event {}: the awards are {:?}", auction.event, charged.awards));
    }
    let cost = charged.cents + (auction.reference * awarded) as i64;
    let least = least_cost(&auction.offers, awarded);
    (cost != least).then(|| format!("event {}: the cost is {cost}, and the least is {least}", auction.event))
}

/// The first events of an input, and confirmations of these awards.
fn cut(input: &[u8], events: usize, awards: &[u16]) -> Vec<u8> {
    let Parts { register, kinds, bodies, .. } = parts(input);
    let count = (events + awards.len()) as u16;
    let header = [count, WIDTH as u16].map(u16::to_le_bytes).concat();
    let confirmations = awards.iter().flat_map(|&award| {
        let mut body = [0; WIDTH];
        body[..2].copy_from_slice(&award.to_le_bytes());
        body
    });
    let kinds = [&kinds[..events], &vec![CONFIRM; awards.len()]].concat();
    let bodies = [&bodies[..WIDTH * events], &confirmations.collect::<Vec<u8>>()].concat();
    [register, &header, &kinds, &bodies].concat()
}
