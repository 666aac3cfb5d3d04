//! The cheapest cover: that no other way to take from the offers of an auction, with the same total, costs less, and
//! that no way takes more within the short's open quantity. Known auctions, with numbers worked out by hand; a search
//! through all ways of small auctions; exchanges between the offers of large ones; totals and costs of the auctions of
//! histories.

mod auctions;
mod days;
mod grown;
mod known;
mod plans;
mod ways;

use super::player::{count, output, shown};
use super::prices::answers;
use super::same;
use crate::check::{Check, Round, Tests};
use auctions::Play;
use days::Day;
use fails_book_tests::histories;
use fails_book_tests::random::Random;
use grown::{charged, cost_fault, has_room, total_fault, Charged};
use known::{Known, KNOWN};
use plans::{Size, LARGE, SMALL};
use second::transcript::transcript;
use ways::{cost, least_cost, total, ways, Cover, Way};

const SMALL_DAYS: usize = 120;
const LARGE_DAYS: usize = 30;
const HISTORIES: usize = 200;
const LONG_HISTORIES: usize = 4;

/// The auctions of a history whose cost is looked at, and how many there are to be of all histories at least.
const MOST_CHARGED: usize = 3;
const LEAST_CHARGED: usize = 40;

/// A program that plays an input, and its name.
type Program = (&'static str, fn(&[u8]) -> Vec<u8>);

const PLAYER: Program = ("the player", output);
const SECOND: Program = ("the second implementation", transcript);

pub fn exhaustive(tests: &mut Tests) {
    for Known { name, classes, events, refusals, end } in KNOWN {
        tests.check(&format!("cover: {name}"), refusals, |check| answers(check, classes, events, end));
    }
    tests.check("cover: sixteen offers at one price", &[0, 11, 23], known::sixteen_offers);
    tests.check("cover: all ways to take, written out", &[], ways::written_out);
    tests.check("cover: awards that are no cheapest cover", &[], ways::known_faults);
    tests.check("cover: lines that show no cheapest cover", &[], days::known_faults);
}

pub fn seeded(round: &mut Round) {
    round.check("cover: all ways to take from small auctions", &[0, 11, 21, 22], |check, random| {
        let covers = each_day(check, random, SMALL_DAYS, &SMALL, search);
        reached(check, &STATES, &covers);
        reached(check, &SMALL_STATES, &covers);
    });
    round.check("cover: exchanges between the offers of large auctions", &[0, 11, 21, 22], |check, random| {
        let covers = each_day(check, random, LARGE_DAYS, &LARGE, exchanges);
        reached(check, &STATES, &covers);
        reached(check, &LARGE_STATES, &covers);
    });
    round.check("cover: the auctions of histories", &[], |check, random| {
        let mut charged = Vec::new();
        for which in 0..HISTORIES + LONG_HISTORIES {
            let input = if which < HISTORIES { histories::any(random) } else { histories::long(random, which) };
            each_auction(check, &input, &SECOND);
            charged.extend(each_auction(check, &input, &PLAYER));
        }
        same(check, || "auctions that are charged".to_string(), charged.len() >= LEAST_CHARGED, true);
        reached(check, &CHARGED_STATES, &charged);
    });
}

/// What a check is to meet at least once, in words.
type State<T> = (&'static str, fn(&T) -> bool);

const STATES: [State<Cover>; 7] = [
    ("two offers of one price, of which one is taken whole and the other is not", decides_a_tie),
    ("an offer taken in part", |cover| each_offer(cover).any(|(held, taken)| taken > 0 && taken < held)),
    ("an offer that finds nothing left", |cover| each_offer(cover).any(|(_, taken)| taken == 0)),
    ("offers that hold less than is open", |cover| (1..cover.open).contains(&cover.offered())),
    ("a seller that is charged", |cover| cover.charged > 0),
    ("a seller that has a credit", |cover| cover.charged < 0),
    ("awards above the reference price and below", is_on_both_sides),
];

const SMALL_STATES: [State<Cover>; 6] = [
    ("no offers", |cover| cover.offers.is_empty()),
    ("one unit open", |cover| cover.open == 1),
    ("offers that hold what is open, several", |cover| cover.offers.len() > 1 && cover.offered() == cover.open),
    ("five offers", |cover| cover.offers.len() == 5),
    ("another way of the same total that costs more", |cover| other_costs(cover).any(|more| more > 0)),
    ("another way of the same total that costs as much", |cover| other_costs(cover).any(|more| more == 0)),
];

const LARGE_STATES: [State<Cover>; 2] = [
    ("sixteen offers", |cover| cover.offers.len() == 16),
    ("more than a million units", |cover| cover.reported > 1_000_000),
];

const CHARGED_STATES: [State<Charged>; 3] = [
    ("an auction of three awards or more", |charged| charged.awards.len() >= 3),
    ("a seller that is charged", |charged| charged.cents > 0),
    ("a seller that has a credit", |charged| charged.cents < 0),
];

fn reached<T>(check: &mut Check, states: &[State<T>], found: &[T]) {
    for (state, holds) in states {
        check.reached(state, found.iter().filter(|one| holds(one)).count() as u64);
    }
}

/// What each offer holds, and what is taken of it.
fn each_offer(cover: &Cover) -> impl Iterator<Item = (u64, u64)> + '_ {
    cover.offers.iter().zip(&cover.taken).map(|(offer, &taken)| (offer.quantity, taken))
}

fn decides_a_tie(cover: &Cover) -> bool {
    let at = |is_whole: bool| {
        let offers = cover.offers.iter().zip(&cover.taken);
        offers.filter(move |(offer, &taken)| (taken == offer.quantity) == is_whole).map(|(offer, _)| offer.price)
    };
    at(true).any(|price| at(false).any(|other| other == price))
}

fn is_on_both_sides(cover: &Cover) -> bool {
    let taken = || cover.offers.iter().zip(&cover.taken).filter(|(_, &taken)| taken > 0).map(|(offer, _)| offer.price);
    taken().any(|price| price > cover.reference) && taken().any(|price| price < cover.reference)
}

/// How much more the other ways of the same total cost.
fn other_costs(cover: &Cover) -> impl Iterator<Item = i64> + '_ {
    let is_other = move |way: &Way| *way != cover.taken && total(way) == total(&cover.taken);
    let more = move |way: Way| cost(&cover.offers, &way) - cost(&cover.offers, &cover.taken);
    ways(&cover.offers).into_iter().filter(is_other).map(more)
}

/// Wants a law of what each auction of so many days took, as either program plays them; answers what it took as the
/// player does.
fn each_day(
    check: &mut Check,
    random: &mut Random,
    days: usize,
    size: &Size,
    law: fn(&mut Check, &Cover),
) -> Vec<Cover> {
    let mut covers = Vec::new();
    for _ in 0..days {
        let day = Day::drawn(random, size);
        count(check, &transcript(&day.confirmed()));
        covers_of(check, &day, &SECOND).iter().for_each(|cover| law(check, cover));
        covers.extend(covers_of(check, &day, &PLAYER));
    }
    covers.iter().for_each(|cover| law(check, cover));
    same(check, || "auctions of the player".to_string(), covers.len(), days * size.auctions);
    covers
}

fn covers_of(check: &mut Check, day: &Day, (name, play): &Program) -> Vec<Cover> {
    let covers = day.covers(play);
    same(check, || format!("{name}: {}", shown(&day.confirmed())), covers.as_ref().err(), None);
    covers.unwrap_or_default()
}

/// Tries every way to take, each of which is an input of the check.
fn search(check: &mut Check, cover: &Cover) {
    same(check, || format!("{cover:?}"), cover.fault(), None);
    let ways = ways(&cover.offers);
    for way in &ways {
        same(check, || format!("{way:?} beside {cover:?}"), cover.fault_beside(way), None);
    }
    // The bound that larger auctions are held to.
    let costs = ways.iter().filter(|way| total(way) == cover.reported).map(|way| cost(&cover.offers, way));
    same(check, || format!("{cover:?}"), Some(least_cost(&cover.offers, cover.reported)), costs.min());
}

fn exchanges(check: &mut Check, cover: &Cover) {
    same(check, || format!("{cover:?}"), cover.fault(), None);
    same(check, || format!("{cover:?}"), cover.exchange_fault(), None);
}

/// Wants the total of each auction of a history, and the least cost of some with several offers.
fn each_auction(check: &mut Check, input: &[u8], (name, play): &Program) -> Vec<Charged> {
    let played = Play::read(input, &play(input));
    let totals = played.as_ref().map(|played| played.auctions.iter().filter_map(total_fault).collect::<Vec<String>>());
    same(check, || format!("{name}: {}", shown(input)), totals, Ok(Vec::new()));
    let auctions = played.unwrap_or_default().auctions;
    let several = auctions.iter().filter(|auction| auction.offers.len() > 1 && has_room(auction));
    let mut found = Vec::new();
    for auction in several.rev().take(MOST_CHARGED) {
        let charged = charged(input, auction, play);
        let fault = charged.as_ref().map(|charged| cost_fault(auction, charged));
        same(check, || format!("{name}: {}", shown(input)), fault, Ok(None));
        found.extend(charged);
    }
    found
}
