//! The buy-in auctions: of each attempt the ceiling, the offers in order of arrival, and the awards.

use super::figure::{event_link, heads, mention, position_link};
use crate::kinds;
use crate::numbers::{counted, grouped};
use crate::played::{Played, Step};
use second::book::{Award, Cause, Offer};
use second::events::Event;

/// An attempt that was accepted, with the steps that followed in its auction.
struct Auction<'a> {
    attempt: &'a Step,
    short: u16,
    ceiling: u64,
    /// Each with the step that it came in.
    offers: Vec<(&'a Step, Offer)>,
    award: Option<&'a Step>,
}

pub fn section(played: &Played) -> String {
    let auctions = auctions(played);
    let mut page = String::from("<section id=\"auctions\"><h2>Auctions</h2>\n");
    if auctions.is_empty() {
        page += "<p>No auction was held.</p>\n";
    } else {
        page += "<p class=\"note\">Offers stand in order of arrival; the cheapest is awarded first. Refused offers are with \
                 their days.</p>\n";
    }
    page.extend(auctions.iter().map(|auction| table(played, auction)));
    page + "</section>\n"
}

pub fn count(played: &Played) -> usize {
    auctions(played).len()
}

/// A book has one auction at a time, so each accepted offer and award belongs to the latest attempt.
fn auctions(played: &Played) -> Vec<Auction<'_>> {
    let mut auctions: Vec<Auction> = Vec::new();
    for step in &played.steps {
        let Ok(done) = &step.result else { continue };
        match (step.event, auctions.last_mut()) {
            (Event::Attempt { short }, _) => {
                let ceiling = done.ceiling.unwrap_or(0);
                auctions.push(Auction { attempt: step, short, ceiling, offers: Vec::new(), award: None });
            }
            (Event::Offer { offerer, quantity, price, .. }, Some(auction)) => {
                auction.offers.push((step, Offer { offerer, quantity, price }));
            }
            (Event::Award { .. }, Some(auction)) => auction.award = Some(step),
            _ => {}
        }
    }
    auctions
}

impl Auction<'_> {
    fn awards(&self) -> &[(usize, Award)] {
        let done = self.award.and_then(|step| step.result.as_ref().ok());
        done.map_or(&[], |done| &done.awards)
    }

    /// The award of the offer at a place. Awards go to the cheapest offers, and of one price to the earlier.
    fn award_of(&self, place: usize) -> Option<&(usize, Award)> {
        let price = self.offers[place].1.price;
        let is_before = |(at, (_, offer)): &(usize, &(&Step, Offer))| (offer.price, *at) < (price, place);
        self.awards().get(self.offers.iter().enumerate().filter(is_before).count())
    }
}

fn table(played: &Played, auction: &Auction) -> String {
    let names =
        ["#Offer", "#Event", "#Member", "#Units offered", "#Price", "#Award", "#Units awarded", "What became of it"];
    let mut page =
        format!("<div class=\"wide auction\"><table><caption>{}</caption>{}", title(played, auction), heads(&names));
    page += "<tbody>\n";
    if auction.offers.is_empty() {
        page += "<tr><td colspan=\"8\">No offer was accepted.</td></tr>\n";
    }
    for (place, (step, offer)) in auction.offers.iter().enumerate() {
        let &Offer { offerer, quantity, price } = offer;
        page += &format!(
            "<tr><th scope=\"row\">{}</th><td class=\"n\">{}</td>{}{}{}{}</tr>\n",
            place + 1,
            event_link(step.number),
            mention(offerer),
            mention(quantity),
            mention(price),
            outcome(played, auction, auction.award_of(place))
        );
    }
    page += "</tbody>";
    page += &total(auction);
    page + "</table></div>\n"
}

fn title(played: &Played, auction: &Auction) -> String {
    let position = played.position(auction.short);
    format!(
        "Day {}, event {}: auction on short {} ({}, security {}), ceiling {}",
        grouped(auction.attempt.day),
        event_link(auction.attempt.number),
        position_link(auction.short),
        kinds::holder(position),
        position.security + 1,
        grouped(auction.ceiling)
    )
}

/// The cells of an award: number, units, and what became of it.
fn outcome(played: &Played, auction: &Auction, award: Option<&(usize, Award)>) -> String {
    let Some(&(number, Award { quantity, .. })) = award else {
        let word = if auction.award.is_some() { "not awarded" } else { "the auction runs" };
        return format!("<td></td><td class=\"n\">0</td><td>{word}</td>");
    };
    let day = auction.attempt.day;
    let words = match (confirmation(played, day, number), fine(played, day, number)) {
        (Some(step), _) => format!("✓ confirmed in event {}", event_link(step.number)),
        (None, Some((step, cents))) => {
            format!("✗ not confirmed: {} at the close, event {}", counted(cents, "cent"), event_link(step.number))
        }
        (None, None) if played.book.day == day => "not confirmed yet".to_string(),
        (None, None) => "✗ not confirmed".to_string(),
    };
    format!("{}{}<td>{words}</td>", mention(number as u64), mention(quantity))
}

fn confirmation(played: &Played, day: u16, number: usize) -> Option<&Step> {
    let mut steps = played.steps.iter().filter(|step| step.day == day && step.result.is_ok());
    steps.find(|step| matches!(step.event, Event::Confirm { award } if usize::from(award) == number))
}

/// What the close of the day charged for an award that was not confirmed.
fn fine(played: &Played, day: u16, number: usize) -> Option<(&Step, i64)> {
    let close = played.steps.iter().filter(|step| step.day == day && step.event == Event::Close);
    let charges = close.filter_map(|step| step.result.as_ref().ok().map(|done| (step, &done.charges)));
    let mut fines = charges.flat_map(|(step, charges)| charges.iter().map(move |charge| (step, charge)));
    let is_wanted = |award: u16| usize::from(award) == number;
    fines
        .find(|(_, charge)| matches!(charge.cause, Cause::UnconfirmedAward { award, .. } if is_wanted(award)))
        .map(|(step, charge)| (step, charge.cents))
}

fn total(auction: &Auction) -> String {
    let offered: u64 = auction.offers.iter().map(|(_, offer)| u64::from(offer.quantity)).sum();
    let awarded: u64 = auction.awards().iter().map(|(_, award)| u64::from(award.quantity)).sum();
    let end = match auction.award {
        Some(step) => format!("awarded in event {}", event_link(step.number)),
        None => "not ended: no award was made".to_string(),
    };
    format!(
        "<tfoot><tr><th scope=\"row\" colspan=\"3\">Total</th>{}<td></td><td></td>{}<td>{end}</td></tr></tfoot>",
        mention(offered),
        mention(awarded)
    )
}
