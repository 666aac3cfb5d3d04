//! The buy-in auction: attempt, offers, award.

use super::{is_member, is_price, is_quantity, require, Auction, Award, Book, Offer, Side, MOST_ATTEMPTS, MOST_OFFERS};
use crate::charges;
use crate::refusal::Refusal;
use crate::windows::Step;

impl Book {
    pub(super) fn attempt(&mut self, short: u16) -> Result<u32, Refusal> {
        let short = self.position(short)?;
        require(self.positions[short].side == Side::Short, Refusal::Long)?;
        require(self.allows(short, Step::Attempt), Refusal::Window)?;
        require(self.auction.is_none(), Refusal::Auction)?;
        let ceiling = charges::ceiling(self.security_of(short).class, self.price_of_today(short)?);
        require(self.attempts.len() < MOST_ATTEMPTS && !self.attempts.contains(&short), Refusal::Attempts)?;
        require(self.positions[short].open() > 0, Refusal::NotFree)?;
        self.attempts.push(short);
        self.auction = Some(Auction { short, ceiling, offers: Vec::new() });
        Ok(0)
    }

    pub(super) fn offer(&mut self, short: u16, offer: Offer) -> Result<u32, Refusal> {
        require(is_member(offer.offerer), Refusal::Member)?;
        let short = self.position(short)?;
        require(is_quantity(offer.quantity), Refusal::Quantity)?;
        require(is_price(offer.price), Refusal::Price)?;
        require(self.auction_runs_on(short), Refusal::Auction)?;
        require(!self.is_failing(offer.offerer, self.positions[short].security), Refusal::Failing)?;
        let auction = self.auction.as_mut().ok_or(Refusal::Auction)?;
        require(u64::from(offer.price) <= auction.ceiling, Refusal::Ceiling)?;
        require(auction.offers.len() < MOST_OFFERS, Refusal::OffersFull)?;
        auction.offers.push(offer);
        Ok(offer.quantity)
    }

    /// Ends the auction and answers the total awarded.
    pub(super) fn award(&mut self, short: u16) -> Result<u32, Refusal> {
        let short = self.position(short)?;
        let mut auction = self.auction.take_if(|auction| auction.short == short).ok_or(Refusal::Auction)?;
        // The sort is stable: equal prices stay in order of arrival.
        auction.offers.sort_by_key(|offer| offer.price);
        let open = self.positions[short].open();
        let mut left = open;
        for Offer { offerer, quantity, price } in auction.offers {
            let quantity = quantity.min(left);
            if quantity == 0 {
                break;
            }
            left -= quantity;
            self.awards.push(Award { short, offerer, quantity, price, confirmed: false });
        }
        Ok(open - left)
    }

    pub fn auction_runs_on(&self, short: usize) -> bool {
        self.auction.as_ref().is_some_and(|auction| auction.short == short)
    }

    /// Whether the member has failed, for a day at least, to deliver the security, in either kind.
    pub fn is_failing(&self, member: u8, security: usize) -> bool {
        self.securities[security]
            .shorts
            .iter()
            .map(|&short| &self.positions[short])
            .any(|short| short.member == member && short.open() > 0 && short.r(self.day).is_some_and(|days| days >= 1))
    }
}
