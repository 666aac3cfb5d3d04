//! The states that have to do with what an auction takes of its offers.

use super::{State, Survey};
use second::book::{Award, Book, Offer};

/// What is taken of each offer, in order of arrival.
fn taken(offers: &[Offer], open: u64) -> Vec<u64> {
    let mut by_price: Vec<usize> = (0..offers.len()).collect();
    // The sort is stable: equal prices stay in order of arrival.
    by_price.sort_by_key(|&at| offers[at].price);
    let mut taken = vec![0; offers.len()];
    let mut left = open;
    for at in by_price {
        taken[at] = left.min(offers[at].quantity.into());
        left -= taken[at];
    }
    taken
}

impl Survey {
    /// An auction that is about to end, with so much open.
    pub(super) fn taken(&mut self, offers: &[Offer], open: u64) {
        let is_falling = offers.is_sorted_by(|one, next| one.price > next.price);
        self.reach_if(offers.len() >= 3 && is_falling, State::DearestFirst);
        let taken = taken(offers, open);
        let pairs = (0..offers.len()).flat_map(|later| (0..later).map(move |earlier| [earlier, later]));
        for pair in pairs {
            self.pair_of_offers(offers, &taken, pair);
        }
    }

    fn pair_of_offers(&mut self, offers: &[Offer], taken: &[u64], [earlier, later]: [usize; 2]) {
        let (one, next) = (&offers[earlier], &offers[later]);
        let is_tie = one.price == next.price;
        let is_whole = taken[earlier] == u64::from(one.quantity);
        let is_part = (1..u64::from(next.quantity)).contains(&taken[later]);
        self.reach_if(is_tie && is_whole && is_part, State::PartAtTie);
        self.reach_if(is_tie && is_whole && taken[later] == 0, State::NothingAtTie);
        let both = taken[earlier] > 0 && taken[later] > 0;
        let is_across = offers[earlier..later].iter().any(|between| between.price < one.price);
        self.reach_if(is_tie && both && is_across, State::AcrossCheaper);
        self.reach_if(both && one.offerer == next.offerer, State::TwoOfOneMember);
    }

    /// An award on this short that was confirmed.
    pub(super) fn confirmed(&mut self, book: &Book, short: usize) {
        let awards: Vec<&Award> = book.awards.iter().filter(|award| award.short == short).collect();
        let reference = book.positions[short].reference_price;
        let is_done = awards.iter().all(|award| award.confirmed);
        let is_credit = awards.iter().any(|award| award.price < reference);
        let is_charge = awards.iter().any(|award| award.price > reference);
        self.reach_if(is_done && is_credit && is_charge, State::ChargeAndCredit);
        self.reach_if(is_done && is_credit && awards.len() >= 3, State::ThreeConfirmed);
    }
}
