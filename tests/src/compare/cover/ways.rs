//! Ways to take from the offers of an auction, and what an auction took as one of them.

use super::auctions::Offer;
use crate::check::Check;
use crate::compare::same;

/// A quantity of each offer, in order of arrival.
pub type Way = Vec<u64>;

/// All ways to take: any quantity of the first offer, from nothing to all of it, with any way to take from the others.
pub fn ways(offers: &[Offer]) -> Vec<Way> {
    let Some((first, others)) = offers.split_first() else {
        return vec![Vec::new()];
    };
    let of_others = ways(others);
    let beginning_with = |quantity: u64| of_others.iter().map(move |way| [&[quantity][..], way].concat());
    (0..=first.quantity).flat_map(beginning_with).collect()
}

pub fn total(way: &[u64]) -> u64 {
    way.iter().sum()
}

pub fn cost(offers: &[Offer], way: &[u64]) -> i64 {
    offers.iter().zip(way).map(|(offer, quantity)| (offer.price * quantity) as i64).sum()
}

/// What no way of this total costs less than. With every unit at one price, the total costs so many times that price. A
/// unit of a cheaper offer saves the difference, and no way takes more such units than the offer has: so no way costs
/// less than that, minus all that the cheaper offers can save. Each offer's price gives such a bound, and the highest
/// is answered.
pub fn least_cost(offers: &[Offer], total: u64) -> i64 {
    let at_most_saved =
        |price: u64| -> u64 { offers.iter().map(|offer| offer.quantity * price.saturating_sub(offer.price)).sum() };
    let bound = |price: u64| (price * total) as i64 - at_most_saved(price) as i64;
    offers.iter().map(|offer| bound(offer.price)).max().unwrap_or(0)
}

/// What an auction took, all of whose awards were confirmed.
#[derive(Clone, Debug)]
pub struct Cover {
    /// What was open of the short.
    pub open: u64,
    pub offers: Vec<Offer>,
    /// The total that the award reported.
    pub reported: u64,
    /// The quantities of the awards.
    pub taken: Way,
    /// The short's reference price.
    pub reference: u64,
    /// The cents that the seller was charged for all awards; a credit is negative.
    pub charged: i64,
}

impl Cover {
    pub fn offered(&self) -> u64 {
        self.offers.iter().map(|offer| offer.quantity).sum()
    }

    /// What the seller would be charged if the awards were this way.
    fn charge(&self, way: &[u64]) -> i64 {
        let dearer = |offer: &Offer| offer.price as i64 - self.reference as i64;
        self.offers.iter().zip(way).map(|(offer, &quantity)| quantity as i64 * dearer(offer)).sum()
    }

    /// What is wrong with the awards themselves, if anything: they are to be a way to take within the open quantity, of
    /// the total that was reported and at the charge that it comes to.
    pub fn fault(&self) -> Option<String> {
        let total = total(&self.taken);
        if self.taken.iter().zip(&self.offers).any(|(&quantity, offer)| quantity > offer.quantity) {
            return Some("an award is of more than its offer".to_string());
        }
        if total != self.reported || total > self.open {
            return Some(format!("{total} units are awarded, {} reported, {} open", self.reported, self.open));
        }
        let charge = self.charge(&self.taken);
        (charge != self.charged).then(|| format!("the seller is charged {} and not {charge}", self.charged))
    }

    /// In what a way is better than the awards, if in anything.
    pub fn fault_beside(&self, way: &[u64]) -> Option<String> {
        let (total, awarded) = (total(way), total(&self.taken));
        if total <= self.open && total > awarded {
            return Some(format!("it takes {total} units, and the awards {awarded}"));
        }
        if total != awarded {
            return None;
        }
        let [costs, charges] = [
            (cost(&self.offers, way), cost(&self.offers, &self.taken)),
            // The cents are those that were charged, and not what the awards come to.
            (self.charge(way), self.charged),
        ];
        let is_less = |(other, own): (i64, i64)| other < own;
        (is_less(costs) || is_less(charges)).then(|| format!("it costs {costs:?} and is charged {charges:?}"))
    }

    /// Whether neither the awards nor any way beside them shows a fault.
    pub fn is_cheapest(&self) -> bool {
        self.fault().is_none() && ways(&self.offers).iter().all(|way| self.fault_beside(way).is_none())
    }

    /// As `fault_beside` for all ways at once, found without trying them. The total is as much as the offers hold and
    /// the open quantity admits, so that no way takes more. No offer that is not taken whole is cheaper than one that
    /// is taken, in part or whole. That is enough: another way of this total takes as many units more of some offers as
    /// it takes less of others, so that the units more and the units less can be put into pairs; an offer of which it
    /// takes more was not taken whole, one of which it takes less was taken, and so in no pair is the unit more
    /// cheaper.
    pub fn exchange_fault(&self) -> Option<String> {
        let most = self.open.min(self.offered());
        if total(&self.taken) != most {
            return Some(format!("{} units are awarded, and {most} could be", total(&self.taken)));
        }
        let offers = || self.offers.iter().zip(&self.taken);
        let not_whole = || offers().filter(|(offer, &quantity)| quantity < offer.quantity);
        let taken = || offers().filter(|(_, &quantity)| quantity > 0);
        let mut pairs = not_whole().flat_map(|(left, _)| taken().map(move |(taken, _)| (left, taken)));
        let cheaper = pairs.find(|(left, taken)| left.price < taken.price);
        cheaper.map(|(left, taken)| format!("{left:?} is not taken whole, and {taken:?} is taken"))
    }
}

fn offers(quantities_and_prices: &[(u64, u64)]) -> Vec<Offer> {
    quantities_and_prices.iter().map(|&(quantity, price)| Offer { offerer: 1, quantity, price }).collect()
}

/// Offers, by quantity and price, and their ways.
type KnownWays = (&'static [(u64, u64)], &'static [&'static [u64]]);

/// The ways as they are found by hand.
pub fn written_out(check: &mut Check) {
    let known: [KnownWays; 4] = [
        (&[], &[&[]]),
        (&[(3, 900)], &[&[0], &[1], &[2], &[3]]),
        (&[(1, 1_000), (2, 900)], &[&[0, 0], &[0, 1], &[0, 2], &[1, 0], &[1, 1], &[1, 2]]),
        (
            &[(1, 900), (1, 800), (1, 900)],
            &[&[0, 0, 0], &[0, 0, 1], &[0, 1, 0], &[0, 1, 1], &[1, 0, 0], &[1, 0, 1], &[1, 1, 0], &[1, 1, 1]],
        ),
    ];
    for (given, wanted) in known {
        let wanted: Vec<Way> = wanted.iter().map(|way| way.to_vec()).collect();
        same(check, || format!("{given:?}"), ways(&offers(given)), wanted);
    }
}

/// Awards of an auction with 9 units open of a short with reference price 1,000, on offers of 4 at 1,100, 3 at 1,050, 4
/// at 1,100 and 2 at 950: the quantities, the total reported, the charge, and whether the search and the exchanges find
/// fault. 3 at 1,050 and 2 at 950 come to 150 minus 100, and 4 at 1,100 to 400.
const AWARDS: [(&[u64; 4], u64, i64, bool); 13] = [
    (&[4, 3, 0, 2], 9, 450, false),
    // Which of the equal prices is taken changes no cost.
    (&[0, 3, 4, 2], 9, 450, false),
    (&[2, 3, 2, 2], 9, 450, false),
    // The cheapest left out; one unit exchanged for a dearer one; the dearest first.
    (&[4, 3, 2, 0], 9, 750, true),
    (&[4, 2, 1, 2], 9, 500, true),
    (&[4, 1, 4, 0], 9, 850, true),
    // A unit less, nothing at all, and a unit more than is open.
    (&[3, 3, 0, 2], 8, 350, true),
    (&[0, 0, 0, 0], 0, 0, true),
    (&[4, 3, 1, 2], 10, 550, true),
    // More than an offer has.
    (&[4, 2, 0, 3], 9, 350, true),
    // Another total reported, a charge without the reference price, and one of nothing.
    (&[4, 3, 0, 2], 8, 450, true),
    (&[4, 3, 0, 2], 9, 9_450, true),
    (&[4, 3, 0, 2], 9, 0, true),
];

pub fn known_faults(check: &mut Check) {
    for (taken, reported, charged, is_faulty) in AWARDS {
        let offers = offers(&[(4, 1_100), (3, 1_050), (4, 1_100), (2, 950)]);
        let cover = Cover { open: 9, offers, reported, taken: taken.to_vec(), reference: 1_000, charged };
        let is_exchangeable = cover.fault().is_some() || cover.exchange_fault().is_some();
        same(check, || format!("{cover:?}"), [!cover.is_cheapest(), is_exchangeable], [is_faulty; 2]);
    }
}
