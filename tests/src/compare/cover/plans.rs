//! What is to happen on a day with several auctions, each on a short of its own and each with its own seller.

use fails_book_tests::random::Random;
use second::book::MOST_OFFERS;
use second::events::{Event, Party};

/// They buy from all sellers. The members between the sellers and these offer, each once.
pub const BUYERS: [u8; 2] = [62, 63];

const MOST_SOLD: u32 = 1_000_000;

pub struct Size {
    pub auctions: usize,
    /// The latest price, by the class.
    latest: fn(u8) -> u32,
    /// An auction, by the ceiling.
    plan: fn(&mut Random, u32) -> Plan,
}

/// Up to five offers of up to four units, at few prices.
pub const SMALL: Size = Size { auctions: 14, latest: |_| 1_000, plan: Plan::small };

/// Up to sixteen offers of up to 1,000,000 units.
pub const LARGE: Size =
    Size { auctions: 3, latest: |class| if class == 3 { 1_000_000 } else { 250 }, plan: Plan::large };

impl Size {
    /// The shorts are of day 1, and come first by number, since the buyers are the last members. All are attempted on
    /// one day.
    pub fn drawn(&self, random: &mut Random, class: u8) -> Vec<Event> {
        let latest = (self.latest)(class);
        let ceiling = if class == 3 { latest * 103 / 100 } else { latest * 2 };
        let plans: Vec<Plan> = (0..self.auctions).map(|_| (self.plan)(random, ceiling)).collect();
        let closes = if class == 1 { random.between(7, 9) } else { random.pick(&[29, 39]) };
        let mut offerers = self.auctions as u8 + 1..BUYERS[0];
        let trades = (1..).zip(&plans).flat_map(|(short, plan)| plan.sales(short));
        let prices = (1..).zip(&plans).map(|(security, _)| Event::Price { security, price: latest });
        let auctions = (1..).zip(&plans).flat_map(|(short, plan)| plan.auction(short, ceiling, &mut offerers));
        trades.chain(vec![Event::Close; closes]).chain(prices).chain(auctions).collect()
    }
}

/// An auction that is to be held.
struct Plan {
    open: u32,
    /// Before the attempt.
    delivered: u32,
    /// Of each of the seller's trades, over which the units are spread evenly.
    sale_prices: Vec<u32>,
    /// Quantities and prices.
    offers: Vec<(u32, u32)>,
    /// Whether the seller offers too, which is refused, as it is failing.
    has_failing: bool,
    /// Whether there is an offer above the ceiling too, which is refused.
    has_too_dear: bool,
}

impl Plan {
    fn small(random: &mut Random, _: u32) -> Plan {
        let count = random.pick(&[0, 1, 2, 3, 3, 4, 4, 5, 5, 5]);
        let offer = |random: &mut Random| (random.between(1, 4) as u32, random.pick(&[960, 990, 1_000, 1_030]));
        let offers: Vec<(u32, u32)> = (0..count).map(|_| offer(random)).collect();
        let held = offers.iter().map(|&(quantity, _)| quantity as usize).sum();
        let sales = random.between(1, 2);
        let open = some_open(random, held, 3).max(sales as u32);
        let sale_prices = (0..sales).map(|_| random.pick(&[900, 995, 1_000, 1_100])).collect();
        Plan::of(random, open, sale_prices, offers)
    }

    fn large(random: &mut Random, ceiling: u32) -> Plan {
        let mut offers: Vec<(u32, u32)> = Vec::new();
        let count = if random.one_in(4) { MOST_OFFERS } else { random.between(2, MOST_OFFERS) };
        for _ in 0..count {
            let quantity = random.pick(&[3, 1_000, MOST_SOLD as usize]);
            let price = match random.below(4) {
                0 => ceiling,
                1 | 2 if !offers.is_empty() => random.pick(&offers).1,
                _ => random.between(1, ceiling as usize) as u32,
            };
            offers.push((random.between(1, quantity) as u32, price));
        }
        let held = offers.iter().map(|&(quantity, _)| quantity as usize).sum();
        let open = some_open(random, held, 1_000);
        let dearest = random.between(1, ceiling as usize);
        let sales = open.div_ceil(MOST_SOLD) + 1;
        let sale_prices = (0..sales).map(|_| random.between(1, dearest) as u32).collect();
        Plan::of(random, open.max(sales), sale_prices, offers)
    }

    fn of(random: &mut Random, open: u32, sale_prices: Vec<u32>, offers: Vec<(u32, u32)>) -> Plan {
        let delivered = if random.one_in(3) { random.between(1, 5) as u32 } else { 0 };
        Plan { open, delivered, sale_prices, offers, has_failing: random.one_in(4), has_too_dear: random.one_in(4) }
    }

    /// The seller and its security have the number of the short.
    fn sales(&self, short: u16) -> Vec<Event> {
        let (units, count) = (self.open + self.delivered, self.sale_prices.len() as u32);
        let seller = Party::own(short as u8);
        let sale = |((&price, at), buyer)| {
            let quantity = units / count + u32::from(at < units % count);
            Event::Trade { security: short, seller, buyer: Party::own(buyer), quantity, price }
        };
        self.sale_prices.iter().zip(0..).zip(BUYERS.into_iter().cycle()).map(sale).collect()
    }

    fn auction(&self, short: u16, ceiling: u32, offerers: &mut impl Iterator<Item = u8>) -> Vec<Event> {
        let offer = |offerer, (quantity, price)| Event::Offer { short, offerer, quantity, price };
        let mut events = Vec::new();
        if self.delivered > 0 {
            events.push(Event::Delivery { short, quantity: self.delivered });
        }
        events.push(Event::Attempt { short });
        if self.has_failing {
            events.push(offer(short as u8, (4, 1)));
        }
        events.extend(self.offers.iter().zip(offerers).map(|(&of, offerer)| offer(offerer, of)));
        if self.has_too_dear {
            events.push(offer(BUYERS[0], (4, ceiling + 1)));
        }
        events.push(Event::Award { short });
        events
    }
}

/// From 1 up to more than the offers hold.
fn some_open(random: &mut Random, held: usize, beyond: usize) -> u32 {
    let open = match random.below(6) {
        0 => held + random.between(1, beyond),
        1 => held,
        _ => random.between(1, held.max(1)),
    };
    open.max(1) as u32
}
