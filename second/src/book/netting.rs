//! Netting: one day's trades become at most one position for each member, kind and security.

use super::{Holder, Position, Side, Trade};
use std::cmp::Ordering;

const DAYS_TO_DELIVERY: u16 = 2;

/// One side of a trade; a sale has a negative quantity.
struct Leg {
    holder: Holder,
    security: usize,
    quantity: i64,
    price: u32,
}

/// The positions of a trade day, by member, then kind, then security.
pub fn netted(trades: &[Trade], trade_day: u16) -> Vec<Position> {
    let mut legs: Vec<Leg> = trades.iter().flat_map(legs_of).collect();
    let group = |leg: &Leg| (leg.holder.member, leg.holder.kind, leg.security);
    legs.sort_by_key(group);
    legs.chunk_by(|one, next| group(one) == group(next)).filter_map(|legs| position(legs, trade_day)).collect()
}

fn legs_of(trade: &Trade) -> [Leg; 2] {
    let &Trade { security, seller, buyer, quantity, price } = trade;
    let quantity = i64::from(quantity);
    [Leg { holder: seller, security, quantity: -quantity, price }, Leg { holder: buyer, security, quantity, price }]
}

/// The position of one member in one kind and security, if bought and sold differ.
fn position(legs: &[Leg], trade_day: u16) -> Option<Position> {
    let net: i64 = legs.iter().map(|leg| leg.quantity).sum();
    let side = match net.cmp(&0) {
        Ordering::Less => Side::Short,
        Ordering::Equal => return None,
        Ordering::Greater => Side::Long,
    };
    let reference_price = legs.iter().filter(|leg| leg.quantity.signum() == net.signum()).map(|leg| leg.price).max()?;
    let &Leg { holder: Holder { member, kind }, security, .. } = legs.first()?;
    Some(Position {
        member,
        kind,
        security,
        side,
        delivery_day: trade_day + DAYS_TO_DELIVERY,
        reference_price,
        netted: net.unsigned_abs() as u32,
        delivered: 0,
        bought_in: 0,
        cash: 0,
        paired: 0,
    })
}
