//! Prices, fees and fines, all in cents.

const LEAST_CASH_FEE: u64 = 25_000;
const GREATEST_CASH_FEE: u64 = 100_000;
const LEAST_AWARD_FINE: u64 = 100_000;

/// The quotient rounded half up; 0 where there is none.
pub fn rounded(value: u64, divisor: u32) -> u64 {
    let divisor = u64::from(divisor);
    match (value.checked_div(divisor), value.checked_rem(divisor)) {
        // Only a divisor above 1 leaves a rest, so the quotient can take one more.
        (Some(quotient), Some(rest)) => quotient + u64::from(2 * rest >= divisor),
        _ => 0,
    }
}

/// The highest price an offer may have, by the latest price at the attempt.
pub fn ceiling(class: u8, latest: u32) -> u64 {
    let latest = u64::from(latest);
    match class {
        1 | 2 => 2 * latest,
        3 => 103 * latest / 100,
        _ => 0,
    }
}

/// The price of a unit in a cash settlement, one for all its pieces: the highest of the short's reference price, those
/// of the longs in its pieces, and the latest price raised.
pub fn cash_price(class: u8, short_reference: u32, long_references: impl IntoIterator<Item = u32>, latest: u32) -> u64 {
    let latest = u64::from(latest);
    let raised = match class {
        1 | 2 => 2 * latest,
        3 => latest + 300,
        _ => 0,
    };
    long_references.into_iter().chain([short_reference]).map(u64::from).fold(raised, u64::max)
}

pub fn cash_fee(value: u64) -> u64 {
    rounded(value, 40_000).clamp(LEAST_CASH_FEE, GREATEST_CASH_FEE)
}

/// What an award that is not confirmed costs its offerer.
pub fn award_fine(class: u8, value: u64) -> u64 {
    match class {
        1 | 2 => rounded(value, 2_500).max(LEAST_AWARD_FINE),
        3 => LEAST_AWARD_FINE,
        _ => 0,
    }
}

/// What a day of being late costs.
pub fn late_fine(value: u64) -> u64 {
    rounded(value, 10_000)
}
