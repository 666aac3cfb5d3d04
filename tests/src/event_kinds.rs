//! The kinds of events by their number in a file, as documents 01 and 02 have them, without the second implementation.

pub const TRADE: u8 = 1;
pub const DELIVERY: u8 = 3;
pub const ATTEMPT: u8 = 4;
pub const OFFER: u8 = 5;
pub const AWARD: u8 = 6;
pub const CONFIRM: u8 = 7;
pub const CASH: u8 = 8;
pub const CLOSE: u8 = 9;
pub const PAIR_OFF: u8 = 10;

/// The kinds that have pieces, in the order of the figures that the player prints.
pub const DISCHARGES: [u8; 4] = [DELIVERY, CONFIRM, CASH, PAIR_OFF];
