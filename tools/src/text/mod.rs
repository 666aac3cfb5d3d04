//! The player's input as text, a line an event.
//!
//! The register comes first, a line a security (numbered from 1 in this order), then the events:
//!
//! ```text
//! security CLASS ISIN
//! trade SELLER [KIND] BUYER [KIND] SECURITY QUANTITY PRICE
//! price SECURITY PRICE
//! delivery POSITION QUANTITY
//! attempt POSITION
//! offer POSITION OFFERER QUANTITY PRICE
//! award POSITION
//! confirm AWARD
//! cash POSITION
//! pair SHORT LONG QUANTITY
//! close
//! ```
//!
//! A kind is `own`, `client` or, for any byte, `kind` and its number. It stands directly after its member, and one that is
//! left out is own. Both are written unless both are own.
//!
//! Reading also takes blank lines, comments after a `#`, `close 5` for five closes, and `_` or `,` before each group of
//! three digits. Whatever a file can hold is taken, also what the player refuses, so that refusals can be shown.

mod layout;
mod reading;
mod writing;

pub use reading::{byte_order_mark, read};
pub use writing::write;

use second::events::Event;
use second::register::Security;

/// The counts of securities and of events are words of 16 bits.
const MOST: usize = u16::MAX as usize;

/// What the player is given: a register and the events of a file.
#[derive(Clone, Debug, Default, PartialEq, Eq)]
pub struct Input {
    pub register: Vec<Security>,
    pub events: Vec<Event>,
    pub lines: Lines,
}

/// The lines of a text in which its securities and its events stand; none of an input that was no text.
#[derive(Clone, Debug, Default, PartialEq, Eq)]
pub struct Lines {
    pub securities: Vec<usize>,
    pub events: Vec<usize>,
}

/// Whether text can hold the ISIN: its words end at blanks.
fn is_writable(isin: &[u8]) -> bool {
    isin.iter().all(|&byte| byte.is_ascii() && !char::from(byte).is_whitespace())
}
