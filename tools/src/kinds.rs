//! The kinds of business, own and client, in words.

use second::book::{Business, Position};
use second::events::Party;

pub fn name(kind: Business) -> &'static str {
    match kind {
        Business::Own => "own",
        Business::Client => "client",
    }
}

/// The name of the kind that a byte of a trade's side stands for, if it does for one.
pub fn name_of_byte(byte: u8) -> Option<&'static str> {
    Business::of(byte).map(name)
}

/// As a text has it: `own`, `client`, or `kind` and the byte's number.
pub fn of_byte(byte: u8) -> String {
    name_of_byte(byte).map_or_else(|| format!("kind {byte}"), str::to_string)
}

/// A side of a trade as a text has it, as `1 client`.
pub fn with_member(party: Party) -> String {
    format!("{} {}", party.member, of_byte(party.kind))
}

/// Whose a position is, as `member 1 client`.
pub fn holder(position: &Position) -> String {
    format!("member {} {}", position.member, name(position.kind))
}
