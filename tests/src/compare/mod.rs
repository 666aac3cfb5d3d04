//! The comparisons, part by part: exhaustive and known inputs once, random inputs once for each seed.

pub mod builds;
mod bytes;
pub mod c_programs;
pub mod calendar;
pub mod charges;
pub mod cover;
pub mod csv;
pub mod events;
pub mod html;
pub mod kinds;
pub mod lines;
pub mod one_price;
pub mod page;
pub mod pair_off;
pub mod play;
pub mod play_page;
pub mod player;
pub mod prices;
mod programs;
pub mod register;
pub mod sheets;
pub mod text;
pub mod walk;
pub mod words;

use crate::check::Check;
use second::book::Business;
use std::fmt::{self, Debug};

fn hex(bytes: &[u8]) -> String {
    bytes.iter().map(|byte| format!("{byte:02x}")).collect()
}

/// As words and tables are to have it.
fn kind_name(kind: Business) -> &'static str {
    match kind {
        Business::Own => "own",
        Business::Client => "client",
    }
}

/// Bytes that are compared as they are and shown as hex.
#[derive(PartialEq, Eq)]
struct Hex(Vec<u8>);

impl fmt::Debug for Hex {
    fn fmt(&self, to: &mut fmt::Formatter) -> fmt::Result {
        to.write_str(&hex(&self.0))
    }
}

/// The harness heads two answers `desk` and `second`; here neither is, so each says what it is.
#[derive(Debug)]
enum Value<T> {
    Found(T),
    Wanted(T),
}

impl<T> Value<T> {
    fn content(&self) -> &T {
        match self {
            Value::Found(content) | Value::Wanted(content) => content,
        }
    }
}

impl<T: PartialEq> PartialEq for Value<T> {
    fn eq(&self, other: &Value<T>) -> bool {
        self.content() == other.content()
    }
}

fn same<T: PartialEq + Debug>(check: &mut Check, input: impl Fn() -> String, found: T, wanted: T) {
    check.same(input, Value::Found(found), Value::Wanted(wanted));
}
