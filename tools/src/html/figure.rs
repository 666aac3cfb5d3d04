//! Figures. Those of the player's lines are marked with their line and field, and each stands in the page once; other
//! mentions of a number are not marked.

use crate::numbers::grouped;
use std::fmt::Display;

/// A cell with a figure of the player's lines.
pub fn cell(key: impl Display, number: impl Into<i128>) -> String {
    format!("<td data-figure=\"{key}\">{}</td>", grouped(number))
}

/// As `cell`, in words that go on.
pub fn span(key: impl Display, number: impl Into<i128>) -> String {
    format!("<span data-figure=\"{key}\">{}</span>", grouped(number))
}

/// A cell with a number that is mentioned again.
pub fn mention(number: impl Into<i128>) -> String {
    format!("<td class=\"n\">{}</td>", grouped(number))
}

/// A reference to an event's row.
pub fn event_link(number: usize) -> String {
    format!("<a href=\"#e{number}\">{}</a>", grouped(number as u64))
}

/// A reference to a position's row.
pub fn position_link(number: u16) -> String {
    format!("<a href=\"#s{number}\">{}</a>", grouped(number))
}

/// The head of a table: a column for each name. Columns of numbers begin with `#`.
pub fn heads(names: &[&str]) -> String {
    let heads = names.iter().map(|name| match name.strip_prefix('#') {
        Some(name) => format!("<th scope=\"col\" class=\"n\">{name}</th>"),
        None => format!("<th scope=\"col\">{name}</th>"),
    });
    format!("<thead><tr>{}</tr></thead>", heads.collect::<String>())
}
