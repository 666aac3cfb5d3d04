//! The days with their events: what was called, what became of it, and why it was refused where it was.

use super::escape::escaped;
use super::figure::{cell, event_link, heads, span};
use crate::kinds;
use crate::numbers::{counted, grouped};
use crate::played::{Done, Kind, Played, Refused, Step};
use crate::words::{award_words, call, charge_words, is_idle};
use second::book::{Charge, Manner, Piece};
use second::events::Event;

/// The most late fines of a close that are shown with their figures: a book may have hundreds at each of its closes.
const MOST_FINES: usize = 6;

pub fn section(played: &Played) -> String {
    let mut page = String::from("<section id=\"days\"><h2>Days and events</h2>\n");
    page += &refusals(played);
    let days: Vec<&[Step]> = played.steps.chunk_by(|step, next| step.day == next.day).collect();
    for days in days.chunk_by(|day, next| is_folded(day, next)) {
        page += &match days {
            [day] => table(played, day),
            _ => closes(played, &days.iter().copied().flatten().collect::<Vec<_>>()),
        };
    }
    page + "</section>\n"
}

/// The refused events, each with a reference.
fn refusals(played: &Played) -> String {
    let refused = played.steps.iter().filter(|step| step.result.is_err());
    let links: Vec<String> = refused.map(|step| event_link(step.number)).collect();
    match links.len() {
        0 => "<p class=\"note\">No event was refused.</p>\n".to_string(),
        1 => format!("<p class=\"note\">✗ One event was refused: {}.</p>\n", links[0]),
        count => {
            format!("<p class=\"note\">✗ {} events were refused: {}.</p>\n", grouped(count as u64), links.join(", "))
        }
    }
}

/// Whether both days have nothing but a close, with the same charges.
fn is_folded(day: &[Step], next: &[Step]) -> bool {
    match (lone_close(day), lone_close(next)) {
        (Some(done), Some(next)) => charges(done).eq(charges(next)),
        _ => false,
    }
}

fn lone_close(day: &[Step]) -> Option<&Done> {
    match day {
        [Step { event: Event::Close, result: Ok(done), .. }] => Some(done),
        _ => None,
    }
}

/// The charges but for fines on nothing.
fn charges(done: &Done) -> impl Iterator<Item = &Charge> {
    done.charges.iter().filter(|charge| !is_idle(charge))
}

fn table(played: &Played, day: &[Step]) -> String {
    let number = day[0].day;
    let refused = day.iter().filter(|step| step.result.is_err()).count();
    let refused = if refused == 0 { String::new() } else { format!(", ✗ {} refused", grouped(refused as u64)) };
    let has_lines = day.iter().any(|step| step.line.is_some());
    let names: &[&str] = match has_lines {
        true => &["#Event", "#Line", "What was called, and what it did", "#Units", "#Refusal"],
        false => &["#Event", "What was called, and what it did", "#Units", "#Refusal"],
    };
    let mut page = format!(
        "<div class=\"wide\"><table class=\"day\"><caption>Day {}: {}{refused}</caption>{}<tbody>\n",
        grouped(number),
        counted(day.len() as u64, "event"),
        heads(names)
    );
    page.extend(day.iter().map(|step| row(played, step, has_lines)));
    page + "</tbody></table></div>\n"
}

fn row(played: &Played, step: &Step, has_lines: bool) -> String {
    let number = step.number;
    let line = match (has_lines, step.line) {
        (true, Some(line)) => format!("<td class=\"n\">{}</td>", grouped(line as u64)),
        (true, None) => "<td></td>".to_string(),
        (false, _) => String::new(),
    };
    let (class, quantity, refusal, after) = match &step.result {
        Ok(done) => ("", done.quantity, 0, details(played, step, done)),
        Err(Refused { refusal, reason }) => {
            (" class=\"refused\"", 0, *refusal as u8, format!("<br/><b>✗ refused:</b> {}", escaped(reason)))
        }
    };
    [
        format!("<tr id=\"e{number}\"{class}><th scope=\"row\" data-figure=\"e{number}.number\">"),
        format!("{}</th>{line}<td>{}{after}</td>", grouped(number as u64), escaped(call(step))),
        cell(format_args!("e{number}.quantity"), quantity),
        cell(format_args!("e{number}.refusal"), refusal),
        "</tr>\n".to_string(),
    ]
    .concat()
}

/// What an accepted call did, in the order in which it happened.
fn details(played: &Played, step: &Step, done: &Done) -> String {
    let ceiling = done.ceiling.map(|ceiling| format!("the ceiling is {}", grouped(ceiling)));
    let awards = done.awards.iter().map(|(number, award)| award_words(*number, award));
    let pieces = done.pieces.iter().zip(1..).map(|(piece, place)| piece_item(played, step.number, place, piece));
    let charges = charge_items(played, done);
    let made = match done.positions.len() {
        0 => None,
        1 => Some(format!("makes position {}", grouped(done.positions.end as u64))),
        _ => Some(format!(
            "makes positions {} to {}",
            grouped(done.positions.start as u64 + 1),
            grouped(done.positions.end as u64)
        )),
    };
    list("", ceiling.into_iter().chain(awards).chain(pieces).chain(charges).chain(made))
}

/// The items as a list of a class, or nothing where there are none.
fn list(class: &str, items: impl Iterator<Item = String>) -> String {
    let items: String = items.map(|item| format!("<li>{item}</li>")).collect();
    match items.is_empty() {
        true => String::new(),
        false => format!("<ul{class}>{items}</ul>"),
    }
}

fn piece_item(played: &Played, event: usize, place: usize, piece: &Piece) -> String {
    let &Piece { short, long, quantity, manner, cents } = piece;
    let [from, to] = [short, long].map(|number| kinds::holder(played.position(number)));
    let [before, between] = match manner {
        // Nothing changes hands.
        Manner::Paired => ["of", "paired with"],
        _ => ["from", "to"],
    };
    format!(
        "{} {} {before} position {} ({from}) {between} position {} ({to}), {} {}",
        span(format_args!("p{event}.{place}.quantity"), quantity),
        if quantity == 1 { "unit" } else { "units" },
        span(format_args!("p{event}.{place}.short"), short),
        span(format_args!("p{event}.{place}.long"), long),
        span(format_args!("p{event}.{place}.cents"), cents),
        if cents == 1 { "cent" } else { "cents" },
    )
}

/// Each charge with its figures; of very many late fines, the sum of those that are left.
fn charge_items(played: &Played, done: &Done) -> Vec<String> {
    let (late, others): (Vec<&Charge>, Vec<&Charge>) = charges(done).partition(|charge| Kind::of(charge) == Kind::Late);
    let (shown, left) = late.split_at(late.len().min(MOST_FINES));
    let mut items: Vec<String> =
        others.iter().chain(shown).map(|charge| escaped(charge_words(played, charge))).collect();
    if !left.is_empty() {
        let cents: i64 = left.iter().map(|charge| charge.cents).sum();
        items.push(format!(
            "and {} more, {} in all; the accounts have them by position",
            counted(left.len() as u64, "late fine"),
            counted(cents, "cent")
        ));
    }
    items
}

/// Days that have nothing but a close, with the same charges: those once, and the figures of each close.
fn closes(played: &Played, steps: &[&Step]) -> String {
    let [Some(first), Some(last)] = [steps.first(), steps.last()] else {
        return String::new();
    };
    let charges = first.result.as_ref().map_or_else(|_| Vec::new(), |done| charge_items(played, done));
    let heading = if charges.is_empty() { "nothing else" } else { "nothing else. Each close charges:" };
    let items = steps.iter().map(|step| close_item(step));
    format!(
        "<div class=\"closes\"><h3>Days {} to {}: {} and {heading}</h3>{}{}</div>\n",
        grouped(first.day),
        grouped(last.day),
        counted(steps.len() as u64, "close"),
        list("", charges.into_iter()),
        list(" class=\"run\"", items)
    )
}

fn close_item(step: &Step) -> String {
    let number = step.number;
    let line = step.line.map_or_else(String::new, |line| format!(", line {}", grouped(line as u64)));
    format!(
        "<span id=\"e{number}\">day {}{line}: event {}, {} units, refusal {}</span>",
        grouped(step.day),
        span(format_args!("e{number}.number"), number as u64),
        span(format_args!("e{number}.quantity"), step.result.as_ref().map_or(0, |done| done.quantity)),
        span(
            format_args!("e{number}.refusal"),
            step.result.as_ref().map_or_else(|refused| refused.refusal as u8, |_| 0)
        ),
    )
}
