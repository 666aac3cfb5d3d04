//! A play as a page for a browser or a printer: one file without script and without a reference to another, which is
//! also well formed as XML.

mod accounts;
mod auctions;
mod bars;
mod days;
mod escape;
mod fails;
mod figure;
mod pieces;
mod style;

pub use escape::escaped;

use crate::numbers::grouped;
use crate::played::Played;
use pieces::Pieces;
use style::STYLE;

/// The page of a play; `name` is its file's.
pub fn page(name: &str, played: &Played) -> String {
    let name = escaped(name);
    let pieces = Pieces::new(played);
    let head = format!(
        "<meta charset=\"utf-8\"/>\n\
         <meta http-equiv=\"Content-Security-Policy\" content=\"default-src &apos;none&apos;; style-src &apos;unsafe-inline&apos;\"/>\n\
         <meta name=\"viewport\" content=\"width=device-width, initial-scale=1\"/>\n\
         <title>Fails book: {name}</title>\n<style>{STYLE}</style>\n"
    );
    let sections = [
        header(&name, played, &pieces),
        fails::section(played, &pieces),
        days::section(played),
        auctions::section(played),
        accounts::section(played),
    ];
    format!(
        "<!DOCTYPE html>\n<html xmlns=\"http://www.w3.org/1999/xhtml\" lang=\"en\">\n<head>\n{head}</head>\n\
         <body>\n{}</body>\n</html>\n",
        sections.concat()
    )
}

fn header(name: &str, played: &Played, pieces: &Pieces) -> String {
    let refused = played.steps.iter().filter(|step| step.result.is_err()).count();
    let counts = [
        (played.register.len(), ["security", "securities"]),
        (played.steps.len(), ["event", "events"]),
        (refused, ["refused event", "refused events"]),
        (usize::from(played.book.day), ["business day", "business days"]),
        (played.book.positions().len(), ["position", "positions"]),
        (fails::count(played, pieces), ["fail", "fails"]),
        (auctions::count(played), ["auction", "auctions"]),
    ];
    let counts: String = counts.iter().map(|&(count, names)| count_item(count, names)).collect();
    format!(
        "<header><h1>Fails book: <bdi>{name}</bdi></h1>\n<ul class=\"counts\">{counts}</ul>\n\
         <p>The numbers are those of the proved player: the second implementation, which adds what the words say, had the \
         same lines. Each play opens a new book at day 1. The pieces of a cash settlement are paid gross; contract \
         payments are the payment bank&apos;s and not in these accounts.</p>\n{}</header>\n",
        contents(played)
    )
}

/// A count with its name, for one and for any other number.
fn count_item(count: usize, [one, many]: [&str; 2]) -> String {
    let name = if count == 1 { one } else { many };
    format!("<li><b>{}</b> {name}</li>", grouped(count as u64))
}

fn contents(played: &Played) -> String {
    let sections =
        [("fails", "Fails and positions"), ("days", "Days"), ("auctions", "Auctions"), ("accounts", "Accounts")];
    let sections: String = sections.iter().map(|(id, name)| format!("<li><a href=\"#{id}\">{name}</a></li>")).collect();
    let securities = played.register.iter().zip(1..).map(|((_, isin), number)| {
        format!("<li><a href=\"#security{number}\">{number}: <bdi>{}</bdi></a></li>", escaped(isin))
    });
    format!(
        "<nav aria-label=\"Contents\"><ul>{sections}</ul><ul><li>Securities</li>{}</ul></nav>\n",
        securities.collect::<String>()
    )
}
