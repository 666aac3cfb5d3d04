//! The securities: the positions of each, and each fail as a picture from its short to its longs.

use super::bars::{self, Starts};
use super::escape::escaped;
use super::figure::{cell, event_link, heads, mention, position_link};
use super::pieces::{Pieces, Share};
use crate::kinds;
use crate::numbers::{counted, grouped};
use crate::played::{side_name, Played};
use second::book::{LatestPrice, Position, Side};

pub fn section(played: &Played, pieces: &Pieces) -> String {
    let mut page = String::from("<section id=\"fails\"><h2>Fails and positions by security</h2>\n");
    page += &bars::legend();
    page +=
        "<p class=\"note\">A fail is a short that was not discharged whole, by deliveries and pair-offs, on its delivery \
             day. Its bar is its netted units; below it, each long has the units that it got from this short or was paired \
             with, drawn under the short&apos;s own. Prices are in cents a unit.</p>\n";
    for place in 0..played.register.len() {
        page += &security(played, pieces, place);
    }
    page + "</section>\n"
}

fn class_name(class: u8) -> &'static str {
    match class {
        1 => "share under the short selling regulation",
        2 => "other security",
        _ => "fixed income",
    }
}

fn security(played: &Played, pieces: &Pieces, place: usize) -> String {
    let (class, isin) = played.register[place];
    let latest = match played.book.securities[place].latest_price {
        Some(LatestPrice { price, day }) => format!("latest price {}, given on day {}", grouped(price), grouped(day)),
        None => "no price yet".to_string(),
    };
    let number = place + 1;
    let mut page =
        format!("<section id=\"security{number}\"><h3>Security {number}: <bdi>{}</bdi></h3>\n", escaped(isin));
    page += &format!("<p class=\"note\">Class {class}, {}; {latest}.</p>\n", class_name(class));
    let numbers = 1..=played.book.positions().len() as u16;
    let numbers: Vec<u16> = numbers.filter(|&number| played.position(number).security == place).collect();
    if numbers.is_empty() {
        return page + "<p>No position.</p></section>\n";
    }
    page += &positions(played, pieces, number, &numbers);
    page.extend(numbers.iter().filter(|&&number| pieces.is_fail(number)).map(|&number| fail(played, pieces, number)));
    page + "</section>\n"
}

fn positions(played: &Played, pieces: &Pieces, security: usize, numbers: &[u16]) -> String {
    let names = [
        "#Position",
        "Side",
        "#Member",
        "Kind",
        "#Delivery day",
        "#Reference price",
        "#Netted",
        "#Delivered",
        "#Bought in",
        "#Cash",
        "#Paired",
        "#Open",
        "At the end",
    ];
    let mut page = format!(
        "<div class=\"wide\"><table><caption>Positions of security {security}</caption>{}<tbody>\n",
        heads(&names)
    );
    page.extend(numbers.iter().map(|&number| row(played, pieces, number)));
    page + "</tbody></table></div>\n"
}

fn row(played: &Played, pieces: &Pieces, number: u16) -> String {
    let position = played.position(number);
    let &Position { member, side, netted, delivered, bought_in, cash, paired, .. } = position;
    let state = match pieces.is_fail(number) {
        true => format!("<a href=\"#f{number}\">fail: {}</a>", pieces.state(number)),
        false => pieces.state(number),
    };
    [
        format!("<tr id=\"s{number}\"><th scope=\"row\" data-figure=\"s{number}.number\">{}</th>", grouped(number)),
        format!("<td><span data-figure=\"s{number}.side\">{}</span></td>", side_name(side)),
        cell(format_args!("s{number}.member"), member),
        format!("<td>{}</td>", kinds::name(position.kind)),
        mention(position.delivery_day),
        mention(position.reference_price),
        cell(format_args!("s{number}.netted"), netted),
        cell(format_args!("s{number}.delivered"), delivered),
        cell(format_args!("s{number}.bought_in"), bought_in),
        cell(format_args!("s{number}.cash"), cash),
        cell(format_args!("s{number}.paired"), paired),
        cell(format_args!("s{number}.open"), position.open()),
        format!("<td class=\"w\">{state}</td></tr>\n"),
    ]
    .concat()
}

fn fail(played: &Played, pieces: &Pieces, number: u16) -> String {
    let short = played.position(number);
    let by_manner = ["#Delivered", "#Bought in", "#Cash", "#Paired"];
    let names = [&["From, to", "Units by manner"], &by_manner[..], &["#Open", "#Units", "#Cents paid"]].concat();
    let mut page = format!(
        "<div class=\"wide fail\" id=\"f{number}\"><table><caption>Fail of position {}: {}</caption>{}<tbody>\n",
        grouped(number),
        title(short, &pieces.state(number)),
        heads(&names)
    );
    let shares = pieces.shares(number);
    page += &short_row(number, short, shares.iter().map(|share| share.cents).sum());
    let mut starts = Starts::new(short);
    for share in &shares {
        page += &long_row(played, share, &starts.bar(short.netted, share));
    }
    page += "</tbody></table>";
    page += &events(pieces, number);
    page + "</div>\n"
}

fn title(short: &Position, state: &str) -> String {
    let &Position { netted, delivery_day, .. } = short;
    let [units, day] = [counted(netted, "unit"), grouped(delivery_day)];
    format!("{} short {units}, delivery day {day}; {state}", kinds::holder(short))
}

fn short_row(number: u16, short: &Position, cents: u64) -> String {
    let &Position { netted, delivered, bought_in, cash, paired, .. } = short;
    let holder = kinds::holder(short);
    [
        format!("<tr class=\"short\"><th scope=\"row\">short {}, {holder}</th>", position_link(number)),
        format!("<td class=\"bar\">{}</td>", bars::of_short(short)),
        [delivered, bought_in, cash, paired, short.open(), netted].map(mention).concat(),
        mention(cents),
        "</tr>\n".to_string(),
    ]
    .concat()
}

fn long_row(played: &Played, share: &Share, bar: &str) -> String {
    let &Share { long, delivered, bought_in, cash, paired, cents } = share;
    let holder = kinds::holder(played.position(long));
    [
        format!("<tr><th scope=\"row\">→ long {}, {holder}</th><td class=\"bar\">{bar}</td>", position_link(long)),
        [delivered, bought_in, cash, paired].map(mention).concat(),
        "<td></td>".to_string(),
        mention(share.units()),
        mention(cents),
        "</tr>\n".to_string(),
    ]
    .concat()
}

/// The events that the pieces of a short fell in.
fn events(pieces: &Pieces, number: u16) -> String {
    let mut numbers: Vec<usize> = pieces.of(number).iter().map(|(step, _)| step.number).collect();
    numbers.dedup();
    let links: Vec<String> = numbers.into_iter().map(event_link).collect();
    match &links[..] {
        [] => "<p class=\"note\">Nothing of it was discharged.</p>".to_string(),
        [event] => format!("<p class=\"note\">Discharged in event {event}.</p>"),
        _ => format!("<p class=\"note\">Discharged in events {}.</p>", links.join(", ")),
    }
}

/// How many shorts fail.
pub fn count(played: &Played, pieces: &Pieces) -> usize {
    let shorts = played.book.positions().iter().zip(1..).filter(|(position, _)| position.side == Side::Short);
    shorts.filter(|&(_, number)| pieces.is_fail(number)).count()
}
