//! The accounts: what the items of each kind come to, and the items.

use super::figure::{cell, event_link, heads, mention};
use crate::numbers::{counted, grouped};
use crate::played::{holder, Kind, Played, Step, KINDS};
use crate::words::is_idle;
use second::book::{Cause, Charge, MEMBERS};
use std::collections::HashMap;

/// What is added to an account, by one charge or by the late fines of one short.
struct Item<'a> {
    first: &'a Step,
    last: &'a Step,
    charges: u64,
    charge: &'a Charge,
    cents: i64,
}

pub fn section(played: &Played) -> String {
    let items = items(played);
    let mut page = String::from("<section id=\"accounts\"><h2>Accounts</h2>\n");
    let concerned: Vec<u8> = (0..=MEMBERS as u8).filter(|&account| !items[usize::from(account)].is_empty()).collect();
    if concerned.is_empty() {
        return page + "<p>No account was charged.</p></section>\n";
    }
    page += "<p class=\"note\">All amounts are in cents. An amount with a minus sign is paid by the account, one without it \
             is paid to it.</p>\n";
    page += &summary(played, &concerned);
    page.extend(concerned.iter().map(|&account| table(played, account, &items[usize::from(account)])));
    page + "</section>\n"
}

/// The items of every account, from the house's on, in order of their first event.
fn items(played: &Played) -> Vec<Vec<Item<'_>>> {
    let mut items: Vec<Vec<Item>> = (0..=MEMBERS).map(|_| Vec::new()).collect();
    let mut late = HashMap::new();
    for (step, charge) in played.charges().filter(|(_, charge)| !is_idle(charge)) {
        let accounts = if charge.payer == charge.payee { vec![charge.payer] } else { vec![charge.payer, charge.payee] };
        accounts
            .into_iter()
            .for_each(|account| add(&mut items[usize::from(account)], &mut late, account, step, charge));
    }
    items
}

/// Adds a charge to an account's items. `late` has the places of its late fines, by account and short.
fn add<'a>(
    items: &mut Vec<Item<'a>>,
    late: &mut HashMap<(u8, u16), usize>,
    account: u8,
    step: &'a Step,
    charge: &'a Charge,
) {
    let cents = charge.cents * (i64::from(charge.payee == account) - i64::from(charge.payer == account));
    let item = Item { first: step, last: step, charges: 1, charge, cents };
    let Cause::Late { short, .. } = charge.cause else {
        items.push(item);
        return;
    };
    match late.get(&(account, short)) {
        Some(&place) => {
            items[place].last = step;
            items[place].charges += 1;
            items[place].cents += cents;
        }
        None => {
            late.insert((account, short), items.len());
            items.push(item);
        }
    }
}

fn summary(played: &Played, concerned: &[u8]) -> String {
    let mut names = vec!["#Account", "Holder"];
    let kinds: Vec<String> = KINDS.iter().map(|kind| format!("#{}", kind.name())).collect();
    names.extend(kinds.iter().map(String::as_str));
    names.push("#Cents in all");
    let mut page = format!(
        "<div class=\"wide\"><table><caption>Accounts at the end, by kind of item</caption>{}<tbody>\n",
        heads(&names)
    );
    page.extend(concerned.iter().map(|&account| summary_row(played, account)));
    page + "</tbody></table></div>\n"
}

/// The player has a line for the account unless it is at 0.
fn summary_row(played: &Played, account: u8) -> String {
    let cents = played.book.accounts()[usize::from(account)];
    let kinds: String = KINDS.iter().map(|&kind| mention(played.total(account, kind))).collect();
    let [key, total] = match cents {
        0 => [String::new(), mention(0)],
        _ => [format!(" data-figure=\"a{account}.account\""), cell(format_args!("a{account}.cents"), cents)],
    };
    let holder = holder(account);
    format!(
        "<tr><th scope=\"row\"{key}>{account}</th><td class=\"w\"><a href=\"#a{account}\">{holder}</a></td>{kinds}{total}</tr>\n"
    )
}

fn table(played: &Played, account: u8, items: &[Item]) -> String {
    let names = ["Event", "Day", "Kind", "What", "With", "#Cents"];
    let mut page = format!(
        "<div class=\"wide\" id=\"a{account}\"><table class=\"items\"><caption>Account {account}, {}: {}</caption>{}<tbody>\n",
        holder(account),
        counted(items.len() as u64, "item"),
        heads(&names)
    );
    page.extend(items.iter().map(|item| row(account, item)));
    let cents = played.book.accounts()[usize::from(account)];
    let sum = format!("<tr><th scope=\"row\" colspan=\"5\">Sum</th>{}</tr>", mention(cents));
    page + &format!("</tbody><tfoot>{sum}</tfoot></table></div>\n")
}

fn row(account: u8, item: &Item) -> String {
    let &Item { first, last, charges, charge, cents } = item;
    let (events, days) = match charges {
        1 => (event_link(first.number), grouped(first.day)),
        _ => (
            format!("{} to {}", event_link(first.number), event_link(last.number)),
            format!("{} to {}", grouped(first.day), grouped(last.day)),
        ),
    };
    let other = if charge.payer == account { charge.payee } else { charge.payer };
    format!(
        "<tr><th scope=\"row\">{events}</th><td>{days}</td><td>{}</td><td>{}</td><td>{}</td>{}</tr>\n",
        Kind::of(charge).name(),
        what(charge, charges),
        holder(other),
        mention(cents)
    )
}

fn what(charge: &Charge, charges: u64) -> String {
    match charge.cause {
        Cause::BuyIn { award, short, quantity, .. } => {
            format!("position {}, award {award}: {}", grouped(short), counted(quantity, "unit"))
        }
        Cause::Payment { short, long, quantity, .. } => {
            format!("position {} to {}: {}", grouped(short), grouped(long), counted(quantity, "unit"))
        }
        Cause::Fee { short, quantity, .. } => format!("position {}: {}", grouped(short), counted(quantity, "unit")),
        Cause::UnconfirmedAward { award, short, quantity, .. } => {
            format!("position {}, award {award}: {}", grouped(short), counted(quantity, "unit"))
        }
        Cause::Late { short, .. } => format!("position {}: {}", grouped(short), counted(charges, "close")),
    }
}
