//! A play in words: each event with what became of it, then the positions and the accounts at the end.

use crate::kinds;
use crate::numbers::{counted, grouped};
use crate::played::{holder, side_name, Done, Kind, Played, Refused, Step, KINDS};
use crate::table::{aligned, widths, Row};
use second::book::{Award, Cause, Charge, Longs, Manner, Piece, Position};
use second::events::Event;

/// All of a play.
pub fn words(played: &Played) -> String {
    let events = played.steps.iter().map(|step| event(played, step)).collect();
    [events, positions(played), accounts(played)].concat()
}

/// The refused events alone.
pub fn refused(played: &Played) -> String {
    played.steps.iter().filter(|step| step.result.is_err()).map(|step| event(played, step)).collect()
}

fn event(played: &Played, step: &Step) -> String {
    let mut text = format!("{}. {}: {}\n", step.number, place(step), headline(step));
    if let Ok(done) = &step.result {
        let details = details(played, done);
        text.extend(details.into_iter().map(|line| format!("   {line}\n")));
    }
    text
}

/// The day, and the line of the text if there was one.
fn place(step: &Step) -> String {
    let day = grouped(step.day);
    match step.line {
        Some(line) => format!("day {day}, line {}", grouped(line as u64)),
        None => format!("day {day}"),
    }
}

fn headline(step: &Step) -> String {
    let call = call(step);
    match &step.result {
        Ok(done) => format!("{call}: {}", answer(&step.event, done.quantity)),
        Err(Refused { refusal, reason }) => format!("{call}: refused, {reason} ({})", *refusal as u8),
    }
}

pub fn call(step: &Step) -> String {
    match step.event {
        Event::Trade { security, seller, buyer, quantity, price } => {
            let [units, price] = [counted(quantity, "unit"), grouped(price)];
            let [seller, buyer] = [seller, buyer].map(kinds::with_member);
            format!("trade: member {seller} sells {units} of security {security} at {price} to member {buyer}")
        }
        Event::Price { security, price } => format!("price of {} for security {security}", grouped(price)),
        Event::Delivery { short, quantity } => format!("delivery of {} from position {short}", grouped(quantity)),
        Event::Attempt { short } => format!("attempt on position {short}"),
        Event::Offer { short, offerer, quantity, price } => {
            let [units, price] = [counted(quantity, "unit"), grouped(price)];
            format!("offer on position {short}: member {offerer} offers {units} at {price}")
        }
        Event::Award { short } => format!("award on position {short}"),
        Event::Confirm { award } => format!("confirmation of award {award}"),
        Event::Cash { short } => format!("cash settlement of position {short}"),
        Event::Close => format!("close of day {}", grouped(step.day)),
        Event::PairOff { short, long, quantity } => {
            format!("pair-off of {} of position {short} with position {long}", counted(quantity, "unit"))
        }
    }
}

/// What an accepted call reports; where the event states its quantity, that is said already.
fn answer(event: &Event, quantity: u32) -> String {
    let units = counted(quantity, "unit");
    match event {
        Event::Award { .. } => format!("{units} awarded"),
        Event::Confirm { .. } => format!("{units} bought in"),
        Event::Cash { .. } => units,
        _ => "accepted".to_string(),
    }
}

/// A line for all that an accepted call did, in the order in which it happened.
fn details(played: &Played, done: &Done) -> Vec<String> {
    let ceiling = done.ceiling.map(|ceiling| format!("the ceiling is {}", grouped(ceiling)));
    let awards = done.awards.iter().map(|&(number, award)| award_words(number, &award));
    let pieces = done.pieces.iter().map(|piece| piece_words(played, piece));
    // A short of which nothing is open has no fine to speak of.
    let charges = done.charges.iter().filter(|charge| !is_idle(charge)).map(|charge| charge_words(played, charge));
    let made = done.positions.clone().map(|place| made_words(place + 1, &played.book.positions()[place]));
    ceiling.into_iter().chain(awards).chain(pieces).chain(charges).chain(made).collect()
}

/// Whether the charge is a fine on nothing.
pub fn is_idle(charge: &Charge) -> bool {
    matches!(charge.cause, Cause::Late { quantity: 0, .. })
}

pub fn award_words(number: usize, award: &Award) -> String {
    let &Award { offerer, quantity, price, .. } = award;
    format!("award {number}: {} of member {offerer} at {}", counted(quantity, "unit"), grouped(price))
}

fn piece_words(played: &Played, piece: &Piece) -> String {
    let &Piece { short, long, quantity, manner, cents } = piece;
    let [from, to] =
        [short, long].map(|number| format!("position {number} ({})", kinds::holder(played.position(number))));
    let units = counted(quantity, "unit");
    match manner {
        Manner::Delivered | Manner::BoughtIn => format!("{units} from {from} to {to}"),
        Manner::Cash => format!("{units} from {from} to {to} for {}", counted(cents, "cent")),
        // Nothing changes hands.
        Manner::Paired => format!("{units} of {from} paired with {to}"),
    }
}

fn made_words(number: usize, position: &Position) -> String {
    let &Position { security, side, netted, delivery_day, reference_price, .. } = position;
    format!(
        "position {number}: {} {} {} of security {}, delivery day {}, reference price {}",
        kinds::holder(position),
        side_name(side),
        counted(netted, "unit"),
        security + 1,
        grouped(delivery_day),
        grouped(reference_price)
    )
}

/// Who pays whom how much for what, and the figures that it comes from.
pub fn charge_words(played: &Played, charge: &Charge) -> String {
    format!("{}: {}: {}", Kind::of(charge).name(), moved(charge), figures(played, charge))
}

/// A negative charge is a credit: the payee pays.
fn moved(charge: &Charge) -> String {
    let &Charge { payer, payee, cents, .. } = charge;
    let [from, to] = if cents < 0 { [payee, payer] } else { [payer, payee] }.map(holder);
    format!("{from} pays {to} {}", counted(cents.unsigned_abs(), "cent"))
}

pub fn figures(played: &Played, charge: &Charge) -> String {
    let class = |short: u16| played.book.securities[played.position(short).security].class;
    match charge.cause {
        Cause::BuyIn { award, short, quantity, price, reference_price } => {
            let [price, reference_price] = [price, reference_price].map(grouped);
            format!(
                "{} of award {award} times (its price {price} minus reference price {reference_price} of position {short})",
                counted(quantity, "unit")
            )
        }
        Cause::Payment { short, long, quantity, short_reference, longs, latest, price } => {
            let raised = match class(short) {
                3 => "plus 300",
                _ => "doubled",
            };
            let [short_reference, latest] = [short_reference, latest].map(grouped);
            format!(
                "{} of position {long} times {}, the highest of reference price {short_reference} of position {short}, \
                 {} and the latest price {latest} {raised}",
                counted(quantity, "unit"),
                grouped(price),
                highest_reference(&longs)
            )
        }
        Cause::Fee { short, quantity, latest } => {
            format!("{} that over 40,000, at least 25,000 and at most 100,000", value(quantity, short, latest))
        }
        Cause::UnconfirmedAward { award, short, quantity, latest } => match class(short) {
            3 => format!("award {award} of position {short}, class 3"),
            _ => format!("award {award}: {} that over 2,500, at least 100,000", value(quantity, short, latest)),
        },
        Cause::Late { short, quantity, latest } => format!("{} that over 10,000", value(quantity, short, latest)),
    }
}

/// The highest reference price of the longs in a cash settlement, as there may be hundreds of them.
fn highest_reference(longs: &Longs) -> String {
    let &Longs { count, highest, reference_price } = longs;
    let among = match count {
        1 => String::new(),
        _ => format!(" (the highest among the settlement's {} longs)", grouped(count)),
    };
    format!("reference price {} of position {highest}{among}", grouped(reference_price))
}

/// Quantity times latest price.
fn value(quantity: u32, short: u16, latest: u32) -> String {
    let value = u64::from(quantity) * u64::from(latest);
    let [units, latest, value] = [counted(quantity, "unit"), grouped(latest), grouped(value)];
    format!("{units} of position {short} at the latest price {latest} are {value};")
}

fn positions(played: &Played) -> String {
    let lines = played.book.positions().iter().zip(1..).map(|(position, number)| {
        let &Position { side, netted, delivered, bought_in, cash, paired, .. } = position;
        let [netted, delivered, bought_in, cash, paired, open] =
            [netted, delivered, bought_in, cash, paired, position.open()].map(grouped);
        format!(
            "position {number}: {}, {}: {netted} netted, {delivered} delivered, {bought_in} bought in, {cash} settled \
             in cash, {paired} paired, {open} open\n",
            kinds::holder(position),
            side_name(side)
        )
    });
    lines.collect()
}

/// The column of the accounts' table that holds words.
const HOLDERS: usize = 1;

/// A line for each account that a charge concerns: its charges by kind, and what they come to.
fn accounts(played: &Played) -> String {
    let concerned = |account: u8| {
        let mut charges = played.charges().map(|(_, charge)| charge).filter(|charge| !is_idle(charge));
        charges.any(|charge| [charge.payer, charge.payee].contains(&account))
    };
    let head = ["account", "holder"].into_iter().chain(KINDS.iter().map(|kind| kind.name())).chain(["cents in all"]);
    let mut rows: Vec<Row> = vec![head.map(str::to_string).collect()];
    for (&cents, account) in played.book.accounts().iter().zip(0..).filter(|&(_, account)| concerned(account)) {
        let kinds = KINDS.iter().map(|&kind| grouped(played.total(account, kind)));
        rows.push([account.to_string(), holder(account)].into_iter().chain(kinds).chain([grouped(cents)]).collect());
    }
    if rows.len() == 1 {
        return "no account was charged\n".to_string();
    }
    let widths = widths(&rows);
    rows.iter().map(|row| format!("{}\n", aligned(row, &widths, HOLDERS))).collect()
}
