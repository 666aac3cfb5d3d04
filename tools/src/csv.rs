//! A play as one table for a spreadsheet, in the form of RFC 4180: a heading, then a row for each event, piece,
//! position, charge and account, all with the same columns. A column that a row has no use for is empty there.
//!
//! - `record`: event, piece, position, charge or account; the rows come in this order.
//! - `event`, `day`, `line`, `kind`: the event's number, its business day, its line of the text if there was one, and
//!   the word of its kind. A piece or charge has those of the event that made it, a position those of its close.
//! - `security`, `isin`: of the trade or price, or of the position. An event has its position's where it was accepted.
//! - `position`: the event's position; the short of a piece or charge; a position's own number. A confirmation has the
//!   short that it discharged.
//! - `long`: the long that a pair-off names, whether it is there or not; the long of a piece or payment.
//! - `award`: the award of a confirmation, buy-in difference or fine.
//! - `member`: seller or offerer; the member of the position or of the piece's short; who pays; the account. 0 is the
//!   house.
//! - `member_kind`: own or client, of the seller, the position or the piece's short; a byte that is no kind by its number.
//!   Who offers or pays does so for its one account and has none.
//! - `counterparty`: buyer; the member of the piece's long; who is paid.
//! - `counterparty_kind`: as `member_kind`, of the buyer or the piece's long.
//! - `side`: of a position: short or long.
//! - `stated_quantity`: what a trade, delivery, offer or pair-off says, whether it is accepted or not.
//! - `quantity`: what the player answers to the event; the units of a piece or charge.
//! - `price`: of a trade, price or offer; of the award in a buy-in difference; a unit's price in a payment, one for all
//!   payments of a cash settlement.
//! - `latest_price`: the security's, where a charge comes from it.
//! - `reference_price`: of a position; of the short in a buy-in difference or payment.
//! - `delivery_day`, `netted`, `delivered`, `bought_in`, `cash`, `paired`, `open`: of a position.
//! - `manner`: of a piece: delivered, bought in, cash or paired.
//! - `charge`: what the charge is for.
//! - `cents`: of a piece, charge or account. A charge below 0 is a credit to `member`.
//! - `refusal`, `reason`: of an event, its refusal's number or 0, and why in words.
//! - `text`: an event, a charge's figures or an account's holder in words.
//!
//! A fine on a short of which nothing is open is no row, and neither is an account of 0 cents.

use crate::kinds;
use crate::played::{holder, manner_name, side_name, Done, Kind, Played, Refused, Step};
use crate::words;
use second::book::{Cause, Charge, Piece, Position};
use second::events::Event;

pub fn csv(played: &Played) -> String {
    let heading = Row::default().fields().map(|(name, _)| name.to_string()).join(",");
    let events = played.steps.iter().map(|step| event(played, step));
    let ends = positions(played).chain(charges(played)).chain(accounts(played));
    let lines =
        events.chain(pieces(played)).chain(ends).map(|row| row.fields().map(|(_, field)| field.written()).join(","));
    [heading].into_iter().chain(lines).map(|line| line + "\r\n").collect()
}

#[derive(Clone, Default)]
enum Field {
    #[default]
    Empty,
    Number(i128),
    Text(String),
}

impl Field {
    fn written(&self) -> String {
        match self {
            Field::Empty => String::new(),
            Field::Number(number) => number.to_string(),
            Field::Text(text) => text_field(text),
        }
    }
}

/// A text as a field. One that a spreadsheet would take for a formula gets an apostrophe before it.
pub fn text_field(text: &str) -> String {
    let guard = if text.starts_with(['=', '+', '-', '@', '\t', '\r']) { "'" } else { "" };
    if text.contains([',', '"', '\r', '\n']) {
        format!("\"{guard}{}\"", text.replace('"', "\"\""))
    } else {
        format!("{guard}{text}")
    }
}

fn number(number: impl Into<i128>) -> Field {
    Field::Number(number.into())
}

fn text(text: impl Into<String>) -> Field {
    Field::Text(text.into())
}

#[derive(Clone, Default)]
struct Row {
    record: Field,
    event: Field,
    day: Field,
    line: Field,
    kind: Field,
    security: Field,
    isin: Field,
    position: Field,
    long: Field,
    award: Field,
    member: Field,
    member_kind: Field,
    counterparty: Field,
    counterparty_kind: Field,
    side: Field,
    stated_quantity: Field,
    quantity: Field,
    price: Field,
    latest_price: Field,
    reference_price: Field,
    delivery_day: Field,
    netted: Field,
    delivered: Field,
    bought_in: Field,
    cash: Field,
    paired: Field,
    open: Field,
    manner: Field,
    charge: Field,
    cents: Field,
    refusal: Field,
    reason: Field,
    text: Field,
}

impl Row {
    /// The columns in their order, by name.
    fn fields(&self) -> [(&'static str, &Field); 33] {
        [
            ("record", &self.record),
            ("event", &self.event),
            ("day", &self.day),
            ("line", &self.line),
            ("kind", &self.kind),
            ("security", &self.security),
            ("isin", &self.isin),
            ("position", &self.position),
            ("long", &self.long),
            ("award", &self.award),
            ("member", &self.member),
            ("member_kind", &self.member_kind),
            ("counterparty", &self.counterparty),
            ("counterparty_kind", &self.counterparty_kind),
            ("side", &self.side),
            ("stated_quantity", &self.stated_quantity),
            ("quantity", &self.quantity),
            ("price", &self.price),
            ("latest_price", &self.latest_price),
            ("reference_price", &self.reference_price),
            ("delivery_day", &self.delivery_day),
            ("netted", &self.netted),
            ("delivered", &self.delivered),
            ("bought_in", &self.bought_in),
            ("cash", &self.cash),
            ("paired", &self.paired),
            ("open", &self.open),
            ("manner", &self.manner),
            ("charge", &self.charge),
            ("cents", &self.cents),
            ("refusal", &self.refusal),
            ("reason", &self.reason),
            ("text", &self.text),
        ]
    }

    /// A row that belongs to an event.
    fn of(record: &str, step: &Step) -> Row {
        Row {
            record: text(record),
            event: number(step.number as u64),
            day: number(step.day),
            line: step.line.map_or(Field::Empty, |line| number(line as u64)),
            kind: text(kind(&step.event)),
            ..Row::default()
        }
    }

    /// With a security, which has an ISIN if it is registered.
    fn of_security(self, played: &Played, security: u16) -> Row {
        let registered = usize::from(security).checked_sub(1).and_then(|place| played.register.get(place));
        let isin = registered.map_or(Field::Empty, |(_, isin)| text(isin.escape_ascii().to_string()));
        Row { security: number(security), isin, ..self }
    }

    /// With a position that is there, and its security.
    fn of_position(self, played: &Played, position: u16) -> Row {
        let security = played.position(position).security as u16 + 1;
        Row { position: number(position), ..self }.of_security(played, security)
    }
}

/// The kind of a trade's side: its name, or the number of a byte that has none.
fn kind_of_byte(byte: u8) -> Field {
    kinds::name_of_byte(byte).map_or_else(|| number(byte), text)
}

fn kind_of(position: &Position) -> Field {
    text(kinds::name(position.kind))
}

/// As a text file has it.
fn kind(event: &Event) -> &'static str {
    match event {
        Event::Trade { .. } => "trade",
        Event::Price { .. } => "price",
        Event::Delivery { .. } => "delivery",
        Event::Attempt { .. } => "attempt",
        Event::Offer { .. } => "offer",
        Event::Award { .. } => "award",
        Event::Confirm { .. } => "confirm",
        Event::Cash { .. } => "cash",
        Event::Close => "close",
        Event::PairOff { .. } => "pair",
    }
}

fn event(played: &Played, step: &Step) -> Row {
    let row = stated(played, step);
    match &step.result {
        Ok(done) => {
            let row = Row { quantity: number(done.quantity), refusal: number(0), ..row };
            match position(step) {
                Some(position) => row.of_position(played, position),
                None => row,
            }
        }
        Err(Refused { refusal, reason }) => {
            Row { quantity: number(0), refusal: number(*refusal as u8), reason: text(reason), ..row }
        }
    }
}

/// What the event itself says.
fn stated(played: &Played, step: &Step) -> Row {
    let row = Row { text: text(words::call(step)), ..Row::of("event", step) };
    match step.event {
        Event::Trade { security, seller, buyer, quantity, price } => Row {
            member: number(seller.member),
            member_kind: kind_of_byte(seller.kind),
            counterparty: number(buyer.member),
            counterparty_kind: kind_of_byte(buyer.kind),
            stated_quantity: number(quantity),
            price: number(price),
            ..row.of_security(played, security)
        },
        Event::Price { security, price } => Row { price: number(price), ..row.of_security(played, security) },
        Event::Delivery { short, quantity } => {
            Row { position: number(short), stated_quantity: number(quantity), ..row }
        }
        Event::Offer { short, offerer, quantity, price } => Row {
            position: number(short),
            member: number(offerer),
            stated_quantity: number(quantity),
            price: number(price),
            ..row
        },
        Event::Attempt { short } | Event::Award { short } | Event::Cash { short } => {
            Row { position: number(short), ..row }
        }
        Event::Confirm { award } => Row { award: number(award), ..row },
        Event::Close => row,
        Event::PairOff { short, long, quantity } => {
            Row { position: number(short), long: number(long), stated_quantity: number(quantity), ..row }
        }
    }
}

/// The position of an accepted event, which is there.
fn position(step: &Step) -> Option<u16> {
    match step.event {
        Event::Trade { .. } | Event::Price { .. } | Event::Close => None,
        Event::Delivery { short, .. }
        | Event::Attempt { short }
        | Event::Offer { short, .. }
        | Event::Award { short }
        | Event::Cash { short }
        | Event::PairOff { short, .. } => Some(short),
        Event::Confirm { .. } => {
            step.result.as_ref().ok().and_then(|done| done.pieces.first()).map(|piece| piece.short)
        }
    }
}

/// The accepted events, each with what it did.
fn accepted(played: &Played) -> impl Iterator<Item = (&Step, &Done)> {
    played.steps.iter().filter_map(|step| step.result.as_ref().ok().map(|done| (step, done)))
}

fn pieces(played: &Played) -> impl Iterator<Item = Row> + '_ {
    let pieces = accepted(played).flat_map(|(step, done)| done.pieces.iter().map(move |piece| (step, piece)));
    pieces.map(|(step, piece)| piece_row(played, step, piece))
}

fn piece_row(played: &Played, step: &Step, piece: &Piece) -> Row {
    let &Piece { short, long, quantity, manner, cents } = piece;
    let [from, to] = [short, long].map(|position| played.position(position));
    Row {
        long: number(long),
        member: number(from.member),
        member_kind: kind_of(from),
        counterparty: number(to.member),
        counterparty_kind: kind_of(to),
        quantity: number(quantity),
        manner: text(manner_name(manner)),
        cents: number(cents),
        ..Row::of("piece", step).of_position(played, short)
    }
}

fn positions(played: &Played) -> impl Iterator<Item = Row> + '_ {
    let made = accepted(played).flat_map(|(step, done)| done.positions.clone().map(move |place| (step, place)));
    made.map(|(step, place)| position_row(played, step, place as u16 + 1))
}

fn position_row(played: &Played, step: &Step, position: u16) -> Row {
    let held = played.position(position);
    let &Position { member, side, netted, delivered, bought_in, cash, paired, .. } = held;
    Row {
        member: number(member),
        member_kind: kind_of(held),
        side: text(side_name(side)),
        reference_price: number(held.reference_price),
        delivery_day: number(held.delivery_day),
        netted: number(netted),
        delivered: number(delivered),
        bought_in: number(bought_in),
        cash: number(cash),
        paired: number(paired),
        open: number(held.open()),
        ..Row::of("position", step).of_position(played, position)
    }
}

fn charges(played: &Played) -> impl Iterator<Item = Row> + '_ {
    let charges = played.charges().filter(|(_, charge)| !words::is_idle(charge));
    charges.map(|(step, charge)| charge_row(played, step, charge))
}

fn charge_row(played: &Played, step: &Step, charge: &Charge) -> Row {
    let row = Row {
        member: number(charge.payer),
        counterparty: number(charge.payee),
        charge: text(Kind::of(charge).name()),
        cents: number(charge.cents),
        text: text(words::figures(played, charge)),
        ..Row::of("charge", step)
    };
    let (short, quantity, row) = match charge.cause {
        Cause::BuyIn { award, short, quantity, price, reference_price } => {
            let [award, price, reference_price] = [award.into(), price, reference_price].map(number);
            (short, quantity, Row { award, price, reference_price, ..row })
        }
        Cause::Payment { short, long, quantity, short_reference, latest, price, .. } => {
            let [long, reference_price, latest_price] = [long.into(), short_reference, latest].map(number);
            (short, quantity, Row { long, price: number(price), reference_price, latest_price, ..row })
        }
        Cause::UnconfirmedAward { award, short, quantity, latest } => {
            (short, quantity, Row { award: number(award), latest_price: number(latest), ..row })
        }
        Cause::Fee { short, quantity, latest } | Cause::Late { short, quantity, latest } => {
            (short, quantity, Row { latest_price: number(latest), ..row })
        }
    };
    Row { quantity: number(quantity), ..row }.of_position(played, short)
}

fn accounts(played: &Played) -> impl Iterator<Item = Row> + '_ {
    let accounts = played.book.accounts().iter().zip(0..).filter(|(&cents, _)| cents != 0);
    accounts.map(|(&cents, account)| account_row(account, cents))
}

fn account_row(account: u8, cents: i64) -> Row {
    Row {
        record: text("account"),
        member: number(account),
        cents: number(cents),
        text: text(holder(account)),
        ..Row::default()
    }
}
