//! Why a call was refused, in words: the one reason that applied, on the book that refused it.

use crate::kinds;
use crate::numbers::{counted, grouped};
use second::book::{
    Book, Position, Side, GREATEST_PRICE, GREATEST_QUANTITY, LAST_DAY, MEMBERS, MOST_OFFERS, MOST_TRADES,
};
use second::events::{Event, Party};
use second::refusal::Refusal;

/// What the event names, in its fields.
#[derive(Default)]
struct Named {
    security: u16,
    short: u16,
    /// Of a pair-off, whose field for it may hold more than any position's number.
    long: u32,
    award: u16,
    members: Vec<(&'static str, u8)>,
    /// The bytes of the kinds of a trade's sides.
    kinds: Vec<(&'static str, u8)>,
    quantity: u32,
    price: u32,
}

fn named(event: &Event) -> Named {
    match *event {
        Event::Trade { security, seller, buyer, quantity, price } => {
            let of_both = |field: fn(Party) -> u8| vec![("seller", field(seller)), ("buyer", field(buyer))];
            let [members, kinds] = [of_both(|party| party.member), of_both(|party| party.kind)];
            Named { security, members, kinds, quantity, price, ..Named::default() }
        }
        Event::Price { security, price } => Named { security, price, ..Named::default() },
        Event::Delivery { short, quantity } => Named { short, quantity, ..Named::default() },
        Event::Offer { short, offerer, quantity, price } => {
            Named { short, members: vec![("offerer", offerer)], quantity, price, ..Named::default() }
        }
        Event::Attempt { short } | Event::Award { short } | Event::Cash { short } => {
            Named { short, ..Named::default() }
        }
        Event::Confirm { award } => Named { award, ..Named::default() },
        Event::Close => Named::default(),
        Event::PairOff { short, long, quantity } => Named { short, long, quantity, ..Named::default() },
    }
}

pub fn reason(book: &Book, event: &Event, refusal: Refusal) -> String {
    let named = named(event);
    match refusal {
        Refusal::Member => member(&named),
        Refusal::Security => {
            let registered = counted(book.securities.len() as u64, "security");
            format!("security {} is not registered; the register has {registered}", grouped(named.security))
        }
        Refusal::NotThere => not_there(book, event, &named),
        Refusal::Quantity => quantity(named.quantity),
        Refusal::Price => price(named.price),
        Refusal::SellerIsBuyer => format!("seller is buyer, both sides {}", kinds::of_byte(named.kinds[0].1)),
        Refusal::TradeKind => trade_kind(&named),
        Refusal::TradesFull => format!("{MOST_TRADES} trades are held"),
        Refusal::Long => format!("position {} is long", grouped(named.short)),
        Refusal::Window => window(book, event, named.short),
        Refusal::NoPair => no_pair(book, &named),
        Refusal::Auction => auction(book, event, named.short),
        Refusal::NoPrice => format!("security {} never had a price", security_of(book, named.short)),
        Refusal::OldPrice => old_price(book, named.short),
        Refusal::Attempts => attempts(book, named.short),
        Refusal::Failing => {
            let security = security_of(book, named.short);
            format!("member {} is failing in security {security}", named.members[0].1)
        }
        Refusal::Ceiling => ceiling(book, named.price),
        Refusal::OffersFull => format!("{MOST_OFFERS} offers are in"),
        Refusal::NotFree => not_free(book, event, &named),
        Refusal::Confirmed => format!("award {} is confirmed already", grouped(named.award)),
        Refusal::LastDay => format!("it is day {}", grouped(LAST_DAY)),
        // A sheet of the player suffices, and the other numbers are not those of calls.
        _ => "no event of a file is refused like this".to_string(),
    }
}

/// The place of a position that is there.
fn place(number: impl Into<u32>) -> usize {
    number.into() as usize - 1
}

fn position(book: &Book, number: impl Into<u32>) -> &Position {
    &book.positions[place(number)]
}

fn security_of(book: &Book, short: u16) -> usize {
    position(book, short).security + 1
}

fn member(named: &Named) -> String {
    let is_member = |&(_, number): &(&str, u8)| (1..=MEMBERS).contains(&usize::from(number));
    let wrong: Vec<String> = named
        .members
        .iter()
        .filter(|member| !is_member(member))
        .map(|(role, number)| format!("the {role} {number} is not a member from 1 to {MEMBERS}"))
        .collect();
    wrong.join(", and ")
}

fn trade_kind(named: &Named) -> String {
    let wrong: Vec<String> = named
        .kinds
        .iter()
        .filter(|(_, byte)| kinds::name_of_byte(*byte).is_none())
        .map(|(role, byte)| format!("the {role}'s kind is {byte}, not own or client"))
        .collect();
    wrong.join(", and ")
}

fn not_there(book: &Book, event: &Event, named: &Named) -> String {
    match event {
        Event::Confirm { .. } => {
            let made = match book.awards.len() {
                0 => "none was made today".to_string(),
                1 => "today has award 1 alone".to_string(),
                count => format!("today has awards 1 to {count}"),
            };
            format!("award {} is not there; {made}", grouped(named.award))
        }
        Event::PairOff { .. } => positions_not_there(book, [named.short.into(), named.long]),
        _ => position_not_there(book, named.short.into()),
    }
}

fn position_not_there(book: &Book, number: u32) -> String {
    format!("position {} is not there; {}", grouped(number), positions_there(book))
}

/// Either position of a pair-off, or both.
fn positions_not_there(book: &Book, [short, long]: [u32; 2]) -> String {
    let is_there = |number: u32| (1..=book.positions.len()).contains(&(number as usize));
    match [is_there(short), is_there(long)] {
        [false, false] if short != long => {
            let [short, long] = [short, long].map(grouped);
            format!("positions {short} and {long} are not there; {}", positions_there(book))
        }
        [false, _] => position_not_there(book, short),
        _ => position_not_there(book, long),
    }
}

fn positions_there(book: &Book) -> String {
    match book.positions.len() {
        0 => "there is none yet".to_string(),
        count => format!("there are positions 1 to {}", grouped(count as u64)),
    }
}

fn quantity(quantity: u32) -> String {
    match quantity {
        0 => "the quantity is 0".to_string(),
        _ => format!("the quantity is above {}", grouped(GREATEST_QUANTITY)),
    }
}

fn price(price: u32) -> String {
    match price {
        0 => "the price is 0".to_string(),
        _ => format!("the price is above {}", grouped(GREATEST_PRICE)),
    }
}

/// The windows go by the days since the delivery day.
fn window(book: &Book, event: &Event, short: u16) -> String {
    let position = position(book, short);
    let class = book.securities[position.security].class;
    let since = match (event, position.r(book.day)) {
        // It names two positions.
        (Event::PairOff { .. }, None) => format!("position {} {}", grouped(short), falls_due(position)),
        (_, None) => format!("the position {}", falls_due(position)),
        (_, Some(days)) => {
            format!("today is {} after the delivery day, {}", counted(days, "day"), grouped(position.delivery_day))
        }
    };
    let window = match (event, class) {
        (Event::Delivery { .. } | Event::PairOff { .. }, _) => return format!("outside the window: {since}"),
        (Event::Attempt { .. }, 1) => "an attempt is made on days 5 to 7 after it",
        (Event::Attempt { .. }, _) => "an attempt is made on days 27, 37, 47 and so on after it",
        (_, 1) => "a cash settlement is made from day 8 after it on",
        _ => "a cash settlement is made on days 30 to 36, 40 to 46, 50 to 56 and so on after it",
    };
    format!("outside the window: {since}, and {window}")
}

fn falls_due(position: &Position) -> String {
    format!("falls due on day {}", grouped(position.delivery_day))
}

fn no_pair(book: &Book, named: &Named) -> String {
    let [short, other] = [named.short.into(), named.long].map(|number| position(book, number));
    let why = match named.long == u32::from(named.short) {
        true => "it is the short itself".to_string(),
        false => why_no_pair(short, other, book.day),
    };
    let wanted = format!("{} in security {}", kinds::holder(short), short.security + 1);
    format!("position {} is no due long of {wanted}: {why}", grouped(named.long))
}

/// All in which the second position of a pair-off is not as it has to be.
fn why_no_pair(short: &Position, other: &Position, today: u16) -> String {
    let faults = [
        (other.side == Side::Short, "it is short".to_string()),
        (!other.is_due(today), format!("it {}", falls_due(other))),
        (other.member != short.member, format!("its member is {}", other.member)),
        (other.kind != short.kind, format!("its kind is {}", kinds::name(other.kind))),
        (other.security != short.security, format!("its security is {}", other.security + 1)),
    ];
    let faults: Vec<String> = faults.into_iter().filter(|(applies, _)| *applies).map(|(_, words)| words).collect();
    faults.join(", and ")
}

fn auction(book: &Book, event: &Event, short: u16) -> String {
    let running = book.auction.as_ref().map(|auction| auction.short + 1);
    match (event, running) {
        (Event::Delivery { .. } | Event::PairOff { .. }, _) => {
            format!("the auction runs on position {}", grouped(short))
        }
        (Event::Attempt { .. } | Event::Close, Some(other)) => {
            format!("an auction runs, on position {}", grouped(other as u64))
        }
        (_, None) => format!("no auction runs, so none on position {}", grouped(short)),
        (_, Some(other)) => {
            format!("the auction runs on position {} and not on position {}", grouped(other as u64), grouped(short))
        }
    }
}

fn old_price(book: &Book, short: u16) -> String {
    let security = security_of(book, short);
    let given = book.securities[security - 1].latest_price.map_or(0, |latest| latest.day);
    let [given, today] = [given, book.day].map(grouped);
    format!("the latest price of security {security} is of day {given}, and today is day {today}")
}

/// A second attempt on a short is one also where sixteen were opened, and is the nearer reason.
fn attempts(book: &Book, short: u16) -> String {
    if book.attempts.contains(&place(short)) {
        format!("an attempt was opened on position {} today", grouped(short))
    } else {
        "sixteen attempts were opened today".to_string()
    }
}

fn ceiling(book: &Book, price: u32) -> String {
    let ceiling = book.auction.as_ref().map_or(0, |auction| auction.ceiling);
    format!("the price {} exceeds the ceiling, {}", grouped(price), grouped(ceiling))
}

fn not_free(book: &Book, event: &Event, named: &Named) -> String {
    match event {
        Event::Delivery { .. } => free_of_short(book, named.short),
        Event::PairOff { .. } => too_much_to_pair(book, named),
        _ => format!("nothing of position {} is open", grouped(named.short)),
    }
}

/// What is free of a short, which is less than is wanted of it.
fn free_of_short(book: &Book, short: u16) -> String {
    let [free, open] = [book.free(place(short)), position(book, short).open()];
    match open - free {
        0 => units_of(open, short.into(), "open"),
        awarded => format!(
            "{}: {} open, of which awards that are not confirmed take {}",
            units_of(free, short.into(), "free"),
            grouped(open),
            grouped(awarded)
        ),
    }
}

/// As `7 units of position 1 are open`.
fn units_of(units: u32, position: u32, state: &str) -> String {
    let verb = if units == 1 { "is" } else { "are" };
    format!("{} of position {} {verb} {state}", counted(units, "unit"), grouped(position))
}

/// Either position of a pair-off may have less than is to be paired. No awards are made on a long.
fn too_much_to_pair(book: &Book, named: &Named) -> String {
    let open = position(book, named.long).open();
    let of_short = (named.quantity > book.free(place(named.short))).then(|| free_of_short(book, named.short));
    let of_long = (named.quantity > open).then(|| units_of(open, named.long, "open"));
    of_short.into_iter().chain(of_long).collect::<Vec<_>>().join(", and ")
}
