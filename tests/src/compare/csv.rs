//! The table for a spreadsheet: its rows on an example, and on histories all that is read back from it.

use super::player::shown;
use super::walk::played;
use super::{kind_name, same};
use crate::check::{Check, Round, Tests};
use fails_book_tests::histories;
use second::book::{Cause, Charge, Position};
use second::events::Event;
use std::collections::{BTreeMap, BTreeSet};
use tools::check::Source;
use tools::csv;
use tools::played::{Kind, Played, Step};
use tools::text::{self, Input};

/// An example's name, its text and its table.
const EXAMPLES: [(&str, &str, &str); 2] = [
    ("squeeze", include_str!("../../../examples/squeeze.txt"), include_str!("../../../examples/squeeze.csv")),
    ("pairoff", include_str!("../../../examples/pairoff.txt"), include_str!("../../../examples/pairoff.csv")),
];

const HISTORIES: usize = 300;
const LONG_HISTORIES: usize = 4;

const COLUMNS: [&str; 33] = [
    "record",
    "event",
    "day",
    "line",
    "kind",
    "security",
    "isin",
    "position",
    "long",
    "award",
    "member",
    "member_kind",
    "counterparty",
    "counterparty_kind",
    "side",
    "stated_quantity",
    "quantity",
    "price",
    "latest_price",
    "reference_price",
    "delivery_day",
    "netted",
    "delivered",
    "bought_in",
    "cash",
    "paired",
    "open",
    "manner",
    "charge",
    "cents",
    "refusal",
    "reason",
    "text",
];

/// The columns that a record uses besides `record`, in the order above.
const USED: [(&str, &str); 5] = [
    (
        "event",
        "event day line kind security isin position long award member member_kind counterparty counterparty_kind \
         stated_quantity quantity price refusal reason text",
    ),
    (
        "piece",
        "event day line kind security isin position long member member_kind counterparty counterparty_kind quantity \
         manner cents",
    ),
    (
        "position",
        "event day line kind security isin position member member_kind side reference_price delivery_day netted \
         delivered bought_in cash paired open",
    ),
    (
        "charge",
        "event day line kind security isin position long award member counterparty quantity price latest_price \
         reference_price charge cents text",
    ),
    ("account", "member cents text"),
];

/// Texts and their fields.
const FIELDS: [(&str, &str); 14] = [
    ("", ""),
    ("late fine", "late fine"),
    ("buy-in", "buy-in"),
    ("at 1,100", "\"at 1,100\""),
    ("the \"house\"", "\"the \"\"house\"\"\""),
    ("two\nlines", "\"two\nlines\""),
    ("two\r\nlines", "\"two\r\nlines\""),
    ("=1+1", "'=1+1"),
    ("+1", "'+1"),
    ("-1", "'-1"),
    ("@sum", "'@sum"),
    ("\t1", "'\t1"),
    ("\r1", "\"'\r1\""),
    ("=\"a\",1", "\"'=\"\"a\"\",1\""),
];

pub fn exhaustive(tests: &mut Tests) {
    tests.check("csv: the squeeze and the pair-offs", &[], |check| {
        for (name, text, wanted) in EXAMPLES {
            let source = Source::of_text(text.as_bytes());
            let table = source.and_then(|source| played(&source)).map(|play| play.map(|(played, _)| csv::csv(&played)));
            same(check, || format!("{name}.txt"), table, Ok(Some(wanted.to_string())));
        }
    });
    tests.check("csv: fields of text", &[], |check| {
        for (text, field) in FIELDS {
            same(check, || format!("{text:?}"), csv::text_field(text), field.to_string());
        }
    });
}

pub fn seeded(round: &mut Round) {
    round.check("csv: histories", &[], |check, random| {
        let mut used = BTreeSet::new();
        for which in 0..HISTORIES + LONG_HISTORIES {
            let input = if which < HISTORIES { histories::any(random) } else { histories::long(random, which) };
            compare(check, &input, &mut used);
        }
        for (record, columns) in USED {
            let found: Vec<&str> =
                COLUMNS.into_iter().filter(|&column| used.contains(&(record.to_string(), column))).collect();
            same(check, || record.to_string(), found.join(" "), format!("record {columns}"));
        }
    });
}

/// A row by its columns.
type Record = BTreeMap<&'static str, String>;

/// Plays the input as a text, so that events have lines, and compares all that is read back from its table.
fn compare(check: &mut Check, input: &[u8], used: &mut BTreeSet<(String, &'static str)>) {
    let Some(source) = as_text(input) else {
        return;
    };
    let (played, output) = match played(&source) {
        Ok(Some(play)) => play,
        Ok(None) => return,
        Err(wrong) => return same(check, || shown(input), Err(wrong), Ok(())),
    };
    let records = match records(&csv::csv(&played)) {
        Ok(records) => records,
        Err(wrong) => return same(check, || shown(input), Err(wrong), Ok(())),
    };
    let filled = |record: &Record| {
        let filled: Vec<_> = record.iter().filter(|(_, field)| !field.is_empty()).map(|(&column, _)| column).collect();
        filled.into_iter().map(|column| (record["record"].clone(), column)).collect::<Vec<_>>()
    };
    used.extend(records.iter().flat_map(filled));
    same(check, || shown(input), transcript_of(&records), String::from_utf8_lossy(&output).into_owned());
    same(check, || shown(input), events_of(&records), events_wanted(&source, &played));
    same(check, || shown(input), securities_of(&records), securities_wanted(&played));
    same(check, || shown(input), pieces_of(&records), pieces_wanted(&played));
    same(check, || shown(input), positions_of(&records), positions_wanted(&played));
    same(check, || shown(input), charges_of(&records), charges_wanted(&played));
    same(check, || shown(input), sums_of(&records), accounts_of(&records));
}

/// The source of the input's text; none where the input is refused.
fn as_text(input: &[u8]) -> Option<Source> {
    let text = Input::from_bytes(input).and_then(|input| text::write(&input)).ok()?;
    Source::of_text(text.as_bytes()).ok()
}

/// The rows under the heading, each with as many fields as that.
fn records(table: &str) -> Result<Vec<Record>, String> {
    let rows = read(table)?;
    let (heading, rows) = rows.split_first().ok_or("the table is empty")?;
    if heading[..] != COLUMNS {
        return Err(format!("the heading is {heading:?}"));
    }
    match rows.iter().find(|row| row.len() != COLUMNS.len()) {
        Some(row) => Err(format!("a row has {} fields: {row:?}", row.len())),
        None => Ok(rows.iter().map(|row| COLUMNS.into_iter().zip(row.iter().cloned()).collect()).collect()),
    }
}

/// RFC 4180's rows, each of which ends with CR LF.
fn read(table: &str) -> Result<Vec<Vec<String>>, String> {
    let mut rows = Vec::new();
    let mut fields = Vec::new();
    let mut rest = table;
    while !rest.is_empty() {
        let (field, after) = field(rest)?;
        fields.push(field);
        rest = match (after.strip_prefix(','), after.strip_prefix("\r\n")) {
            (Some(next), _) => next,
            (None, Some(next)) => {
                rows.push(std::mem::take(&mut fields));
                next
            }
            (None, None) => return Err(format!("a field ends before {:?}", after.chars().next())),
        };
    }
    match fields[..] {
        [] => Ok(rows),
        _ => Err("the last row has no end".to_string()),
    }
}

/// The field at the start of the text, and what follows it.
fn field(text: &str) -> Result<(String, &str), String> {
    let Some(mut rest) = text.strip_prefix('"') else {
        let end = text.find([',', '"', '\r', '\n']).unwrap_or(text.len());
        return Ok((text[..end].to_string(), &text[end..]));
    };
    let mut field = String::new();
    while let Some((part, after)) = rest.split_once('"') {
        field += part;
        match after.strip_prefix('"') {
            Some(more) => rest = more,
            None => return Ok((field, after)),
        }
        field.push('"');
    }
    Err("a field in quotes has no end".to_string())
}

/// The fields of these columns in the rows of a record, each row as words.
fn fields_of(records: &[Record], record: &str, columns: &str) -> Vec<String> {
    let row = |row: &Record| columns.split(' ').map(|column| row[column].as_str()).collect::<Vec<_>>().join(" ");
    records.iter().filter(|row| row["record"] == record).map(row).collect()
}

/// The player's lines, from the table's numbers.
fn transcript_of(records: &[Record]) -> String {
    let mut events: BTreeMap<usize, String> = BTreeMap::new();
    let mut others = String::new();
    for row in records {
        let line = |columns: &str| fields_of(std::slice::from_ref(row), &row["record"], columns).concat();
        let event: usize = row["event"].parse().unwrap_or(0);
        match row["record"].as_str() {
            "event" => *events.entry(event).or_default() += &format!("e {}\n", line("event refusal quantity")),
            "piece" => *events.entry(event).or_default() += &format!("p {}\n", line("position long quantity cents")),
            "position" => {
                let side = if row["side"] == "short" { "D" } else { "R" };
                let [first, last] = ["position member", "netted delivered bought_in cash paired open"].map(line);
                others += &format!("s {first} {side} {last}\n");
            }
            "account" => others += &format!("a {}\n", line("member cents")),
            _ => {}
        }
    }
    events.into_values().chain([others]).collect()
}

/// Each event's day and line, its own line of the text, and its reason if it was refused.
fn events_of(records: &[Record]) -> Vec<String> {
    let event = |row: &Record| {
        let columns = match row["kind"].as_str() {
            "trade" if row["member_kind"] == "own" && row["counterparty_kind"] == "own" => {
                "kind member counterparty security stated_quantity price"
            }
            "trade" => "kind member member_kind counterparty counterparty_kind security stated_quantity price",
            "price" => "kind security price",
            "delivery" => "kind position stated_quantity",
            "pair" => "kind position long stated_quantity",
            "offer" => "kind position member stated_quantity price",
            "confirm" => "kind award",
            "close" => "kind",
            _ => "kind position",
        };
        fields_of(std::slice::from_ref(row), "event", &format!("day line {columns} reason")).concat()
    };
    records.iter().filter(|row| row["record"] == "event").map(event).collect()
}

fn events_wanted(source: &Source, played: &Played) -> Vec<String> {
    let text = Input::from_bytes(&source.bytes).and_then(|input| text::write(&input)).unwrap_or_default();
    // Where a text has the word kind and a number, the table has the number.
    let text = text.replace(" kind ", " ");
    let lines = text.lines().skip(played.register.len());
    let event = |(step, line): (&Step, &str)| {
        let reason = step.result.as_ref().err().map_or("", |refused| refused.reason.as_str());
        format!("{} {} {line} {reason}", step.day, step.line.unwrap_or(0))
    };
    played.steps.iter().zip(lines).map(event).collect()
}

/// The security of each event, with its ISIN.
fn securities_of(records: &[Record]) -> Vec<String> {
    fields_of(records, "event", "event security isin")
}

fn securities_wanted(played: &Played) -> Vec<String> {
    played.steps.iter().map(|step| format!("{} {}", step.number, security_wanted(played, step))).collect()
}

/// What a trade or price says, whether it is registered or not; else the security of the position, if it was accepted.
fn security_wanted(played: &Played, step: &Step) -> String {
    let with_isin = |security: usize| format!("{} {}", security + 1, isin(played, security));
    match (step.event, &step.result) {
        (Event::Trade { security, .. } | Event::Price { security, .. }, _) => {
            match usize::from(security).checked_sub(1).filter(|&place| place < played.register.len()) {
                Some(place) => with_isin(place),
                None => format!("{security} "),
            }
        }
        (Event::Close, _) | (_, Err(_)) => " ".to_string(),
        (Event::Confirm { .. }, Ok(done)) => with_isin(played.position(done.pieces[0].short).security),
        (
            Event::Delivery { short, .. }
            | Event::Attempt { short }
            | Event::Offer { short, .. }
            | Event::Award { short }
            | Event::Cash { short }
            | Event::PairOff { short, .. },
            Ok(_),
        ) => with_isin(played.position(short).security),
    }
}

fn pieces_of(records: &[Record]) -> Vec<String> {
    let columns =
        "event day isin position long member member_kind counterparty counterparty_kind quantity manner cents";
    fields_of(records, "piece", columns)
}

fn pieces_wanted(played: &Played) -> Vec<String> {
    let mut rows = Vec::new();
    for step in &played.steps {
        let manner = match step.event {
            Event::Delivery { .. } => "delivered",
            Event::Confirm { .. } => "bought in",
            Event::PairOff { .. } => "paired",
            _ => "cash",
        };
        let pieces = step.result.iter().flat_map(|done| &done.pieces);
        rows.extend(pieces.map(|piece| {
            let [short, long] = [piece.short, piece.long].map(|number| played.position(number));
            let of_event = format!("{} {} {}", step.number, step.day, isin(played, short.security));
            let [from, to] = [short, long].map(|position| format!("{} {}", position.member, kind_name(position.kind)));
            format!("{of_event} {} {} {from} {to} {} {manner} {}", piece.short, piece.long, piece.quantity, piece.cents)
        }));
    }
    rows
}

fn isin(played: &Played, security: usize) -> String {
    String::from_utf8_lossy(&played.register[security].1).into_owned()
}

fn positions_of(records: &[Record]) -> Vec<String> {
    fields_of(records, "position", "position member_kind security isin delivery_day reference_price day kind")
}

fn positions_wanted(played: &Played) -> Vec<String> {
    let position = |(position, number): (&Position, usize)| {
        let [security, made] = [position.security + 1, usize::from(position.delivery_day) - 2];
        let isin = isin(played, position.security);
        let price = position.reference_price;
        let kind = kind_name(position.kind);
        format!("{number} {kind} {security} {isin} {} {price} {made} close", position.delivery_day)
    };
    played.book.positions().iter().zip(1..).map(position).collect()
}

fn charges_of(records: &[Record]) -> Vec<String> {
    let columns =
        "event charge member counterparty cents position long award quantity price reference_price latest_price";
    fields_of(records, "charge", columns)
}

/// All but fines on nothing.
fn charges_wanted(played: &Played) -> Vec<String> {
    let charges = played.charges().filter(|(_, charge)| !matches!(charge.cause, Cause::Late { quantity: 0, .. }));
    charges.map(|(step, charge)| charge_wanted(step, charge)).collect()
}

fn charge_wanted(step: &Step, charge: &Charge) -> String {
    let figures = match charge.cause {
        Cause::BuyIn { award, short, quantity, price, reference_price } => {
            format!("{short}  {award} {quantity} {price} {reference_price} ")
        }
        Cause::Payment { short, long, quantity, short_reference, latest, price, .. } => {
            format!("{short} {long}  {quantity} {price} {short_reference} {latest}")
        }
        Cause::Fee { short, quantity, latest } | Cause::Late { short, quantity, latest } => {
            format!("{short}   {quantity}   {latest}")
        }
        Cause::UnconfirmedAward { award, short, quantity, latest } => format!("{short}  {award} {quantity}   {latest}"),
    };
    let Charge { payer, payee, cents, .. } = charge;
    format!("{} {} {payer} {payee} {cents} {figures}", step.number, Kind::of(charge).name())
}

/// What the table's charges come to, by account.
fn sums_of(records: &[Record]) -> BTreeMap<u8, i64> {
    let mut sums = BTreeMap::new();
    for row in records.iter().filter(|row| row["record"] == "charge") {
        let cents: i64 = row["cents"].parse().unwrap_or(0);
        *sums.entry(row["member"].parse().unwrap_or(0)).or_default() -= cents;
        *sums.entry(row["counterparty"].parse().unwrap_or(0)).or_default() += cents;
    }
    sums.retain(|_, &mut cents| cents != 0);
    sums
}

fn accounts_of(records: &[Record]) -> BTreeMap<u8, i64> {
    let accounts = records.iter().filter(|row| row["record"] == "account");
    accounts.map(|row| (row["member"].parse().unwrap_or(0), row["cents"].parse().unwrap_or(0))).collect()
}
