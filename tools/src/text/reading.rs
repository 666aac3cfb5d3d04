//! Text read to a register and events.

use super::{is_writable, Input, MOST};
use crate::numbers::{grouped, there};
use second::events::{Event, Party};
use second::register::{Security, ISIN_BYTES as ISIN_SIGNS};

/// The bytes of the two kinds.
const OWN: u8 = Party::own(0).kind;
const CLIENT: u8 = Party::client(0).kind;

/// A word of a message has at most so many signs.
const MOST_SHOWN: usize = 40;

/// Takes any bytes: those that are no text matter only where they are part of a field.
pub fn read(bytes: &[u8]) -> Result<Input, String> {
    if let Some(mark) = byte_order_mark(bytes) {
        return Err(format!("line 1: the text begins with a byte order mark of {mark}; save it as UTF-8 without one"));
    }
    let text = String::from_utf8_lossy(bytes);
    let mut input = Input::default();
    let mut last = 1;
    for (line, number) in text.lines().zip(1..) {
        add(&mut input, line).map_err(|wrong| format!("line {number}: {wrong}"))?;
        input.lines.securities.resize(input.register.len(), number);
        input.lines.events.resize(input.events.len(), number);
        last = number;
    }
    if input.register.is_empty() {
        return Err(format!("line {last}: the text ends without a security"));
    }
    Ok(input)
}

/// The form of the text that a byte order mark at its start names.
pub fn byte_order_mark(bytes: &[u8]) -> Option<&'static str> {
    match bytes {
        [0xef, 0xbb, 0xbf, ..] => Some("UTF-8"),
        [0xff, 0xfe, ..] | [0xfe, 0xff, ..] => Some("UTF-16"),
        _ => None,
    }
}

/// The word in quotation marks, cut off where it is long.
fn quoted(word: &str) -> String {
    match word.char_indices().nth(MOST_SHOWN) {
        None => format!("{word:?}"),
        Some((end, _)) => format!("{:?} and so on, {} signs", &word[..end], grouped(word.chars().count() as u64)),
    }
}

fn add(input: &mut Input, line: &str) -> Result<(), String> {
    let words = words_of(line);
    let Some((&first, fields)) = words.split_first() else {
        return Ok(());
    };
    if first == "security" {
        return add_security(input, fields);
    }
    let (event, times) = if first == "close" { (Event::Close, closes(fields)?) } else { (event(first, fields)?, 1) };
    if input.register.is_empty() {
        return Err("an event stands before the first security".to_string());
    }
    if input.events.len() + times > MOST {
        return Err(format!("more than {} events", grouped(MOST as u64)));
    }
    input.events.extend(std::iter::repeat_n(event, times));
    Ok(())
}

fn add_security(input: &mut Input, fields: &[&str]) -> Result<(), String> {
    let security = security(fields)?;
    if !input.events.is_empty() {
        return Err("a security stands after the first event".to_string());
    }
    if input.register.len() == MOST {
        return Err(format!("more than {} securities", grouped(MOST as u64)));
    }
    input.register.push(security);
    Ok(())
}

/// The line's words, without its comment.
fn words_of(line: &str) -> Vec<&str> {
    let words = line.split_whitespace().enumerate();
    if line.split_whitespace().next() == Some("security") {
        // An ISIN may have any sign in any place, so a comment begins with a word, and not with one of an ISIN's
        // length in the ISIN's place.
        let is_comment = |at: usize, word: &str| word.starts_with('#') && (at != 2 || word.len() != ISIN_SIGNS);
        return words.take_while(|&(at, word)| !is_comment(at, word)).map(|(_, word)| word).collect();
    }
    line.split('#').next().into_iter().flat_map(str::split_whitespace).collect()
}

fn security(fields: &[&str]) -> Result<Security, String> {
    if let Some((isin, _)) =
        fields.get(1).and_then(|word| word.split_once('#')).filter(|(isin, _)| isin.len() == ISIN_SIGNS)
    {
        return Err(format!("a comment in a security's line begins after a blank, as in {isin} #"));
    }
    let &[class, isin] = fields else {
        return Err(format!("security takes 2 fields (class, ISIN), and {}", there(fields.len())));
    };
    let class = Field { name: "class", word: class }.number()?;
    let wrong = || format!("an ISIN is {ISIN_SIGNS} ASCII signs without blanks, and {} is not", quoted(isin));
    let isin: &[u8; ISIN_SIGNS] = isin.as_bytes().try_into().map_err(|_| wrong())?;
    if is_writable(isin) {
        Ok((class, *isin))
    } else {
        Err(wrong())
    }
}

fn closes(fields: &[&str]) -> Result<usize, String> {
    match *fields {
        [] => Ok(1),
        [word] => match (Field { name: "count of closes", word }).number::<u16>()? {
            0 => Err("the count of closes is 0".to_string()),
            count => Ok(usize::from(count)),
        },
        _ => Err(format!("close takes at most 1 number (count of closes), and {}", there(fields.len()))),
    }
}

fn event(word: &str, fields: &[&str]) -> Result<Event, String> {
    let only = |name| named(word, fields, [name]).and_then(|[field]| field.number());
    Ok(match word {
        "trade" => trade(word, fields)?,
        "price" => {
            let [security, price] = named(word, fields, ["security", "price"])?;
            Event::Price { security: security.number()?, price: price.number()? }
        }
        "delivery" => {
            let [position, quantity] = named(word, fields, ["position", "quantity"])?;
            Event::Delivery { short: position.number()?, quantity: quantity.number()? }
        }
        "offer" => offer(named(word, fields, ["position", "offerer", "quantity", "price"])?)?,
        "attempt" => Event::Attempt { short: only("position")? },
        "award" => Event::Award { short: only("position")? },
        "confirm" => Event::Confirm { award: only("award")? },
        "cash" => Event::Cash { short: only("position")? },
        "pair" => pair_off(named(word, fields, ["short", "long", "quantity"])?)?,
        _ => return Err(format!("unknown word {}", quoted(word))),
    })
}

fn trade(word: &str, fields: &[&str]) -> Result<Event, String> {
    let (numbers, [seller_kind, buyer_kind]) = without_kinds(fields)?;
    let names = ["seller", "buyer", "security", "quantity", "price"];
    let [seller, buyer, security, quantity, price] = named(word, &numbers, names)?;
    Ok(Event::Trade {
        seller: Party { member: seller.number()?, kind: seller_kind },
        buyer: Party { member: buyer.number()?, kind: buyer_kind },
        security: security.number()?,
        quantity: quantity.number()?,
        price: price.number()?,
    })
}

/// The numbers of a trade, and the kinds of its two sides. A kind that is left out is own.
fn without_kinds<'a>(words: &[&'a str]) -> Result<(Vec<&'a str>, [u8; 2]), String> {
    let mut numbers = Vec::new();
    let mut kinds = [OWN; 2];
    let mut rest = words;
    for (kind, name) in kinds.iter_mut().zip(["seller's kind", "buyer's kind"]) {
        let Some((&member, after)) = rest.split_first() else { break };
        numbers.push(member);
        (*kind, rest) = kind_before(name, after)?;
    }
    numbers.extend(rest);
    match numbers.iter().find(|word| ["own", "client", "kind"].contains(word)) {
        Some(word) => {
            Err(format!("a kind stands directly after the seller or the buyer, and {} does not", quoted(word)))
        }
        None => Ok((numbers, kinds)),
    }
}

/// The kind at the start of the words, and those after it.
fn kind_before<'a, 'b>(name: &'static str, words: &'a [&'b str]) -> Result<(u8, &'a [&'b str]), String> {
    match *words {
        ["own", ref rest @ ..] => Ok((OWN, rest)),
        ["client", ref rest @ ..] => Ok((CLIENT, rest)),
        ["kind", word, ref rest @ ..] => Ok((Field { name, word }.number()?, rest)),
        ["kind"] => Err(format!("the {name} has no number after the word kind")),
        _ => Ok((OWN, words)),
    }
}

fn offer([position, offerer, quantity, price]: [Field; 4]) -> Result<Event, String> {
    Ok(Event::Offer {
        short: position.number()?,
        offerer: offerer.number()?,
        quantity: quantity.number()?,
        price: price.number()?,
    })
}

/// The long stands in the field that other events have for a price, and may be as large as one.
fn pair_off([short, long, quantity]: [Field; 3]) -> Result<Event, String> {
    Ok(Event::PairOff { short: short.number()?, long: long.number()?, quantity: quantity.number()? })
}

/// A field's name, and the word in its place.
#[derive(Clone, Copy)]
struct Field<'a> {
    name: &'static str,
    word: &'a str,
}

fn named<'a, const N: usize>(
    event: &str,
    words: &[&'a str],
    names: [&'static str; N],
) -> Result<[Field<'a>; N], String> {
    let words: [&str; N] = words.try_into().map_err(|_| {
        let numbers = if N == 1 { "number" } else { "numbers" };
        format!("{event} takes {N} {numbers} ({}), and {}", names.join(", "), there(words.len()))
    })?;
    Ok(std::array::from_fn(|at| Field { name: names[at], word: words[at] }))
}

impl Field<'_> {
    /// The number, if it fits the width that the layout has for it.
    fn number<T: TryFrom<u64>>(self) -> Result<T, String> {
        let Field { name, word } = self;
        let groups: Vec<&str> = word.split(['_', ',']).collect();
        let digits = groups.concat();
        if digits.is_empty() || !digits.bytes().all(|byte| byte.is_ascii_digit()) {
            return Err(format!("the {name} is no number: {}", quoted(word)));
        }
        // A comma may also be meant as a decimal one; then what follows it is seldom three digits.
        let whole = groups.len() == 1 || (1..=3).contains(&groups[0].len());
        if !whole || groups[1..].iter().any(|group| group.len() != 3) {
            return Err(format!("the {name} is not in groups of three digits: {}", quoted(word)));
        }
        // Digits that are no word of 64 bits are too many for each field.
        digits.parse().ok().and_then(|number: u64| T::try_from(number).ok()).ok_or_else(|| {
            let largest = u64::MAX >> (u64::BITS as usize - 8 * size_of::<T>());
            let shown = if word.len() > MOST_SHOWN { quoted(word) } else { word.to_string() };
            format!("the {name} is too large: {shown}, and its field holds at most {}", grouped(largest))
        })
    }
}
