//! Whether an input is refused by 1 to 7, by which number, and where.

use crate::numbers::{counted, grouped};
use crate::text::{self, Lines};
use second::events::{self, Event, MOST_EVENTS, WIDTH};
use second::refusal::{Located, Refusal};
use second::register::{self, ISIN_BYTES, MOST_SECURITIES};
use second::transcript;

/// What is to be played, with the lines that it stood in if it was a text.
#[derive(Clone, Debug, Default)]
pub struct Source {
    pub bytes: Vec<u8>,
    pub lines: Lines,
}

impl Source {
    pub fn of_text(text: &[u8]) -> Result<Source, String> {
        let input = text::read(text)?;
        Ok(Source { bytes: input.bytes(), lines: input.lines })
    }

    pub fn of_bytes(bytes: Vec<u8>) -> Source {
        Source { bytes, lines: Lines::default() }
    }

    /// In the form that the bytes have.
    pub fn of_either(bytes: Vec<u8>) -> Result<Source, String> {
        if is_text(&bytes) {
            Source::of_text(&bytes)
        } else {
            Ok(Source::of_bytes(bytes))
        }
    }
}

/// Whether the bytes are meant as text: they begin with a byte order mark, or have no control signs but those that part
/// words and lines. Every register and file that passes has zero bytes.
pub fn is_text(bytes: &[u8]) -> bool {
    let is_sign = |&byte: &u8| !byte.is_ascii_control() || byte.is_ascii_whitespace();
    !bytes.is_empty() && (text::byte_order_mark(bytes).is_some() || bytes.iter().all(is_sign))
}

/// Why an input is refused.
#[derive(Clone, Debug, PartialEq, Eq)]
pub struct Fault {
    pub refusal: Refusal,
    /// The reason, with the place that it stands in.
    pub words: String,
}

/// How many securities and events the input has, or why it is refused.
pub fn checked(source: &Source) -> Result<(usize, usize), Fault> {
    match transcript::read(&source.bytes) {
        Ok((register, events)) => Ok((register.len(), events.len())),
        Err(Located { refusal, number }) => Err(Fault { refusal, words: words(source, refusal, number) }),
    }
}

fn words(source: &Source, refusal: Refusal, number: Option<usize>) -> String {
    let Source { bytes, lines } = source;
    match (refusal, number) {
        (Refusal::RegisterSize, _) => register_size(bytes),
        (Refusal::Class | Refusal::Isin | Refusal::RepeatedIsin, Some(number)) => {
            format!("{}: {}", place("security", number, &lines.securities), security(source, refusal, number))
        }
        (Refusal::Kind | Refusal::Spare, Some(number)) => {
            format!("{}: {}", place("event", number, &lines.events), event(file(bytes), refusal, number))
        }
        _ => file_size(file(bytes)),
    }
}

/// As `security 2, line 3`; without a line where there is no text.
fn place(name: &str, number: usize, lines: &[usize]) -> String {
    match lines.get(number - 1) {
        Some(line) => format!("{name} {}, line {}", grouped(number as u64), grouped(*line as u64)),
        None => format!("{name} {}", grouped(number as u64)),
    }
}

fn register_size(bytes: &[u8]) -> String {
    let Some(&count) = bytes.first_chunk() else {
        return format!("the input has {}, and a register's count has 2", counted(bytes.len() as u64, "byte"));
    };
    let count = usize::from(u16::from_le_bytes(count));
    if !(1..=MOST_SECURITIES).contains(&count) {
        let securities = counted(count as u64, "security");
        return format!("{securities}; a register has at least 1 and at most {MOST_SECURITIES}");
    }
    let [length, found] = [register::length(count), bytes.len()].map(|number| grouped(number as u64));
    format!("a register of {} has {length} bytes, and the input has {found}", counted(count as u64, "security"))
}

fn security(source: &Source, refusal: Refusal, number: usize) -> String {
    let entry = |number: usize| {
        let count = usize::from(u16::from_le_bytes([source.bytes[0], source.bytes[1]]));
        let isin = 2 + count + ISIN_BYTES * (number - 1);
        (source.bytes[1 + number], &source.bytes[isin..isin + ISIN_BYTES])
    };
    let (class, isin) = entry(number);
    let shown = isin.escape_ascii();
    match refusal {
        Refusal::Class => format!("the class is {class} and not 1 to 3"),
        Refusal::Isin => format!("the ISIN {shown} is malformed"),
        _ => {
            let earlier = (1..number).find(|&earlier| entry(earlier).1 == isin).unwrap_or(number);
            let earlier = place("security", earlier, &source.lines.securities);
            format!("the ISIN {shown} stands earlier in the register ({earlier})")
        }
    }
}

/// What follows a register that has passed.
fn file(bytes: &[u8]) -> &[u8] {
    let count = bytes.first_chunk().map_or(0, |&count| usize::from(u16::from_le_bytes(count)));
    bytes.get(register::length(count)..).unwrap_or_default()
}

fn file_size(file: &[u8]) -> String {
    let Some(&[c0, c1, w0, w1]) = file.first_chunk() else {
        return format!("the file has {}, and its count and width have 4", counted(file.len() as u64, "byte"));
    };
    let [count, width] = [[c0, c1], [w0, w1]].map(|word| usize::from(u16::from_le_bytes(word)));
    if count > MOST_EVENTS {
        return format!("{}; a file has at most {}", counted(count as u64, "event"), grouped(MOST_EVENTS as u64));
    }
    if width != WIDTH {
        return format!("the body width is {} and not {WIDTH}", grouped(width as u64));
    }
    let [length, found] = [events::length(count), file.len()].map(|number| grouped(number as u64));
    format!("a file of {} has {length} bytes, and {found} follow the register", counted(count as u64, "event"))
}

fn event(file: &[u8], refusal: Refusal, number: usize) -> String {
    let count = usize::from(u16::from_le_bytes([file[0], file[1]]));
    let kind = file[3 + number];
    if refusal == Refusal::Kind {
        return format!("the kind is {kind} and not 1 to 10");
    }
    let start = 4 + count + WIDTH * (number - 1);
    let body = &file[start..start + WIDTH];
    // Writing the event leaves zeros in its spare bytes, so the first byte that differs is one.
    let written = Event::read(kind, body).map_or([0; WIDTH], |event| event.body());
    let at = (0..WIDTH).find(|&at| body[at] != written[at]).unwrap_or(0);
    format!("byte {at} of its body is spare in an event of kind {kind}, and is {} and not 0", body[at])
}
