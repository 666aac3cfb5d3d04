//! The binary layout: register, then file.

use super::Input;
use crate::numbers::{grouped, there};
use second::events::{self, Event, WIDTH};
use second::refusal::Refusal;
use second::register::{self, Security, ISIN_BYTES};

impl Input {
    pub fn bytes(&self) -> Vec<u8> {
        [register::bytes_of(&self.register), events::file_of(&self.events)].concat()
    }

    /// Reads more securities and events than the player takes, and classes and ISINs of any bytes.
    pub fn from_bytes(bytes: &[u8]) -> Result<Input, String> {
        let (register, file) = parts(bytes).map_err(|wrong| format!("this is no register and file: {wrong}"))?;
        let (classes, isins) = register.split_at(register.len() / (1 + ISIN_BYTES));
        let securities = classes.iter().zip(isins.as_chunks::<ISIN_BYTES>().0);
        let register = securities.map(|(&class, &isin)| -> Security { (class, isin) }).collect();
        let (kinds, bodies) = file.split_at(file.len() / (1 + WIDTH));
        let events = kinds.iter().zip(bodies.chunks_exact(WIDTH)).zip(1..);
        let events = events.map(|((&kind, body), number)| event(number, kind, body)).collect::<Result<_, _>>()?;
        Ok(Input { register, events, ..Input::default() })
    }
}

/// What follows the register's count, and what follows the file's count and width, if each has its length.
fn parts(bytes: &[u8]) -> Result<(&[u8], &[u8]), String> {
    let &count = bytes.first_chunk().ok_or("it ends before the register's count does")?;
    let count = usize::from(u16::from_le_bytes(count));
    let length = register::length(count);
    let cut_off = || wrong_length("register", count, length, bytes.len());
    let (register, file) = bytes.split_at_checked(length).ok_or_else(cut_off)?;
    let &[c0, c1, w0, w1] = file.first_chunk().ok_or("it ends before the file's count and width do")?;
    let width = usize::from(u16::from_le_bytes([w0, w1]));
    if width != WIDTH {
        return Err(format!("the file's body width is {width} and not {WIDTH}"));
    }
    let count = usize::from(u16::from_le_bytes([c0, c1]));
    let length = events::length(count);
    if file.len() != length {
        return Err(wrong_length("file", count, length, file.len()));
    }
    Ok((&register[2..], &file[4..]))
}

fn wrong_length(part: &str, count: usize, length: usize, found: usize) -> String {
    let [count, length] = [count, length].map(|number| grouped(number as u64));
    format!("a {part} with the count {count} has {length} bytes, and {}", there(found))
}

/// One event, read as a file of its own because a file of more than 2,048 is refused.
fn event(number: usize, kind: u8, body: &[u8]) -> Result<Event, String> {
    let file = [&[1, 0, WIDTH as u8, 0, kind], body].concat();
    match events::read(&file).as_deref().map_err(|located| located.refusal) {
        Ok(&[event]) => Ok(event),
        Err(Refusal::Kind) => Err(format!("event {number}: the kind is {kind} and not 1 to 10")),
        _ => Err(format!("event {number}: a spare byte is not zero")),
    }
}
