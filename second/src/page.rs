//! The desk's page: the positions that a file leaves on a new book, each on a line of 80 columns.

use crate::book::{Business, Position, Side};
use crate::refusal::Refusal;
use crate::register::Security;
use crate::transcript;

/// Writes the lines at the start of the page. One number answers: the bytes written, or the refusal.
pub fn page(register: &[u8], file: &[u8], page: &mut [u8]) -> u64 {
    match write(register, file, page) {
        Ok(written) => written as u64,
        Err(refusal) => refusal as u64,
    }
}

fn write(register: &[u8], file: &[u8], page: &mut [u8]) -> Result<usize, Refusal> {
    let lines = lines(register, file)?;
    let start = page.get_mut(..lines.len()).ok_or(Refusal::PageSize)?;
    start.copy_from_slice(lines.as_bytes());
    Ok(lines.len())
}

/// The lines of all positions, once register and file have passed.
fn lines(register: &[u8], file: &[u8]) -> Result<String, Refusal> {
    let (securities, book) = transcript::played(register, file)?;
    Ok(book.positions().iter().zip(1..).map(|(position, number)| line(number, position, &securities)).collect())
}

fn line(number: u16, position: &Position, securities: &[Security]) -> String {
    let &Position { member, security, delivery_day, netted, delivered, bought_in, cash, .. } = position;
    let (_, isin) = securities[security];
    let isin: String = isin.into_iter().map(char::from).collect();
    let side = match position.side {
        Side::Short => 'D',
        Side::Long => 'R',
    };
    let kind = match position.kind {
        Business::Own => 'O',
        Business::Client => 'C',
    };
    let quantities: String = [netted, delivered, bought_in, cash, position.open()]
        .into_iter()
        .map(|quantity| format!(" {quantity:>9}"))
        .collect();
    format!("{number:>4} {member:>2} {isin:>12} {side}{quantities} {delivery_day:>5} {kind}\n")
}
