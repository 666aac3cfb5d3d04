//! The register: classes and ISINs.

use crate::refusal::{Located, Refusal};

/// A class and an ISIN.
pub type Security = (u8, [u8; ISIN_BYTES]);

pub const ISIN_BYTES: usize = 12;
pub const MOST_SECURITIES: usize = 32;

/// The bytes of a register with so many securities.
pub fn length(count: usize) -> usize {
    2 + (1 + ISIN_BYTES) * count
}

pub fn read(bytes: &[u8]) -> Result<Vec<Security>, Located> {
    let count = bytes
        .first_chunk()
        .map(|&word| usize::from(u16::from_le_bytes(word)))
        .filter(|&count| (1..=MOST_SECURITIES).contains(&count) && bytes.len() == length(count))
        .ok_or(Refusal::RegisterSize)?;
    let (classes, isins) = bytes[2..].split_at(count);
    let mut securities: Vec<Security> = Vec::new();
    for ((&class, &isin), number) in classes.iter().zip(isins.as_chunks::<ISIN_BYTES>().0).zip(1..) {
        let security = (class, isin);
        checked(security, &securities).map_err(|refusal| Located { refusal, number: Some(number) })?;
        securities.push(security);
    }
    Ok(securities)
}

fn checked((class, isin): Security, earlier: &[Security]) -> Result<(), Refusal> {
    if !(1..=3).contains(&class) {
        return Err(Refusal::Class);
    }
    if !is_isin(&isin) {
        return Err(Refusal::Isin);
    }
    if earlier.iter().any(|&(_, other)| other == isin) {
        return Err(Refusal::RepeatedIsin);
    }
    Ok(())
}

/// ISO 6166: country letters, nine digits or capitals, and a check digit by the double-add-double formula.
fn is_isin(isin: &[u8; 12]) -> bool {
    isin[..2].iter().all(u8::is_ascii_uppercase)
        && isin[2..11].iter().all(|c| c.is_ascii_uppercase() || c.is_ascii_digit())
        && isin[11].is_ascii_digit()
        && weighted_sum(isin).is_multiple_of(10)
}

/// The digit sums added up; the check digit itself counts once.
pub fn weighted_sum(isin: &[u8; 12]) -> u32 {
    // In base 36 the letters are 10 to 35; written in base 10 they give two digits.
    let digits: String =
        isin.iter().filter_map(|&c| char::from(c).to_digit(36)).map(|number| number.to_string()).collect();
    digits
        .chars()
        .rev()
        .filter_map(|digit| digit.to_digit(10))
        .zip([1, 2].into_iter().cycle())
        .map(|(digit, weight)| digit * weight)
        .map(|product| product / 10 + product % 10)
        .sum()
}

/// The bytes of a register with these entries, also where no reader takes them.
pub fn bytes_of(entries: &[Security]) -> Vec<u8> {
    let count = (entries.len() as u16).to_le_bytes().to_vec();
    let classes = entries.iter().map(|&(class, _)| class).collect();
    let isins = entries.iter().flat_map(|&(_, isin)| isin).collect();
    [count, classes, isins].concat()
}
