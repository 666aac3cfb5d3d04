//! Registers that pass.

use crate::random::Random;
use second::register::{self, Security};

pub const CAPITALS: &[u8; 26] = b"ABCDEFGHIJKLMNOPQRSTUVWXYZ";
pub const DIGITS: &[u8; 10] = b"0123456789";

/// Entries of the given classes, each with an ISIN of its own.
pub fn with_classes(random: &mut Random, classes: &[u8]) -> Vec<Security> {
    let mut entries: Vec<Security> = Vec::new();
    while let Some(&class) = classes.get(entries.len()) {
        let isin = random_isin(random);
        if entries.iter().all(|&(_, earlier)| earlier != isin) {
            entries.push((class, isin));
        }
    }
    entries
}

/// Entries of random classes.
pub fn different(random: &mut Random, count: usize) -> Vec<Security> {
    let classes: Vec<u8> = (0..count).map(|_| random.between(1, 3) as u8).collect();
    with_classes(random, &classes)
}

pub fn random_isin(random: &mut Random) -> [u8; 12] {
    completed(std::array::from_fn(|at| {
        let letter = at < 2 || random.one_in(3);
        if letter {
            random.pick(CAPITALS)
        } else {
            random.pick(DIGITS)
        }
    }))
}

/// The ISIN with the check digit that belongs to its first eleven characters.
pub fn completed(mut isin: [u8; 12]) -> [u8; 12] {
    isin[11] = b'0';
    let over = register::weighted_sum(&isin) % 10;
    isin[11] = DIGITS[(10 - over as usize) % 10];
    isin
}
