//! Damaged inputs, for the refusals of register and file.

use super::registers::{CAPITALS, DIGITS};
use crate::random::Random;
use second::events::WIDTH;

/// Damage that any bytes can suffer on their way.
pub fn damage(random: &mut Random, bytes: &mut Vec<u8>) {
    match random.below(5) {
        0 => bytes.truncate(random.below(bytes.len() + 1)),
        1 => {
            let more = random.between(1, 20);
            bytes.extend(random.bytes(more));
        }
        2 => bytes.push(0),
        3 if !bytes.is_empty() => {
            let at = random.below(bytes.len());
            bytes[at] ^= 1 << random.below(8);
        }
        _ if !bytes.is_empty() => {
            let at = random.below(bytes.len());
            bytes[at] = random.byte();
        }
        _ => {}
    }
}

/// A sound input of the player with one or two faults.
pub fn damaged(random: &mut Random, mut input: Vec<u8>) -> Vec<u8> {
    let securities = usize::from(input[0]);
    let file = 2 + 13 * securities;
    let events = usize::from(u16::from_le_bytes([input[file], input[file + 1]]));
    for _ in 0..random.between(1, 2) {
        match random.below(9) {
            0..=2 => damage_register(random, &mut input, securities),
            3..=6 => damage_file(random, &mut input, file, events),
            // After the general kind nothing is where it was.
            _ => {
                damage(random, &mut input);
                break;
            }
        }
    }
    input
}

fn damage_register(random: &mut Random, input: &mut [u8], securities: usize) {
    let isin = |entry: usize| 2 + securities + 12 * entry;
    let entry = random.below(securities);
    match random.below(8) {
        0 => input[0] = random.pick(&[0, 1, 32, 33, 255]),
        1 => input[1] = random.byte(),
        2 | 3 => input[2 + entry] = random.pick(&[0, 4, 255]),
        4 => input[isin(entry) + random.below(12)] = random.pick(CAPITALS),
        5 => input[isin(entry) + random.below(12)] = random.pick(DIGITS),
        _ => {
            let other = (entry + 1) % securities;
            input.copy_within(isin(other)..isin(other) + 12, isin(entry));
        }
    }
}

fn damage_file(random: &mut Random, input: &mut [u8], file: usize, events: usize) {
    let kinds = file + 4;
    let bodies = kinds + events;
    match random.below(5) {
        0 => input[file + random.below(2)] = random.byte(),
        1 => input[file + 2 + random.below(2)] = random.pick(&[0, 1, 15, 16, 17]),
        2 | 3 if events > 0 => input[kinds + random.below(events)] = random.pick(&[0, 10, 11, 255]),
        _ if events > 0 => input[bodies + random.below(events * WIDTH)] ^= 1 << random.below(8),
        _ => {}
    }
}
