//! Registers and ISINs.

use super::hex;
use crate::check::{Check, Round, Tests};
use fails_book_tests::desk::{self, Answer};
use fails_book_tests::histories::damage;
use fails_book_tests::histories::registers::{completed, different, random_isin, CAPITALS, DIGITS};
use fails_book_tests::random::Random;
use second::refusal::Refusal;
use second::register::{self, bytes_of as register_of, Security};

/// Securities on the market, and the one of document 01's example.
const REAL_ISINS: [&[u8; 12]; 24] = [
    b"DE0007164600",
    b"US0378331005",
    b"GB0002634946",
    b"FR0000131104",
    b"CH0012005267",
    b"JP3435000009",
    b"NL0000235190",
    b"US5949181045",
    b"US38259P5089",
    b"DE0005557508",
    b"DE0008404005",
    b"DE000BASF111",
    b"DE000A1EWWW0",
    b"DE0007236101",
    b"FR0000120271",
    b"CH0038863350",
    b"US88160R1014",
    b"US0231351067",
    b"GB0005405286",
    b"IE00B4L5Y983",
    b"NL0010273215",
    b"AU0000XVGZA3",
    b"IT0003128367",
    b"XX0000000002",
];

pub fn exhaustive(tests: &mut Tests) {
    tests.check("ISINs: real ones", &[0, 3], real_isins);
    tests.check("ISINs: real ones with one character changed to each byte", &[0, 3], isins_with_one_character_changed);
    tests.check("ISINs: real ones with one digit changed to another", &[3], isins_with_one_digit_changed);
    tests.check("ISINs: real ones with two neighbours swapped", &[0, 3], isins_with_neighbours_swapped);
    tests.check("registers: counts 0 to 34 with lengths of 0 to 33 securities", &[0, 1], counts_with_lengths);
    tests.check("registers: each class byte", &[0, 2], each_class_byte);
    tests.check("registers: each pair of places with one ISIN", &[4], each_pair_of_places_with_one_isin);
    tests.check("registers: two ISINs that differ in one character and the check digit", &[0], two_isins_almost_alike);
    tests.check("registers: faults of two entries, in both orders", &[2, 3, 4], faults_of_two_entries);
}

pub fn seeded(round: &mut Round) {
    round.check("registers: random", &[0], |check, random| {
        for _ in 0..3_000 {
            let count = random.between(1, 32);
            compare(check, &register_of(&different(random, count)));
        }
    });
    round.check("registers: damaged", &[0, 1, 2, 3, 4], |check, random| {
        for _ in 0..15_000 {
            compare(check, &damaged_register(random));
        }
    });
    round.check("registers: random bytes", &[1, 2], |check, random| {
        for _ in 0..5_000 {
            let length = random.below(500);
            let mut bytes = random.bytes(length);
            // Else the count is hardly ever right.
            if length >= 15 && random.one_in(2) {
                let count = (length - 2) / 13;
                bytes.truncate(2 + 13 * count);
                bytes[..2].copy_from_slice(&(count as u16).to_le_bytes());
            }
            compare(check, &bytes);
        }
    });
    round.check("ISINs: random, each check character", &[0, 3], |check, random| {
        for _ in 0..1_000 {
            let mut isin = random_isin(random);
            for last in (0..=u8::MAX).filter(u8::is_ascii_alphanumeric) {
                isin[11] = last;
                compare(check, &register_of(&[(random.between(1, 3) as u8, isin)]));
            }
        }
    });
}

fn real_isins(check: &mut Check) {
    for isin in REAL_ISINS {
        known(check, &[(1, *isin)], Answer::accepted(1));
    }
    known(check, &[(1, *b"XX0000000003")], Answer::refused(3));
}

fn isins_with_one_character_changed(check: &mut Check) {
    for isin in REAL_ISINS {
        for at in 0..12 {
            for byte in 0..=u8::MAX {
                let mut changed = *isin;
                changed[at] = byte;
                compare(check, &register_of(&[(1, changed)]));
            }
        }
    }
}

fn isins_with_one_digit_changed(check: &mut Check) {
    // The check digit catches each of these, so the answer is known.
    for isin in REAL_ISINS {
        for at in (0..12).filter(|&at| isin[at].is_ascii_digit()) {
            for &digit in DIGITS.iter().filter(|&&digit| digit != isin[at]) {
                let mut changed = *isin;
                changed[at] = digit;
                known(check, &[(1, changed)], Answer::refused(3));
            }
        }
    }
}

fn isins_with_neighbours_swapped(check: &mut Check) {
    for isin in REAL_ISINS {
        for at in 0..11 {
            let mut swapped = *isin;
            swapped.swap(at, at + 1);
            compare(check, &register_of(&[(1, swapped)]));
        }
    }
}

fn counts_with_lengths(check: &mut Check) {
    let whole = register_of(&different(&mut Random::new(0, "securities"), 33));
    for count in 0..=34_u16 {
        for shape in 0..=33 {
            let mut bytes = shaped(&whole, 33, shape);
            bytes[..2].copy_from_slice(&count.to_le_bytes());
            compare(check, &bytes);
            compare(check, &[&bytes[..], &[0]].concat());
            compare(check, &bytes[..bytes.len() - 1]);
        }
    }
    // Counts of which one byte alone would pass, and lengths that are right in their low bytes.
    for (count, kept) in [(0x0101_u16, 1), (0x0120, 32), (0x8001, 1), (0x0100, 1), (0x2000, 32)] {
        let mut bytes = shaped(&whole, 33, kept);
        bytes[..2].copy_from_slice(&count.to_le_bytes());
        compare(check, &bytes);
    }
    for more in [256, 65_536] {
        compare(check, &[register_of(&[(1, *REAL_ISINS[0])]), vec![0; more]].concat());
    }
}

fn each_class_byte(check: &mut Check) {
    for class in 0..=u8::MAX {
        compare(check, &register_of(&[(class, *REAL_ISINS[0])]));
        compare(check, &register_of(&[(1, *REAL_ISINS[0]), (class, *REAL_ISINS[1])]));
    }
}

fn each_pair_of_places_with_one_isin(check: &mut Check) {
    let securities = different(&mut Random::new(0, "pairs"), 32);
    for later in 0..32 {
        for earlier in 0..later {
            let mut repeated = securities.clone();
            repeated[later].1 = repeated[earlier].1;
            known(check, &repeated, Answer::refused(4));
        }
    }
}

fn two_isins_almost_alike(check: &mut Check) {
    for isin in REAL_ISINS {
        for at in 0..11 {
            let digits = if at < 2 { &[][..] } else { DIGITS };
            for &other in CAPITALS.iter().chain(digits).filter(|&&other| other != isin[at]) {
                let mut near = *isin;
                near[at] = other;
                known(check, &[(1, *isin), (1, completed(near))], Answer::accepted(2));
            }
        }
    }
}

fn faults_of_two_entries(check: &mut Check) {
    // Each fault as entry 2 and as entry 3: the earlier entry decides; within an entry, class before ISIN.
    let [first, other] = [*REAL_ISINS[0], *REAL_ISINS[1]];
    let faults = [(0, other, 2), (0, first, 2), (4, *b"XX0000000003", 2), (1, *b"XX0000000003", 3), (1, first, 4)];
    for (class, isin, refusal) in faults {
        for (later_class, later_isin, _) in faults {
            let entries = [(1, first), (class, isin), (later_class, later_isin)];
            known(check, &entries, Answer::refused(refusal));
        }
    }
}

fn second(bytes: &[u8]) -> Result<u32, Refusal> {
    Ok(register::read(bytes)?.len() as u32)
}

fn compare(check: &mut Check, bytes: &[u8]) {
    check.same_answer(|| hex(bytes), desk::register(bytes), second(bytes));
}

/// An answer known beforehand, wanted of the desk and of the second implementation alike.
fn known(check: &mut Check, entries: &[Security], known: Answer) {
    let bytes = register_of(entries);
    check.known_answer(|| hex(&bytes), desk::register(&bytes), second(&bytes), known);
}

/// The first entries of a register, under its old count.
fn shaped(whole: &[u8], count: usize, kept: usize) -> Vec<u8> {
    let (classes, isins) = whole[2..].split_at(count);
    [&whole[..2], &classes[..kept], &isins[..12 * kept]].concat()
}

fn damaged_register(random: &mut Random) -> Vec<u8> {
    let count = random.between(1, 32);
    let mut entries = different(random, count);
    for _ in 0..random.between(0, 2) {
        let [at, other] = [random.below(count), random.below(count)];
        match random.below(6) {
            0 => entries[at].0 = random.pick(&[0, 4, 5, 128, 255]),
            1 => entries[at].1 = entries[other].1,
            2 => entries[at].1.swap(random.below(12), random.below(12)),
            3 => entries[at].1[random.below(12)] = random.pick(b"azAZ09@[`{/: "),
            4 => entries[at].1[random.below(12)] = random.pick(DIGITS),
            _ => entries[at].1[random.below(12)] = random.pick(CAPITALS),
        }
    }
    let mut bytes = register_of(&entries);
    match random.below(4) {
        0 => damage(random, &mut bytes),
        1 => bytes[..2].copy_from_slice(&(random.pick(&[0, 1, 31, 32, 33, 256, 65_535]) as u16).to_le_bytes()),
        _ => {}
    }
    bytes
}
