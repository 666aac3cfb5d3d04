//! Event files: read, and written again into a page.

use super::{hex, Hex};
use crate::check::{Check, Round, Tests};
use fails_book_tests::desk::{self, Answer};
use fails_book_tests::histories::{damage, random_event};
use fails_book_tests::random::Random;
use second::events::{self, Body, Event, MOST_EVENTS, WIDTH};
use second::refusal::Refusal;

/// Bytes kept free on either side of a page, which no call may touch.
const MARGIN: usize = 40;

pub fn exhaustive(tests: &mut Tests) {
    tests.check("files: none, few and the most events", &[0, 5], counts_of_events);
    tests.check("files: each kind byte", &[0, 6], each_kind_byte);
    tests.check("files: each value of each body byte of each kind", &[0, 7], each_value_of_each_body_byte);
    tests.check("files: the bytes of two kinds, in an event of each kind", &[0, 7], bytes_of_two_kinds);
    tests.check("files: no spare byte set, among trades", &[0], no_spare_byte);
    tests.check("files: each bit of a body of each kind, among trades", &[0, 7], each_bit_of_each_kind);
    tests.check("files: each bit of a body of no kind, among trades", &[6], each_bit_of_no_kind);
    tests.check("files: two spare bytes whose sum or exclusive or is zero", &[7], each_two_spare_bytes);
    tests.check("files: each small count with each length", &[0, 5], counts_with_lengths);
    tests.check("files: each width", &[0, 5], each_width);
    tests.check("files: faults of two events, in both orders", &[6, 7], faults_of_two_events);
    tests.check("pages: each size around the file's", &[0, 5, 6, 7], page_sizes);
}

pub fn seeded(round: &mut Round) {
    round.check("files: random events", &[0], random_files);
    round.check("files: damaged", &[0, 5, 6, 7], damaged_files);
    round.check("files: long and damaged in one place", &[0, 5, 6, 7], long_files_damaged_in_one_place);
    round.check("files: random bytes", &[0, 5, 6, 7], files_of_random_bytes);
    round.check("files: random bodies of any kind", &[0, 6, 7], random_bodies);
    round.check("files: random used bytes, one spare byte set or none", &[0, 7], one_spare_byte_or_none);
    round.check("files: closes whose two words are the same or opposite", &[7], closes_of_two_words);
    round.check("pages: random files and sizes", &[0, 5, 6, 7], random_files_and_page_sizes);
}

fn counts_of_events(check: &mut Check) {
    let mut random = Random::new(0, "counts");
    for count in [0, 1, 2, 255, 256, 257, 2_047, MOST_EVENTS, MOST_EVENTS + 1, 4_096, 65_535] {
        let file = events::file_of(&random_events(&mut random, count));
        let expected = if count <= 2_048 { Answer::accepted(count as u32) } else { Answer::refused(5) };
        known(check, &file, expected);
    }
    // Lengths that are right in their low bytes.
    for more in [256, 65_536] {
        let file = events::file_of(&random_events(&mut random, 3));
        known(check, &[file, vec![0; more]].concat(), Answer::refused(5));
    }
}

fn each_kind_byte(check: &mut Check) {
    let mut random = Random::new(0, "kinds");
    let two = [random_event(&mut random, 1), random_event(&mut random, 5)];
    for kind in 0..=u8::MAX {
        let expected = if (1..=10).contains(&kind) { Answer::accepted(1) } else { Answer::refused(6) };
        known(check, &file_of_bodies(&[(kind, [0; WIDTH])]), expected);
        let mut file = events::file_of(&two);
        file[4 + 1] = kind;
        read(check, &file);
        file.swap(4, 5);
        read(check, &file);
    }
}

fn each_value_of_each_body_byte(check: &mut Check) {
    let mut random = Random::new(0, "spare bytes");
    for kind in 1..=10 {
        for at in 0..WIDTH {
            for value in 0..=u8::MAX {
                body_byte(check, &mut random, kind, at, value);
            }
        }
    }
}

/// The value in a body of zeros, where the answer is known, and in a random body.
fn body_byte(check: &mut Check, random: &mut Random, kind: u8, at: usize, value: u8) {
    let mut body = [0; WIDTH];
    body[at] = value;
    let spare = value != 0 && !used(kind).contains(&at);
    let expected = if spare { Answer::refused(7) } else { Answer::accepted(1) };
    known(check, &file_of_bodies(&[(kind, body)]), expected);
    let mut body = random_event(random, kind).body();
    body[at] = value;
    read(check, &file_of_bodies(&[(kind, body)]));
}

/// Bytes 12 and 13 are the kinds of a trade's sides, whatever they are, and spare in every other event.
fn bytes_of_two_kinds(check: &mut Check) {
    let values = [0, 1, 2, 7, 128, 255];
    let pairs = values.into_iter().flat_map(|first| values.map(|second| [first, second]));
    let bodies = (1..=10).flat_map(|kind| [(kind, [0; WIDTH]), (kind, full(kind))]);
    for (bytes, (kind, mut body)) in pairs.flat_map(|bytes| bodies.clone().map(move |body| (bytes, body))) {
        [body[12], body[13]] = bytes;
        let refusal = if kind == 1 || bytes == [0, 0] { 0 } else { 7 };
        among_full_trades(check, (kind, body), refusal);
    }
}

fn no_spare_byte(check: &mut Check) {
    for kind in 1..=10 {
        for body in [[0; WIDTH], full(kind)] {
            among_full_trades(check, (kind, body), 0);
        }
    }
}

/// Each bit turned over in bodies without a spare byte set.
fn each_bit_of_each_kind(check: &mut Check) {
    let mut random = Random::new(0, "bits");
    for kind in 1..=10 {
        for bit in 0..8 * WIDTH {
            let refusal = if used(kind).contains(&(bit / 8)) { 0 } else { 7 };
            for mut body in [[0; WIDTH], random_event(&mut random, kind).body(), full(kind)] {
                body[bit / 8] ^= 1 << (bit % 8);
                among_full_trades(check, (kind, body), refusal);
            }
        }
    }
}

fn each_bit_of_no_kind(check: &mut Check) {
    for kind in (0..=u8::MAX).filter(|kind| !(1..=10).contains(kind)) {
        for bit in 0..8 * WIDTH {
            let mut body = [0; WIDTH];
            body[bit / 8] = 1 << (bit % 8);
            among_full_trades(check, (kind, body), 6);
        }
    }
}

/// The event in each place of one to eight, so that its body begins at each place modulo 8. The trades around it have
/// each used byte set, so that a test which read them would refuse what is to pass.
fn among_full_trades(check: &mut Check, tried: (u8, Body), refusal: u32) {
    for count in 1..=8 {
        let expected = if refusal == 0 { Answer::accepted(count as u32) } else { Answer::refused(refusal) };
        for at in 0..count {
            let mut events = vec![(1, full(1)); count];
            events[at] = tried;
            known(check, &file_of_bodies(&events), expected);
        }
    }
}

fn each_two_spare_bytes(check: &mut Check) {
    for kind in 1..=10 {
        for first in spare(kind) {
            for second in spare(kind).filter(|&second| second != first) {
                two_spare_bytes(check, kind, first, second);
            }
        }
    }
}

/// Values whose exclusive or or sum is zero, as bytes or, in the last bytes of the two words, as words.
fn two_spare_bytes(check: &mut Check, kind: u8, first: usize, second: usize) {
    for values in [[1, 1], [128, 128], [255, 255], [255, 1], [254, 2]] {
        for mut body in [[0; WIDTH], full(kind)] {
            [body[first], body[second]] = values;
            known(check, &file_of_bodies(&[(kind, body)]), Answer::refused(7));
        }
    }
}

fn counts_with_lengths(check: &mut Check) {
    for count in (0..=4).chain([256, 257, 258, 2_048, 2_049, 65_535]) {
        for length in 0..=events::length(3) {
            // Closes alone, so that nothing but the size decides.
            let mut file = vec![0; length.max(4)];
            file[..2].copy_from_slice(&u16::to_le_bytes(count));
            file[2] = WIDTH as u8;
            file.iter_mut().skip(4).take(usize::from(count)).for_each(|kind| *kind = 9);
            read(check, &file[..length]);
        }
    }
}

fn each_width(check: &mut Check) {
    let file = events::file_of(&random_events(&mut Random::new(0, "widths"), 3));
    for width in 0..=u16::MAX {
        let mut file = file.clone();
        file[2..4].copy_from_slice(&width.to_le_bytes());
        read(check, &file);
    }
}

fn faults_of_two_events(check: &mut Check) {
    // The earlier event decides; within an event the kind comes before the spare bytes.
    let [mut spare, set] = [[0; WIDTH], [1; WIDTH]];
    spare[15] = 1;
    let faults =
        [(0, [0; WIDTH], 6), (11, set, 6), (255, set, 6), (9, set, 7), (10, set, 7), (1, spare, 7), (4, spare, 7)];
    for (kind, body, refusal) in faults {
        for (later_kind, later_body, _) in faults {
            let file = file_of_bodies(&[(2, [0; WIDTH]), (kind, body), (later_kind, later_body)]);
            known(check, &file, Answer::refused(refusal));
        }
    }
}

fn page_sizes(check: &mut Check) {
    let mut random = Random::new(0, "pages");
    for count in [0, 1, 2, 7] {
        let file = events::file_of(&random_events(&mut random, count));
        for size in 0..=file.len() + 40 {
            copy(check, &mut random, &file, size);
        }
    }
    let refused = [file_of_bodies(&[(11, [0; WIDTH])]), file_of_bodies(&[(10, [1; WIDTH])]), vec![1, 0, 16]];
    for file in &refused {
        for size in 0..=file.len() + 40 {
            copy(check, &mut random, file, size);
        }
    }
    for count in [MOST_EVENTS - 1, MOST_EVENTS, MOST_EVENTS + 1] {
        let file = events::file_of(&random_events(&mut random, count));
        for size in file.len() - 20..=file.len() + 20 {
            copy(check, &mut random, &file, size);
        }
    }
}

fn random_files(check: &mut Check, random: &mut Random) {
    for _ in 0..3_000 {
        let count = random.below(64);
        read(check, &events::file_of(&random_events(random, count)));
    }
}

fn damaged_files(check: &mut Check, random: &mut Random) {
    for _ in 0..20_000 {
        read(check, &damaged_file(random));
    }
}

fn long_files_damaged_in_one_place(check: &mut Check, random: &mut Random) {
    let whole = events::file_of(&random_events(random, MOST_EVENTS));
    for _ in 0..300 {
        let mut file = whole.clone();
        match random.below(3) {
            0 => damage(random, &mut file),
            1 => file[4 + random.below(MOST_EVENTS)] = random.byte(),
            _ => {
                let at = random.between(4 + MOST_EVENTS, file.len() - 1);
                file[at] ^= 1 << random.below(8);
            }
        }
        read(check, &file);
    }
}

fn files_of_random_bytes(check: &mut Check, random: &mut Random) {
    for _ in 0..10_000 {
        let count = random.below(6);
        let mut file = random.bytes(events::length(count));
        // Else the header is hardly ever right.
        if random.one_in(2) {
            file[..4].copy_from_slice(&[count as u8, 0, WIDTH as u8, 0]);
            file[4..4 + count].iter_mut().for_each(|kind| *kind %= 12);
        }
        read(check, &file);
    }
}

fn random_bodies(check: &mut Check, random: &mut Random) {
    for _ in 0..20_000 {
        let kind = random.below(12) as u8;
        // Were each byte set, each event would be refused.
        let set = random.pick(&[1, 4, 16, 64]);
        let body = std::array::from_fn(|_| if random.one_in(set) { random.byte() } else { 0 });
        read(check, &file_of_bodies(&among_random_events(random, (kind, body))));
    }
}

fn one_spare_byte_or_none(check: &mut Check, random: &mut Random) {
    for _ in 0..20_000 {
        let kind = random.between(1, 10) as u8;
        let mut body = [0; WIDTH];
        used(kind).iter().for_each(|&at| body[at] = random.byte());
        let value = if random.one_in(2) { random.byte() } else { 0 };
        body[random.pick(&spare(kind).collect::<Vec<usize>>())] = value;
        let events = among_random_events(random, (kind, body));
        let expected = if value == 0 { Answer::accepted(events.len() as u32) } else { Answer::refused(7) };
        known(check, &file_of_bodies(&events), expected);
    }
}

/// The words are the same, or their sum or conjunction is zero.
fn closes_of_two_words(check: &mut Check, random: &mut Random) {
    for _ in 0..5_000 {
        let word = random.sized_word().max(1);
        for other in [word, word.wrapping_neg(), !word] {
            let mut body = [0; WIDTH];
            body[..8].copy_from_slice(&word.to_le_bytes());
            body[8..].copy_from_slice(&other.to_le_bytes());
            known(check, &file_of_bodies(&among_random_events(random, (9, body))), Answer::refused(7));
        }
    }
}

fn random_files_and_page_sizes(check: &mut Check, random: &mut Random) {
    for _ in 0..10_000 {
        let file = damaged_file(random);
        let size = match random.below(4) {
            0 => random.below(file.len() + 100),
            1 => file.len(),
            _ => (file.len() + random.below(5)).saturating_sub(2),
        };
        copy(check, random, &file, size);
    }
}

fn second(file: &[u8]) -> Result<u32, Refusal> {
    Ok(events::read(file)?.len() as u32)
}

fn read(check: &mut Check, file: &[u8]) {
    check.same_answer(|| hex(file), desk::file(file), second(file));
}

/// An answer known beforehand, wanted of the desk and of the second implementation alike.
fn known(check: &mut Check, file: &[u8], known: Answer) {
    check.known_answer(|| hex(file), desk::file(file), second(file), known);
}

/// Copies the file into a page of random bytes and compares the answers, the pages and the bytes around them.
fn copy(check: &mut Check, random: &mut Random, file: &[u8], size: usize) {
    let before = random.bytes(MARGIN + size + MARGIN);
    let page = MARGIN..MARGIN + size;
    let [mut desk_bytes, mut second_bytes] = [before.clone(), before.clone()];
    let desk = desk::copy_file(file, &mut desk_bytes[page.clone()]);
    let second: Answer = events::read(file)
        .map_err(Refusal::from)
        .and_then(|events| events::write(&events, &mut second_bytes[page.clone()]))
        .map(|written| written as u32)
        .into();
    // The bytes at least are known: an accepted copy is the file itself, and all else is as it was.
    let mut known_bytes = before.clone();
    known_bytes[MARGIN..][..second.quantity as usize].copy_from_slice(&file[..second.quantity as usize]);
    check.count(second);
    check.known(
        || format!("file {} page {}", hex(file), hex(&before[page.clone()])),
        (desk, Hex(desk_bytes)),
        (second, Hex(second_bytes)),
        (second, Hex(known_bytes)),
    );
}

/// The body bytes that are a field of the kind; all others are spare.
fn used(kind: u8) -> &'static [usize] {
    match kind {
        1 => &[0, 1, 2, 3, 4, 5, 6, 7, 8, 9, 10, 11, 12, 13],
        2 => &[0, 1, 8, 9, 10, 11],
        3 => &[0, 1, 4, 5, 6, 7],
        5 => &[0, 1, 2, 4, 5, 6, 7, 8, 9, 10, 11],
        4 | 6 | 7 | 8 => &[0, 1],
        10 => &[0, 1, 4, 5, 6, 7, 8, 9, 10, 11],
        _ => &[],
    }
}

fn spare(kind: u8) -> impl Iterator<Item = usize> {
    (0..WIDTH).filter(move |at| !used(kind).contains(at))
}

/// The body in which each used byte is 255.
fn full(kind: u8) -> Body {
    let mut body = [0; WIDTH];
    used(kind).iter().for_each(|&at| body[at] = 255);
    body
}

/// The event in any place among up to seven others, which have no fault.
fn among_random_events(random: &mut Random, tried: (u8, Body)) -> Vec<(u8, Body)> {
    let others = random.below(8);
    let events = random_events(random, others);
    let mut events: Vec<(u8, Body)> = events.iter().map(|event| (event.kind(), event.body())).collect();
    events.insert(random.below(others + 1), tried);
    events
}

fn file_of_bodies(events: &[(u8, Body)]) -> Vec<u8> {
    let header = vec![events.len() as u8, 0, WIDTH as u8, 0];
    let kinds = events.iter().map(|&(kind, _)| kind).collect();
    let bodies = events.iter().flat_map(|&(_, body)| body).collect();
    [header, kinds, bodies].concat()
}

fn random_events(random: &mut Random, count: usize) -> Vec<Event> {
    (0..count)
        .map(|_| {
            let kind = random.between(1, 10) as u8;
            random_event(random, kind)
        })
        .collect()
}

fn damaged_file(random: &mut Random) -> Vec<u8> {
    let count = random.below(20);
    let mut file = events::file_of(&random_events(random, count));
    for _ in 0..random.between(0, 2) {
        match random.below(5) {
            0 => damage(random, &mut file),
            1 if file.len() > 4 + count => file[4 + random.below(count + 1)] = random.pick(&[0, 1, 9, 10, 11, 12, 255]),
            2 if file.len() > 4 + count => {
                let at = random.between(4 + count, file.len() - 1);
                file[at] ^= 1 << random.below(8);
            }
            3 if file.len() >= 4 => file[2 + random.below(2)] = random.pick(&[0, 1, 15, 16, 17]),
            4 if file.len() >= 4 => file[random.below(2)] = random.byte(),
            _ => {}
        }
    }
    file
}
