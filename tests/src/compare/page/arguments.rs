//! Registers and files made at random: of large quantities, damaged, and of any bytes.

use super::known::auction;
use super::Given;
use fails_book_tests::histories::registers::{different, with_classes};
use fails_book_tests::histories::{self, damage, random_event};
use fails_book_tests::random::Random;
use second::book::{GREATEST_QUANTITY, MEMBERS, MOST_OFFERS, MOST_TRADES};
use second::events::{self, file_of, Event, Party, WIDTH};
use second::register::{self, bytes_of};

/// Two members sell up to 512,000,000 units to two others, each for itself or for a client; some are delivered, some of
/// one member's are bought in, and the other's are settled in cash.
pub fn large_quantities(random: &mut Random) -> Given {
    let members = distinct_members(random);
    let kinds: [u8; 4] = std::array::from_fn(|_| random.below(2) as u8);
    let traders: Vec<Party> = members.into_iter().zip(kinds).map(|(member, kind)| Party { member, kind }).collect();
    let offerer = members[4];
    // Positions are numbered by member. Where one of them has none, some calls are refused.
    let short_of = |seller: Party| 1 + traders.iter().filter(|trader| trader.member < seller.member).count() as u16;
    let [one, other] = [traders[0], traders[1]].map(short_of);
    let closes = |days: usize| vec![Event::Close; days];
    let price = Event::Price { security: 1, price: 1_000 };
    let mut events = closes(random.pick(&[0, 6, 7, 96, 97, 996, 997]));
    for _ in 0..random.pick(&[4, 20, 200, MOST_TRADES, MOST_TRADES]) {
        let (seller, buyer) = (random.pick(&traders[..2]), random.pick(&traders[2..]));
        let quantity = random.pick(&[GREATEST_QUANTITY, GREATEST_QUANTITY, GREATEST_QUANTITY - 1, 1]);
        events.push(Event::Trade { security: 1, seller, buyer, quantity, price: 1_000 });
    }
    events.extend(closes(2));
    for short in [one, other] {
        let least = 10_usize.pow(random.below(9) as u32);
        let quantity = random.between(least, 2 * least - 1) as u32;
        events.push(Event::Delivery { short, quantity });
    }
    events.extend(closes(27));
    for _ in 0..random.below(8) {
        let quantities = [(); MOST_OFFERS].map(|_| random.between(1, GREATEST_QUANTITY as usize) as u32);
        events.extend([vec![price], auction(one, offerer, &quantities), closes(10)].concat());
    }
    events.extend([closes(3), vec![price, Event::Cash { short: other }]].concat());
    Given { register: bytes_of(&with_classes(random, &[2])), file: file_of(&events) }
}

fn distinct_members(random: &mut Random) -> [u8; 5] {
    let first = random.below(MEMBERS);
    // None of these steps has a divisor in common with the number of members, so no member comes twice.
    let step = random.pick(&[1, 2, 5, 11, 62]);
    std::array::from_fn(|place| ((first + step * place) % MEMBERS + 1) as u8)
}

/// Register, file or both with faults, and the length of a page around that of the lines without the faults.
pub fn damaged(random: &mut Random) -> (Given, usize) {
    let input = histories::discharge_on_day(random, 0);
    let mut given = Given::parted(&input);
    let sizes: Vec<usize> = given.sizes().into_iter().collect();
    match random.below(6) {
        0 => damage(random, &mut given.register),
        1 => damage(random, &mut given.file),
        2 => {
            damage(random, &mut given.register);
            damage(random, &mut given.file);
        }
        _ => given = Given::parted(&histories::damaged(random, input)),
    }
    (given, random.pick(&sizes))
}

pub fn of_random_bytes(random: &mut Random) -> Given {
    Given { register: random_register(random), file: random_file(random) }
}

/// Bytes of any value, of which the count is at times right, or most often a register that passes.
fn random_register(random: &mut Random) -> Vec<u8> {
    let count = random.between(1, 8);
    let mut register = random.bytes(register::length(count));
    match random.below(6) {
        0 => register,
        1 => {
            register[..2].copy_from_slice(&[count as u8, 0]);
            register[2..2 + count].iter_mut().for_each(|class| *class %= 5);
            register
        }
        _ => bytes_of(&different(random, count)),
    }
}

/// Bytes of any value, of which the header is at times right, or events.
fn random_file(random: &mut Random) -> Vec<u8> {
    let count = random.below(40);
    let mut file = random.bytes(events::length(count));
    match random.below(6) {
        0 => file,
        1 => {
            file[..4].copy_from_slice(&[count as u8, 0, WIDTH as u8, 0]);
            file[4..4 + count].iter_mut().for_each(|kind| *kind %= 12);
            file
        }
        2 => file_of(&events_of(random, count, random_event)),
        _ => file_of(&events_of(random, count, event_of_small_fields)),
    }
}

fn events_of(random: &mut Random, count: usize, event: fn(&mut Random, u8) -> Event) -> Vec<Event> {
    let kinds = (0..count).map(|_| {
        let kind = random.between(1, 10) as u8;
        event(random, kind)
    });
    kinds.collect()
}

/// The book accepts such events more often than those of any fields.
fn event_of_small_fields(random: &mut Random, kind: u8) -> Event {
    let [named, quantity, price] = [(); 3].map(|_| random.below(4) as u16);
    let parties = [(); 2].map(|_| Party { member: random.below(4) as u8, kind: random.below(3) as u8 });
    Event::of(kind, named, parties, quantity.into(), price.into()).expect("a kind from 1 to 10")
}
