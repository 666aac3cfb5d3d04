//! The player's input as text: the examples for people, and known and random inputs.

use super::player::input;
use super::{hex, same, Hex};
use crate::check::{Check, Round, Tests};
use fails_book_tests::histories::{self, random_event};
use fails_book_tests::random::Random;
use second::book::Business;
use second::events::{file_of, Event, Party};
use second::register::Security;
use second::transcript;
use tools::player;
use tools::text::{self, Input};

struct Example {
    name: &'static str,
    text: &'static str,
    binary: &'static [u8],
    output: &'static str,
}

const EXAMPLE: Example = Example {
    name: "example",
    text: include_str!("../../../examples/example.txt"),
    binary: include_bytes!("../../../examples/example.bin"),
    output: include_str!("../../../examples/example.out"),
};

const SQUEEZE: Example = Example {
    name: "squeeze",
    text: include_str!("../../../examples/squeeze.txt"),
    binary: include_bytes!("../../../examples/squeeze.bin"),
    output: include_str!("../../../examples/squeeze.out"),
};

const KINDS: Example = Example {
    name: "kinds",
    text: include_str!("../../../examples/kinds.txt"),
    binary: include_bytes!("../../../examples/kinds.bin"),
    output: include_str!("../../../examples/kinds.out"),
};

const PAIR_OFF: Example = Example {
    name: "pairoff",
    text: include_str!("../../../examples/pairoff.txt"),
    binary: include_bytes!("../../../examples/pairoff.bin"),
    output: include_str!("../../../examples/pairoff.out"),
};

/// A register of one security, as a line.
const SECURITY: &str = "security 1 XX0000000002\n";

pub fn exhaustive(tests: &mut Tests) {
    tests.check("text: the examples in both forms", &[], |check| {
        for Example { name, text, binary: bytes, .. } in [EXAMPLE, SQUEEZE, KINDS, PAIR_OFF] {
            same(check, || format!("{name}.txt"), binary(text), Ok(Hex(bytes.to_vec())));
            same(check, || format!("{name}.bin"), again(bytes), Ok(Hex(bytes.to_vec())));
        }
    });
    tests.check("text: the player's output on the examples", &[], |check| {
        for Example { name, binary, output, .. } in [EXAMPLE, SQUEEZE, KINDS, PAIR_OFF] {
            let player = player::play(binary);
            let player = player.map_or_else(|error| error.to_string(), readable);
            let second = readable(transcript::transcript(binary));
            check.known(|| format!("{name}.bin"), player, second, output.to_string());
        }
    });
    tests.check("text: other spellings", &[], |check| {
        for (spelling, plain) in SPELLINGS {
            same(check, || spelling.to_string(), binary(spelling), binary(plain));
            same(check, || spelling.to_string(), written(spelling), Ok(plain.to_string()));
        }
    });
    tests.check("text: known kinds of both sides", &[], known_kinds);
    tests.check("text: each byte of a kind, on either side", &[], each_kind_byte);
    tests.check("text: known pair-offs", &[], known_pair_offs);
    tests.check("text: bad texts", &[], bad_texts);
    tests.check("text: the largest number of each field", &[], largest_numbers);
    tests.check("text: the most securities and events", &[], most_of_all);
    tests.check("text: bytes that have no text", &[], bytes_without_text);
}

pub fn seeded(round: &mut Round) {
    round.check("text: random inputs", &[], random_inputs);
    round.check("text: random spellings", &[], |check, random| {
        for _ in 0..2_000 {
            let [securities, events] = [random.between(1, 4), random.below(20)];
            let input = random_input(random, securities, events);
            let spelling = text::write(&input).map(|plain| respelled(random, &plain));
            let found = spelling.clone().and_then(|text| binary(&text));
            same(check, || format!("{spelling:?}"), found, Ok(Hex(input.bytes())));
        }
    });
    round.check("text: damaged inputs", &[], damaged_inputs);
}

fn most_of_all(check: &mut Check) {
    let random = &mut Random::new(0, "the most of all");
    for (securities, events) in [(33, 2_049), (1, 65_535), (65_535, 1)] {
        let bytes = random_input(random, securities, events).bytes();
        // Shown by their counts alone: the bytes are too many.
        let kept = again(&bytes) == Ok(Hex(bytes));
        same(check, || format!("{securities} securities, {events} events"), kept, true);
    }
}

fn random_inputs(check: &mut Check, random: &mut Random) {
    let mut kinds = [0; 10];
    let [mut with_kind, mut without_kind] = [0, 0];
    for _ in 0..3_000 {
        let [securities, events] = [random.between(1, 40), random.below(64)];
        let input = random_input(random, securities, events);
        input.events.iter().for_each(|event| kinds[usize::from(event.kind()) - 1] += 1);
        with_kind += input.events.iter().filter(|event| has_kinds(event, Some(Business::Client))).count() as u64;
        without_kind += input.events.iter().filter(|event| has_kinds(event, None)).count() as u64;
        let bytes = input.bytes();
        same(check, || hex(&bytes), again(&bytes), Ok(Hex(bytes.clone())));
    }
    for (times, kind) in kinds.into_iter().zip(1..) {
        check.reached(&format!("an event of kind {kind}"), times);
    }
    check.reached("a trade of two clients", with_kind);
    check.reached("a trade of two bytes that are no kinds", without_kind);
}

/// Whether both sides of a trade have this kind, or none.
fn has_kinds(event: &Event, kind: Option<Business>) -> bool {
    match event {
        Event::Trade { seller, buyer, .. } => [seller, buyer].iter().all(|party| Business::of(party.kind) == kind),
        _ => false,
    }
}

fn damaged_inputs(check: &mut Check, random: &mut Random) {
    let [mut with_text, mut without_text] = [0, 0];
    for _ in 0..3_000 {
        let sound = histories::discharge_on_day(random, 0);
        let bytes = histories::damaged(random, sound);
        match again(&bytes) {
            Ok(found) => {
                with_text += 1;
                same(check, || hex(&bytes), found, Hex(bytes.clone()));
            }
            Err(_) => {
                without_text += 1;
                // What has no text is never a sound input.
                same(check, || hex(&bytes), transcript::open(&bytes).is_err(), true);
            }
        }
    }
    check.reached("an input that has a text", with_text);
    check.reached("an input that has none", without_text);
}

/// A spelling and the text that is written for it.
const SPELLINGS: [(&str, &str); 13] = [
    ("# none\n\n security\t1  XX0000000002 # a share\r\n#\n", "security 1 XX0000000002\n"),
    ("security 0 XX0000000002\nsecurity 255 ############ #\n", "security 0 XX0000000002\nsecurity 255 ############\n"),
    ("security 1 #X0000#00002 #\n", "security 1 #X0000#00002\n"),
    (
        "security 1 XX0000000002\nprice 1 1,000#cents\nprice 1 10_000_000\n",
        "security 1 XX0000000002\nprice 1 1000\nprice 1 10000000\n",
    ),
    (
        "security 1 XX0000000002\nclose 3\nclose # one\nclose 1#",
        "security 1 XX0000000002\nclose\nclose\nclose\nclose\nclose\n",
    ),
    ("security 1 XX0000000002\ntrade 001 2 0 0 0", "security 1 XX0000000002\ntrade 1 2 0 0 0\n"),
    // Kinds are written only where one of them is not own.
    ("security 1 XX0000000002\ntrade 1 own 2 own 3 4 5", "security 1 XX0000000002\ntrade 1 2 3 4 5\n"),
    ("security 1 XX0000000002\ntrade 1 kind 0 2 3 4 5", "security 1 XX0000000002\ntrade 1 2 3 4 5\n"),
    ("security 1 XX0000000002\ntrade 1 client 2 3 4 5", "security 1 XX0000000002\ntrade 1 client 2 own 3 4 5\n"),
    ("security 1 XX0000000002\ntrade 1 2 client 3 4 5", "security 1 XX0000000002\ntrade 1 own 2 client 3 4 5\n"),
    (
        "security 1 XX0000000002\ntrade 1 own 1 kind 1 3 4 5 # itself\n",
        "security 1 XX0000000002\ntrade 1 own 1 client 3 4 5\n",
    ),
    ("security 1 XX0000000002\ntrade 1 kind 007 2 3 4 5", "security 1 XX0000000002\ntrade 1 kind 7 2 own 3 4 5\n"),
    ("security 1 XX0000000002\n pair 01\t65_537 1,000# off\n", "security 1 XX0000000002\npair 1 65537 1000\n"),
];

/// What stands after seller 1 and after buyer 2, and bytes 12 and 13.
const KIND_BYTES: [(&str, &str, [u8; 2]); 8] = [
    ("", "", [0, 0]),
    (" own", " own", [0, 0]),
    (" client", "", [1, 0]),
    ("", " client", [0, 1]),
    (" client", " client", [1, 1]),
    (" kind 2", " kind 1", [2, 1]),
    (" kind 0", " kind 255", [0, 255]),
    (" kind 128", " own", [128, 0]),
];

fn known_kinds(check: &mut Check) {
    for (seller, buyer, kinds) in KIND_BYTES {
        let line = format!("trade 1{seller} 2{buyer} 3 4 5");
        let body = [3, 0, 1, 2, 4, 0, 0, 0, 5, 0, 0, 0, kinds[0], kinds[1], 0, 0];
        let found = text::read(format!("{SECURITY}{line}\n").as_bytes()).map(|input| Hex(file_of(&input.events)));
        let wanted = Hex([&[1, 0, 16, 0, 1], &body[..]].concat());
        same(check, || line.clone(), found, Ok(wanted));
    }
}

/// Each byte on each side, there and back.
fn each_kind_byte(check: &mut Check) {
    let sides = (0..=u8::MAX).flat_map(|kind| [[kind, 0], [0, kind], [kind, 1], [kind, kind]]);
    for sides in sides {
        let [seller, buyer] = sides.map(|kind| Party { member: 9, kind });
        let bytes = input(1, &[Event::Trade { security: 1, seller, buyer, quantity: 1, price: 1 }]);
        same(check, || format!("{sides:?}"), again(&bytes), Ok(Hex(bytes.clone())));
    }
}

/// Short, long and quantity, and their bytes in the body: 0 and 1, 8 to 11, 4 to 7.
const PAIR_OFFS: [(&str, [u8; 2], [u8; 4], [u8; 4]); 5] = [
    ("1 5 40", [1, 0], [5, 0, 0, 0], [40, 0, 0, 0]),
    ("5 1 40", [5, 0], [1, 0, 0, 0], [40, 0, 0, 0]),
    ("258 65,537 1,000,001", [2, 1], [1, 0, 1, 0], [65, 66, 15, 0]),
    ("0 0 0", [0; 2], [0; 4], [0; 4]),
    ("65,535 4,294,967,295 4,294,967,295", [255; 2], [255; 4], [255; 4]),
];

fn known_pair_offs(check: &mut Check) {
    for (numbers, short, long, quantity) in PAIR_OFFS {
        let line = format!("pair {numbers}");
        let found = text::read(format!("{SECURITY}{line}\n").as_bytes()).map(|input| Hex(file_of(&input.events)));
        let file = [&[1, 0, 16, 0, 10], &short[..], &[0, 0], &quantity, &long, &[0; 4]].concat();
        same(check, || line.clone(), found, Ok(Hex(file)));
        let plain = format!("{SECURITY}{}\n", line.replace(',', ""));
        same(check, || line.clone(), written(&plain), Ok(plain.clone()));
    }
}

/// Lines after a register of one security, and what is wrong with the last of them.
const BAD_EVENTS: [(&str, &str); 43] = [
    ("sell 1 2 1 100 1000", "line 2: unknown word \"sell\""),
    ("\n# none\nTrade 1 2 1 100 1000", "line 4: unknown word \"Trade\""),
    (
        "close\ntrade 1 2 1 100",
        "line 3: trade takes 5 numbers (seller, buyer, security, quantity, price), and 4 are there",
    ),
    ("trade", "line 2: trade takes 5 numbers (seller, buyer, security, quantity, price), and none is there"),
    (
        "trade 1 client 2 own 1 100",
        "line 2: trade takes 5 numbers (seller, buyer, security, quantity, price), and 4 are there",
    ),
    (
        "trade 1 Client 2 1 100 1000",
        "line 2: trade takes 5 numbers (seller, buyer, security, quantity, price), and 6 are there",
    ),
    ("trade own 1 2 1 100 1000", "line 2: a kind stands directly after the seller or the buyer, and \"own\" does not"),
    (
        "trade 1 own client 2 1 100 1000",
        "line 2: a kind stands directly after the seller or the buyer, and \"client\" does not",
    ),
    (
        "trade 1 2 1 kind 7 100 1000",
        "line 2: a kind stands directly after the seller or the buyer, and \"kind\" does not",
    ),
    ("trade 1 kind", "line 2: the seller's kind has no number after the word kind"),
    ("trade 1 2 kind", "line 2: the buyer's kind has no number after the word kind"),
    ("trade 1 kind client 2 1 100 1000", "line 2: the seller's kind is no number: \"client\""),
    ("trade 1 2 kind 256 1 100 1000", "line 2: the buyer's kind is too large: 256, and its field holds at most 255"),
    ("offer 1 4 client 40 1000", "line 2: offer takes 4 numbers (position, offerer, quantity, price), and 5 are there"),
    ("price 1", "line 2: price takes 2 numbers (security, price), and 1 is there"),
    ("delivery 1 2 3", "line 2: delivery takes 2 numbers (position, quantity), and 3 are there"),
    ("attempt # 1", "line 2: attempt takes 1 number (position), and none is there"),
    ("offer 1 4 40", "line 2: offer takes 4 numbers (position, offerer, quantity, price), and 3 are there"),
    ("award 1 2", "line 2: award takes 1 number (position), and 2 are there"),
    ("confirm", "line 2: confirm takes 1 number (award), and none is there"),
    ("cash", "line 2: cash takes 1 number (position), and none is there"),
    ("pair 1 5", "line 2: pair takes 3 numbers (short, long, quantity), and 2 are there"),
    ("pair 1 5 40 0", "line 2: pair takes 3 numbers (short, long, quantity), and 4 are there"),
    ("pair", "line 2: pair takes 3 numbers (short, long, quantity), and none is there"),
    ("pair 1 own 5 40", "line 2: pair takes 3 numbers (short, long, quantity), and 4 are there"),
    ("pair 1 with 40", "line 2: the long is no number: \"with\""),
    ("pair 1 65,53 40", "line 2: the long is not in groups of three digits: \"65,53\""),
    ("pair-off 1 5 40", "line 2: unknown word \"pair-off\""),
    ("close 1 2", "line 2: close takes at most 1 number (count of closes), and 2 are there"),
    ("close 0", "line 2: the count of closes is 0"),
    ("close 65,536", "line 2: the count of closes is too large: 65,536, and its field holds at most 65,535"),
    ("close 65535\nclose", "line 3: more than 65,535 events"),
    ("price 1 -5", "line 2: the price is no number: \"-5\""),
    ("price 1 +5", "line 2: the price is no number: \"+5\""),
    ("price 1 12.50", "line 2: the price is no number: \"12.50\""),
    ("price 1 _", "line 2: the price is no number: \"_\""),
    ("price 1 12,50", "line 2: the price is not in groups of three digits: \"12,50\""),
    ("price 1 1000,000", "line 2: the price is not in groups of three digits: \"1000,000\""),
    ("price 1 ,100", "line 2: the price is not in groups of three digits: \",100\""),
    ("price 1 1__000", "line 2: the price is not in groups of three digits: \"1__000\""),
    (
        "price 1 99999999999999999999",
        "line 2: the price is too large: 99999999999999999999, and its field holds at most 4,294,967,295",
    ),
    ("close\nsecurity 1 XX0000000010", "line 3: a security stands after the first event"),
    ("security 256 XX0000000010", "line 2: the class is too large: 256, and its field holds at most 255"),
];

/// Texts that go wrong in the register.
const BAD_REGISTERS: [(&str, &str); 9] = [
    ("", "line 1: the text ends without a security"),
    ("\n# none\n", "line 2: the text ends without a security"),
    ("close", "line 1: an event stands before the first security"),
    ("security 1", "line 1: security takes 2 fields (class, ISIN), and 1 is there"),
    ("security 1 # XX0000000002", "line 1: security takes 2 fields (class, ISIN), and 1 is there"),
    ("security 1 XX0000000002 2", "line 1: security takes 2 fields (class, ISIN), and 3 are there"),
    ("security XX0000000002 1", "line 1: the class is no number: \"XX0000000002\""),
    ("security 1 XX000000002", "line 1: an ISIN is 12 ASCII signs without blanks, and \"XX000000002\" is not"),
    ("security 1 XX00000000é2", "line 1: an ISIN is 12 ASCII signs without blanks, and \"XX00000000é2\" is not"),
];

fn bad_texts(check: &mut Check) {
    for (lines, message) in BAD_EVENTS {
        same(check, || lines.to_string(), binary(&format!("{SECURITY}{lines}")), Err(message.to_string()));
    }
    for (text, message) in BAD_REGISTERS {
        same(check, || text.to_string(), binary(text), Err(message.to_string()));
    }
    let many = SECURITY.repeat(65_536);
    let message = "line 65536: more than 65,535 securities";
    same(check, || "65,536 securities".to_string(), binary(&many), Err(message.to_string()));
}

/// Lines with a place for a number, the name of its field and the largest number there.
const FIELDS: [(&str, &str, u64); 20] = [
    ("trade @ 2 1 100 1000", "seller", 255),
    ("trade 1 @ 1 100 1000", "buyer", 255),
    ("trade 1 2 @ 100 1000", "security", 65_535),
    ("trade 1 2 1 @ 1000", "quantity", 4_294_967_295),
    ("trade 1 2 1 100 @", "price", 4_294_967_295),
    ("price @ 1000", "security", 65_535),
    ("price 1 @", "price", 4_294_967_295),
    ("delivery @ 100", "position", 65_535),
    ("delivery 1 @", "quantity", 4_294_967_295),
    ("attempt @", "position", 65_535),
    ("offer @ 3 100 1000", "position", 65_535),
    ("offer 1 @ 100 1000", "offerer", 255),
    ("offer 1 3 @ 1000", "quantity", 4_294_967_295),
    ("offer 1 3 100 @", "price", 4_294_967_295),
    ("award @", "position", 65_535),
    ("confirm @", "award", 65_535),
    ("cash @", "position", 65_535),
    ("pair @ 5 40", "short", 65_535),
    ("pair 1 @ 40", "long", 4_294_967_295),
    ("pair 1 5 @", "quantity", 4_294_967_295),
];

fn largest_numbers(check: &mut Check) {
    for (line, name, largest) in FIELDS {
        let with = |number: u64| format!("{SECURITY}{}\n", line.replace('@', &number.to_string()));
        same(check, || line.to_string(), written(&with(largest)), Ok(with(largest)));
        same(check, || line.to_string(), written(&with(0)), Ok(with(0)));
        let message = binary(&with(largest + 1)).err().unwrap_or_default();
        let start = format!("line 2: the {name} is too large: {}, ", largest + 1);
        same(check, || format!("{line}: {message}"), message.starts_with(&start), true);
    }
}

fn bytes_without_text(check: &mut Check) {
    let whole = EXAMPLE.binary;
    // 15 bytes of register, 4 of the file's head, 4 kinds, 4 bodies.
    for length in 0..whole.len() {
        let message = match length {
            0..2 => "it ends before the register's count does".to_string(),
            2..15 => format!("a register with the count 1 has 15 bytes, and {length} are there"),
            15..19 => "it ends before the file's count and width do".to_string(),
            _ => format!("a file with the count 4 has 72 bytes, and {} are there", length - 15),
        };
        let message = format!("this is no register and file: {message}");
        same(check, || format!("{length} bytes"), again(&whole[..length]), Err(message));
    }
    let changes = [
        // Without securities the file begins at the class, and the second and third sign of the ISIN are its width.
        (0, 0, "this is no register and file: the file's body width is 12376 and not 16"),
        (17, 17, "this is no register and file: the file's body width is 17 and not 16"),
        (3, b' ', "security 1: the ISIN is not 12 ASCII signs without blanks"),
        (14, 0x80, "security 1: the ISIN is not 12 ASCII signs without blanks"),
        (20, 0, "event 2: the kind is 0 and not 1 to 10"),
        (22, 11, "event 4: the kind is 11 and not 1 to 10"),
        // As a pair-off the trade has its two members in spare bytes.
        (19, 10, "event 1: a spare byte is not zero"),
        (23 + 14, 1, "event 1: a spare byte is not zero"),
        (23 + 16 + 12, 1, "event 2: a spare byte is not zero"),
    ];
    for (at, byte, message) in changes {
        let mut bytes = whole.to_vec();
        bytes[at] = byte;
        same(check, || format!("byte {at} set to {byte}"), again(&bytes), Err(message.to_string()));
    }
    let message = "this is no register and file: a file with the count 4 has 72 bytes, and 73 are there".to_string();
    same(check, || "one byte more".to_string(), again(&[whole, &[0]].concat()), Err(message));
    let empty = [0, 0, 0, 0, 16, 0];
    let message = "the register is empty, and text has at least one security".to_string();
    same(check, || hex(&empty), again(&empty), Err(message));
}

fn readable(bytes: Vec<u8>) -> String {
    String::from_utf8_lossy(&bytes).into_owned()
}

fn binary(text: &str) -> Result<Hex, String> {
    text::read(text.as_bytes()).map(|input| Hex(input.bytes()))
}

/// The bytes of the text of the bytes.
fn again(bytes: &[u8]) -> Result<Hex, String> {
    Input::from_bytes(bytes).and_then(|input| text::write(&input)).and_then(|text| binary(&text))
}

/// The text as it is written once it is read.
fn written(text: &str) -> Result<String, String> {
    text::read(text.as_bytes()).and_then(|input| text::write(&input))
}

/// Any classes, any ISINs that text can hold and events of all kinds with any fields.
fn random_input(random: &mut Random, securities: usize, events: usize) -> Input {
    let register = (0..securities).map(|_| random_security(random)).collect();
    let mut events_of_kinds = Vec::new();
    for _ in 0..events {
        let kind = random.between(1, 10) as u8;
        events_of_kinds.push(random_event(random, kind));
    }
    Input { register, events: events_of_kinds, ..Input::default() }
}

fn random_security(random: &mut Random) -> Security {
    let signs: Vec<u8> = (0..128).filter(|&byte: &u8| !char::from(byte).is_whitespace()).collect();
    let class = random.byte();
    // `#` also begins comments, so it is to be frequent.
    let isin = std::array::from_fn(|_| if random.one_in(4) { b'#' } else { random.pick(&signs) });
    (class, isin)
}

/// The same input in another spelling: comments, blanks, group signs, and closes counted.
fn respelled(random: &mut Random, plain: &str) -> String {
    let mut spelling = String::new();
    let mut lines = plain.lines().peekable();
    while let Some(line) = lines.next() {
        let mut closes = 1;
        while line == "close" && random.one_in(2) && lines.next_if_eq(&line).is_some() {
            closes += 1;
        }
        spelling += random.pick(&["", "", "\n", "# close 7\n", "  #\r\n"]);
        spelling += random.pick(&["", " ", "\t"]);
        spelling += &match line.split_once(' ') {
            None if closes == 1 => line.to_string(),
            None => format!("{line} {closes}"),
            // An ISIN has no other spelling.
            Some(("security", _)) => line.to_string(),
            Some((word, numbers)) => format!("{word} {}", regrouped(random, numbers)),
        };
        spelling += random.pick(&["", " ", "\t# close 7", " #", "\r"]);
        spelling.push('\n');
    }
    spelling
}

/// The digits with the sign before each group of three.
fn number_with(digits: &str, sign: &str) -> String {
    let mut spelling = String::new();
    for (at, digit) in digits.chars().enumerate() {
        if at > 0 && (digits.len() - at) % 3 == 0 {
            spelling += sign;
        }
        spelling.push(digit);
    }
    spelling
}

/// The numbers, some with group signs, with any blanks between them.
fn regrouped(random: &mut Random, numbers: &str) -> String {
    let mut spelling = String::new();
    for number in numbers.split(' ') {
        // The word of a kind has no other spelling.
        let signs = if number.starts_with(char::is_numeric) { ["", "_", ","] } else { [""; 3] };
        spelling += &number_with(number, random.pick(&signs));
        spelling += random.pick(&[" ", "  ", "\t"]);
    }
    spelling
}
