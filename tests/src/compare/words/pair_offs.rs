//! Pair-offs, read back from their words: the call, its piece, and the reason for its refusal.

use super::super::{hex, kind_name, same};
use super::{numbers_of, played};
use crate::check::Check;
use fails_book_tests::histories;
use fails_book_tests::random::Random;
use second::book::{Book, Position, Side, SHEET_PLACES};
use second::events::Event;
use second::refusal::Refusal;
use second::transcript;
use std::collections::BTreeMap;
use tools::check::Source;
use tools::words;

/// So many that each of the rarest reasons, a long that is not due and a running auction, is met some twenty times.
const HISTORIES: usize = 1_000;
const LONG_HISTORIES: usize = 8;

/// What the histories are to have, as `Said::names` has it.
const REACHED: [&str; 13] = [
    "accepted",
    "refused with 11",
    "refused with 12",
    "refused with 16",
    "refused with 17",
    "refused with 18",
    "refused with 24",
    "it is the short itself",
    "it is short",
    "it falls due on day",
    "its member is",
    "its kind is",
    "its security is",
];

pub fn of_histories(check: &mut Check, random: &mut Random) {
    let mut times = BTreeMap::new();
    for which in 0..HISTORIES + LONG_HISTORIES {
        let input = if which < HISTORIES { histories::any(random) } else { histories::long(random, which) };
        for name in read_back(check, &input).iter().flat_map(Said::names) {
            *times.entry(name).or_default() += 1;
        }
    }
    for name in REACHED {
        check.reached(&format!("a pair-off: {name}"), times.get(name).copied().unwrap_or(0));
    }
}

/// What is said of a pair-off once it is called.
#[derive(Debug, PartialEq, Eq)]
enum Said {
    /// The numbers of each line after the call's.
    Accepted(Vec<Vec<u64>>),
    /// The refusal, the numbers of its reason, and of 34 in what the second position is not as it has to be.
    Refused(u8, Vec<u64>, Vec<Fault>),
}

/// As `its member is`, and `4`.
type Fault = (&'static str, String);

impl Said {
    fn names(&self) -> Vec<String> {
        match self {
            Said::Accepted(_) => vec!["accepted".to_string()],
            Said::Refused(34, _, faults) => faults.iter().map(|(name, _)| name.to_string()).collect(),
            Said::Refused(refusal, _, _) => vec![format!("refused with {refusal}")],
        }
    }
}

/// Compares the words of each pair-off of an input with the book before it.
fn read_back(check: &mut Check, input: &[u8]) -> Vec<Said> {
    let (Ok((mut book, _)), Ok(played)) =
        (transcript::open(input), played(&Source::of_bytes(input.to_vec()), &transcript::transcript(input)))
    else {
        return Vec::new();
    };
    let all = words::words(&played);
    let mut said = Vec::new();
    for step in &played.steps {
        if let Some(pair_off) = PairOff::of(&step.event) {
            same(check, || hex(input), numbers_of(&words::call(step)), pair_off.numbers());
            let found = match &step.result {
                Ok(_) => Some(Said::Accepted(lines_after(&all, step.number).map(numbers_of).collect())),
                Err(refused) => refusal_said(refused.refusal, &refused.reason),
            };
            let wanted = pair_off.wanted(&book, step.result.as_ref().err().map(|refused| refused.refusal));
            same(check, || hex(input), &found, &Some(wanted));
            said.extend(found);
        }
        // A refused call changes nothing.
        let _ = book.call(&step.event, SHEET_PLACES);
    }
    said
}

/// The lines that follow an event's first.
fn lines_after(words: &str, event: usize) -> impl Iterator<Item = &str> {
    let first = format!("{event}. ");
    words.lines().skip_while(move |line| !line.starts_with(&first)).skip(1).take_while(|line| line.starts_with("   "))
}

/// The names of faults, each before what it says of the position.
const FAULTS: [&str; 6] =
    ["it is the short itself", "it is short", "it falls due on day", "its member is", "its kind is", "its security is"];

/// What the reason of a refusal says, unless it says something else than it may.
fn refusal_said(refusal: Refusal, reason: &str) -> Option<Said> {
    let (reason, faults) = match (refusal, reason.split_once(": ")) {
        (Refusal::NoPair, Some((reason, faults))) => (reason, faults.split(", and ").collect()),
        _ => (reason, Vec::new()),
    };
    let fault = |words: &str| {
        let said = |name: &'static str| Some((name, words.strip_prefix(name)?.trim().replace(',', "")));
        FAULTS.into_iter().find_map(said)
    };
    let faults: Option<Vec<Fault>> = faults.into_iter().map(fault).collect();
    Some(Said::Refused(refusal as u8, numbers_of(reason), faults?))
}

/// As its event has it.
#[derive(Clone, Copy)]
struct PairOff {
    short: u16,
    long: u32,
    quantity: u32,
}

impl PairOff {
    fn of(event: &Event) -> Option<PairOff> {
        match *event {
            Event::PairOff { short, long, quantity } => Some(PairOff { short, long, quantity }),
            _ => None,
        }
    }

    /// In the order of the words.
    fn numbers(self) -> Vec<u64> {
        [self.quantity, self.short.into(), self.long].map(u64::from).to_vec()
    }

    /// The two positions, which are there.
    fn positions(self, book: &Book) -> [&Position; 2] {
        [self.short.into(), self.long].map(|number| &book.positions[number as usize - 1])
    }

    /// What is to be said, by the book that the call met.
    fn wanted(self, book: &Book, refusal: Option<Refusal>) -> Said {
        let [short, long] = [self.short.into(), self.long.into()];
        let Some(refusal) = refusal else {
            let member = self.positions(book)[0].member.into();
            return Said::Accepted(vec![vec![self.quantity.into(), short, member, long, member]]);
        };
        let numbers = match refusal {
            Refusal::NotThere => self.not_there(book),
            Refusal::Quantity => vec![0],
            Refusal::Window => vec![short, self.positions(book)[0].delivery_day.into()],
            Refusal::NoPair => {
                let first = self.positions(book)[0];
                vec![long, first.member.into(), first.security as u64 + 1]
            }
            Refusal::NotFree => self.not_free(book),
            _ => vec![short],
        };
        let faults = if refusal == Refusal::NoPair { self.faults(book) } else { Vec::new() };
        Said::Refused(refusal as u8, numbers, faults)
    }

    /// The positions that are not there, each once, then the first and the last that are.
    fn not_there(self, book: &Book) -> Vec<u64> {
        let count = book.positions.len() as u64;
        let mut missing: Vec<u64> = [self.short.into(), self.long.into()].into();
        missing.retain(|number| *number == 0 || *number > count);
        missing.dedup();
        missing.extend([1, count].into_iter().filter(|_| count > 0));
        missing
    }

    /// What is free of the short, with what is open and awarded of it where that is another number, and what is open of
    /// the long, each where it is too little.
    fn not_free(self, book: &Book) -> Vec<u64> {
        let [short, long] = self.positions(book).map(|position| u64::from(position.open()));
        let awards = book.awards.iter().filter(|award| award.short + 1 == usize::from(self.short) && !award.confirmed);
        let awarded: u64 = awards.map(|award| u64::from(award.quantity)).sum();
        let free = short - awarded;
        let mut numbers = Vec::new();
        if u64::from(self.quantity) > free {
            numbers.extend([free, self.short.into()]);
            numbers.extend([short, awarded].into_iter().filter(|_| awarded > 0));
        }
        if u64::from(self.quantity) > long {
            numbers.extend([long, self.long.into()]);
        }
        numbers
    }

    fn faults(self, book: &Book) -> Vec<Fault> {
        if u32::from(self.short) == self.long {
            return vec![("it is the short itself", String::new())];
        }
        let [short, other] = self.positions(book);
        let all = [
            ("it is short", String::new(), other.side == Side::Long),
            ("it falls due on day", other.delivery_day.to_string(), other.delivery_day <= book.day),
            ("its member is", other.member.to_string(), other.member == short.member),
            ("its kind is", kind_name(other.kind).to_string(), other.kind == short.kind),
            ("its security is", (other.security + 1).to_string(), other.security == short.security),
        ];
        all.into_iter().filter(|(_, _, is_good)| !is_good).map(|(name, what, _)| (name, what)).collect()
    }
}
