//! Named checks: each compares many answers of the desk with the second implementation and counts as one test.

use fails_book_tests::desk::Answer;
use fails_book_tests::random::Random;
use std::collections::BTreeMap;
use std::fmt::Debug;

/// A check that goes wrong everywhere shows its first inputs alone.
const MOST_SHOWN: u64 = 3;

#[derive(Default)]
pub struct Tests {
    pub passed: u32,
    pub failed: u32,
}

impl Tests {
    /// Runs a check in which each of the wanted refusal numbers must occur (0 stands for an accepted call).
    pub fn check(&mut self, name: &str, wanted: &[u32], body: impl FnOnce(&mut Check)) {
        let mut check = Check { name: name.to_string(), inputs: 0, wrong: 0, refusals: BTreeMap::new() };
        body(&mut check);
        if check.finish(wanted) {
            self.passed += 1;
        } else {
            self.failed += 1;
        }
    }
}

/// The checks of one seed.
pub struct Round<'a> {
    pub tests: &'a mut Tests,
    pub seed: u64,
}

impl Round<'_> {
    pub fn check(&mut self, name: &str, wanted: &[u32], body: impl FnOnce(&mut Check, &mut Random)) {
        let mut random = Random::new(self.seed, name);
        let name = format!("{name} (seed {})", self.seed);
        self.tests.check(&name, wanted, |check| body(check, &mut random));
    }
}

pub struct Check {
    name: String,
    inputs: u64,
    wrong: u64,
    refusals: BTreeMap<u32, u64>,
}

impl Check {
    /// Compares the answers to one input; the input is put into words only where they differ.
    pub fn same<A: PartialEq + Debug>(&mut self, input: impl Fn() -> String, desk: A, second: A) {
        self.inputs += 1;
        if desk != second {
            self.wrong(input, &[("desk", &desk), ("second", &second)]);
        }
    }

    /// Compares the answers to an input whose answer is known beforehand: both must give it.
    pub fn known<A: PartialEq + Debug>(&mut self, input: impl Fn() -> String, desk: A, second: A, known: A) {
        self.inputs += 1;
        if desk != known || second != known {
            self.wrong(input, &[("desk", &desk), ("second", &second), ("known", &known)]);
        }
    }

    /// As `same`, for answers that may be refusals, which are counted.
    pub fn same_answer(&mut self, input: impl Fn() -> String, desk: Answer, second: impl Into<Answer>) {
        let second = second.into();
        self.count(second);
        self.same(input, desk, second);
    }

    /// As `known`, for answers that may be refusals, which are counted.
    pub fn known_answer(&mut self, input: impl Fn() -> String, desk: Answer, second: impl Into<Answer>, known: Answer) {
        self.count(known);
        self.known(input, desk, second.into(), known);
    }

    /// Wants the inputs to have reached a state.
    pub fn reached(&mut self, state: &str, times: u64) {
        self.inputs += 1;
        if times == 0 {
            self.wrong(|| state.to_string(), &[("times reached", &times)]);
        }
    }

    pub fn count(&mut self, answer: Answer) {
        *self.refusals.entry(answer.refusal).or_default() += 1;
    }

    fn wrong(&mut self, input: impl Fn() -> String, answers: &[(&str, &dyn Debug)]) {
        self.wrong += 1;
        if self.wrong <= MOST_SHOWN {
            println!("WRONG {}", self.name);
            println!("  input: {}", input());
            for (whose, answer) in answers {
                println!("  {whose}: {answer:?}");
            }
        }
    }

    fn finish(self, wanted: &[u32]) -> bool {
        let missing: Vec<u32> = wanted.iter().copied().filter(|number| !self.refusals.contains_key(number)).collect();
        let good = self.inputs > 0 && self.wrong == 0 && missing.is_empty();
        let mut line = format!("{} {}: {} inputs", if good { "ok  " } else { "FAIL" }, self.name, self.inputs);
        for (number, times) in &self.refusals {
            line += &match number {
                0 => format!(", accepted {times}"),
                _ => format!(", refusal {number}: {times}"),
            };
        }
        if self.wrong > 0 {
            line += &format!(", WRONG {}", self.wrong);
        }
        if !missing.is_empty() {
            line += &format!(", NEVER OCCURRED {missing:?}");
        }
        println!("{line}");
        good
    }
}
