//! The columns of the desk's page read back, and compared with what the player prints of each position.

use super::known::{bought_in, delivered, left_open, nine_digits, settled_in_cash, sold_after, units_of};
use super::known::{DELIVERY_DAYS, QUANTITIES};
use super::{on_a_fitting_page, Given, LINE};
use crate::check::Check;
use crate::compare::same;
use fails_book_tests::histories;
use fails_book_tests::random::Random;
use second::book::Business;
use second::transcript::transcript;

/// The columns by name, each from its first to its last, counted from 1, and the most signs that a file can put there.
const COLUMNS: [(&str, usize, usize, usize); 11] = [
    ("position", 1, 4, 4),
    ("member", 6, 7, 2),
    ("ISIN", 9, 20, 12),
    ("side letter", 22, 22, 1),
    ("netted", 24, 32, 9),
    ("delivered", 34, 42, 9),
    ("bought in", 44, 52, 9),
    ("cash", 54, 62, 9),
    ("open", 64, 72, 9),
    // No file has enough closes for five digits.
    ("S", 74, 78, 4),
    ("kind letter", 80, 80, 1),
];

const BETWEEN_AND_AFTER: &str = "          \n";

type Words = [String; COLUMNS.len()];

pub fn each_width_read_back(check: &mut Check) {
    let mut lines = Vec::new();
    for units in QUANTITIES.map(units_of) {
        for given in [left_open(units), delivered(units), bought_in(units), settled_in_cash(units)] {
            lines.extend(read_back(check, &given));
        }
    }
    for (closes, _) in DELIVERY_DAYS {
        lines.extend(read_back(check, &sold_after(closes)));
    }
    let full_book = histories::full_book_in_cash(&mut Random::new(0, "1,024 positions read back"));
    lines.extend(read_back(check, &Given::parted(&full_book)));
    lines.extend(read_back(check, &nine_digits()));
    for ((name, _, _, most), column) in COLUMNS.into_iter().zip(0..) {
        let least = if name == "ISIN" { most } else { 1 };
        for signs in least..=most {
            let times = lines.iter().filter(|words| words[column].len() == signs).count();
            check.reached(&format!("{name} of {signs} signs"), times as u64);
        }
    }
}

/// Reads the columns of the page that the desk writes, and wants of them what the transcript says of the positions.
/// Whether an input is refused is compared elsewhere: here it has no lines.
pub fn read_back(check: &mut Check, given: &Given) -> Vec<Words> {
    let Some(wanted) = by_transcript(given) else {
        return Vec::new();
    };
    let written = on_a_fitting_page(given, wanted.len());
    same(check, || given.words(), written.answer, (wanted.len() * LINE) as u64);
    let lines: Vec<Words> = written.page().chunks(LINE).map(words_of).collect();
    for ((line, words), wanted) in written.page().chunks(LINE).zip(&lines).zip(wanted) {
        let found = (words.to_vec(), between_and_after(line));
        same(check, || given.words(), found, (wanted, BETWEEN_AND_AFTER.to_string()));
    }
    lines
}

/// The words in the columns. Blanks stand before a word alone: others are kept, so that they differ.
fn words_of(line: &[u8]) -> Words {
    COLUMNS.map(|(_, first, last, _)| {
        let column = String::from_utf8_lossy(&line[first - 1..last]);
        column.trim_start_matches(' ').to_string()
    })
}

fn between_and_after(line: &[u8]) -> String {
    let is_in_a_column = |at| COLUMNS.iter().any(|&(_, first, last, _)| (first..=last).contains(&at));
    line.iter().zip(1..).filter(|&(_, at)| !is_in_a_column(at)).map(|(&sign, _)| char::from(sign)).collect()
}

/// The words of each line in the order of the columns, unless the input is refused: those of the transcript's `s`
/// lines, with ISIN, delivery day and kind from register and book.
fn by_transcript(given: &Given) -> Option<Vec<Vec<String>>> {
    let (securities, book) = given.played()?;
    let printed = String::from_utf8_lossy(&transcript(&given.as_input())).into_owned();
    let of_positions = printed.lines().filter_map(|line| line.strip_prefix("s "));
    let lines = of_positions.zip(book.positions()).map(|(line, position)| {
        let mut words: Vec<String> = line.split(' ').map(str::to_string).collect();
        // The page does not show what is paired, which stands before open.
        words.remove(7);
        let (_, isin) = securities[position.security];
        words.insert(2, String::from_utf8_lossy(&isin).into_owned());
        words.push(position.delivery_day.to_string());
        words.push(if position.kind == Business::Own { "O" } else { "C" }.to_string());
        words
    });
    Some(lines.collect())
}
