//! What one pair-off does: the positions and accounts at the end of a file cut off before it and after it.

use crate::check::Check;
use crate::compare::bytes::{first_events, parts, price, quantity, word, WIDTH};
use crate::compare::same;
use tools::output::{lines, Line};

/// Whether an accepted pair-off, given by the number of its event, does what it is to do and nothing else.
pub fn effect(input: &[u8], number: usize, play: impl Fn(&[u8]) -> Vec<u8>) -> Result<(), String> {
    let body = &parts(input).bodies[WIDTH * (number - 1)..][..WIDTH];
    let pairing = [u64::from(word(body)), price(body), quantity(body)];
    let [before, after] = [number - 1, number].map(|events| play(&first_events(input, events)));
    leads_to(pairing, &before, &after)
}

/// Whether the second end is the first, but that of the short and of the long the quantity is paired and no longer open.
fn leads_to([short, long, quantity]: [u64; 3], before: &[u8], after: &[u8]) -> Result<(), String> {
    let [mut wanted, found] = [end(before)?, end(after)?];
    for line in &mut wanted {
        match line {
            Line::Position(position) if [short, long].contains(&position.number) => {
                position.paired += quantity;
                position.open = position.open.checked_sub(quantity).ok_or("more is paired than was open")?;
            }
            _ => {}
        }
    }
    match found == wanted {
        true => Ok(()),
        false => Err(format!("the end is {found:?}, and {wanted:?} is wanted")),
    }
}

/// The positions and accounts at the end.
fn end(output: &[u8]) -> Result<Vec<Line>, String> {
    let mut lines = lines(output)?;
    lines.retain(|line| matches!(line, Line::Position(_) | Line::Account { .. }));
    Ok(lines)
}

const BEFORE: &str = "\
s 1 1 D 10 0 0 0 3 7
s 2 2 R 10 0 0 0 0 10
s 3 1 R 8 2 0 0 3 3
s 4 3 D 8 2 0 0 0 6
a 0 5
a 3 -5
";

const AFTER: &str = "\
s 1 1 D 10 0 0 0 5 5
s 2 2 R 10 0 0 0 0 10
s 3 1 R 8 2 0 0 5 1
s 4 3 D 8 2 0 0 0 6
a 0 5
a 3 -5
";

/// What stands in place of the end after a pair-off of 2 units of short 1 with long 3: one of them as it was, what is
/// open as it was, the units delivered, another position changed, money paid.
const CHANGES: [(&str, &str); 7] = [
    ("s 1 1 D 10 0 0 0 5 5", "s 1 1 D 10 0 0 0 3 7"),
    ("s 3 1 R 8 2 0 0 5 1", "s 3 1 R 8 2 0 0 3 3"),
    ("s 1 1 D 10 0 0 0 5 5", "s 1 1 D 10 0 0 0 5 7"),
    ("s 3 1 R 8 2 0 0 5 1", "s 3 1 R 8 4 0 0 3 1"),
    ("s 2 2 R 10 0 0 0 0 10", "s 2 2 R 10 0 0 0 2 8"),
    ("a 3 -5\n", "a 3 -7\n"),
    ("a 0 5\na 3", "a 0 5\na 1 2\na 3"),
];

/// It finds fault with other ends, or it would with none.
pub fn known_faults(check: &mut Check) {
    let fits = |after: &str| leads_to([1, 3, 2], BEFORE.as_bytes(), after.as_bytes()).is_ok();
    same(check, || AFTER.to_string(), fits(AFTER), true);
    for (from, to) in CHANGES {
        let changed = AFTER.replacen(from, to, 1);
        same(check, || format!("{to:?} for {from:?}"), (changed != AFTER, fits(&changed)), (true, false));
    }
}
