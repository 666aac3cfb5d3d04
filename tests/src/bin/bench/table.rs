//! What was measured, in the form of the tables in the README and in docs/ARCHITECTURE.md.

use crate::in_process::PLAYS;
use crate::kinds::{Entry, Row, SHOWN};
use crate::loads::Load;
use crate::Both;
use fails_book_tests::scaling::{MOST_BEFORE_TRADES, POSITIONS};

/// One event of each kind, and whole loads. Where no instructions were counted, the table has none.
pub fn print(kinds: &[Row], loads: &[Load], counted: bool) {
    print_heading(counted);
    for kind in kinds {
        for at in kind.shown() {
            let instructions = counted.then(|| kind.taken(at, kinds, Entry::instructions));
            print_row(&name(kind, at), kind.taken(at, kinds, Entry::nanos), instructions);
        }
    }
    for load in loads {
        print_row(load.name, load.played.nanos(), counted.then_some(load.instructions));
    }
    println!();
}

fn print_heading(counted: bool) {
    println!(
        "Nanoseconds in one process: an event of a kind, or a play of a load; medians of {PLAYS} plays of an input."
    );
    if counted {
        println!("Instructions of the programs, by callgrind: an event of a kind, or a load less an empty input.");
    }
    println!("An event is played with {} positions, where nothing else is said.\n", POSITIONS[SHOWN]);
    let of = |unit: &str| ["player", "second"].map(|side| format!("{side}, {unit}"));
    let columns = |unit| [of(unit).to_vec(), vec!["ratio".to_string()]].concat();
    let instructions = if counted { columns("instructions") } else { Vec::new() };
    print_head("event or load", &[columns("ns"), instructions].concat());
}

fn print_row(name: &str, nanos: Both<f64>, instructions: Option<Both<f64>>) {
    let cells: Vec<String> = [Some(nanos), instructions].into_iter().flatten().flat_map(with_ratio).collect();
    println!("{}", row(name, &cells));
}

/// A kind that is shown at several numbers of positions has them in its name.
fn name(kind: &Row, at: usize) -> String {
    if kind.shown().len() == 1 {
        kind.kind.name.to_string()
    } else {
        format!("{}, {} positions", kind.kind.name, number(POSITIONS[at] as f64))
    }
}

/// The nanoseconds of one event of each kind, by the number of positions.
pub fn print_by_positions(kinds: &[Row]) {
    println!("Nanoseconds an event in the same plays, by the number of positions.");
    println!("A trade: {MOST_BEFORE_TRADES} positions in the last column. Attempt and award: the two together.\n");
    let of = |side: &str| POSITIONS.map(|positions| format!("{side}, {}", number(positions as f64)));
    print_head("event", &["player", "second"].map(of).concat());
    for kind in kinds {
        let nanos: Vec<Both<f64>> = (0..POSITIONS.len()).map(|at| kind.taken(at, kinds, Entry::nanos)).collect();
        let cells = [0, 1].map(|side| nanos.iter().map(|nanos| number(nanos[side])).collect::<Vec<_>>());
        println!("{}", row(kind.kind.name, &cells.concat()));
    }
    println!();
}

fn with_ratio([player, second]: Both<f64>) -> [String; 3] {
    [number(player), number(second), format!("{:.2}", player / second)]
}

/// The first two lines of a table.
pub fn print_head(name: &str, columns: &[String]) {
    println!("{}", row(name, columns));
    println!("|{}", "---|".repeat(1 + columns.len()));
}

/// A line of a table.
pub fn row(name: &str, cells: &[String]) -> String {
    format!("| {name} | {} |", cells.join(" | "))
}

/// A number without fraction, with commas.
pub fn number(value: f64) -> String {
    let digits = format!("{:.0}", value.abs());
    let groups: Vec<&str> =
        digits.as_bytes().rchunks(3).rev().filter_map(|group| std::str::from_utf8(group).ok()).collect();
    let sign = if value <= -0.5 { "-" } else { "" };
    format!("{sign}{}", groups.join(","))
}
