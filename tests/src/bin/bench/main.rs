//! Measures the player and the second implementation on the same inputs: each kind of event, by the number of positions,
//! and five loads. Both play in this process, by turns: the player's side is `timed_play` of the static library `timed`,
//! which plays as the player does and prints nothing. Besides, both run as programs of their own, of whose time most is
//! the start, and where valgrind is there their instructions are counted. With the argument --play this program is the
//! second one. The check of a file alone is timed as a call of the static library `desk` and of the second
//! implementation.

mod checks;
mod in_process;
mod instructions;
mod kinds;
mod loads;
mod programs;
mod table;

use fails_book_tests::timed;
use second::transcript;
use std::io::{self, Read, Write};
use std::process::ExitCode;

/// What is measured of the player, then of the second implementation.
type Both<T> = [T; 2];

fn main() -> ExitCode {
    let result = match std::env::args().nth(1).as_deref() {
        None => measure(),
        Some("--play") => play(),
        Some(_) => Err(io::Error::other("the only argument is --play")),
    };
    match result {
        Ok(()) => ExitCode::SUCCESS,
        Err(error) => {
            eprintln!("{error}");
            ExitCode::FAILURE
        }
    }
}

fn play() -> io::Result<()> {
    let mut input = Vec::new();
    io::stdin().read_to_end(&mut input)?;
    io::stdout().write_all(&transcript::transcript(&input))
}

fn measure() -> io::Result<()> {
    let mut kinds = kinds::rows()?;
    let mut loads = loads::loads()?;
    let page = &mut timed::page();
    kinds::time(&mut kinds, page)?;
    loads::time(&mut loads, page)?;
    let counted = instructions::is_there();
    if counted {
        kinds::count(&mut kinds)?;
        loads::count(&mut loads)?;
    } else {
        println!("valgrind is not there, so that no instructions are counted\n");
    }
    table::print(&kinds, &loads, counted);
    table::print_by_positions(&kinds);
    programs::measure(&loads)?;
    checks::measure()
}
