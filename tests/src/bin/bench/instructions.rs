//! How many instructions the programs take, as callgrind counts them.

use crate::{programs, Both};
use std::io::{self, Error, Write};
use std::process::{Command, Stdio};

/// Whether valgrind is there.
pub fn is_there() -> bool {
    let version = Command::new("valgrind").arg("--version").stdout(Stdio::null()).stderr(Stdio::null()).status();
    version.is_ok_and(|status| status.success())
}

/// Those of the player and of the second implementation on an input.
pub fn of_both(input: &[u8]) -> io::Result<Both<f64>> {
    let [player, second] = programs::both()?;
    Ok([of(&player, input)?, of(&second, input)?])
}

fn of(program: &Command, input: &[u8]) -> io::Result<f64> {
    let mut callgrind = Command::new("valgrind");
    callgrind.args(["--tool=callgrind", "--callgrind-out-file=/dev/null"]);
    callgrind.arg(program.get_program()).args(program.get_args());
    let mut child = callgrind.stdin(Stdio::piped()).stdout(Stdio::null()).stderr(Stdio::piped()).spawn()?;
    // Neither program prints before it has read all, and what callgrind says is short.
    child.stdin.take().map_or(Ok(()), |mut stdin| stdin.write_all(input))?;
    let said = String::from_utf8_lossy(&child.wait_with_output()?.stderr).into_owned();
    collected(&said).ok_or_else(|| Error::other(format!("callgrind counted nothing: {said}")))
}

/// The number in the line `==PROCESS== Collected : NUMBER`.
fn collected(said: &str) -> Option<f64> {
    let (_, number) = said.lines().find_map(|line| line.split_once("Collected : "))?;
    number.trim().parse().ok()
}
