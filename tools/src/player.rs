//! Programs run as the player is: input on standard input, the answer on standard output.

use std::io::{self, Error, Write};
use std::path::PathBuf;
use std::process::{Command, Stdio};
use std::thread;

/// The repository's root: `./play` names it, since a folder may be moved after the program was built.
pub fn root() -> PathBuf {
    match std::env::var_os("FAILS_ROOT") {
        Some(path) => path.into(),
        None => [env!("CARGO_MANIFEST_DIR"), ".."].iter().collect(),
    }
}

/// The player where `rt` leaves it, or where FAILS_PLAYER says.
pub fn path() -> PathBuf {
    match std::env::var_os("FAILS_PLAYER") {
        Some(path) => path.into(),
        None => root().join("crates/player/out/player"),
    }
}

/// All that the player prints on this input. It ends without a status of its own, so what it printed decides.
pub fn play(input: &[u8]) -> io::Result<Vec<u8>> {
    output_of(&mut Command::new(path()), input)
}

/// All that the program prints on this input.
pub fn output_of(program: &mut Command, input: &[u8]) -> io::Result<Vec<u8>> {
    let started = program.stdin(Stdio::piped()).stdout(Stdio::piped()).spawn();
    let mut child = started.map_err(|error| Error::other(format!("{:?}: {error}", program.get_program())))?;
    let mut stdin = child.stdin.take().ok_or_else(|| Error::other("the program has no standard input"))?;
    let output = thread::scope(|scope| {
        // A program may end before it has read all; then its output decides, not the pipe. The pipe is written in a
        // thread of its own because the program may print before it has read all.
        scope.spawn(move || stdin.write_all(input).ok());
        child.wait_with_output()
    })?;
    if output.status.code().is_none() {
        return Err(Error::other(format!("the program was stopped: {}", output.status)));
    }
    Ok(output.stdout)
}
