//! Programs run as people run them, what they print where and their status, and folders for the files of a check.

use std::ffi::OsStr;
use std::fs;
use std::io::{self, Read, Write};
use std::os::unix::fs::PermissionsExt;
use std::path::{Path, PathBuf};
use std::process::{Command, Output, Stdio};
use std::sync::atomic::{AtomicU32, Ordering};
use tools::{page, player};

pub const EXAMPLE: &str = include_str!("../../../examples/example.txt");
pub const SQUEEZE: &str = include_str!("../../../examples/squeeze.txt");
pub const SQUEEZE_PAGE: &str = include_str!("../../../examples/squeeze.page");

/// What a program did: its status, and what it printed on standard output and on standard error.
#[derive(Debug, PartialEq)]
pub struct Ended {
    pub status: Option<i32>,
    pub output: String,
    pub errors: String,
}

impl Ended {
    /// As a program ends that has done what it was asked to.
    pub fn well(output: &str) -> Ended {
        Ended { status: Some(0), output: output.to_string(), errors: String::new() }
    }

    /// As `./play` ends where something is wrong with what is named.
    pub fn wrong(name: &str, words: &str) -> Ended {
        Ended { status: Some(1), output: String::new(), errors: format!("play: {name}: {words}\n") }
    }

    /// As `./play` ends where an input is refused, after it has shown this output.
    pub fn refused(name: &str, number: u8, words: &str, output: &str) -> Ended {
        Ended { output: output.to_string(), ..Ended::wrong(name, &format!("refused with {number}: {words}")) }
    }
}

/// The binary form of the squeeze: a register of 15 bytes, then the file.
pub fn squeeze() -> Vec<u8> {
    include_bytes!("../../../examples/squeeze.bin").to_vec()
}

pub fn root() -> PathBuf {
    [env!("CARGO_MANIFEST_DIR"), ".."].iter().collect()
}

/// The program behind `./play`, which is built beside this one.
pub fn program<A: AsRef<OsStr>>(arguments: impl IntoIterator<Item = A>) -> Command {
    let beside = std::env::current_exe().map(|path| path.with_file_name("play")).unwrap_or_default();
    let mut program = Command::new(beside);
    program.args(arguments).env("FAILS_PLAYER", player::path()).env("FAILS_PAGE", page::path());
    program
}

pub fn play<A: AsRef<OsStr>>(arguments: impl IntoIterator<Item = A>, input: &[u8]) -> Ended {
    ended(&mut program(arguments), input)
}

pub fn ended(program: &mut Command, input: &[u8]) -> Ended {
    match run(program, input) {
        Ok(output) => Ended {
            status: output.status.code(),
            output: String::from_utf8_lossy(&output.stdout).into_owned(),
            errors: String::from_utf8_lossy(&output.stderr).into_owned(),
        },
        // No program ends like this, so it differs from all that is wanted.
        Err(error) => Ended { status: None, output: String::new(), errors: error.to_string() },
    }
}

pub fn run(program: &mut Command, input: &[u8]) -> io::Result<Output> {
    let mut child = program.stdin(Stdio::piped()).stdout(Stdio::piped()).stderr(Stdio::piped()).spawn()?;
    let mut stdin = child.stdin.take().ok_or_else(|| io::Error::other("the program has no standard input"))?;
    std::thread::scope(|scope| {
        // A program may end before it has read all.
        scope.spawn(move || stdin.write_all(input).ok());
        child.wait_with_output()
    })
}

/// The status and the errors of a program with a full device as its standard output.
pub fn full(program: &mut Command) -> io::Result<(Option<i32>, String)> {
    let device = fs::File::options().write(true).open("/dev/full")?;
    let ended = program.stdin(Stdio::null()).stdout(device).stderr(Stdio::piped()).spawn()?.wait_with_output()?;
    Ok((ended.status.code(), String::from_utf8_lossy(&ended.stderr).into_owned()))
}

/// The status and the errors of a program when its output is closed after the first byte.
pub fn closed_early(program: &mut Command) -> io::Result<(Option<i32>, String)> {
    let mut child = program.stdin(Stdio::null()).stdout(Stdio::piped()).stderr(Stdio::piped()).spawn()?;
    if let Some(mut output) = child.stdout.take() {
        output.read_exact(&mut [0])?;
    }
    let ended = child.wait_with_output()?;
    Ok((ended.status.code(), String::from_utf8_lossy(&ended.stderr).into_owned()))
}

/// A folder of its own for the files of a check, which goes with it.
pub struct Scratch(pub PathBuf);

impl Scratch {
    pub fn new(name: &str) -> Scratch {
        // Two rounds may have a folder of the same name at a time.
        static MADE: AtomicU32 = AtomicU32::new(0);
        let number = MADE.fetch_add(1, Ordering::Relaxed);
        // Not the system's place for such files, from which programs may not be run everywhere.
        let folder = root().join("target").join(format!("scratch-{name}-{}-{number}", std::process::id()));
        fs::create_dir_all(&folder).expect("a folder can be made where all is built");
        Scratch(folder)
    }

    pub fn folder(&self, name: &str) -> PathBuf {
        let path = self.0.join(name);
        fs::create_dir_all(&path).expect("a folder can be made in a folder of our own");
        path
    }

    pub fn file(&self, name: &str, content: &[u8]) -> PathBuf {
        let path = self.0.join(name);
        fs::write(&path, content).expect("a file can be written in a folder of our own");
        path
    }

    /// A shell script that can be run.
    pub fn program(&self, name: &str, lines: &str) -> PathBuf {
        let path = self.file(name, format!("#!/bin/sh\n{lines}\n").as_bytes());
        let may_run = fs::Permissions::from_mode(0o755);
        fs::set_permissions(Path::new(&path), may_run).expect("a script in a folder of our own can be made to run");
        path
    }
}

impl Drop for Scratch {
    fn drop(&mut self) {
        // What is left of it troubles nobody.
        let _ = fs::remove_dir_all(&self.0);
    }
}
