//! The desk's page: the positions at the end of a file, as the proved function of the library `desk` writes them. The C
//! program of examples/ calls it, and its page must be the second implementation's.

use crate::check::{self, Fault, Source};
use crate::numbers::counted;
use crate::played::same_output;
use crate::player;
use second::register;
use std::fs::{self, DirBuilder};
use std::io;
use std::os::unix::fs::DirBuilderExt;
use std::path::{Path, PathBuf};
use std::process::{Command, Output, Stdio};

/// A page with room for the 1,024 positions that a book has at most, at 81 bytes a line.
const MOST_BYTES: usize = 1_024 * 81;

/// The page program where `tools/build` leaves it, or where FAILS_PAGE says.
pub fn path() -> PathBuf {
    match std::env::var_os("FAILS_PAGE") {
        Some(path) => path.into(),
        None => player::root().join("target").join("page"),
    }
}

/// The page of a source, if what the page program made of it is whole and true.
pub fn page(source: &Source) -> Result<Result<Vec<u8>, Fault>, String> {
    let (register, file) = parts(&source.bytes);
    let ended = run(register, file)?;
    if let Err(fault) = check::checked(source) {
        refused_alike(&ended, fault.refusal as u8)?;
        return Ok(Err(fault));
    }
    if !ended.status.success() {
        return Err(format!("the page program failed ({}): {}", ended.status, said(&ended)));
    }
    let mut wanted = vec![0; MOST_BYTES];
    let written = second::page::page(register, file, &mut wanted);
    wanted.truncate(written as usize);
    same_output("the page program", &ended.stdout, &wanted)?;
    Ok(Ok(ended.stdout))
}

/// The register and the file of an input. The register is as long as its own count says, if so much is there.
fn parts(input: &[u8]) -> (&[u8], &[u8]) {
    let count = input.first_chunk().map_or(0, |&count| usize::from(u16::from_le_bytes(count)));
    input.split_at(register::length(count).min(input.len()))
}

/// Runs the page program on a register and a file, each in a file of its own, as it takes them.
fn run(register: &[u8], file: &[u8]) -> Result<Output, String> {
    let folder = Folder::new()?;
    let files = [("register", register), ("file", file)].map(|(name, bytes)| (folder.0.join(name), bytes));
    for (path, bytes) in &files {
        fs::write(path, bytes).map_err(|error| unwritten(path, &error))?;
    }
    let program = path();
    let mut command = Command::new(&program);
    let ended = command.args(files.map(|(path, _)| path)).stdin(Stdio::null()).output();
    let ended = ended.map_err(|error| format!("the page program: {}: {error}", program.display()))?;
    match ended.status.code() {
        Some(_) => Ok(ended),
        None => Err(format!("the page program was stopped: {}", ended.status)),
    }
}

fn unwritten(path: &Path, error: &io::Error) -> String {
    format!("what the page program reads could not be written: {}: {error}", path.display())
}

/// Wants the page program to refuse with this number and to print nothing.
fn refused_alike(ended: &Output, number: u8) -> Result<(), String> {
    let wanted = format!("page: refused with {number}, ");
    if ended.status.code() == Some(1) && ended.stdout.is_empty() && ended.stderr.starts_with(wanted.as_bytes()) {
        return Ok(());
    }
    let printed = counted(ended.stdout.len() as u64, "byte");
    Err(format!(
        "the second implementation refuses with {number}, and the page program printed {printed} ({}): {}",
        ended.status,
        said(ended)
    ))
}

/// What a program said on standard error.
fn said(ended: &Output) -> String {
    format!("{:?}", String::from_utf8_lossy(&ended.stderr))
}

/// A folder of this program's own in the system's place for such, which others cannot read. It goes when it is dropped.
struct Folder(PathBuf);

impl Folder {
    fn new() -> Result<Folder, String> {
        let place = std::env::temp_dir();
        let mut number = 0;
        loop {
            let path = place.join(format!("fails-book-page-{}-{number}", std::process::id()));
            match DirBuilder::new().mode(0o700).create(&path) {
                Ok(()) => return Ok(Folder(path)),
                // A program of the same number may have been stopped before it removed its folder.
                Err(error) if error.kind() == io::ErrorKind::AlreadyExists => number += 1,
                Err(error) => return Err(unwritten(&path, &error)),
            }
        }
    }
}

impl Drop for Folder {
    fn drop(&mut self) {
        // What is left of it troubles nobody.
        let _ = fs::remove_dir_all(&self.0);
    }
}
