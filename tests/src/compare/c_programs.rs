//! The C programs of examples/, built by the README's own lines, and the header that they include.

use super::programs::{ended, full, root, squeeze, Ended, Scratch, SQUEEZE_PAGE};
use super::same;
use crate::check::{Check, Tests};
use fails_book_tests::desk::Answer;
use fails_book_tests::histories::registers::completed;
use second::events::{file_of, Event, Party, MOST_EVENTS};
use second::register::{self, bytes_of, Security, MOST_SECURITIES};
use std::collections::BTreeSet;
use std::ffi::OsStr;
use std::fs;
use std::path::Path;
use std::process::Command;

/// The lines of the README that build a program.
pub fn gcc_lines() -> impl Iterator<Item = &'static str> {
    let readme = include_str!("../../../README.md");
    readme.lines().map(str::trim).filter(|line| line.starts_with("gcc "))
}

/// What comes after runs the programs that are built here first.
pub fn exhaustive(tests: &mut Tests) {
    tests.check("desk: the README's lines build the C programs", &[], built);
    tests.check("desk: the C program", &[], desk_program);
    tests.check("desk: the C program that prints the page", &[], page_program);
    tests.check("desk: what the C program of the page refuses", &[1, 2, 3, 4, 5, 6, 7], page_refused);
    tests.check("desk: what the C program of the page cannot read or write", &[], page_unreadable);
    tests.check("desk: the header has what the library exports", &[], header);
}

/// Each line builds without a word, and each C program of examples/ has one.
fn built(check: &mut Check) {
    for line in gcc_lines() {
        let built = ended(Command::new("sh").arg("-c").arg(line).current_dir(root()), b"");
        same(check, || line.to_string(), built, Ended::well(""));
    }
    let named: BTreeSet<String> =
        gcc_lines().flat_map(|line| line.split(' ')).filter(|word| word.ends_with(".c")).map(str::to_string).collect();
    let files = fs::read_dir(root().join("examples")).into_iter().flatten().flatten();
    let names = files.map(|file| format!("examples/{}", file.file_name().display()));
    same(check, || "examples/*.c".to_string(), named, names.filter(|name| name.ends_with(".c")).collect());
    check.reached("a line of the README that builds a program", gcc_lines().count() as u64);
}

/// Run on a file that passes, one that does not, and without a file.
fn desk_program(check: &mut Check) {
    let run =
        |arguments: &[&str]| ended(Command::new(root().join("target/desk")).args(arguments).current_dir(root()), b"");
    let output = include_str!("../../../examples/desk.out");
    same(check, || "squeeze.bin".to_string(), run(&["examples/squeeze.bin"]), Ended::well(output));
    let refused = run(&["examples/squeeze.txt"]);
    let words = "securities: refused with 1, the register's count or length is wrong\n".to_string();
    same(check, || "squeeze.txt".to_string(), (refused.status, refused.errors), (Some(1), words));
    same(check, || "no file".to_string(), run(&[]).status, Some(2));
}

fn page<A: AsRef<OsStr>>(arguments: impl IntoIterator<Item = A>) -> Command {
    let mut program = Command::new(root().join("target/page"));
    program.args(arguments);
    program
}

/// What the program does with a register and a file.
fn paged(scratch: &Scratch, register: &[u8], file: &[u8]) -> Ended {
    let files = [scratch.file("register", register), scratch.file("file", file)];
    ended(&mut page(&files), b"")
}

fn page_program(check: &mut Check) {
    let scratch = Scratch::new("page-program");
    let squeeze = squeeze();
    let (register, file) = squeeze.split_at(register::length(1));
    same(check, || "the squeeze".to_string(), paged(&scratch, register, file), Ended::well(SQUEEZE_PAGE));
    for events in [&[][..], &[Event::Close]] {
        let found = paged(&scratch, register, &file_of(events));
        same(check, || format!("no position: {events:?}"), found, Ended::well(""));
    }
    let (register, file) = largest();
    let mut wanted = vec![0; 1_024 * 81];
    let written = second::page::page(&register, &file, &mut wanted);
    same(check, || "all of the page is used".to_string(), written, wanted.len() as u64);
    let wanted = Ended::well(&String::from_utf8_lossy(&wanted));
    same(check, || "the largest register and file".to_string(), paged(&scratch, &register, &file), wanted);
}

/// The largest register and file that pass, 512 trades and closes, which make the most positions.
fn largest() -> (Vec<u8>, Vec<u8>) {
    let isin = |number: usize| {
        let text = format!("XX{number:09}0");
        completed(*text.as_bytes().first_chunk().expect("two letters, nine digits and one have twelve signs"))
    };
    let register: Vec<Security> = (1..=MOST_SECURITIES).map(|number| (1, isin(number))).collect();
    let trades = (0..512).map(|number: u16| {
        // Sixteen trades in each security, between members of which none trades twice.
        let (security, seller) = (1 + number / 16, 1 + 2 * (number % 16) as u8);
        let [seller, buyer] = [seller, seller + 1].map(Party::own);
        Event::Trade { security, seller, buyer, quantity: 1_000_000, price: 1 }
    });
    let events: Vec<Event> = trades.chain(std::iter::repeat(Event::Close)).take(MOST_EVENTS).collect();
    (bytes_of(&register), file_of(&events))
}

/// The reasons of refusals 1 to 7 in the program's words.
const REASONS: [&str; 7] = [
    "the register's count or length is wrong",
    "a class is not 1 to 3",
    "an ISIN is malformed",
    "an ISIN stands earlier in the register",
    "the file's count, width or length is wrong",
    "a kind is not 1 to 10",
    "a spare byte is not zero",
];

fn page_refused(check: &mut Check) {
    let scratch = Scratch::new("page-refused");
    for (register, file, number) in refused_parts() {
        let errors = format!("page: refused with {number}, {}\n", REASONS[number - 1]);
        let wanted = Ended { status: Some(1), output: String::new(), errors };
        check.count(Answer::refused(number as u32));
        let input = || format!("{} and {} bytes, {number}", register.len(), file.len());
        same(check, input, paged(&scratch, &register, &file), wanted);
    }
}

/// Registers and files of which one or both are refused, and by which number.
fn refused_parts() -> Vec<(Vec<u8>, Vec<u8>, usize)> {
    let register = bytes_of(&[(1, *b"XX0000000002")]);
    let file = file_of(&[Event::Close, Event::Confirm { award: 1 }]);
    let (largest_register, largest_file) = largest();
    let registers = refused_registers(&register, &largest_register);
    let files = refused_files(&file, &largest_file);
    // The register's refusal comes before the file's.
    let both = registers.clone().map(|(register, number)| (register, files[0].0.clone(), number));
    let registers = registers.map(|(register, number)| (register, file.clone(), number));
    let files = files.map(|(file, number)| (register.clone(), file, number));
    registers.into_iter().chain(both).chain(files).collect()
}

fn refused_registers(register: &[u8], largest: &[u8]) -> [(Vec<u8>, usize); 9] {
    [
        (vec![], 1),
        (vec![0, 0], 1),
        (register[..14].to_vec(), 1),
        (longer(register, 1), 1),
        (longer(largest, 1), 1),
        (longer(largest, 100_000), 1),
        (changed(register, 2, 9), 2),
        (changed(register, 3, b'<'), 3),
        (bytes_of(&[(1, *b"XX0000000002"), (2, *b"XX0000000002")]), 4),
    ]
}

fn refused_files(file: &[u8], largest: &[u8]) -> [(Vec<u8>, usize); 8] {
    [
        (changed(file, 2, 17), 5),
        (vec![], 5),
        (longer(file, 1), 5),
        (file_of(&[Event::Close; MOST_EVENTS + 1]), 5),
        (longer(largest, 1), 5),
        (longer(largest, 100_000), 5),
        (changed(file, 5, 11), 6),
        (changed(file, 6, 1), 7),
    ]
}

fn changed(bytes: &[u8], at: usize, byte: u8) -> Vec<u8> {
    let mut bytes = bytes.to_vec();
    bytes[at] = byte;
    bytes
}

fn longer(bytes: &[u8], by: usize) -> Vec<u8> {
    [bytes, &vec![0; by]].concat()
}

fn page_unreadable(check: &mut Check) {
    let scratch = Scratch::new("page-unreadable");
    let squeeze = squeeze();
    let (register, file) = squeeze.split_at(register::length(1));
    let [register, file] = [scratch.file("register", register), scratch.file("file", file)];
    let [missing, folder] = [scratch.0.join("missing"), scratch.folder("folder")];
    let cases = [(&missing, "No such file or directory"), (&folder, "it cannot be read")];
    for (bad, words) in cases {
        let errors = format!("{}: {words}\n", bad.display());
        for files in [[bad, &file], [&register, bad], [bad, bad]] {
            let wanted = Ended { status: Some(1), output: String::new(), errors: errors.clone() };
            same(check, || format!("{files:?}"), ended(&mut page(files), b""), wanted);
        }
    }
    let wrong: [&[&Path]; 3] = [&[], &[&register], &[&register, &file, &file]];
    for arguments in wrong {
        let errors = "usage: page REGISTER FILE\n".to_string();
        let wanted = Ended { status: Some(2), output: String::new(), errors };
        same(check, || format!("{arguments:?}"), ended(&mut page(arguments), b""), wanted);
    }
    let found = full(&mut page([&register, &file])).map_err(|error| error.to_string());
    let wanted = Ok((Some(1), "standard output: No space left on device\n".to_string()));
    same(check, || "a full device".to_string(), found, wanted);
}

fn header(check: &mut Check) {
    let header = include_str!("../../../include/desk.h");
    // Lines of comments begin with a star or a slash, and those with a body are the header's own.
    let declarations = header.lines().filter(|line| !line.starts_with([' ', '/', '#']) && !line.starts_with("static"));
    let declared: BTreeSet<&str> =
        declarations.filter_map(|line| line.split_once('(')?.0.split(' ').next_back()).collect();
    let library = include_str!("../../../crates/desk/src/lib.rt");
    let exported = library.lines().filter_map(|line| line.strip_prefix("pub extern \"C\" fn ")?.split('(').next());
    let exported: BTreeSet<&str> = exported.collect();
    same(check, || "desk.h".to_string(), declared, exported.clone());
    check.reached("a function that the library exports", exported.len() as u64);
}
