//! `./play --page`: that it shows the page program's page of a file in either form, notices each page that is not the
//! file's, and leaves nothing behind.

use super::programs::{ended, play, program, squeeze, Ended, Scratch, SQUEEZE, SQUEEZE_PAGE};
use super::same;
use crate::check::{Check, Round, Tests};
use fails_book_tests::histories;
use second::register;
use std::fs;
use std::path::Path;

/// The bytes of a line, and of the page of a book with the most positions.
const LINE: usize = 81;
const MOST_BYTES: usize = 1_024 * LINE;

/// The examples with positions of both kinds and with paired units, each in both forms, and their pages.
const OTHERS: [([&[u8]; 2], &str); 2] = [
    (
        [include_bytes!("../../../examples/kinds.txt"), include_bytes!("../../../examples/kinds.bin")],
        include_str!("../../../examples/kinds.page"),
    ),
    (
        [include_bytes!("../../../examples/pairoff.txt"), include_bytes!("../../../examples/pairoff.bin")],
        include_str!("../../../examples/pairoff.page"),
    ),
];

/// A text without an event of its own, whose class is refused with 2.
const REFUSED: &str = "security 4 XX0000000002\n";
const REFUSED_WORDS: &str = "security 1, line 1: the class is 4 and not 1 to 3";

pub fn exhaustive(tests: &mut Tests) {
    tests.check("play --page: files that are shown", &[], shown);
    tests.check("play --page: a page that is cut off", &[], cut);
    tests.check("play --page: a page that is changed in one place, or longer", &[], changed);
    tests.check("play --page: a page program that fails", &[], failing);
    tests.check("play --page: a page program that does not refuse alike", &[], refusing_otherwise);
    tests.check("play --page: the files that the page program gets", &[], handed_over);
    tests.check("play --page: nothing is left behind", &[], removed);
}

pub fn seeded(round: &mut Round) {
    round.check("play --page: a full book", &[], |check, random| {
        let input = histories::full_book_in_cash(random);
        let (register, file) = input.split_at(register::length(32));
        let mut page = vec![0; MOST_BYTES];
        let written = second::page::page(register, file, &mut page);
        same(check, || "all of the page is used".to_string(), written, MOST_BYTES as u64);
        let wanted = Ended::well(&String::from_utf8_lossy(&page));
        same(check, || super::player::shown(&input), play(["--page", "-"], &input), wanted);
    });
}

fn shown(check: &mut Check) {
    let scratch = Scratch::new("page-shown");
    let text = scratch.file("squeeze.txt", SQUEEZE.as_bytes());
    let binary = scratch.file("squeeze.bin", &squeeze());
    for file in [&text, &binary] {
        let found = play(["--page".as_ref(), file.as_path()], b"");
        same(check, || format!("{file:?}"), found, Ended::well(SQUEEZE_PAGE));
    }
    for bytes in [SQUEEZE.as_bytes(), &squeeze()] {
        same(check, || super::hex(bytes), play(["--page", "-"], bytes), Ended::well(SQUEEZE_PAGE));
    }
    for (forms, page) in OTHERS {
        for bytes in forms {
            same(check, || super::hex(bytes), play(["--page", "-"], bytes), Ended::well(page));
        }
    }
    // Without a close there is no position, and a refused trade makes none either.
    for events in ["", "trade 1 2 1 100 1,000\n", "close 3\n", "trade 1 1 1 100 1,000\nclose\n"] {
        let text = format!("security 1 XX0000000002\n{events}");
        same(check, || text.clone(), play(["--page", "-"], text.as_bytes()), Ended::well(""));
    }
}

/// What `./play --page` does with a text where this program stands in for the page program.
fn by(page_program: &Path, text: &str) -> Ended {
    ended(program(["--page", "-"]).env("FAILS_PAGE", page_program), text.as_bytes())
}

/// Wants the page that the program prints to be noticed as not the squeeze's, in these words, and not to be shown.
fn noticed(check: &mut Check, page_program: &Path, words: &str) {
    let Ended { status, output, errors } = by(page_program, SQUEEZE);
    let says = errors.starts_with(&format!("play: standard input: {words}"));
    same(check, || format!("{words}: {errors}"), (status, output.as_str(), says), (Some(1), "", true));
}

fn cut(check: &mut Check) {
    let scratch = Scratch::new("page-cut");
    let whole = scratch.file("whole", SQUEEZE_PAGE.as_bytes());
    for length in 0..SQUEEZE_PAGE.len() {
        let program = scratch.program("program", &format!("head -c {length} '{}'", whole.display()));
        let words = match (length / LINE, length % LINE) {
            (lines, 0) => format!("the output is cut off: it has {lines} of 3 lines\n"),
            (lines, _) => format!("output line {}: the page program has \"", lines + 1),
        };
        noticed(check, &program, &words);
    }
    let program = scratch.program("program", &format!("cat '{}'", whole.display()));
    same(check, || "the whole page".to_string(), by(&program, SQUEEZE), Ended::well(SQUEEZE_PAGE));
}

fn changed(check: &mut Check) {
    let scratch = Scratch::new("page-changed");
    let printed = scratch.file("printed", b"");
    let program = scratch.program("program", &format!("cat '{}'", printed.display()));
    for at in 0..SQUEEZE_PAGE.len() {
        let mut page = SQUEEZE_PAGE.as_bytes().to_vec();
        page[at] ^= 1;
        scratch.file("printed", &page);
        noticed(check, &program, &format!("output line {}: the page program has \"", at / LINE + 1));
    }
    for more in ["\n", " ", &SQUEEZE_PAGE[..LINE]] {
        scratch.file("printed", format!("{SQUEEZE_PAGE}{more}").as_bytes());
        noticed(check, &program, "output line 4: the output should have ended, and has ");
    }
}

fn failing(check: &mut Check) {
    let scratch = Scratch::new("page-failing");
    let page = scratch.file("page", SQUEEZE_PAGE.as_bytes());
    let page = page.display();
    let missing = scratch.0.join("missing");
    let words = format!("the page program: {}: No such file or directory (os error 2)\n", missing.display());
    noticed(check, &missing, &words);
    let accepted = [
        (format!("cat '{page}'; kill -9 $$"), "the page program was stopped: signal: 9 (SIGKILL)\n"),
        (format!("cat '{page}'; exit 3"), "the page program failed (exit status: 3): \"\"\n"),
        ("echo nothing >&2; exit 1".to_string(), "the page program failed (exit status: 1): \"nothing\\n\"\n"),
    ];
    for (lines, words) in accepted {
        noticed(check, &scratch.program("program", &lines), words);
    }
}

fn refusing_otherwise(check: &mut Check) {
    let scratch = Scratch::new("page-refusing");
    let refused = [
        ("exit 0", "0 bytes (exit status: 0): \"\""),
        ("echo; exit 0", "1 byte (exit status: 0): \"\""),
        (
            "echo 'page: refused with 3, another' >&2; exit 1",
            "0 bytes (exit status: 1): \"page: refused with 3, another\\n\"",
        ),
        ("echo 'page: refused with 2, so' >&2", "0 bytes (exit status: 0): \"page: refused with 2, so\\n\""),
        (
            "echo; echo 'page: refused with 2, so' >&2; exit 1",
            "1 byte (exit status: 1): \"page: refused with 2, so\\n\"",
        ),
    ];
    for (lines, words) in refused {
        let words = format!("the second implementation refuses with 2, and the page program printed {words}");
        let found = by(&scratch.program("program", lines), REFUSED);
        same(check, || lines.to_string(), found, Ended::wrong("standard input", &words));
    }
    let alike = scratch.program("program", "echo 'page: refused with 2, so' >&2; exit 1");
    let wanted = Ended::refused("standard input", 2, REFUSED_WORDS, "");
    same(check, || "refused alike".to_string(), by(&alike, REFUSED), wanted);
}

/// The register and the file, one after the other, are the binary form, and nobody else can read them.
fn handed_over(check: &mut Check) {
    let scratch = Scratch::new("page-handed-over");
    let seen = scratch.0.join("seen");
    let page = scratch.file("page", SQUEEZE_PAGE.as_bytes());
    let [seen_name, page] = [&seen, &page].map(|path| path.display().to_string());
    let folder = "$(dirname -- \"$1\")";
    let lines = format!(
        "cp -- \"$1\" '{seen_name}.register'; cp -- \"$2\" '{seen_name}.file'; echo $# >'{seen_name}.count'
        stat -c %a \"{folder}\" >'{seen_name}.mode'; ls \"{folder}\" | wc -l >'{seen_name}.files'; cat '{page}'"
    );
    let program = scratch.program("program", &lines);
    same(check, || "the page".to_string(), by(&program, SQUEEZE), Ended::well(SQUEEZE_PAGE));
    let squeeze = squeeze();
    let wanted = [
        ("register", &squeeze[..15]),
        ("file", &squeeze[15..]),
        ("count", b"2\n"),
        ("mode", b"700\n"),
        ("files", b"2\n"),
    ];
    for (name, bytes) in wanted {
        let found = fs::read(seen.with_extension(name)).map_err(|error| error.to_string());
        same(check, || name.to_string(), found, Ok(bytes.to_vec()));
    }
}

/// Whatever becomes of the page, the folder of its files is gone.
fn removed(check: &mut Check) {
    let scratch = Scratch::new("page-removed");
    let temporary = scratch.folder("temporary");
    let killed = scratch.program("killed", "kill -9 $$");
    let whole = tools::page::path();
    let cases = [(&whole, SQUEEZE, 0), (&whole, REFUSED, 1), (&killed, SQUEEZE, 1)];
    for (page_program, text, status) in cases {
        let mut program = program(["--page", "-"]);
        program.env("FAILS_PAGE", page_program).env("TMPDIR", &temporary);
        let found = ended(&mut program, text.as_bytes()).status;
        let left = fs::read_dir(&temporary).map(|entries| entries.count()).map_err(|error| error.to_string());
        same(check, || format!("{page_program:?} {text}"), (found, left), (Some(status), Ok(0)));
    }
    let missing = scratch.0.join("missing");
    let Ended { status, output, errors } = ended(program(["--page", "-"]).env("TMPDIR", &missing), SQUEEZE.as_bytes());
    let begins = "play: standard input: what the page program reads could not be written: ";
    let says = errors.starts_with(begins) && errors.ends_with(": No such file or directory (os error 2)\n");
    same(check, || errors.clone(), (status, output.as_str(), says), (Some(1), "", true));
}
