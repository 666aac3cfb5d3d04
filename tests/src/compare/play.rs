//! The program behind `./play`, run as people run it: what it prints where, its status, and what it does with bad
//! input, a cut output, a full device and a closed pipe. The script around it.

use super::player::input;
use super::programs::{
    closed_early, ended, full, play, program, root, run, squeeze, Ended, Scratch, EXAMPLE, SQUEEZE, SQUEEZE_PAGE,
};
use super::same;
use crate::check::{Check, Round, Tests};
use fails_book_tests::histories;
use second::events::Event;
use std::ffi::OsStr;
use std::fs;
use std::process::{Command, Stdio};
use tools::{page, player};

const EXAMPLE_LINES: &str = include_str!("../../../examples/example.out");
const EXAMPLE_WORDS: &str = include_str!("../../../examples/example.words");
const SQUEEZE_LINES: &str = include_str!("../../../examples/squeeze.out");
const SQUEEZE_WORDS: &str = include_str!("../../../examples/squeeze.words");

/// The forms that show a play, all of which take either form of a file but for the two that play one.
const SHOWN: [&str; 6] = ["--text", "--refused", "--walk", "--csv", "--html", "--page"];

/// Those of them that run the player.
const BY_PLAYER: [&str; 5] = ["--text", "--refused", "--walk", "--csv", "--html"];

pub fn exhaustive(tests: &mut Tests) {
    tests.check("play: files that are played", &[], played);
    tests.check("play: inputs that are refused, and where", &[], refused);
    tests.check("play: what cannot be read", &[], unreadable);
    tests.check("play: commands that are wrong", &[], wrong_commands);
    tests.check("play: either form of a file", &[], either_form);
    tests.check("play: several files", &[], several_files);
    tests.check("play: a full device", &[], full_device);
    tests.check("play: a player whose output is cut off", &[], cut_output);
    tests.check("play: a player that is stopped, or not there", &[], stopped_player);
    tests.check("play: the script", &[], script);
}

pub fn seeded(round: &mut Round) {
    round.check("play: a closed pipe", &[], |check, random| {
        let scratch = Scratch::new("pipe");
        let input = scratch.file("long.bin", &histories::long(random, 0));
        for form in SHOWN {
            // The text form is not for a binary file.
            let form = if form == "--text" { vec![] } else { vec![OsStr::new(form)] };
            let arguments: Vec<&OsStr> = form.into_iter().chain([input.as_os_str()]).collect();
            let found = closed_early(&mut program(&arguments)).map_err(|error| error.to_string());
            // What fits into the pipe is written before it is closed.
            let quiet = matches!(found, Ok((Some(0 | 141), ref errors)) if errors.is_empty());
            same(check, || format!("{arguments:?}: {found:?}"), quiet, true);
        }
    });
}

fn played(check: &mut Check) {
    let scratch = Scratch::new("played");
    let text = scratch.file("squeeze.txt", SQUEEZE.as_bytes());
    let binary = scratch.file("squeeze.bin", &squeeze());
    same(check, || "--text".to_string(), play(["--text".as_ref(), text.as_path()], b""), Ended::well(SQUEEZE_WORDS));
    same(check, || "a binary file".to_string(), play([&binary], b""), Ended::well(SQUEEZE_LINES));
    same(check, || "--text -".to_string(), play(["--text", "-"], SQUEEZE.as_bytes()), Ended::well(SQUEEZE_WORDS));
    same(check, || "-".to_string(), play(["-"], &squeeze()), Ended::well(SQUEEZE_LINES));
    let passes = Ended::well("1 security, 23 events: not refused by 1 to 7\n");
    same(check, || "--check".to_string(), play(["--check", "-"], SQUEEZE.as_bytes()), passes);
    let refused = SQUEEZE_WORDS.lines().filter(|line| line.contains("refused")).map(|line| format!("{line}\n"));
    same(
        check,
        || "--refused".to_string(),
        play(["--refused", "-"], SQUEEZE.as_bytes()),
        Ended::well(&refused.collect::<String>()),
    );
    let again = play(["--back".as_ref(), binary.as_path()], b"");
    same(check, || "--back".to_string(), play(["--text", "-"], again.output.as_bytes()).status, Some(0));
    let bytes = run(&mut program(["--binary".as_ref(), text.as_path()]), b"").map(|output| output.stdout);
    same(check, || "--binary".to_string(), bytes.ok(), Some(squeeze()));
}

/// Texts that the player refuses, by which number, and what is said of where.
const REFUSED_TEXTS: [(&str, u8, &str); 7] = [
    ("security 4 XX0000000002\n", 2, "security 1, line 1: the class is 4 and not 1 to 3"),
    ("# none\nsecurity 1 XX0000000003\n", 3, "security 1, line 2: the ISIN XX0000000003 is malformed"),
    (
        "security 1 XX0000000002\n\nsecurity 2 XX0000000010\nsecurity 1 XX0000000002\n",
        4,
        "security 3, line 4: the ISIN XX0000000002 stands earlier in the register (security 1, line 1)",
    ),
    ("security 1 XX0000000002\nclose 2049\n", 5, "2,049 events; a file has at most 2,048"),
    ("security 1 XX0000000002\nclose 65535\n", 5, "65,535 events; a file has at most 2,048"),
    ("security 0 XX0000000003\nclose 2049\n", 2, "security 1, line 1: the class is 0 and not 1 to 3"),
    ("THIRTYTHREE\n", 1, "33 securities; a register has at least 1 and at most 32"),
];

fn refused(check: &mut Check) {
    for (text, number, words) in REFUSED_TEXTS {
        let many: String = (0..33).map(|_| "security 1 XX0000000002\n").collect();
        let text = text.replace("THIRTYTHREE\n", &many);
        for form in SHOWN.into_iter().chain(["--check"]) {
            let found = play([form, "-"], text.as_bytes());
            same(check, || format!("{form} {text}"), found, Ended::refused("standard input", number, words, ""));
        }
    }
    for (bytes, number, words) in refused_bytes() {
        let line = format!("f {number}\n");
        let found = play(["-"], &bytes);
        same(check, || super::hex(&bytes), found, Ended::refused("standard input", number, words, &line));
        for form in ["--check", "--page"] {
            let found = play([form, "-"], &bytes);
            let wanted = Ended::refused("standard input", number, words, "");
            same(check, || format!("{form} {}", super::hex(&bytes)), found, wanted);
        }
    }
    let found = play(["-"], SQUEEZE.as_bytes());
    let words = "this is a text and not a register and file; ./play --text FILE plays it";
    same(
        check,
        || "a text that is played as a binary file".to_string(),
        found,
        Ended::refused("standard input", 1, words, "f 1\n"),
    );
}

/// Binary inputs that are refused, by which number, and what is said of where.
fn refused_bytes() -> Vec<(Vec<u8>, u8, &'static str)> {
    let whole = input(1, &[Event::Close, Event::Confirm { award: 1 }]);
    let changed = |at: usize, byte: u8| {
        let mut bytes = whole.clone();
        bytes[at] = byte;
        bytes
    };
    // 15 bytes of register, 4 of the file's head, 2 kinds, 2 bodies. The second event as a pair-off, with a byte that is set:
    let paired = |at: usize| {
        let mut bytes = changed(20, 10);
        bytes[37 + at] = 1;
        bytes
    };
    vec![
        (vec![], 1, "the input has 0 bytes, and a register's count has 2"),
        (vec![1], 1, "the input has 1 byte, and a register's count has 2"),
        (vec![0, 0], 1, "0 securities; a register has at least 1 and at most 32"),
        (whole[..10].to_vec(), 1, "a register of 1 security has 15 bytes, and the input has 10"),
        (changed(0, 2), 3, "security 1: the ISIN X0000000002\\x02 is malformed"),
        (changed(2, 9), 2, "security 1: the class is 9 and not 1 to 3"),
        (changed(3, b'<'), 3, "security 1: the ISIN <X0000000002 is malformed"),
        (changed(3, 0), 3, "security 1: the ISIN \\x00X0000000002 is malformed"),
        (whole[..15].to_vec(), 5, "the file has 0 bytes, and its count and width have 4"),
        (changed(16, 8), 5, "2,050 events; a file has at most 2,048"),
        (changed(17, 17), 5, "the body width is 17 and not 16"),
        (changed(15, 3), 5, "a file of 3 events has 55 bytes, and 38 follow the register"),
        ([&whole[..], &[0]].concat(), 5, "a file of 2 events has 38 bytes, and 39 follow the register"),
        (changed(20, 0), 6, "event 2: the kind is 0 and not 1 to 10"),
        (changed(20, 11), 6, "event 2: the kind is 11 and not 1 to 10"),
        (paired(2), 7, "event 2: byte 2 of its body is spare in an event of kind 10, and is 1 and not 0"),
        (paired(3), 7, "event 2: byte 3 of its body is spare in an event of kind 10, and is 1 and not 0"),
        (paired(12), 7, "event 2: byte 12 of its body is spare in an event of kind 10, and is 1 and not 0"),
        (paired(15), 7, "event 2: byte 15 of its body is spare in an event of kind 10, and is 1 and not 0"),
        (changed(21, 1), 7, "event 1: byte 0 of its body is spare in an event of kind 9, and is 1 and not 0"),
        (changed(21 + 12, 1), 7, "event 1: byte 12 of its body is spare in an event of kind 9, and is 1 and not 0"),
        (changed(37 + 13, 1), 7, "event 2: byte 13 of its body is spare in an event of kind 7, and is 1 and not 0"),
        (changed(37 + 15, 255), 7, "event 2: byte 15 of its body is spare in an event of kind 7, and is 255 and not 0"),
    ]
}

fn unreadable(check: &mut Check) {
    let scratch = Scratch::new("unreadable");
    let missing = scratch.0.join("missing");
    let binary = scratch.file("squeeze.bin", &squeeze());
    let cases = [
        (scratch.0.as_path(), "this is a directory, and a file is played"),
        (missing.as_path(), "there is no such file"),
    ];
    for (file, words) in cases {
        for form in SHOWN.into_iter().chain(["--check", "--binary", "--back"]) {
            let found = play([form.as_ref(), file], b"");
            same(check, || format!("{form} {file:?}"), found, Ended::wrong(&file.display().to_string(), words));
        }
        same(check, || format!("{file:?}"), play([file], b""), Ended::wrong(&file.display().to_string(), words));
    }
    let words = "this is a binary file, and a text is wanted; ./play FILE plays it";
    for form in ["--text", "--binary"] {
        let found = play([form.as_ref(), binary.as_path()], b"");
        same(check, || form.to_string(), found, Ended::wrong(&binary.display().to_string(), words));
    }
    same(
        check,
        || "--back".to_string(),
        play(["--back", "-"], EXAMPLE.as_bytes()),
        Ended::wrong("standard input", "this is a text already"),
    );
    unreadable_texts(check);
}

fn unreadable_texts(check: &mut Check) {
    let long = format!("security 1 {}\n", "X".repeat(1_000_000));
    let texts = [
        ("\u{feff}security 1 XX0000000002\n", "line 1: the text begins with a byte order mark of UTF-8; save it as UTF-8 without one"),
        ("security 1 XX0000000002# a comment\n", "line 1: a comment in a security's line begins after a blank, as in XX0000000002 #"),
        (long.as_str(), "line 1: an ISIN is 12 ASCII signs without blanks, and \"XXXXXXXXXXXXXXXXXXXXXXXXXXXXXXXXXXXXXXXX\" and so on, 1,000,000 signs is not"),
        ("security 1 XX0000000002\nclosed\n", "line 2: unknown word \"closed\""),
        ("close\n", "line 1: an event stands before the first security"),
    ];
    for (text, words) in texts {
        for form in SHOWN.into_iter().chain(["--check", "--binary"]) {
            let found = play([form, "-"], text.as_bytes());
            same(check, || format!("{form} {words}"), found, Ended::wrong("standard input", words));
        }
    }
}

fn wrong_commands(check: &mut Check) {
    let commands: [&[&str]; 10] = [
        &[],
        &["--bogus", "-"],
        &["-x"],
        &["--text"],
        &["a", "b"],
        &["--text", "a", "b"],
        &["--check"],
        &["--html", "--text"],
        &["--page"],
        &["--page", "a", "b"],
    ];
    for arguments in commands {
        let Ended { status, output, errors } = play(arguments, b"");
        let found = (status, output, errors.starts_with("usage: ./play FILE"));
        same(check, || format!("{arguments:?}"), found, (Some(2), String::new(), true));
    }
    let Ended { status, output, errors } = play(["--help"], b"");
    let found = (status, output.starts_with("usage: ./play FILE"), errors);
    same(check, || "--help".to_string(), found, (Some(0), true, String::new()));
}

/// A binary file has no lines, and is shown alike in all else.
fn either_form(check: &mut Check) {
    for form in ["--refused", "--walk"] {
        let text = play([form, "-"], SQUEEZE.as_bytes());
        let binary = play([form, "-"], &squeeze());
        let without_lines = text.output.replace(", line 11", "");
        same(check, || form.to_string(), (binary.status, binary.output), (Some(0), without_lines));
    }
    for form in ["--csv", "--html"] {
        let found = play([form, "-"], &squeeze());
        same(
            check,
            || form.to_string(),
            (found.status, found.output.is_empty(), found.errors),
            (Some(0), false, String::new()),
        );
    }
}

fn several_files(check: &mut Check) {
    let scratch = Scratch::new("several");
    let good = scratch.file("good.bin", &squeeze());
    let bad = scratch.file("bad.txt", b"security 4 XX0000000002\n");
    let [good_name, bad_name] = [&good, &bad].map(|file| file.display().to_string());
    let found = play(["--check".as_ref(), good.as_path(), bad.as_path(), good.as_path()], b"");
    let shown = format!("== {good_name}\n1 security, 23 events: not refused by 1 to 7\n");
    let wanted = Ended::refused(&bad_name, 2, "security 1, line 1: the class is 4 and not 1 to 3", &shown.repeat(2));
    same(check, || "--check".to_string(), found, wanted);
    let Ended { status, output, .. } = play(["--refused".as_ref(), good.as_path(), good.as_path()], b"");
    let lines = (status, output.lines().filter(|line| line.starts_with("== ")).count(), output.lines().count());
    same(check, || "--refused".to_string(), lines, (Some(0), 2, 4));
}

fn full_device(check: &mut Check) {
    let scratch = Scratch::new("full");
    let text = scratch.file("squeeze.txt", SQUEEZE.as_bytes());
    let binary = scratch.file("squeeze.bin", &squeeze());
    let mut commands: Vec<Vec<&OsStr>> =
        SHOWN.into_iter().chain(["--check", "--binary"]).map(|form| vec![form.as_ref(), text.as_os_str()]).collect();
    commands.extend([vec![binary.as_os_str()], vec!["--back".as_ref(), binary.as_os_str()], vec!["--help".as_ref()]]);
    for arguments in commands {
        let found = full(&mut program(&arguments)).map_err(|error| error.to_string());
        let said = |errors: &str| errors.contains("the output could not be written: No space left on device");
        let noticed = matches!(&found, Ok((Some(1), errors)) if said(errors));
        same(check, || format!("{arguments:?}: {found:?}"), noticed, true);
    }
    // The player itself has no status and says it.
    let player = fs::File::options().write(true).open("/dev/full").and_then(|full| {
        let input = fs::File::open(&binary)?;
        Command::new(player::path()).stdin(input).stdout(full).stderr(Stdio::piped()).output()
    });
    let said = player.is_ok_and(|ended| ended.stderr.starts_with(b"player: the output could not be written\n"));
    same(check, || "the player".to_string(), said, true);
}

/// A player that prints so many bytes of the example's output, in place of the player.
fn cut_output(check: &mut Check) {
    let scratch = Scratch::new("cut");
    let whole = scratch.file("whole", EXAMPLE_LINES.as_bytes());
    let text = scratch.file("example.txt", EXAMPLE.as_bytes());
    let binary = scratch.file("example.bin", include_bytes!("../../../examples/example.bin"));
    for length in 0..=EXAMPLE_LINES.len() {
        let player = scratch.program("player", &format!("cat >/dev/null; head -c {length} '{}'", whole.display()));
        let run = |arguments: &[&OsStr]| ended(program(arguments).env("FAILS_PLAYER", &player), b"");
        let cut = length < EXAMPLE_LINES.len();
        let lines = run(&[binary.as_os_str()]);
        let found = (lines.status, lines.output == EXAMPLE_LINES[..length], lines.errors.is_empty());
        same(check, || format!("{length} bytes: {:?}", lines.errors), found, (Some(i32::from(cut)), true, !cut));
        let form = BY_PLAYER[length % BY_PLAYER.len()];
        let shown = run(&[form.as_ref(), text.as_os_str()]);
        let found = (shown.status, shown.output.is_empty() || !cut, shown.errors.is_empty());
        same(
            check,
            || format!("{form}, {length} bytes: {:?}", shown.errors),
            found,
            (Some(i32::from(cut)), true, !cut),
        );
    }
}

fn stopped_player(check: &mut Check) {
    let scratch = Scratch::new("stopped");
    let players = [
        (scratch.program("killed", "kill -9 $$"), "the player: the program was stopped: signal: 9 (SIGKILL)"),
        (scratch.0.join("missing"), "No such file or directory (os error 2)"),
    ];
    for (player, words) in players {
        let found = ended(program(["--text", "-"]).env("FAILS_PLAYER", &player), EXAMPLE.as_bytes());
        let found = (found.status, found.output, found.errors.contains(words));
        same(check, || format!("{player:?}"), found, (Some(1), String::new(), true));
    }
}

fn script(check: &mut Check) {
    let run = |arguments: &[&str]| {
        let mut script = Command::new(root().join("play"));
        script.args(arguments).env("FAILS_PLAYER", player::path()).env("FAILS_PAGE", page::path());
        ended(&mut script, EXAMPLE.as_bytes())
    };
    same(check, || "./play --text -".to_string(), run(&["--text", "-"]), Ended::well(EXAMPLE_WORDS));
    let squeeze = run(&["--page", &root().join("examples/squeeze.bin").display().to_string()]);
    same(check, || "./play --page".to_string(), squeeze, Ended::well(SQUEEZE_PAGE));
    same(check, || "./play".to_string(), run(&[]).status, Some(2));
    let refused = Ended::refused(
        "standard input",
        1,
        "this is a text and not a register and file; ./play --text FILE plays it",
        "f 1\n",
    );
    same(check, || "./play -".to_string(), run(&["-"]), refused);
}
