//! The program behind `./play`: plays files with the proved player, shows what became of them, or the desk's page of
//! their positions, and turns one form of a file into the other.

use std::ffi::{OsStr, OsString};
use std::io::{self, ErrorKind, Read, Write};
use std::path::PathBuf;
use std::process::{Command, ExitCode, Stdio};
use tools::check::{self, Fault, Source};
use tools::numbers::counted;
use tools::played::Played;
use tools::text::{self, Input};
use tools::{csv, html, page, player, walk, words};

const USAGE: &str = "\
usage: ./play FILE            plays a binary file: register, then events; shows the player's lines
       ./play --text FILE     plays a text file and shows in words what became of each event
       ./play --refused FILE  the refused events alone, in words
       ./play --walk FILE     each short's pieces to its longs, each long's back to its shorts, side by side
       ./play --csv FILE      events, pieces, positions, charges and accounts for a spreadsheet
       ./play --html FILE     a page for a browser or a printer
       ./play --page FILE     the desk's page: the positions at the file's end in 80 columns
       ./play --check FILE    plays nothing: would the input be refused by 1 to 7, and where
       ./play --binary FILE   the binary form of a text file
       ./play --back FILE     the text form of a binary file
       ./play --help          shows this

FILE is - for standard input. --refused, --walk, --csv, --html, --page and --check take a file of either form; --check
and --refused take several files.

Status: 0 where the file was played; 1 where it was refused, could not be read or shown; 2 where the command is wrong.

A text file has first a line for each security, then a line for each event:

    security CLASS ISIN
    trade SELLER [KIND] BUYER [KIND] SECURITY QUANTITY PRICE
    price SECURITY PRICE
    delivery POSITION QUANTITY
    attempt POSITION
    offer POSITION OFFERER QUANTITY PRICE
    award POSITION
    confirm AWARD
    cash POSITION
    pair SHORT LONG QUANTITY
    close

Securities and positions are numbered from 1. Blank lines and comments after a # are skipped, 1,000 and 1_000 are
1000, and `close 5` stands for five closes. A KIND is own or client, or `kind 7` for any byte, and own where it is left
out, as in `trade 1 client 2 1 100 1000`. The folder examples/ has files of both forms.
";

#[derive(Clone, Copy, PartialEq, Eq)]
enum Form {
    Lines,
    Text,
    Refused,
    Walk,
    Csv,
    Html,
    Page,
    Check,
    Binary,
    Back,
}

/// Why the program ends before it has done what it was asked to.
enum Ending {
    Wrong(String),
    /// Nobody reads the output any more, as after `| head`.
    Closed,
}

/// The status of a program that a closed pipe ends.
const CLOSED: u8 = 141;

fn main() -> ExitCode {
    let arguments: Vec<OsString> = std::env::args_os().skip(1).collect();
    if let [only] = &arguments[..] {
        if only == "--help" {
            return ended(shown(USAGE.as_bytes()), None);
        }
    }
    let Some((form, files)) = command(&arguments) else {
        eprint!("{USAGE}");
        return ExitCode::from(2);
    };
    let mut status = ExitCode::SUCCESS;
    for file in files {
        let name = name_of(file);
        let heading = if files.len() > 1 { Some(name.as_str()) } else { None };
        match done(form, file, heading) {
            Ok(()) => {}
            Err(Ending::Closed) => return ExitCode::from(CLOSED),
            wrong => status = ended(wrong, Some(&name)),
        }
    }
    status
}

/// The form and the files of a command line.
fn command(arguments: &[OsString]) -> Option<(Form, &[OsString])> {
    let (first, rest) = arguments.split_first()?;
    let form = match first.to_str() {
        Some("--text") => Form::Text,
        Some("--refused") => Form::Refused,
        Some("--walk") => Form::Walk,
        Some("--csv") => Form::Csv,
        Some("--html") => Form::Html,
        Some("--page") => Form::Page,
        Some("--check") => Form::Check,
        Some("--binary") => Form::Binary,
        Some("--back") => Form::Back,
        Some(word) if word.starts_with('-') && word != "-" => return None,
        _ => Form::Lines,
    };
    let files = if form == Form::Lines { arguments } else { rest };
    let several = matches!(form, Form::Check | Form::Refused);
    let is_option = |file: &OsString| file != "-" && file.as_encoded_bytes().starts_with(b"-");
    let fits = files.len() == 1 || several && files.len() > 1;
    (fits && !files.iter().any(is_option)).then_some((form, files))
}

fn ended(result: Result<(), Ending>, name: Option<&str>) -> ExitCode {
    match result {
        Ok(()) => ExitCode::SUCCESS,
        Err(Ending::Closed) => ExitCode::from(CLOSED),
        Err(Ending::Wrong(message)) => {
            let name = name.map_or_else(String::new, |name| format!("{name}: "));
            eprintln!("play: {name}{message}");
            ExitCode::FAILURE
        }
    }
}

fn name_of(file: &OsStr) -> String {
    if file == "-" {
        "standard input".to_string()
    } else {
        file.display().to_string()
    }
}

/// Does with one file what the form says. Where there are several, what is shown of each is headed by its name.
fn done(form: Form, file: &OsStr, heading: Option<&str>) -> Result<(), Ending> {
    let bytes = read(file)?;
    let text = match form {
        Form::Binary => return shown(&text::read(&bytes).map_err(|wrong| text_or_binary(&bytes, wrong))?.bytes()),
        Form::Back => return shown(text_of(&bytes)?.as_bytes()),
        Form::Lines => return play_lines(bytes),
        Form::Page => return shown(&page_of(&source(form, bytes)?)?),
        Form::Check => check(&source(form, bytes)?)?,
        _ => {
            let source = source(form, bytes)?;
            let output = output(&source.bytes)?;
            let played = Played::of(&source, &output).map_err(Ending::Wrong)?.map_err(refused)?;
            match form {
                Form::Refused => words::refused(&played),
                Form::Walk => walked(&played, &output).map_err(Ending::Wrong)?,
                Form::Csv => csv::csv(&played),
                Form::Html => html::page(&name_of(file), &played),
                _ => words::words(&played),
            }
        }
    };
    let heading = heading.map_or_else(String::new, |name| format!("== {name}\n"));
    shown(format!("{heading}{text}").as_bytes())
}

fn read(file: &OsStr) -> Result<Vec<u8>, Ending> {
    let mut bytes = Vec::new();
    let read = if file == "-" {
        io::stdin().lock().read_to_end(&mut bytes)
    } else if PathBuf::from(file).is_dir() {
        return Err(Ending::Wrong("this is a directory, and a file is played".to_string()));
    } else {
        std::fs::File::open(file).and_then(|mut open| open.read_to_end(&mut bytes))
    };
    match read {
        Ok(_) => Ok(bytes),
        Err(error) if error.kind() == ErrorKind::NotFound => Err(Ending::Wrong("there is no such file".to_string())),
        Err(error) => Err(Ending::Wrong(format!("it cannot be read: {error}"))),
    }
}

fn source(form: Form, bytes: Vec<u8>) -> Result<Source, Ending> {
    let read = if form == Form::Text { Source::of_text(&bytes) } else { Source::of_either(bytes.clone()) };
    read.map_err(|wrong| text_or_binary(&bytes, wrong))
}

/// What is wrong with a text, which may be no text at all.
fn text_or_binary(bytes: &[u8], wrong: String) -> Ending {
    let passes = check::checked(&Source::of_bytes(bytes.to_vec())).is_ok();
    Ending::Wrong(if passes {
        "this is a binary file, and a text is wanted; ./play FILE plays it".to_string()
    } else {
        wrong
    })
}

fn text_of(bytes: &[u8]) -> Result<String, Ending> {
    if check::is_text(bytes) && text::read(bytes).is_ok() {
        return Err(Ending::Wrong("this is a text already".to_string()));
    }
    Input::from_bytes(bytes).and_then(|input| text::write(&input)).map_err(Ending::Wrong)
}

fn check(source: &Source) -> Result<String, Ending> {
    let (securities, events) = check::checked(source).map_err(refused)?;
    let [securities, events] = [(securities, "security"), (events, "event")].map(|(n, name)| counted(n as u64, name));
    Ok(format!("{securities}, {events}: not refused by 1 to 7\n"))
}

fn refused(Fault { refusal, words }: Fault) -> Ending {
    Ending::Wrong(format!("refused with {}: {words}", refusal as u8))
}

fn walked(played: &Played, output: &[u8]) -> Result<String, String> {
    walk::walk(played, &tools::output::lines(output)?)
}

/// The player's own lines are shown whatever they are; what is wrong with them is said after them.
fn play_lines(bytes: Vec<u8>) -> Result<(), Ending> {
    let text = check::is_text(&bytes);
    let source = Source::of_bytes(bytes);
    let output = output(&source.bytes)?;
    shown(&output)?;
    match Played::of(&source, &output).map_err(Ending::Wrong)? {
        Ok(_) => Ok(()),
        Err(_) if text => Err(Ending::Wrong(
            "refused with 1: this is a text and not a register and file; ./play --text FILE plays it".to_string(),
        )),
        Err(fault) => Err(refused(fault)),
    }
}

fn output(input: &[u8]) -> Result<Vec<u8>, Ending> {
    build("player", "FAILS_PLAYER", "the player")?;
    player::play(input).map_err(|error| Ending::Wrong(format!("the player: {error}")))
}

fn page_of(source: &Source) -> Result<Vec<u8>, Ending> {
    build("page", "FAILS_PAGE", "the page program")?;
    page::page(source).map_err(Ending::Wrong)?.map_err(refused)
}

/// Builds a program where it is missing or out of date, unless the variable names another one.
fn build(program: &str, variable: &str, words: &str) -> Result<(), Ending> {
    if std::env::var_os(variable).is_some() {
        return Ok(());
    }
    let script = player::root().join("tools").join("build");
    let status = Command::new(&script).arg(program).stdin(Stdio::null()).stdout(Stdio::null()).status();
    match status {
        Ok(status) if status.success() => Ok(()),
        Ok(_) => Err(Ending::Wrong(format!("{words} could not be built"))),
        Err(error) => Err(Ending::Wrong(format!("{}: {error}", script.display()))),
    }
}

/// Writes all of it, and notices where that fails.
fn shown(text: &[u8]) -> Result<(), Ending> {
    let mut out = io::stdout().lock();
    match out.write_all(text).and_then(|()| out.flush()) {
        Ok(()) => Ok(()),
        Err(error) if error.kind() == ErrorKind::BrokenPipe => Err(Ending::Closed),
        Err(error) => Err(Ending::Wrong(format!("the output could not be written: {error}"))),
    }
}
