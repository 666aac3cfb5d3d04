//! `tools/build`, run in a tree of its own with programs `rt` and `gcc` in which everything is as they say: when it
//! builds, and what it says meanwhile.

use super::c_programs::gcc_lines;
use super::programs::{ended, root, Ended, Scratch};
use super::same;
use crate::check::{Check, Tests};
use std::fs;
use std::os::unix::fs::symlink;
use std::path::PathBuf;
use std::process::Command;
use std::time::Duration;

/// A program that is built: the word that names it to `tools/build`, and what is special about it.
struct Built {
    word: &'static str,
    name: &'static str,
    program: &'static str,
    /// The last crate, and what `rt` is asked to do in its folder.
    last_crate: &'static str,
    rt: &'static str,
    /// What `rt` prints where no crate has changed.
    unchanged: &'static str,
    /// The commands that it needs, in the order in which they are looked for.
    commands: &'static [&'static str],
    /// What has not written the program where it is missing in the end.
    last: &'static str,
    /// Files that it is built from, and some that it is not.
    sources: &'static [&'static str],
    others: &'static [&'static str],
}

const PLAYER: Built = Built {
    word: "player",
    name: "the player",
    program: "crates/player/out/player",
    last_crate: "player",
    rt: "run",
    unchanged: "rt: nothing has changed since the last proved build, by out/player.stamp, so nothing is checked now",
    commands: &["rt"],
    last: "rt run",
    sources: &["crates/laws/src", "crates.txt"],
    others: &["examples/page.c", MADE],
};

const PAGE: Built = Built {
    word: "page",
    name: "the page program",
    program: "target/page",
    last_crate: "desk",
    rt: "lib",
    // The crate of a static library is looked at each time.
    unchanged: "\
rt: chose --jobs 2 for desk
fn desk::desk_step: proved
library laws: modules loaded=18 checked=0
crate desk: modules loaded=34 checked=0
logic=proved functions=1 sum=0 incremental=trusted",
    commands: &["rt", "gcc"],
    last: "gcc",
    sources: &["crates/laws/src", "crates.txt", "include/desk.h", "examples/page.c"],
    others: &["examples/desk.c", MADE],
};

/// What `rt` makes in a crate's folder is no source.
const MADE: &str = "crates/laws/out/rlib/stamp";

const CRATES: &[u8] = b"# Each crate with the crates that it uses.
laws:
words: laws
unused: laws
player: laws words io
desk staticlib: words laws  # for C
";

/// What `rt` prints where a crate is proved in so many seconds.
fn proved(name: &str, seconds: u32) -> String {
    format!(
        "\
echo 'rt: chose --jobs 2 for {name}'; sleep {seconds}
echo 'fn {name}::first: proved'
echo 'crate {name}: modules loaded=1 checked=39'
echo 'logic=proved functions=1 sum=0 incremental=trusted'
"
    )
}

pub fn exhaustive(tests: &mut Tests) {
    for built in [PLAYER, PAGE] {
        tests.check(&format!("play: {} is built with a word about each crate", built.name), &[], |check| {
            let tree = Tree::new(built);
            first_run(check, &tree);
            newer_sources(check, &tree);
            some_unchanged(check, &tree);
            failures(check, &tree);
            missing_commands(check, &tree);
        });
    }
    tests.check("play: what is built is named", &[], |check| {
        for arguments in [&[][..], &["desk"], &["--help"]] {
            let found = ended(Command::new(root().join("tools/build")).args(arguments), b"");
            let errors = "usage: tools/build player|page\n".to_string();
            let wanted = Ended { status: Some(2), output: String::new(), errors };
            same(check, || format!("{arguments:?}"), found, wanted);
        }
    });
}

/// A tree with the script, and nothing built.
struct Tree {
    scratch: Scratch,
    built: Built,
}

impl Tree {
    fn new(built: Built) -> Tree {
        let scratch = Scratch::new(&format!("build-{}", built.word));
        for folder in ["tools", "crates/laws/out/rlib", "crates/player", "crates/desk", "include", "examples", "bin"] {
            scratch.folder(folder);
        }
        for file in ["crates/laws/src", "include/desk.h", "examples/page.c", "examples/desk.c"] {
            scratch.file(file, b"first");
        }
        scratch.file("crates.txt", CRATES);
        // Where this fails there is no script to be run, and each run differs from what is wanted.
        let _ = fs::copy(root().join("tools/build"), scratch.0.join("tools/build"));
        Tree { scratch, built }
    }

    /// Runs the script with an `rt` and a `gcc` of these lines, which first write down what they are asked to do, and `rt` also
    /// in which folder of crates/. `rt run` prints on standard error.
    fn run(&self, rt: &str, gcc: &str) -> Ended {
        let asked = self.asked_file();
        let asked = asked.display();
        let prints = if self.built.rt == "run" { "exec >&2" } else { "" };
        let rt = format!("echo \"(cd crates/${{PWD##*/crates/}} && rt $*)\" >>'{asked}'\n{prints}\n{rt}");
        self.scratch.program("bin/rt", &rt);
        self.scratch.program("bin/gcc", &format!("echo \"gcc $*\" >>'{asked}'\n{gcc}"));
        let path = format!("{}:{}", self.scratch.0.join("bin").display(), std::env::var("PATH").unwrap_or_default());
        ended(Command::new(self.scratch.0.join("tools/build")).arg(self.built.word).env("PATH", path), b"")
    }

    fn asked_file(&self) -> PathBuf {
        self.scratch.0.join("asked")
    }

    /// What `rt` and `gcc` were asked to do since this was asked last.
    fn asked(&self) -> String {
        let file = self.asked_file();
        let asked = fs::read_to_string(&file).unwrap_or_default();
        // Where there is none, nothing was asked.
        let _ = fs::remove_file(&file);
        asked
    }

    /// What they are asked to do in a whole build: the README's own line for the C program.
    fn whole(&self) -> String {
        let gcc = gcc_lines().filter(|line| self.built.word == "page" && line.contains("examples/page.c"));
        [self.rt_line()].into_iter().chain(gcc.map(str::to_string)).map(|line| line + "\n").collect()
    }

    /// What `rt` is asked to do, and where.
    fn rt_line(&self) -> String {
        format!("(cd crates/{} && rt {})", self.built.last_crate, self.built.rt)
    }

    /// The command with which `rt` writes the player, and `gcc` the page program.
    fn writes(&self, command: &str) -> String {
        if self.built.commands.last() == Some(&command) {
            let program = self.scratch.0.join(self.built.program);
            format!("mkdir -p \"$(dirname '{0}')\" && cp /bin/true '{0}'", program.display())
        } else {
            String::new()
        }
    }

    /// Makes the file newer than the program, as one that was edited is.
    fn newer(&self, file: &str) {
        // Times of files are some milliseconds apart or equal.
        std::thread::sleep(Duration::from_millis(30));
        let content = if file == "crates.txt" { CRATES } else { b"another" };
        self.scratch.file(file, content);
    }
}

fn first_run(check: &mut Check, tree: &Tree) {
    let Built { name, last_crate, .. } = tree.built;
    // Before anything is proved `rt` may look through all sources.
    let looks = "echo 'only=0 proved=0'\n".to_string();
    let rt = [looks, proved("laws", 0), proved("words", 1), proved(last_crate, 0), tree.writes("rt")].concat();
    let shown = format!(
        "\
play: building {name}; all of it is proved first, which takes some minutes
play: laws proved in its time: 1 of 3 crates, 2 left
play: words proved in its time: 2 of 3 crates, 1 left
play: {last_crate} proved in its time: 3 of 3 crates, 0 left
"
    );
    let (found, seconds) = timed(tree.run(&rt, &tree.writes("gcc")));
    same(check, || "the first run".to_string(), found, Ended { errors: shown, ..Ended::well("") });
    let of_words = seconds.get(1).is_some_and(|&seconds| seconds >= 1);
    same(check, || format!("the first run's times: {seconds:?}"), (seconds.len(), of_words), (3, true));
    same(check, || "what the first run asks for".to_string(), tree.asked(), tree.whole());
}

/// How a run ended, without the seconds that it says each crate took, and those.
fn timed(ended: Ended) -> (Ended, Vec<u64>) {
    let mut all = Vec::new();
    let mut errors = String::new();
    for line in ended.errors.split_inclusive('\n') {
        let parts = line.split_once(" proved in ").and_then(|(before, rest)| Some((before, rest.split_once(" s: ")?)));
        match parts.and_then(|(before, (seconds, after))| Some((before, seconds.parse().ok()?, after))) {
            Some((before, seconds, after)) => {
                all.push(seconds);
                errors += &format!("{before} proved in its time: {after}");
            }
            None => errors += line,
        }
    }
    (Ended { errors, ..ended }, all)
}

/// Where a source is newer all is asked for again, and nothing is said where nothing is proved again.
fn newer_sources(check: &mut Check, tree: &Tree) {
    let fails = "exit 1";
    same(check, || "nothing is newer".to_string(), tree.run(fails, fails), Ended::well(""));
    same(check, || "nothing is newer".to_string(), tree.asked(), String::new());
    for other in tree.built.others {
        tree.newer(other);
        same(check, || other.to_string(), tree.run(fails, fails), Ended::well(""));
        same(check, || other.to_string(), tree.asked(), String::new());
    }
    let unchanged = format!("echo '{}'", tree.built.unchanged);
    for source in tree.built.sources {
        tree.newer(source);
        same(check, || source.to_string(), tree.run(&unchanged, ""), Ended::well(""));
        same(check, || source.to_string(), tree.asked(), tree.whole());
        same(check, || format!("{source}, again"), tree.run(fails, fails), Ended::well(""));
        same(check, || format!("{source}, again"), tree.asked(), String::new());
    }
}

/// Of crates that have not changed `rt` says nothing, or that none of their modules was checked: they are counted alone.
fn some_unchanged(check: &mut Check, tree: &Tree) {
    let Built { name, last_crate, .. } = tree.built;
    let unchanged = |name| proved(name, 0).replace("loaded=1 checked=39", "loaded=40 checked=0");
    let cases = [
        ([proved("words", 0), unchanged(last_crate)], "words proved in its time: 2 of 3 crates, 1 left"),
        (
            [unchanged("words"), proved(last_crate, 0)],
            &format!("{last_crate} proved in its time: 3 of 3 crates, 0 left"),
        ),
    ];
    for (rt, shown) in cases {
        tree.newer("crates/laws/src");
        let (found, _) = timed(tree.run(&rt.concat(), ""));
        let errors =
            format!("play: building {name}; all of it is proved first, which takes some minutes\nplay: {shown}\n");
        same(check, || format!("some are unchanged: {shown}"), found, Ended { errors, ..Ended::well("") });
        same(check, || format!("some are unchanged: {shown}"), tree.asked(), tree.whole());
    }
}

/// Each run that fails shows the end of what was printed, and the next one tries again.
fn failures(check: &mut Check, tree: &Tree) {
    let Built { name, last, commands, .. } = tree.built;
    tree.newer("crates/laws/src");
    let says = |check: &mut Check, found: Ended, words: &[&str]| {
        let said = (found.status, words.iter().all(|words| found.errors.contains(words)));
        same(check, || format!("{words:?}: {}", found.errors), said, (Some(1), true));
    };
    let failed = format!("play: {name} could not be built; the lines above are the end of ");
    let rt = "echo 'rt: chose --jobs 2 for words'; echo 'fn words::first: no proof'; echo 'logic=not-proved'; exit 1";
    let found = tree.run(&(proved("laws", 0) + rt), "");
    says(check, found, &["fn words::first: no proof\n", &failed]);
    same(check, || "rt failed".to_string(), tree.asked(), tree.rt_line() + "\n");
    if commands.contains(&"gcc") {
        let found = tree.run("", "echo 'page.c: not C' >&2; exit 1");
        says(check, found, &["page.c: not C\n", &failed]);
    }
    let removed = fs::remove_file(tree.scratch.0.join(tree.built.program));
    same(check, || "the program is removed".to_string(), removed.is_ok(), true);
    let found = tree.run("", "");
    says(check, found, &[&format!("play: {last} has not written "), tree.built.program]);
}

/// With nothing on the path but what the script itself uses and the commands before the one that is missing.
fn missing_commands(check: &mut Check, tree: &Tree) {
    let few = tree.scratch.folder("few");
    let path = std::env::var_os("PATH").unwrap_or_default();
    for tool in ["bash", "dirname", "readlink", "find"] {
        let found = std::env::split_paths(&path).map(|folder| folder.join(tool)).find(|path| path.exists());
        let linked = found.is_some_and(|found| symlink(found, few.join(tool)).is_ok());
        same(check, || tool.to_string(), linked, true);
    }
    for command in tree.built.commands {
        let mut script = Command::new(tree.scratch.0.join("tools/build"));
        let found = ended(script.arg(tree.built.word).env("PATH", &few), b"");
        let errors = format!("play: {} has to be built, and {command} is not on the path\n", tree.built.name);
        same(check, || command.to_string(), found, Ended { status: Some(1), output: String::new(), errors });
        tree.scratch.program(&format!("few/{command}"), "exit 1");
    }
}
