//! The positions of each close, worked out from the accepted trades in the input's bytes: bought minus sold by member,
//! kind and security, in this order.

use super::known::KNOWN;
use crate::check::Check;
use crate::compare::bytes::{parts, quantity, word, Parts, WIDTH};
use crate::compare::page::Given;
use crate::compare::player::{output, shown};
use crate::compare::prices::input_of;
use crate::compare::same;
use fails_book_tests::desk;
use fails_book_tests::event_kinds::{CLOSE, TRADE};
use second::book::Side;
use second::page;
use second::transcript::transcript;
use std::collections::BTreeMap;
use tools::output::{lines, Line};

/// 80 columns and a line feed.
const LINE: usize = 81;

/// The positions that closes make, by what tells the kinds apart.
#[derive(Default)]
pub struct Found {
    pub own: u64,
    pub client: u64,
    /// A member has positions of both kinds in one security.
    pub both_kinds: u64,
    /// A member's own position is in a later security than its client position after it.
    pub kind_first: u64,
}

impl Found {
    pub fn add(&mut self, other: &Found) {
        self.own += other.own;
        self.client += other.client;
        self.both_kinds += other.both_kinds;
        self.kind_first += other.kind_first;
    }

    fn of(made: &[Made]) -> Found {
        let count = |holds: &dyn Fn(&Made) -> bool| made.iter().filter(|one| holds(one)).count() as u64;
        let is_beside = |one: &Made, other: &Made| {
            let is_one_member = (one.day, one.member, one.security) == (other.day, other.member, other.security);
            is_one_member && one.kind < other.kind
        };
        let is_before = |pair: &&[Made]| {
            let is_one_member = (pair[0].day, pair[0].member) == (pair[1].day, pair[1].member);
            is_one_member && pair[0].security > pair[1].security
        };
        Found {
            own: count(&|one| one.kind == 0),
            client: count(&|one| one.kind == 1),
            both_kinds: count(&|one| made.iter().any(|other| is_beside(one, other))),
            kind_first: made.windows(2).filter(is_before).count() as u64,
        }
    }
}

/// A position as a close makes it.
pub struct Made {
    /// The trade day.
    pub day: u32,
    pub member: u8,
    pub kind: u8,
    pub security: u16,
    /// Bought minus sold.
    pub net: i64,
}

/// Wants the law of what the player and the desk's page show of the input, and of what the second implementation does.
pub fn each_close(check: &mut Check, input: &[u8]) -> Found {
    let second_lines = transcript(input);
    let player = law(input, &output(input), desk::page);
    let second = law(input, &second_lines, page::page);
    check.known(|| shown(input), player, second, Ok(()));
    lines(&second_lines).map_or_else(|_| Found::default(), |lines| Found::of(&made(input, &lines)))
}

/// Whether the positions of an output and of a page are those that the accepted trades make. Which trades and closes
/// are accepted is read from the output.
fn law(input: &[u8], output: &[u8], page: impl Fn(&[u8], &[u8], &mut [u8]) -> u64) -> Result<(), String> {
    let lines = lines(output)?;
    let made = made(input, &lines);
    let wanted: Vec<String> = made.iter().zip(1..).map(|(made, number)| in_lines(made, number)).collect();
    alike("the player's lines", printed(&lines), &wanted)?;
    if is_refused(&lines) {
        return Ok(());
    }
    let given = Given::parted(input);
    let mut text = vec![b'#'; LINE * made.len()];
    let written = page(&given.register, &given.file, &mut text);
    if written != text.len() as u64 {
        return Err(format!("the page answers {written}, and {} bytes are wanted", text.len()));
    }
    let isins = parts(input).isins;
    let wanted: Vec<String> = made.iter().zip(1..).map(|(made, number)| on_page(made, number, isins)).collect();
    alike("the page", text.chunks(LINE).map(unchanging).collect(), &wanted)
}

fn alike(what: &str, found: Vec<String>, wanted: &[String]) -> Result<(), String> {
    match found == wanted {
        true => Ok(()),
        false => Err(format!("{what}: {found:?}, and by the trades {wanted:?}")),
    }
}

/// An input that is refused has no parts to be read.
fn is_refused(lines: &[Line]) -> bool {
    matches!(lines, [Line::Refused { .. }])
}

/// The positions that the accepted trades of the input make, in order of number.
pub fn made(input: &[u8], lines: &[Line]) -> Vec<Made> {
    if is_refused(lines) {
        return Vec::new();
    }
    let Parts { kinds, bodies, .. } = parts(input);
    let accepted = lines.iter().filter_map(|line| match line {
        Line::Event { refusal, .. } => Some(*refusal == 0),
        _ => None,
    });
    let events = kinds.iter().zip(bodies.chunks(WIDTH)).zip(accepted).filter(|(_, accepted)| *accepted);
    let mut day = 1;
    let mut nets: BTreeMap<(u8, u8, u16), i64> = BTreeMap::new();
    let mut made = Vec::new();
    for ((&event, body), _) in events {
        match event {
            TRADE => trade(&mut nets, body),
            CLOSE => {
                let nets = std::mem::take(&mut nets).into_iter().filter(|&(_, net)| net != 0);
                made.extend(nets.map(|((member, kind, security), net)| Made { day, member, kind, security, net }));
                day += 1;
            }
            _ => {}
        }
    }
    made
}

/// Bytes 2 and 12 are the seller and its kind, 3 and 13 the buyer and its kind.
fn trade(nets: &mut BTreeMap<(u8, u8, u16), i64>, body: &[u8]) {
    let security = word(body);
    let quantity = quantity(body) as i64;
    *nets.entry((body[2], body[12], security)).or_default() -= quantity;
    *nets.entry((body[3], body[13], security)).or_default() += quantity;
}

impl Made {
    fn side(&self) -> char {
        if self.net < 0 {
            'D'
        } else {
            'R'
        }
    }
}

/// As far as the player's line of a position never changes.
fn in_lines(made: &Made, number: usize) -> String {
    format!("s {number} {} {} {}", made.member, made.side(), made.net.abs())
}

fn printed(lines: &[Line]) -> Vec<String> {
    let positions = lines.iter().filter_map(|line| match line {
        Line::Position(position) => Some(position),
        _ => None,
    });
    let line = |position: &tools::output::Position| {
        let side = if position.side == Side::Short { 'D' } else { 'R' };
        format!("s {} {} {side} {}", position.number, position.member, position.netted)
    };
    positions.map(line).collect()
}

/// Columns 1 to 32 and 73 to 81 of the page's line of a position, which never change.
fn on_page(made: &Made, number: usize, isins: &[u8]) -> String {
    let isin = isins.chunks(12).nth(usize::from(made.security) - 1).unwrap_or_default().escape_ascii();
    let start = format!("{number:>4} {:>2} {isin} {} {:>9}", made.member, made.side(), made.net.abs());
    format!("{start} {:>5} {}\n", made.day + 2, if made.kind == 0 { 'O' } else { 'C' })
}

fn unchanging(line: &[u8]) -> String {
    String::from_utf8_lossy(&[&line[..32], &line[72..]].concat()).into_owned()
}

/// What both show of the first known history, and what stands in place of it: in the page a wrong letter, one in another
/// column, a wrong delivery day, security, quantity or side, two lines exchanged, and a line less; in the lines a wrong
/// quantity, member or side, and a position less; and a trade that is said to be refused.
const CHANGES: [(&str, &str); 15] = [
    ("40     3 O\n", "40     3 C\n"),
    ("30     3 C\n", "30     3 O\n"),
    ("20     3 O\n", "20     3  \n"),
    ("10     3 C\n", "10     3C \n"),
    ("10     3 C\n", "10     4 C\n"),
    ("   2  1 XX0000000010 D        20 ", "   2  1 XX0000000002 D        20 "),
    ("   2  1 XX0000000010 D        20 ", "   2  1 XX0000000010 D        30 "),
    ("   5  2 XX0000000002 R ", "   5  2 XX0000000002 D "),
    (
        "        20     3 O\n   3  1 XX0000000002 D        30         0         0         0        30     3 C\n",
        "        30     3 C\n   3  1 XX0000000010 D        20         0         0         0        20     3 O\n",
    ),
    ("   8  2 XX0000000010 D        10         0         0         0        10     3 C\n", ""),
    ("s 2 1 D 20 ", "s 2 1 D 30 "),
    ("s 2 1 D ", "s 2 2 D "),
    ("s 2 1 D ", "s 2 1 R "),
    ("s 8 2 D 10 0 0 0 0 10\n", ""),
    ("e 3 0 30\n", "e 3 33 0\n"),
];

/// The law finds fault with other lines and pages than the first known history's, or it would with none.
pub fn known_faults(check: &mut Check) {
    let page: String = KNOWN[0].page.iter().map(|line| format!("{line}\n")).collect();
    let shown = format!("e 1 0 10\ne 2 0 20\ne 3 0 30\ne 4 0 40\ne 5 0 0\n{}{END}{page}", KNOWN[0].end);
    same(check, || shown.clone(), holds(&shown), true);
    for (from, to) in CHANGES {
        let changed = shown.replacen(from, to, 1);
        same(check, || format!("{to:?} for {from:?}"), (changed != shown, holds(&changed)), (true, false));
    }
}

/// Stands between the lines and the page.
const END: &str = "--\n";

/// Whether the law holds of the first known history, if these lines and this page are shown of it.
fn holds(shown: &str) -> bool {
    let (lines, page) = shown.split_once(END).unwrap_or_default();
    let write = |_: &[u8], _: &[u8], to: &mut [u8]| {
        to.iter_mut().zip(page.bytes()).for_each(|(to, byte)| *to = byte);
        page.len() as u64
    };
    law(&input_of(KNOWN[0].classes, KNOWN[0].events), lines.as_bytes(), write).is_ok()
}
