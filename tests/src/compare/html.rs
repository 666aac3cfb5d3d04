//! The page of a play: it is read as XML, the player's lines are put together again from its marked figures alone, and
//! names cannot break out of its text.

mod figures;
mod mentions;

use super::{hex, kind_name, same};
use crate::check::{Check, Round, Tests};
use crate::xml::{self, Element};
use fails_book_tests::histories::{self, registers::with_classes};
use fails_book_tests::random::Random;
use second::book::{Book, Side, MOST_TRADES, SHEET_PLACES};
use second::events::{file_of, Event, Party, MOST_EVENTS};
use second::register::bytes_of;
use second::transcript;
use std::collections::BTreeSet;
use tools::check::Source;
use tools::html::{self, escaped};
use tools::played::Played;

const EXAMPLES: [&str; 4] = [
    include_str!("../../../examples/example.txt"),
    include_str!("../../../examples/squeeze.txt"),
    include_str!("../../../examples/kinds.txt"),
    include_str!("../../../examples/pairoff.txt"),
];

const HISTORIES: usize = 300;
const LONG_HISTORIES: usize = 4;

/// The bytes of a wrong input that are shown; the seed gives all of it.
const MOST_SHOWN: usize = 200;

/// The most bytes of a page, whatever is played. A file has 2,048 events, whose rows have up to some 1,500 bytes; the
/// positions, their pictures and the accounts add half as much again.
const MOST_BYTES: usize = 6_000_000;

/// Names that would be markup, end an attribute or the title, or turn the text around.
const NAMES: [&str; 10] = [
    "<b>&\"'.txt",
    "</title><script>alert(1)</script>",
    "\"><img src=x onerror=alert(1)>",
    "' onmouseover='alert(1)",
    "]]>",
    "&lt;&#0;&nbsp;",
    "\0\u{1}\u{8}\u{b}\u{1b}[31m\u{7f}\u{85}\u{fffe}\u{ffff}.txt",
    "a\r\nb\tc",
    "\u{202e}txt.exe\u{2066}",
    "größe → 1.txt",
];

pub fn exhaustive(tests: &mut Tests) {
    tests.check("html: the examples", &[], |check| {
        for text in EXAMPLES {
            check_source(check, || text.to_string(), &Source::of_text(text.as_bytes()));
        }
    });
    tests.check("html: the latest price of each security, with its day", &[], latest_prices);
    tests.check("html: the kinds of the example", &[], kinds);
    tests.check("html: the pair-offs of the example", &[], pair_offs);
    tests.check("html: how positions stand after pair-offs", &[], paired_states);
    tests.check("html: each byte and each sign, escaped", &[], escaped_signs);
    tests.check("html: names that would be markup", &[], names);
    tests.check("html: ISINs that would be markup", &[], isins);
    tests.check("html: pages that are not well formed", &[], ill_formed);
    tests.check("html: pages with a wrong figure", &[], wrong_figures);
    tests.check("html: the size of the largest pages", &[], largest);
}

pub fn seeded(round: &mut Round) {
    round.check("html: histories", &[], |check, random| {
        let mut played = 0;
        for _ in 0..HISTORIES {
            played += u64::from(history(check, &histories::any(random)));
        }
        check.reached("a history that is played", played);
    });
    round.check("html: long histories", &[], |check, random| {
        for which in 0..LONG_HISTORIES {
            history(check, &histories::long(random, which));
        }
    });
}

/// Checks the page of an input, and says whether it has one.
fn history(check: &mut Check, input: &[u8]) -> bool {
    let is_played = transcript::read(input).is_ok();
    if is_played {
        check_source(
            check,
            || format!("{} bytes: {}..", input.len(), hex(&input[..input.len().min(MOST_SHOWN)])),
            &Ok(Source::of_bytes(input.to_vec())),
        );
    }
    is_played
}

fn check_source(check: &mut Check, input: impl Fn() -> String, source: &Result<Source, String>) {
    let found = source.as_ref().map_err(String::clone).and_then(|source| {
        let (lines, page) = page("a name", source)?;
        fault(&lines, &page).map_or(Ok(()), Err)?;
        holders_shown(&page, &holders(&source.bytes))?;
        pictured(&page).map(|pictured| (pictured, fails(&source.bytes)))
    });
    let is_good = matches!(&found, Ok((pictured, fails)) if pictured == fails);
    same(check, || format!("{}: {found:?}", input()), is_good, true);
}

/// Whose the positions of an input are, by number, as `member 1 own`.
fn holders(input: &[u8]) -> Vec<String> {
    let Ok((mut book, events)) = transcript::open(input) else {
        return Vec::new();
    };
    for event in &events {
        // A refused call changes nothing.
        let _ = book.call(event, SHEET_PLACES);
    }
    book.positions().iter().map(|held| format!("member {} {}", held.member, kind_name(held.kind))).collect()
}

/// Wants each position's row to name its holder, and each head and caption that refers to it too.
fn holders_shown(page: &str, holders: &[String]) -> Result<(), String> {
    let root = xml::read(page)?;
    let all = root.all();
    for (holder, number) in holders.iter().zip(1..) {
        let row = all.iter().find(|element| element.attribute("id") == Some(&format!("s{number}")));
        let cells: Vec<String> = row.map_or_else(Vec::new, |row| row.children().map(Element::text).collect());
        let shown = cells.get(2..4).map(|cells| format!("member {}", cells.join(" ")));
        if shown.as_ref() != Some(holder) {
            return Err(format!("position {number} is {holder}'s, and its row has {shown:?}"));
        }
    }
    let link = |element: &Element| -> Option<usize> { element.attribute("href")?.strip_prefix("#s")?.parse().ok() };
    let names_holder = |element: &&&Element| {
        let number = element.all().into_iter().find_map(link);
        number.is_none_or(|number| holders.get(number - 1).is_some_and(|holder| element.text().contains(holder)))
    };
    let mut heads = all.iter().filter(|element| ["th", "caption"].contains(&element.name.as_str()));
    heads.find(|head| !names_holder(head)).map_or(Ok(()), |head| Err(format!("another holder: {}", head.text())))
}

/// The shorts that have a picture.
fn pictured(page: &str) -> Result<BTreeSet<usize>, String> {
    let root = xml::read(page)?;
    let fails = root.all().into_iter().filter(|element| element.attribute("class") == Some("wide fail"));
    let number = |fail: &Element| fail.attribute("id")?.strip_prefix('f')?.parse().ok();
    fails.map(|fail| number(fail).ok_or_else(|| "a picture without a short".to_string())).collect()
}

/// The shorts of which something was open when their delivery day, or a later one, was closed, or is open on it now.
fn fails(input: &[u8]) -> BTreeSet<usize> {
    let mut fails = BTreeSet::new();
    let Ok((mut book, events)) = transcript::open(input) else {
        return fails;
    };
    for event in &events {
        let open = if *event == Event::Close { due_and_open(&book) } else { Vec::new() };
        if book.call(event, SHEET_PLACES).is_ok() {
            fails.extend(open);
        }
    }
    fails.extend(due_and_open(&book));
    fails
}

fn due_and_open(book: &Book) -> Vec<usize> {
    let shorts = book.positions().iter().zip(1..).filter(|(position, _)| position.side == Side::Short);
    shorts.filter(|(short, _)| short.is_due(book.day) && short.open() > 0).map(|(_, number)| number).collect()
}

/// The play of a source on the second implementation, and its page. That the player prints the same lines is compared
/// with the player.
fn page(name: &str, source: &Source) -> Result<(Vec<u8>, String), String> {
    let lines = transcript::transcript(&source.bytes);
    let played = Played::of(source, &lines)?.map_err(|fault| fault.words)?;
    let page = html::page(name, &played);
    Ok((lines, page))
}

/// What is wrong with the page of a play that has these lines.
fn fault(lines: &[u8], page: &str) -> Option<String> {
    let root = match xml::read(page) {
        Ok(root) => root,
        Err(wrong) => return Some(wrong),
    };
    let all = root.all();
    let faults = [
        figures::lines_fault(lines, &all),
        forms_fault(&root),
        all.iter().find_map(|element| element_fault(element)),
        references_fault(&all),
        tables_fault(&all),
        mentions::fault(&all),
        (page.len() > MOST_BYTES).then(|| format!("{} bytes", page.len())),
    ];
    faults.into_iter().flatten().next()
}

/// The root, the sign set and the policy.
fn forms_fault(root: &Element) -> Option<String> {
    let attributes = |element: &Element| -> Vec<(String, String)> { element.attributes.clone() };
    let pair = |name: &str, value: &str| (name.to_string(), value.to_string());
    let xmlns = pair("xmlns", "http://www.w3.org/1999/xhtml");
    let metas: Vec<_> = root.all().into_iter().filter(|element| element.name == "meta").map(attributes).collect();
    let policy = vec![
        pair("http-equiv", "Content-Security-Policy"),
        pair("content", "default-src 'none'; style-src 'unsafe-inline'"),
    ];
    if root.name != "html" || attributes(root) != [xmlns, pair("lang", "en")] {
        return Some("the root".to_string());
    }
    let is_there = |meta: Vec<(String, String)>| metas.contains(&meta);
    let good = is_there(vec![pair("charset", "utf-8")]) && is_there(policy);
    (!good).then(|| "the sign set or the policy".to_string())
}

const ELEMENTS: &str = "html head meta title style body header nav section h1 h2 h3 p b bdi br ul li a span div table \
    caption thead tbody tfoot tr th td svg defs pattern rect circle path";

const ATTRIBUTES: &str =
    "xmlns lang charset http-equiv content name class id href data-figure scope colspan role width \
    height fill x y cx cy r d patternUnits patternTransform aria-label";

fn is_listed(list: &str, name: &str) -> bool {
    list.split(' ').any(|listed| listed == name)
}

/// Elements that HTML ends by themselves, and those of pictures, which it ends as XML does.
const ENDED: [&str; 5] = ["meta", "br", "rect", "circle", "path"];

/// No script, nothing from outside, and nothing that HTML reads in another way than XML.
fn element_fault(element: &Element) -> Option<String> {
    let Element { name, attributes, is_closed_at_once, .. } = element;
    let shown = format!("{name} {attributes:?}");
    let unknown = attributes.iter().find(|(name, _)| !is_listed(ATTRIBUTES, name));
    if !is_listed(ELEMENTS, name) || unknown.is_some() {
        return Some(format!("unknown: {shown}"));
    }
    if ENDED.contains(&name.as_str()) != *is_closed_at_once {
        return Some(format!("HTML reads it otherwise: {shown}"));
    }
    let is_outside = |(name, value): &(String, String)| match name.as_str() {
        "xmlns" => !["http://www.w3.org/1999/xhtml", "http://www.w3.org/2000/svg"].contains(&value.as_str()),
        "href" => !value.starts_with('#'),
        _ => value.contains("//") || value.contains("url(") && !value.starts_with("url(#"),
    };
    if attributes.iter().any(is_outside) {
        return Some(format!("from outside: {shown}"));
    }
    let text = element.text();
    let is_bad_style = name == "style" && ["@import", "url(", "//", "<", "&"].iter().any(|sign| text.contains(sign));
    is_bad_style.then(|| "the style".to_string())
}

/// Each id is there once, and each reference has one.
fn references_fault(all: &[&Element]) -> Option<String> {
    let mut ids = BTreeSet::new();
    if let Some(id) = all.iter().filter_map(|element| element.attribute("id")).find(|&id| !ids.insert(id)) {
        return Some(format!("the id {id:?} is there twice"));
    }
    let links = all.iter().filter_map(|element| element.attribute("href")).filter_map(|link| link.strip_prefix('#'));
    let fills = all.iter().filter_map(|element| element.attribute("fill"));
    let fills = fills.filter_map(|fill| fill.strip_prefix("url(#")?.strip_suffix(')'));
    let missing = links.chain(fills).find(|id| !ids.contains(id));
    missing.map(|id| format!("nothing has the id {id:?}"))
}

/// What people who do not see the page need: a caption for each table, a scope for each head, a title for each picture.
fn tables_fault(all: &[&Element]) -> Option<String> {
    let starts_with = |element: &Element, name: &str| element.children().next().is_some_and(|first| first.name == name);
    let is_wrong = |element: &&&Element| match element.name.as_str() {
        "table" => !starts_with(element, "caption"),
        "th" => element.attribute("scope").is_none(),
        "svg" => element.attribute("role") != Some("img") || !starts_with(element, "title"),
        _ => false,
    };
    all.iter().find(is_wrong).map(|element| format!("{}: {}", element.name, element.text()))
}

fn latest_prices(check: &mut Check) {
    let text = "security 1 XX0000000002\nsecurity 2 XX0000000010\nsecurity 3 XX0000000028\n\
                price 1 2,000\nprice 2 900\nclose\nprice 1 1,100\nclose 1,000\nprice 2 10\nprice 2 1,000,000\nclose\n";
    let page = Source::of_text(text.as_bytes()).and_then(|source| page("a name", &source));
    let root = page.and_then(|(_, page)| xml::read(&page));
    let notes = root.map(|root| {
        let notes = root.all().into_iter().filter(|element| element.attribute("class") == Some("note"));
        notes.map(Element::text).filter(|note| note.starts_with("Class ")).collect::<Vec<_>>()
    });
    let wanted = [
        "Class 1, share under the short selling regulation; latest price 1,100, given on day 2.",
        "Class 2, other security; latest price 1,000,000, given on day 1,002.",
        "Class 3, fixed income; no price yet.",
    ];
    same(check, || text.to_string(), notes, Ok(wanted.map(str::to_string).to_vec()));
}

/// What the page of the example says of kinds, as far as it stands in no row of a position.
fn kinds(check: &mut Check) {
    let said = [
        "trade: member 1 own sells 100 units of security 1 at 1,000 to member 2 own",
        "trade: member 1 own sells 20 units of security 1 at 1,050 to member 1 client",
        "refused: seller is buyer, both sides client",
        "refused: the buyer's kind is 7, not own or client",
        "80 units from position 1 (member 1 own) to position 3 (member 1 client)",
        "Fail of position 5: member 2 client short 60 units",
        "short 5, member 2 client",
        "→ long 4, member 2 own",
        "auction on short 5 (member 2 client, security 1)",
    ];
    says(check, EXAMPLES[2], &said);
}

fn pair_offs(check: &mut Check) {
    let said = [
        "delivered (plain) ",
        "bought in (striped) ",
        "settled in cash (dotted) ",
        "paired (crossed) ",
        "open (hollow) ",
        "pair-off of 40 units of position 1 with position 5",
        "40 units of position 1 (member 1 own) paired with position 5 (member 1 own), 0 cents",
        "50 units of position 2 (member 1 client) paired with position 6 (member 1 client), 0 cents",
        "refused: position 6 is no due long of member 1 own in security 1: its kind is client",
        "refused: position 65,541 is not there; there are positions 1 to 7",
        "100 units: 30 delivered, 10 bought in, 20 settled in cash, 40 paired",
        "50 units: 10 settled in cash, 40 paired",
        "→ long 6, member 1 client",
    ];
    says(check, EXAMPLES[3], &said);
}

/// Wants the page of a text to say all of this.
fn says(check: &mut Check, text: &str, said: &[&str]) {
    let page = Source::of_text(text.as_bytes()).and_then(|source| page("a name", &source));
    let text = page.and_then(|(_, page)| xml::read(&page)).map(|root| root.text()).unwrap_or_else(|wrong| wrong);
    for words in said {
        same(check, || format!("{words:?} in {text}"), text.contains(words), true);
    }
}

/// Member 1 is long 5 units from day 1 (position 1) and short 5 from day 2 (position 3), which fall due on days 3 and 4;
/// members 2 and 3 are on the other sides. Events from day 4 on, and how each position stands after them.
const PAIRED_STATES: [(&str, &[&str]); 7] = [
    ("pair 3 1 5", &["settled on day 4", "fail: open, 1 day late", "paired on its day", "due today"]),
    ("pair 3 1 4\ndelivery 3 1", &["settled on day 4", "fail: open, 1 day late", "settled on its day", "due today"]),
    ("pair 3 1 4", &["open, 1 day late", "fail: open, 1 day late", "fail: due today", "due today"]),
    (
        "delivery 2 5\ndelivery 3 5",
        &["settled on day 4", "fail: settled on day 4", "delivered on its day", "delivered on its day"],
    ),
    (
        "pair 3 1 4\nclose\npair 3 1 1",
        &["settled on day 5", "fail: open, 2 days late", "fail: settled on day 5", "open, 1 day late"],
    ),
    (
        "pair 3 1 5\ndelivery 2 5",
        &["settled on day 4", "fail: settled on day 4", "paired on its day", "delivered on its day"],
    ),
    // The long 6 gets cash on its delivery day, from the older short 2.
    (
        "pair 3 1 5\nclose 5\ntrade 4 5 1 5 100\nclose 2\ndelivery 5 5\nprice 1 100\ncash 2",
        &[
            "settled on day 4",
            "fail: settled on day 11",
            "paired on its day",
            "settled on day 11",
            "delivered on its day",
            "settled on its day",
        ],
    ),
];

fn paired_states(check: &mut Check) {
    for (events, states) in PAIRED_STATES {
        let text = format!("security 1 XX0000000002\ntrade 2 1 1 5 100\nclose\ntrade 1 3 1 5 100\nclose 2\n{events}\n");
        let page = Source::of_text(text.as_bytes()).and_then(|source| page("a name", &source));
        let found = page.and_then(|(_, page)| xml::read(&page)).map(|root| {
            let is_position = |element: &&Element| {
                let number = element.attribute("id").and_then(|id| id.strip_prefix('s'));
                number.is_some_and(|number| number.parse::<u16>().is_ok())
            };
            let last_cell = |row: &Element| row.children().last().map_or_else(String::new, Element::text);
            root.all().into_iter().filter(is_position).map(last_cell).collect::<Vec<_>>()
        });
        let states = states.iter().map(|state| state.to_string()).collect::<Vec<_>>();
        same(check, || text.clone(), found, Ok(states));
    }
}

fn escaped_signs(check: &mut Check) {
    let bytes = (0..=255).map(|byte: u8| vec![byte]);
    let signs = (0..=0x2_0000).filter_map(char::from_u32).map(|sign| sign.to_string().into_bytes());
    for text in bytes.chain(signs) {
        let found = escaped(&text);
        let page = format!("<!DOCTYPE html><p title=\"{found}\" class='{found}'>{found}</p>");
        let read = xml::read(&page).map(|root| {
            let values = root.attributes.iter().map(|(_, value)| value.clone());
            values.chain([root.text()]).collect::<Vec<_>>()
        });
        let is_raw = found.contains(['<', '>', '"', '\'']);
        same(check, || hex(&text), (read, is_raw), (Ok(vec![shown(&text); 3]), false));
    }
}

/// The text that a page is to show.
fn shown(text: &[u8]) -> String {
    let is_turning = |sign: char| "\u{61c}\u{200e}\u{200f}\u{202a}\u{202b}\u{202c}\u{202d}\u{202e}".contains(sign);
    let is_isolating = |sign: char| "\u{2066}\u{2067}\u{2068}\u{2069}".contains(sign);
    let is_refused =
        |sign: char| sign < ' ' || ('\u{7f}'..'\u{a0}').contains(&sign) || "\u{fffe}\u{ffff}".contains(sign);
    let sign = |sign| if is_turning(sign) || is_isolating(sign) || is_refused(sign) { '\u{fffd}' } else { sign };
    String::from_utf8_lossy(text).chars().map(sign).collect()
}

fn names(check: &mut Check) {
    let source = Source::of_text(EXAMPLES[1].as_bytes());
    for name in NAMES {
        let found = source.clone().and_then(|source| page(name, &source)).and_then(|(lines, page)| {
            let root = xml::read(&page)?;
            let titles = root.all().into_iter().filter(|element| ["title", "h1"].contains(&element.name.as_str()));
            // The first two are the head's and the heading; pictures have titles too.
            let titles: Vec<String> = titles.take(2).map(Element::text).collect();
            Ok((fault(&lines, &page), titles))
        });
        let title = format!("Fails book: {}", shown(name.as_bytes()));
        same(check, || name.to_string(), found, Ok((None, vec![title.clone(), title])));
    }
}

/// ISINs that no book takes, in a play that has them all the same.
fn isins(check: &mut Check) {
    let isins: [[u8; 12]; 4] =
        [*b"</bdi><b>\"'&", *b"\0\x01\x1b<!--]]>&a", *b"\xff\xfe\xc3\x28<p x='>\"", *b"&#60;&lt;<&>"];
    for isin in isins {
        let found = with_isin(isin).and_then(|page| {
            let root = xml::read(&page)?;
            let shown = root.all().into_iter().filter(|element| element.name == "bdi").map(Element::text);
            Ok((root.all().iter().find_map(|element| element_fault(element)), shown.collect::<Vec<_>>()))
        });
        let isin_shown = shown(&isin);
        same(check, || hex(&isin), found, Ok((None, vec!["a name".to_string(), isin_shown.clone(), isin_shown])));
    }
}

fn with_isin(isin: [u8; 12]) -> Result<String, String> {
    let source = Source::of_text(EXAMPLES[1].as_bytes())?;
    let lines = transcript::transcript(&source.bytes);
    let mut played = Played::of(&source, &lines)?.map_err(|fault| fault.words)?;
    played.register[0].1 = isin;
    Ok(html::page("a name", &played))
}

/// The reader must find fault with these, or it would with no page.
fn ill_formed(check: &mut Check) {
    let good = "<!DOCTYPE html>\n<p a=\"1\" b='&quot;'>x &lt; y<br/></p >\n";
    same(check, || good.to_string(), xml::read(good).map(|root| root.text()), Ok("x < y".to_string()));
    let bad = [
        "",
        "<p></p>",
        "<p>",
        "<p></q>",
        "<p></p",
        "<p><b></p></b>",
        "<p></p><p></p>",
        "<p></p>x",
        "x<p></p>",
        "<p a=1></p>",
        "<p a></p>",
        "<p a=\"1\"b=\"2\"></p>",
        "<p a=\"1\" a=\"2\"></p>",
        "<p a=\"<\"></p>",
        "<p a=\"1></p>",
        "<p>&</p>",
        "<p>&nbsp;</p>",
        "<p>&#60;</p>",
        "<p>&lt</p>",
        "<p>a]]>b</p>",
        "<p>\u{1}</p>",
        "<p>\u{ffff}</p>",
        "<p><!-- a --></p>",
        "<p>a < b</p>",
        "<p><></></p>",
        "< p></p>",
    ];
    for page in bad {
        let read = xml::read(&format!("<!DOCTYPE html>{page}"));
        same(check, || page.to_string(), read.is_ok(), page == "<p></p>");
    }
}

/// Each figure of the page of the squeeze and of the pair-offs, changed, taken away and there twice: the page must be
/// found wrong.
fn wrong_figures(check: &mut Check) {
    for text in [EXAMPLES[1], EXAMPLES[3]] {
        wrong_figures_of(check, text);
    }
}

fn wrong_figures_of(check: &mut Check, text: &str) {
    let source = Source::of_text(text.as_bytes());
    let Ok((lines, page)) = source.and_then(|source| page("a name", &source)) else {
        check.reached("a page of the example", 0);
        return;
    };
    const MARK: &str = " data-figure=\"";
    let marks: Vec<usize> = page.match_indices(MARK).map(|(at, _)| at).collect();
    for at in marks {
        let (before, after) = page.split_at(at);
        let Some((key, text)) = after[MARK.len()..].split_once("\">") else { continue };
        let twice = format!("{before}{after}").replacen("</body>", &format!("<b{MARK}{key}\">0</b></body>"), 1);
        let without = format!("{before}>{text}");
        let changed = format!("{before}{MARK}{key}\">{}{text}", if text.starts_with('1') { "2" } else { "1" });
        for wrong in [twice, without, changed] {
            same(check, || key.to_string(), fault(&lines, &wrong).is_some(), true);
        }
    }
}

/// The books with the most pieces, items and fines.
fn largest(check: &mut Check) {
    let random = &mut Random::new(0, "the largest pages");
    let inputs = [
        histories::full_book_in_cash(random),
        histories::full_book(random),
        histories::closes(random, 1_600),
        fined_at_changing_prices(random),
        histories::mixed(random),
    ];
    for input in inputs {
        history(check, &input);
    }
}

/// As many shorts as a book holds, all late, at a price that changes on each day, so that no two closes are alike.
fn fined_at_changing_prices(random: &mut Random) -> Vec<u8> {
    let trade = |at: u16| Event::Trade {
        security: 1 + at % 8,
        seller: Party::own(1 + (at / 8 % 62) as u8),
        buyer: Party::own(63),
        quantity: 1_000_000,
        price: 1_000,
    };
    let mut events: Vec<Event> = (0..MOST_TRADES as u16).map(trade).collect();
    for day in 0..(MOST_EVENTS - MOST_TRADES) / 2 {
        events.extend([Event::Price { security: 1 + day as u16 % 8, price: 10_000 + day as u32 }, Event::Close]);
    }
    [bytes_of(&with_classes(random, &[1; 8])), file_of(&events)].concat()
}
