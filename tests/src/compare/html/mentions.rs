//! The numbers that a page mentions again, in pictures and tables: they must agree with the marked figures.

use super::figures::marked;
use crate::xml::Element;
use std::collections::{BTreeMap, BTreeSet};

/// The marked figures as numbers, by their keys.
type Marked = BTreeMap<String, i64>;

/// What is wrong with the mentions of a page.
pub fn fault(all: &[&Element]) -> Option<String> {
    let figures = match marked(all) {
        Ok(figures) => figures,
        Err(wrong) => return Some(wrong),
    };
    let numbers = figures.iter().filter_map(|(key, text)| Some((key.clone(), text.parse().ok()?)));
    let numbers: Marked = numbers.collect();
    let of_class = |class: &'static str| all.iter().filter(move |element| element.attribute("class") == Some(class));
    let fails = of_class("wide fail");
    let faults = [
        all.iter().find_map(|element| sums_fault(element)),
        fails.clone().find_map(|fail| fail_fault(fail)),
        fails.clone().find_map(|fail| positions_fault(&numbers, fail)),
        pieces_fault(&numbers, fails.copied()),
        of_class("wide auction").find_map(|auction| auction_fault(&numbers, all, auction)),
        all.iter().find_map(|element| account_fault(&numbers, element)),
        charges_fault(&numbers, all),
    ];
    faults.into_iter().flatten().next()
}

/// The numbers of a row, each with the column that it stands in. Heads and words have none.
fn numbers_of(row: &Element) -> BTreeMap<usize, i64> {
    let mut column = 0;
    let mut numbers = BTreeMap::new();
    for cell in row.children() {
        let number = cell.text().replace(',', "").parse();
        if let (Some("n"), Ok(number)) = (cell.attribute("class"), number) {
            numbers.insert(column, number);
        }
        column += cell.attribute("colspan").and_then(|columns| columns.parse().ok()).unwrap_or(1);
    }
    numbers
}

fn rows<'a>(table: &'a Element, part: &str) -> Vec<&'a Element> {
    table.children().filter(|child| child.name == part).flat_map(Element::children).collect()
}

fn sum(rows: &[&Element], column: usize) -> i64 {
    rows.iter().filter_map(|row| numbers_of(row).get(&column).copied()).sum()
}

/// What stands at the foot of a table is what its columns add up to.
fn sums_fault(table: &Element) -> Option<String> {
    let body = rows(table, "tbody");
    let foot = rows(table, "tfoot").into_iter().flat_map(numbers_of);
    let mut wrong = foot.filter(|&(column, number)| sum(&body, column) != number);
    wrong.next().map(|(column, number)| format!("column {column} is said to add up to {number}: {}", table.text()))
}

/// The columns of a fail's picture.
const BAR: usize = 1;
const BY_MANNER: [usize; 4] = [2, 3, 4, 5];
const OPEN: usize = 6;
const UNITS: usize = 7;
const CENTS: usize = 8;

/// A short's units are those of its longs and the open ones, in figures and in bars.
fn fail_fault(fail: &Element) -> Option<String> {
    let rows = rows(fail.children().next()?, "tbody");
    let (short, longs) = rows.split_first()?;
    let numbers = numbers_of(short);
    let of_short = |column: usize| numbers.get(&column).copied().unwrap_or(-1);
    let same = |column: &usize| of_short(*column) == sum(longs, *column);
    let all = sum(longs, UNITS) + of_short(OPEN);
    let parts: i64 = BY_MANNER.into_iter().chain([OPEN]).map(of_short).sum();
    let good = BY_MANNER.iter().chain([&CENTS]).all(same) && [all, parts] == [of_short(UNITS); 2];
    let good = good && rows.iter().all(|row| bar_is_true(row, of_short(UNITS))) && longs_stand_under(short, longs);
    (!good).then(|| fail.text())
}

/// The rectangles of a row's bar: pattern, start and width.
fn rectangles(row: &Element) -> Vec<(String, f64, f64)> {
    let all = row.all().into_iter().filter(|element| element.name == "rect");
    let number =
        |element: &Element, name: &str| element.attribute(name).and_then(|text| text.parse().ok()).unwrap_or(-1.0);
    let read = |element: &Element| {
        let fill = element.attribute("fill").unwrap_or_default().to_string();
        (fill, number(element, "x"), number(element, "width"))
    };
    all.map(read).collect()
}

/// The pixels of a whole bar, without its outline.
const BAR_WIDTH: f64 = 218.0;
/// Places and widths are written with one digit after the point.
const ROUNDING: f64 = 0.11;

/// Each figure above 0 has its rectangle, as wide as its share of the short's units.
fn bar_is_true(row: &Element, netted: i64) -> bool {
    let numbers = numbers_of(row);
    let fills = ["url(#delivered)", "url(#bought-in)", "url(#cash)", "url(#paired)", "url(#open)"];
    let units = fills.iter().zip(BAR + 1..).filter_map(|(fill, column)| Some((fill, *numbers.get(&column)?)));
    let wanted: Vec<(&&str, f64)> = units
        .filter(|&(_, units)| units > 0)
        .map(|(fill, units)| (fill, units as f64 * BAR_WIDTH / netted as f64))
        .collect();
    let found = rectangles(row);
    let same = |((fill, _, width), (wanted, units)): (&(String, f64, f64), &(&&str, f64))| {
        fill == **wanted && (width - units).abs() < ROUNDING
    };
    found.len() == wanted.len() && found.iter().zip(&wanted).all(same)
}

/// The longs' units of a manner stand under the short's own, each long's after those of the long before it.
fn longs_stand_under(short: &Element, longs: &[&Element]) -> bool {
    rectangles(short).iter().all(|(fill, start, _)| {
        let mut end = *start;
        let mut below = longs.iter().flat_map(|row| rectangles(row)).filter(|(other, _, _)| other == fill);
        below.all(|(_, x, width)| {
            let follows = (x - end).abs() < 2.0 * ROUNDING;
            end = x + width;
            follows
        })
    })
}

/// The number that an element's id or reference has after its letter.
fn numbered(element: &Element, attribute: &str, letter: &str) -> Option<i64> {
    element.attribute(attribute)?.strip_prefix(letter)?.parse().ok()
}

/// The number of the position or event that the first reference in an element names.
fn linked(element: &Element, letter: &str) -> Option<i64> {
    element.all().into_iter().find_map(|inner| numbered(inner, "href", letter))
}

/// The figures of a fail's short are those of its position.
fn positions_fault(marked: &Marked, fail: &Element) -> Option<String> {
    let number = numbered(fail, "id", "f").unwrap_or(0);
    let short = rows(fail.children().next()?, "tbody").into_iter().next()?;
    let numbers = numbers_of(short);
    let fields = ["delivered", "bought_in", "cash", "paired", "open", "netted"];
    let same = |(field, column): (&&str, usize)| marked.get(&format!("s{number}.{field}")) == numbers.get(&column);
    let good = linked(short, "#s") == Some(number) && fields.iter().zip(BY_MANNER[0]..).all(same);
    (!good).then(|| format!("position {number}: {}", short.text()))
}

/// Units and cents, by short and long.
type Shares = BTreeMap<(i64, i64), (i64, i64)>;

/// What each long got from each short that fails is what the pieces add up to.
fn pieces_fault<'a>(marked: &Marked, fails: impl Iterator<Item = &'a Element>) -> Option<String> {
    let mut shown = Shares::new();
    let mut failed = BTreeSet::new();
    for fail in fails {
        let short = numbered(fail, "id", "f").unwrap_or(0);
        failed.insert(short);
        let rows: Vec<&Element> = fail.children().flat_map(|table| rows(table, "tbody")).collect();
        let share = |row: &&Element| {
            let numbers = numbers_of(row);
            Some(((short, linked(row, "#s")?), (*numbers.get(&UNITS)?, *numbers.get(&CENTS)?)))
        };
        shown.extend(rows.iter().skip(1).filter_map(share));
    }
    let wanted: Shares = shares(marked).into_iter().filter(|((short, _), _)| failed.contains(short)).collect();
    let missing = missing_fail(marked, &failed).map(|short| format!("the fail of position {short} has no picture"));
    missing.or_else(|| (shown != wanted).then(|| format!("shares {shown:?}, and by the pieces {wanted:?}")))
}

/// The units and cents of the pieces, by short and long.
fn shares(marked: &Marked) -> Shares {
    let mut shares = Shares::new();
    for (key, &quantity) in marked.iter().filter(|(key, _)| key.starts_with('p')) {
        let Some(piece) = key.strip_suffix(".quantity") else { continue };
        let field = |field: &str| marked.get(&format!("{piece}.{field}")).copied().unwrap_or(-1);
        let (units, cents) = shares.entry((field("short"), field("long"))).or_default();
        *units += quantity;
        *cents += field("cents");
    }
    shares
}

/// A short that was bought in or settled in cash is a fail. A long has pieces too, but none that name it as short.
fn missing_fail(marked: &Marked, failed: &BTreeSet<i64>) -> Option<i64> {
    let shorts: BTreeSet<i64> = shares(marked).into_keys().map(|(short, _)| short).collect();
    let late =
        |short: &i64| ["bought_in", "cash"].iter().any(|field| marked.get(&format!("s{short}.{field}")) > Some(&0));
    shorts.into_iter().filter(late).find(|short| !failed.contains(short))
}

/// The columns of an auction.
const OFFERED: usize = 3;
const AWARDED: usize = 6;

/// Offers and awards are those that their events report.
fn auction_fault(marked: &Marked, all: &[&Element], auction: &Element) -> Option<String> {
    let table = auction.children().next()?;
    let [body, foot] = ["tbody", "tfoot"].map(|part| rows(table, part));
    let differs = |row: &&Element, column: usize| {
        let quantity = linked(row, "#e").and_then(|event| marked.get(&format!("e{event}.quantity")));
        quantity.is_some() && quantity != numbers_of(row).get(&column)
    };
    let good = !body.iter().any(|row| differs(row, OFFERED)) && !foot.iter().any(|row| differs(row, AWARDED));
    let mut shown: Vec<String> = body.iter().filter_map(|row| award_words(row)).collect();
    let award = foot.first().and_then(|row| linked(row, "#e")).map(|event| format!("e{event}"));
    let event = all.iter().find(|element| award.is_some() && element.attribute("id") == award.as_deref());
    let items = event.map_or_else(Vec::new, |event| event.all());
    let mut wanted: Vec<String> = items.iter().filter(|item| item.name == "li").map(|item| item.text()).collect();
    shown.sort();
    wanted.sort();
    (!good || shown != wanted).then(|| format!("{}: {shown:?} and {wanted:?}", table.text()))
}

/// The award of a row in the words of its event, if the offer has one.
fn award_words(row: &Element) -> Option<String> {
    let texts: Vec<String> = row.children().map(Element::text).collect();
    let [_, _, member, _, price, award, units, _] = &texts[..] else { return None };
    let name = if units == "1" { "unit" } else { "units" };
    (!award.is_empty()).then(|| format!("award {award}: {units} {name} of member {member} at {price}"))
}

/// The items of an account come to what the player has of it, which has no line where that is 0.
fn account_fault(marked: &Marked, element: &Element) -> Option<String> {
    let account = numbered(element, "id", "a")?;
    let foot = element.children().flat_map(|table| rows(table, "tfoot"));
    let sums: Vec<i64> = foot.flat_map(|row| numbers_of(row).into_values()).collect();
    let wanted = marked.get(&format!("a{account}.cents")).copied().unwrap_or(0);
    (sums != [wanted]).then(|| format!("account {account}: {sums:?}"))
}

/// The charges that the days tell come to the accounts, unless there are too many late fines for all to be told.
fn charges_fault(marked: &Marked, all: &[&Element]) -> Option<String> {
    let is_left_out = |element: &&Element| element.name == "li" && element.text().starts_with("and ");
    if all.iter().any(is_left_out) {
        return None;
    }
    let mut accounts: BTreeMap<i64, i64> = BTreeMap::new();
    for (from, to, cents) in all.iter().flat_map(|element| told_charges(element)) {
        *accounts.entry(from).or_default() -= cents;
        *accounts.entry(to).or_default() += cents;
    }
    let wanted = |account: i64| marked.get(&format!("a{account}.cents")).copied().unwrap_or(0);
    let told = |account: i64| accounts.get(&account).copied().unwrap_or(0);
    let wrong = (0..64).find(|&account| told(account) != wanted(account));
    wrong.map(|account| format!("the days charge account {account} with {}", told(account)))
}

/// The charges in a day's table, or in a run of closes, each of which has them all.
fn told_charges(element: &Element) -> Vec<(i64, i64, i64)> {
    let times = match element.attribute("class") {
        Some("day") => 1,
        Some("closes") => {
            let run = element.children().find(|child| child.attribute("class") == Some("run"));
            run.map_or(0, |run| run.children().count() as i64)
        }
        _ => return Vec::new(),
    };
    let items = element.all().into_iter().filter(|item| item.name == "li");
    items.filter_map(|item| moved(&item.text())).map(|(from, to, cents)| (from, to, times * cents)).collect()
}

/// Who pays whom how many cents, by the words of a charge.
fn moved(words: &str) -> Option<(i64, i64, i64)> {
    let account = |holder: &str| match holder {
        "the house" => Some(0),
        _ => holder.strip_prefix("member ")?.parse().ok(),
    };
    let (before, after) = words.split_once(" pays ")?;
    let (to, cents) = after.split_once(" cent")?.0.rsplit_once(' ')?;
    Some((account(before.rsplit(": ").next()?)?, account(to)?, cents.replace(',', "").parse().ok()?))
}
