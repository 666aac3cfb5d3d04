//! The marked figures of a page, and the player's lines from them alone.

use crate::xml::Element;
use std::collections::BTreeMap;

/// Whether the page has other lines than the player.
pub fn lines_fault(lines: &[u8], all: &[&Element]) -> Option<String> {
    let wanted = String::from_utf8_lossy(lines);
    match lines_of(all) {
        Err(wrong) => Some(wrong),
        Ok(found) if found == wanted => None,
        Ok(found) => {
            let same = found.lines().zip(wanted.lines()).take_while(|(found, wanted)| found == wanted).count();
            let [found, wanted] = [&found, wanted.as_ref()].map(|lines| lines.lines().nth(same).unwrap_or("no line"));
            Some(format!("the page has {found:?}, and the player {wanted:?}"))
        }
    }
}

/// The player's lines, from the marked figures alone: each must be there once, and none besides.
fn lines_of(all: &[&Element]) -> Result<String, String> {
    let mut figures = Figures(marked(all)?);
    let lines = [figures.events(), figures.positions(), figures.accounts()].concat();
    match figures.0.keys().next() {
        None => Ok(lines),
        Some(key) => Err(format!("{key} is no figure of the player, or its line lacks another")),
    }
}

/// The marked figures by their keys.
pub fn marked(all: &[&Element]) -> Result<BTreeMap<String, String>, String> {
    let marked = all.iter().filter_map(|element| element.attribute("data-figure").map(|key| (key, element.text())));
    let mut figures = BTreeMap::new();
    for (key, text) in marked {
        if figures.insert(key.to_string(), plain_figure(&text)?).is_some() {
            return Err(format!("{key} is there twice"));
        }
    }
    Ok(figures)
}

/// The figure as the player writes it.
fn plain_figure(text: &str) -> Result<String, String> {
    match text {
        "short" => return Ok("D".to_string()),
        "long" => return Ok("R".to_string()),
        _ => {}
    }
    let plain = text.replace(',', "");
    let number: i64 = plain.parse().map_err(|_| format!("the figure {text:?}"))?;
    let grouped = tools::numbers::grouped(number);
    (grouped == text).then_some(plain).ok_or_else(|| format!("the figure {text:?}"))
}

struct Figures(BTreeMap<String, String>);

impl Figures {
    /// Takes the figures of a line, if all of them are there.
    fn line(&mut self, first: &str, key: &str, fields: &[&str]) -> Option<String> {
        let keys: Vec<String> = fields.iter().map(|field| format!("{key}.{field}")).collect();
        if !keys.iter().all(|key| self.0.contains_key(key)) {
            return None;
        }
        let words = keys.iter().filter_map(|key| self.0.remove(key));
        Some(format!("{first} {}\n", words.collect::<Vec<_>>().join(" ")))
    }

    fn events(&mut self) -> String {
        let mut lines = String::new();
        let event = |figures: &mut Figures, number: usize| {
            figures.line("e", &format!("e{number}"), &["number", "refusal", "quantity"])
        };
        for number in 1.. {
            let Some(line) = event(self, number) else { break };
            lines += &line;
            lines += &self.pieces(number);
        }
        lines
    }

    fn pieces(&mut self, event: usize) -> String {
        let fields = ["short", "long", "quantity", "cents"];
        (1..).map_while(|place| self.line("p", &format!("p{event}.{place}"), &fields)).collect()
    }

    fn positions(&mut self) -> String {
        let fields = ["number", "member", "side", "netted", "delivered", "bought_in", "cash", "paired", "open"];
        (1..).map_while(|number| self.line("s", &format!("s{number}"), &fields)).collect()
    }

    fn accounts(&mut self) -> String {
        (0..64).filter_map(|account| self.line("a", &format!("a{account}"), &["account", "cents"])).collect()
    }
}
