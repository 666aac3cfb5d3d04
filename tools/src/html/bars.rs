//! Bars of units by manner. A manner is told by its pattern, and a word stands with it; the hues (of Okabe and Ito) only
//! help, and are as far apart in grey.

use super::escape::escaped;
use super::pieces::Share;
use crate::numbers::{counted, grouped};
use second::book::Position;

/// Delivered, bought in, settled in cash, paired and open, in the order in which bars have them.
pub const MANNERS: [(&str, &str); 5] = [
    ("delivered", "delivered"),
    ("bought-in", "bought in"),
    ("cash", "settled in cash"),
    ("paired", "paired"),
    ("open", "open"),
];

const WIDTH: u32 = 220;
const HEIGHT: u32 = 22;

const PATTERNS: &str = "\
<defs>\
<pattern id=\"delivered\" width=\"8\" height=\"8\" patternUnits=\"userSpaceOnUse\">\
<rect width=\"8\" height=\"8\" fill=\"#0072b2\"/></pattern>\
<pattern id=\"bought-in\" width=\"7\" height=\"7\" patternUnits=\"userSpaceOnUse\" patternTransform=\"rotate(45)\">\
<rect width=\"7\" height=\"7\" fill=\"#f5c04a\"/><rect width=\"2.5\" height=\"7\" fill=\"#3d2a00\"/></pattern>\
<pattern id=\"cash\" width=\"6\" height=\"6\" patternUnits=\"userSpaceOnUse\">\
<rect width=\"6\" height=\"6\" fill=\"#c6e5f7\"/><circle cx=\"3\" cy=\"3\" r=\"1.5\" fill=\"#0b3a55\"/></pattern>\
<pattern id=\"paired\" width=\"6\" height=\"6\" patternUnits=\"userSpaceOnUse\" patternTransform=\"rotate(45)\">\
<rect width=\"6\" height=\"6\" fill=\"#cc79a7\"/><path d=\"M0 0H6V1.5H1.5V6H0Z\" fill=\"#4a1134\"/></pattern>\
<pattern id=\"open\" width=\"8\" height=\"8\" patternUnits=\"userSpaceOnUse\">\
<rect width=\"8\" height=\"8\" fill=\"#ffffff\"/></pattern>\
</defs>";

/// One swatch a manner, with its word; the bars take their patterns from here.
pub fn legend() -> String {
    let looks = ["plain", "striped", "dotted", "crossed", "hollow"];
    let mut legend = String::from("<p class=\"legend\"><b>Bars of units:</b> ");
    for ((at, (id, word)), look) in MANNERS.iter().enumerate().zip(looks) {
        let patterns = if at == 0 { PATTERNS } else { "" };
        legend += &format!(
            "<span class=\"swatch\">{}<title>{look}</title>{patterns}\
             <rect class=\"b\" fill=\"url(#{id})\" x=\"1\" y=\"3\" width=\"34\" height=\"14\"/></svg> {word} ({look})</span> ",
            svg(36, 20)
        );
    }
    legend + "</p>\n"
}

/// The bar of a short: its netted units by manner.
pub fn of_short(position: &Position) -> String {
    let &Position { netted, delivered, bought_in, cash, paired, .. } = position;
    let units = [delivered, bought_in, cash, paired, position.open()];
    let title = format!("{}: {}", counted(netted, "unit"), in_words(&units));
    bar(&title, netted, &starts(&units), &units)
}

/// Where the units of each manner start, one after the other.
fn starts<const COUNT: usize>(units: &[u32; COUNT]) -> [u32; COUNT] {
    std::array::from_fn(|at| units[..at].iter().sum())
}

/// Where in a short's bar the next units of each manner stand. The units that a long got stand under the short's own.
pub struct Starts([u32; 4]);

impl Starts {
    pub fn new(short: &Position) -> Starts {
        Starts(starts(&[short.delivered, short.bought_in, short.cash, short.paired]))
    }

    /// The bar of what a long got from the short, at the short's scale.
    pub fn bar(&mut self, netted: u32, share: &Share) -> String {
        let units = [share.delivered, share.bought_in, share.cash, share.paired];
        let title = format!("{}: {}", counted(share.units(), "unit"), in_words(&units));
        let bar = bar(&title, netted, &self.0, &units);
        self.0.iter_mut().zip(units).for_each(|(start, units)| *start += units);
        bar
    }
}

fn in_words(units: &[u32]) -> String {
    let parts = units.iter().zip(MANNERS).filter(|(&units, _)| units > 0);
    parts.map(|(&units, (_, word))| format!("{} {word}", grouped(units))).collect::<Vec<_>>().join(", ")
}

fn bar(title: &str, netted: u32, starts: &[u32], units: &[u32]) -> String {
    let mut bar = format!("{}<title>{}</title>", svg(WIDTH, HEIGHT), escaped(title));
    bar += &format!("<path class=\"t\" d=\"M1 {}H{}\"/>", HEIGHT / 2, WIDTH - 1);
    for ((&start, &units), (id, _)) in starts.iter().zip(units).zip(MANNERS).filter(|((_, &units), _)| units > 0) {
        let [x, end] = [start, start + units].map(|at| across(at, netted));
        bar += &format!(
            "<rect class=\"b\" fill=\"url(#{id})\" x=\"{x:.1}\" y=\"4\" width=\"{:.1}\" height=\"14\"/>",
            end - x
        );
    }
    bar + "</svg>"
}

/// Where a unit stands, in pixels; the outline takes one on each side.
fn across(at: u32, netted: u32) -> f64 {
    1.0 + f64::from(WIDTH - 2) * f64::from(at) / f64::from(netted)
}

fn svg(width: u32, height: u32) -> String {
    format!("<svg xmlns=\"http://www.w3.org/2000/svg\" role=\"img\" width=\"{width}\" height=\"{height}\">")
}
