//! Text on its way into the page.

/// The text with nothing in it that a reader of the page could take for markup. Signs that XML forbids, controls, and
/// the signs that turn the direction of writing stand as U+FFFD; bytes that are no UTF-8 do too.
pub fn escaped(text: impl AsRef<[u8]>) -> String {
    let mut page = String::new();
    for sign in String::from_utf8_lossy(text.as_ref()).chars() {
        match sign {
            '<' => page += "&lt;",
            '>' => page += "&gt;",
            '&' => page += "&amp;",
            '"' => page += "&quot;",
            '\'' => page += "&apos;",
            _ if is_left_out(sign) => page.push(char::REPLACEMENT_CHARACTER),
            _ => page.push(sign),
        }
    }
    page
}

fn is_left_out(sign: char) -> bool {
    let turns_direction =
        matches!(sign, '\u{61c}' | '\u{200e}' | '\u{200f}' | '\u{202a}'..='\u{202e}' | '\u{2066}'..='\u{2069}');
    sign.is_control() || turns_direction || matches!(sign, '\u{fffe}' | '\u{ffff}')
}
