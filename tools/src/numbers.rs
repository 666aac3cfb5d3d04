//! Numbers in words.

/// The number with a comma before each group of three digits.
pub fn grouped(number: impl Into<i128>) -> String {
    let number = number.into();
    let digits = number.unsigned_abs().to_string();
    let mut text = String::from(if number < 0 { "-" } else { "" });
    for (at, digit) in digits.chars().enumerate() {
        if at > 0 && (digits.len() - at) % 3 == 0 {
            text.push(',');
        }
        text.push(digit);
    }
    text
}

/// So many of what is named, as `1 unit` and `2 units`; of securities and the like, as `1 security`, `2 securities`.
pub fn counted(number: impl Into<i128>, name: &str) -> String {
    let number = number.into();
    let grouped = grouped(number);
    match name.strip_suffix("ty") {
        _ if number.abs() == 1 => format!("{grouped} {name}"),
        Some(stem) => format!("{grouped} {stem}ties"),
        None => format!("{grouped} {name}s"),
    }
}

/// So many that are there, after a comma.
pub fn there(count: usize) -> String {
    match count {
        0 => "none is there".to_string(),
        1 => "1 is there".to_string(),
        _ => format!("{} are there", grouped(count as u64)),
    }
}
