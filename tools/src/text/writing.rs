//! A register and events written as text.

use super::{is_writable, Input};
use crate::kinds;
use second::events::{Event, Party};

/// The text that is read to this input; no text is read to an empty register or to an ISIN with blanks.
pub fn write(input: &Input) -> Result<String, String> {
    if input.register.is_empty() {
        return Err("the register is empty, and text has at least one security".to_string());
    }
    let mut text = String::new();
    for ((class, isin), number) in input.register.iter().zip(1..) {
        if !is_writable(isin) {
            return Err(format!("security {number}: the ISIN is not 12 ASCII signs without blanks"));
        }
        text += &format!("security {class} {}\n", isin.map(char::from).iter().collect::<String>());
    }
    for event in &input.events {
        text += &line(event);
        text.push('\n');
    }
    Ok(text)
}

fn line(event: &Event) -> String {
    match *event {
        Event::Trade { security, seller, buyer, quantity, price } => {
            format!("trade {} {security} {quantity} {price}", sides(seller, buyer))
        }
        Event::Price { security, price } => format!("price {security} {price}"),
        Event::Delivery { short, quantity } => format!("delivery {short} {quantity}"),
        Event::Attempt { short } => format!("attempt {short}"),
        Event::Offer { short, offerer, quantity, price } => format!("offer {short} {offerer} {quantity} {price}"),
        Event::Award { short } => format!("award {short}"),
        Event::Confirm { award } => format!("confirm {award}"),
        Event::Cash { short } => format!("cash {short}"),
        Event::Close => "close".to_string(),
        Event::PairOff { short, long, quantity } => format!("pair {short} {long} {quantity}"),
    }
}

/// Seller and buyer, as they always were where both trade for themselves.
fn sides(seller: Party, buyer: Party) -> String {
    let all_own = [seller, buyer] == [seller, buyer].map(|party| Party::own(party.member));
    match all_own {
        true => format!("{} {}", seller.member, buyer.member),
        false => format!("{} {}", kinds::with_member(seller), kinds::with_member(buyer)),
    }
}
