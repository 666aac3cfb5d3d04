//! The auctions of a play: shorts and offers from the input's bytes; what was accepted, awarded, confirmed and charged
//! from what the player printed.

use crate::compare::bytes::{parts, price, quantity, word, Parts, WIDTH};
use fails_book_tests::event_kinds::{ATTEMPT, AWARD, CLOSE, CONFIRM, OFFER, TRADE};
use std::collections::BTreeMap;
use tools::output::{lines, Line, Piece};

pub struct Auction {
    /// The number of the event that ended it, the award.
    pub event: u64,
    pub short: u64,
    /// The short's member.
    pub seller: u8,
    /// The short's reference price.
    pub reference: u64,
    /// What was open of the short as the auction ended.
    pub open: u64,
    /// The accepted offers in order of arrival.
    pub offers: Vec<Offer>,
    /// The total that the award reports.
    pub total: u64,
    /// The quantities of its awards that were confirmed, by the award's number.
    pub confirmed: BTreeMap<u16, u64>,
}

#[derive(Clone, Copy, Debug)]
pub struct Offer {
    pub offerer: u8,
    pub quantity: u64,
    pub price: u64,
}

impl Auction {
    /// The units that the offers hold together.
    pub fn offered(&self) -> u64 {
        self.offers.iter().map(|offer| offer.quantity).sum()
    }
}

/// What is read of a play.
#[derive(Default)]
pub struct Play {
    pub auctions: Vec<Auction>,
    accounts: BTreeMap<u64, i64>,
}

impl Play {
    /// An input that the player refuses has no auctions.
    pub fn read(input: &[u8], output: &[u8]) -> Result<Play, String> {
        let lines = lines(output)?;
        if matches!(lines[..], [Line::Refused { .. }]) {
            return Ok(Play::default());
        }
        let mut reading = Reading::default();
        let Parts { kinds, bodies, .. } = parts(input);
        let mut events = kinds.iter().zip(bodies.chunks(WIDTH)).zip(1..);
        for printed in lines.chunk_by(|_, next| matches!(next, Line::Piece(_))) {
            if let Line::Event { number, refusal, quantity } = printed[0] {
                let event = events.next().filter(|&(_, expected)| expected == number);
                let ((&kind, body), _) = event.ok_or_else(|| format!("the file has no event {number} here"))?;
                if refusal == 0 {
                    let accepted = Accepted { number, kind, body, quantity, pieces: pieces(&printed[1..]) };
                    reading.accepted(&accepted).map_err(|fault| format!("event {number}: {fault}"))?;
                }
            }
        }
        match events.next() {
            None => Ok(Play { auctions: reading.auctions, accounts: accounts(&lines) }),
            Some((_, number)) => Err(format!("nothing is printed of event {number}")),
        }
    }

    pub fn account(&self, member: u8) -> i64 {
        self.accounts.get(&member.into()).copied().unwrap_or(0)
    }
}

fn pieces(lines: &[Line]) -> Vec<Piece> {
    let piece = |line: &Line| match line {
        Line::Piece(piece) => Some(*piece),
        _ => None,
    };
    lines.iter().filter_map(piece).collect()
}

fn accounts(lines: &[Line]) -> BTreeMap<u64, i64> {
    let account = |line: &Line| match line {
        Line::Account { account, cents } => Some((*account, *cents)),
        _ => None,
    };
    lines.iter().filter_map(account).collect()
}

/// An accepted event with what is printed of it.
struct Accepted<'a> {
    number: u64,
    kind: u8,
    body: &'a [u8],
    quantity: u64,
    pieces: Vec<Piece>,
}

/// What a member sold and bought on one day, in one kind and security.
#[derive(Default)]
struct Traded {
    sold: u64,
    bought: u64,
    dearest_sale: u64,
}

/// A position as a close makes it. The reference price is a short's.
struct Made {
    member: u8,
    netted: u64,
    reference: u64,
}

/// How far a play is read.
#[derive(Default)]
struct Reading {
    /// Of the day, by member, kind and security, which is the order of positions.
    traded: BTreeMap<(u8, u8, u16), Traded>,
    /// In order of number.
    positions: Vec<Made>,
    /// The units of each short's pieces so far.
    discharged: BTreeMap<u64, u64>,
    running: Option<Running>,
    auctions: Vec<Auction>,
}

/// The auction that runs.
struct Running {
    short: u64,
    offers: Vec<Offer>,
}

impl Reading {
    fn accepted(&mut self, event: &Accepted) -> Result<(), String> {
        match event.kind {
            TRADE => self.trade(event.body),
            CLOSE => self.close(),
            ATTEMPT => self.running = Some(Running { short: word(event.body).into(), offers: Vec::new() }),
            OFFER => self.offer(event.body)?,
            AWARD => self.award(event)?,
            CONFIRM => self.confirm(event)?,
            _ => {}
        }
        for piece in &event.pieces {
            *self.discharged.entry(piece.short).or_default() += piece.quantity;
        }
        Ok(())
    }

    /// Bytes 2 and 12 are the seller and its kind, 3 and 13 the buyer and its kind.
    fn trade(&mut self, body: &[u8]) {
        let sale = self.traded.entry((body[2], body[12], word(body))).or_default();
        sale.sold += quantity(body);
        sale.dearest_sale = sale.dearest_sale.max(price(body));
        self.traded.entry((body[3], body[13], word(body))).or_default().bought += quantity(body);
    }

    fn close(&mut self) {
        let traded = std::mem::take(&mut self.traded).into_iter().filter(|(_, traded)| traded.sold != traded.bought);
        self.positions.extend(traded.map(|((member, ..), Traded { sold, bought, dearest_sale })| Made {
            member,
            netted: sold.abs_diff(bought),
            reference: dearest_sale,
        }));
    }

    fn offer(&mut self, body: &[u8]) -> Result<(), String> {
        let running = self.running.as_mut().ok_or("an offer is accepted where no auction runs")?;
        running.offers.push(Offer { offerer: body[2], quantity: quantity(body), price: price(body) });
        Ok(())
    }

    fn award(&mut self, event: &Accepted) -> Result<(), String> {
        let Running { short, offers } = self.running.take().ok_or("an award is accepted where no auction runs")?;
        let made = (short as usize).checked_sub(1).and_then(|place| self.positions.get(place));
        let &Made { member: seller, netted, reference } = made.ok_or("no close has made the short")?;
        let discharged = self.discharged.get(&short).copied().unwrap_or(0);
        let open = netted.checked_sub(discharged).ok_or("more than all of the short is discharged")?;
        let (total, confirmed) = (event.quantity, BTreeMap::new());
        self.auctions.push(Auction { event: event.number, short, seller, reference, open, offers, total, confirmed });
        Ok(())
    }

    /// A confirmation shows the short of its award by its pieces. A short has one auction a day, so that the award is
    /// of the latest on that short.
    fn confirm(&mut self, event: &Accepted) -> Result<(), String> {
        let short = event.pieces.first().ok_or("a confirmation has no piece")?.short;
        if event.pieces.iter().any(|piece| piece.short != short) {
            return Err("the pieces of a confirmation are of two shorts".to_string());
        }
        let units: u64 = event.pieces.iter().map(|piece| piece.quantity).sum();
        if units != event.quantity {
            return Err(format!("the pieces have {units} units, and the award {}", event.quantity));
        }
        let auction = self.auctions.iter_mut().rev().find(|auction| auction.short == short);
        let confirmed = &mut auction.ok_or("a confirmation is accepted on a short without an auction")?.confirmed;
        match confirmed.insert(word(event.body), units) {
            None => Ok(()),
            Some(_) => Err("an award is confirmed twice".to_string()),
        }
    }
}
