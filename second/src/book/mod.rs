//! The fails book: what it holds, and its ten calls. Each call checks in the order of the refusal numbers, but for 32,
//! which comes after 19, 33, which comes after 14, and 34, which comes after 17.

mod auction;
mod close;
mod discharge;
mod netting;

use crate::events::{Event, Party};
use crate::refusal::Refusal;
use crate::register;

pub const MEMBERS: usize = 63;
pub const HOUSE: u8 = 0;
pub const MOST_TRADES: usize = 512;
pub const MOST_OFFERS: usize = 16;
pub const MOST_ATTEMPTS: usize = 16;
pub const GREATEST_QUANTITY: u32 = 1_000_000;
pub const GREATEST_PRICE: u32 = 10_000_000;
pub const LAST_DAY: u16 = 9_999;
pub const SHEET_PLACES: usize = 1_024;

/// Securities and positions are kept by their place, which is their number minus 1. What it holds can be read, so that
/// a history can be grown by what fits next and a refusal be put into words.
pub struct Book {
    pub securities: Vec<Security>,
    pub day: u16,
    /// All trades of the book; those from `netted_trades` on are today's.
    pub trades: Vec<Trade>,
    netted_trades: usize,
    pub positions: Vec<Position>,
    pub auction: Option<Auction>,
    /// Today's awards.
    pub awards: Vec<Award>,
    /// The shorts on which an attempt was opened today.
    pub attempts: Vec<usize>,
    accounts: Accounts,
}

pub struct Security {
    pub class: u8,
    pub latest_price: Option<LatestPrice>,
    /// Its positions in order of number, which is also the order of their delivery days.
    pub shorts: Vec<usize>,
    pub longs: Vec<usize>,
}

/// The price that was given last, of whatever age, and the day on which it was given.
#[derive(Clone, Copy, Debug, PartialEq, Eq)]
pub struct LatestPrice {
    pub price: u32,
    pub day: u16,
}

#[derive(Clone, Copy)]
pub struct Trade {
    pub security: usize,
    pub seller: Holder,
    pub buyer: Holder,
    pub quantity: u32,
    pub price: u32,
}

/// Whose a side of a trade is. A member holds its own business and its clients' apart, but has one account.
#[derive(Clone, Copy, Debug, PartialEq, Eq)]
pub struct Holder {
    pub member: u8,
    pub kind: Business,
}

/// The kind of a side of a trade and of a position: a member's own business, or its clients'. Positions of one close are
/// numbered in this order.
#[derive(Clone, Copy, Debug, PartialEq, Eq, PartialOrd, Ord)]
pub enum Business {
    Own,
    Client,
}

impl Holder {
    fn of(party: Party) -> Option<Holder> {
        Business::of(party.kind).map(|kind| Holder { member: party.member, kind })
    }
}

impl Business {
    /// The kind that a byte stands for. No others than 0 and 1 do.
    pub fn of(byte: u8) -> Option<Business> {
        match byte {
            0 => Some(Business::Own),
            1 => Some(Business::Client),
            _ => None,
        }
    }
}

#[derive(Clone, Copy, Debug, PartialEq, Eq)]
pub enum Side {
    Short,
    Long,
}

#[derive(Clone, Copy, Debug, PartialEq, Eq)]
pub enum Manner {
    Delivered,
    BoughtIn,
    Cash,
    Paired,
}

pub struct Position {
    pub member: u8,
    pub kind: Business,
    pub security: usize,
    pub side: Side,
    pub delivery_day: u16,
    pub reference_price: u32,
    pub netted: u32,
    pub delivered: u32,
    pub bought_in: u32,
    pub cash: u32,
    pub paired: u32,
}

pub struct Auction {
    pub short: usize,
    pub ceiling: u64,
    pub offers: Vec<Offer>,
}

#[derive(Clone, Copy)]
pub struct Offer {
    pub offerer: u8,
    pub quantity: u32,
    pub price: u32,
}

#[derive(Clone, Copy, Debug, PartialEq, Eq)]
pub struct Award {
    pub short: usize,
    pub offerer: u8,
    pub quantity: u32,
    pub price: u32,
    pub confirmed: bool,
}

/// Part of a discharge, between two positions given by number.
#[derive(Clone, Copy, Debug, PartialEq, Eq)]
pub struct Piece {
    pub short: u16,
    pub long: u16,
    pub quantity: u32,
    pub manner: Manner,
    pub cents: u64,
}

/// What an accepted call answers.
#[derive(Debug, Default, PartialEq, Eq)]
pub struct Answer {
    pub quantity: u32,
    pub pieces: Vec<Piece>,
}

impl From<u32> for Answer {
    fn from(quantity: u32) -> Answer {
        Answer { quantity, pieces: Vec::new() }
    }
}

impl Position {
    pub fn open(&self) -> u32 {
        self.netted - self.delivered - self.bought_in - self.cash - self.paired
    }

    /// Today minus the delivery day, for a due position.
    pub fn r(&self, today: u16) -> Option<u16> {
        today.checked_sub(self.delivery_day)
    }

    pub fn is_due(&self, today: u16) -> bool {
        self.r(today).is_some()
    }
}

impl Book {
    /// A new book on a register that has been read.
    pub fn open(register: &[register::Security]) -> Book {
        let securities = register
            .iter()
            .map(|&(class, _)| Security { class, latest_price: None, shorts: Vec::new(), longs: Vec::new() })
            .collect();
        Book {
            securities,
            day: 1,
            trades: Vec::new(),
            netted_trades: 0,
            positions: Vec::new(),
            auction: None,
            awards: Vec::new(),
            attempts: Vec::new(),
            accounts: Accounts { cents: [0; MEMBERS + 1], charges: None },
        }
    }

    /// Makes one call; a discharge has a sheet of so many places.
    pub fn call(&mut self, event: &Event, sheet: usize) -> Result<Answer, Refusal> {
        match *event {
            Event::Trade { security, seller, buyer, quantity, price } => {
                self.trade(security, seller, buyer, quantity, price).map(Answer::from)
            }
            Event::Price { security, price } => self.price(security, price).map(Answer::from),
            Event::Delivery { short, quantity } => self.delivery(sheet, short, quantity),
            Event::Attempt { short } => self.attempt(short).map(Answer::from),
            Event::Offer { short, offerer, quantity, price } => {
                self.offer(short, Offer { offerer, quantity, price }).map(Answer::from)
            }
            Event::Award { short } => self.award(short).map(Answer::from),
            Event::Confirm { award } => self.confirm(sheet, award),
            Event::Cash { short } => self.cash(sheet, short),
            Event::Close => self.close().map(Answer::from),
            Event::PairOff { short, long, quantity } => self.pair_off(sheet, short, long, quantity),
        }
    }

    pub fn positions(&self) -> &[Position] {
        &self.positions
    }

    /// The cents of every account, from the house's on.
    pub fn accounts(&self) -> &[i64] {
        &self.accounts.cents
    }

    /// The latest price of a security by its number, if it ever had one.
    pub fn latest_price(&self, security: u16) -> Result<Option<LatestPrice>, Refusal> {
        self.security(security).map(|security| self.securities[security].latest_price)
    }

    /// Keeps each charge from now on. The player's output has no use for them, so a book does not keep them unasked.
    pub fn keep_charges(&mut self) {
        self.accounts.charges = Some(Vec::new());
    }

    /// The charges that were kept since they were last taken.
    pub fn take_charges(&mut self) -> Vec<Charge> {
        self.accounts.charges.as_mut().map(std::mem::take).unwrap_or_default()
    }

    fn trade(&mut self, security: u16, seller: Party, buyer: Party, quantity: u32, price: u32) -> Result<u32, Refusal> {
        require(is_member(seller.member) && is_member(buyer.member), Refusal::Member)?;
        let security = self.security(security)?;
        require(is_quantity(quantity), Refusal::Quantity)?;
        require(is_price(price), Refusal::Price)?;
        // Members and kind bytes alike, whether or not the bytes are kinds.
        require(seller != buyer, Refusal::SellerIsBuyer)?;
        let (seller, buyer) = Holder::of(seller).zip(Holder::of(buyer)).ok_or(Refusal::TradeKind)?;
        require(self.trades.len() < MOST_TRADES, Refusal::TradesFull)?;
        self.trades.push(Trade { security, seller, buyer, quantity, price });
        Ok(quantity)
    }

    fn price(&mut self, security: u16, price: u32) -> Result<u32, Refusal> {
        let security = self.security(security)?;
        require(is_price(price), Refusal::Price)?;
        self.securities[security].latest_price = Some(LatestPrice { price, day: self.day });
        Ok(0)
    }

    pub fn todays_trades(&self) -> &[Trade] {
        &self.trades[self.netted_trades..]
    }

    fn security(&self, number: u16) -> Result<usize, Refusal> {
        place(number, self.securities.len()).ok_or(Refusal::Security)
    }

    fn position(&self, number: u16) -> Result<usize, Refusal> {
        place(number, self.positions.len()).ok_or(Refusal::NotThere)
    }

    fn security_of(&self, position: usize) -> &Security {
        &self.securities[self.positions[position].security]
    }

    /// The latest price of a short's security, for a step that goes by a price of today alone.
    fn price_of_today(&self, short: usize) -> Result<u32, Refusal> {
        let LatestPrice { price, day } = self.security_of(short).latest_price.ok_or(Refusal::NoPrice)?;
        require(day == self.day, Refusal::OldPrice)?;
        Ok(price)
    }
}

/// What moves from one account to another, and the figures that it comes from. A negative amount moves the other way.
#[derive(Clone, Copy, Debug, PartialEq, Eq)]
pub struct Charge {
    pub payer: u8,
    pub payee: u8,
    pub cents: i64,
    pub cause: Cause,
}

/// Why a charge falls. Positions and awards are given by number.
#[derive(Clone, Copy, Debug, PartialEq, Eq)]
pub enum Cause {
    /// A confirmed award's price differs from the short's reference price.
    BuyIn { award: u16, short: u16, quantity: u32, price: u32, reference_price: u32 },
    /// A piece of a cash settlement, at `price` a unit, which all pieces of the settlement have. `longs` are those of the
    /// settlement, of which `long` is this piece's.
    Payment { short: u16, long: u16, quantity: u32, short_reference: u32, longs: Longs, latest: u32, price: u64 },
    /// The fee for a cash settlement.
    Fee { short: u16, quantity: u32, latest: u32 },
    /// An award of the day that was not confirmed.
    UnconfirmedAward { award: u16, short: u16, quantity: u32, latest: u32 },
    /// A due short of class 1.
    Late { short: u16, quantity: u32, latest: u32 },
}

/// The longs in the pieces of a cash settlement: how many they are, the first of those with the highest reference price,
/// and that price.
#[derive(Clone, Copy, Debug, PartialEq, Eq)]
pub struct Longs {
    pub count: u16,
    pub highest: u16,
    pub reference_price: u32,
}

/// Cents by account, of which the first is the house's.
struct Accounts {
    cents: [i64; MEMBERS + 1],
    /// Where charges are kept, if they are.
    charges: Option<Vec<Charge>>,
}

impl Accounts {
    fn pay(&mut self, charge: Charge) {
        self.cents[usize::from(charge.payer)] -= charge.cents;
        self.cents[usize::from(charge.payee)] += charge.cents;
        if let Some(charges) = &mut self.charges {
            charges.push(charge);
        }
    }
}

fn require(holds: bool, refusal: Refusal) -> Result<(), Refusal> {
    if holds {
        Ok(())
    } else {
        Err(refusal)
    }
}

/// The number of a place: numbers count from 1.
fn number(place: usize) -> u16 {
    (place + 1) as u16
}

/// The place of a number that counts from 1.
fn place(number: u16, count: usize) -> Option<usize> {
    usize::from(number).checked_sub(1).filter(|&place| place < count)
}

fn is_member(number: u8) -> bool {
    (1..=MEMBERS).contains(&usize::from(number))
}

fn is_quantity(quantity: u32) -> bool {
    (1..=GREATEST_QUANTITY).contains(&quantity)
}

fn is_price(price: u32) -> bool {
    (1..=GREATEST_PRICE).contains(&price)
}
