//! Event files, read to events and written again.

use crate::refusal::{Located, Refusal};

pub const MOST_EVENTS: usize = 2_048;
pub const WIDTH: usize = 16;

/// A pair-off names its long in the price field, with all its bits.
#[derive(Clone, Copy, Debug, PartialEq, Eq)]
pub enum Event {
    Trade { security: u16, seller: Party, buyer: Party, quantity: u32, price: u32 },
    Price { security: u16, price: u32 },
    Delivery { short: u16, quantity: u32 },
    Attempt { short: u16 },
    Offer { short: u16, offerer: u8, quantity: u32, price: u32 },
    Award { short: u16 },
    Confirm { award: u16 },
    Cash { short: u16 },
    Close,
    PairOff { short: u16, long: u32, quantity: u32 },
}

/// A side of a trade: a member, and the byte that says whether it trades for itself or for a client. Other bytes are kept
/// as they are: the book refuses them, not the file.
#[derive(Clone, Copy, Debug, PartialEq, Eq)]
pub struct Party {
    pub member: u8,
    pub kind: u8,
}

impl Party {
    pub const fn own(member: u8) -> Party {
        Party { member, kind: 0 }
    }

    pub const fn client(member: u8) -> Party {
        Party { member, kind: 1 }
    }
}

pub type Body = [u8; WIDTH];

pub fn length(count: usize) -> usize {
    4 + (1 + WIDTH) * count
}

pub fn read(file: &[u8]) -> Result<Vec<Event>, Located> {
    let &[c0, c1, w0, w1, ref rest @ ..] = file else {
        return Err(Refusal::FileSize.into());
    };
    let count = usize::from(u16::from_le_bytes([c0, c1]));
    let width = usize::from(u16::from_le_bytes([w0, w1]));
    if count > MOST_EVENTS || width != WIDTH || file.len() != length(count) {
        return Err(Refusal::FileSize.into());
    }
    let (kinds, bodies) = rest.split_at(count);
    kinds
        .iter()
        .zip(bodies.chunks_exact(WIDTH))
        .zip(1..)
        .map(|((&kind, body), number)| checked(kind, body).map_err(|refusal| Located { refusal, number: Some(number) }))
        .collect()
}

fn checked(kind: u8, body: &[u8]) -> Result<Event, Refusal> {
    let event = Event::read(kind, body).ok_or(Refusal::Kind)?;
    // Writing leaves zeros wherever the kind has no field, so any other byte there was spare and set.
    if event.body() == body {
        Ok(event)
    } else {
        Err(Refusal::Spare)
    }
}

/// Writes the events at the start of the page and answers the bytes written.
pub fn write(events: &[Event], page: &mut [u8]) -> Result<usize, Refusal> {
    if events.len() > MOST_EVENTS || page.len() < length(events.len()) {
        return Err(Refusal::FileSize);
    }
    let file = file_of(events);
    page[..file.len()].copy_from_slice(&file);
    Ok(file.len())
}

/// The bytes of a file with these events, also where no reader takes so many.
pub fn file_of(events: &[Event]) -> Vec<u8> {
    let header = [events.len() as u16, WIDTH as u16].map(u16::to_le_bytes).concat();
    let kinds = events.iter().map(Event::kind).collect();
    let bodies = events.iter().flat_map(Event::body).collect();
    [header, kinds, bodies].concat()
}

impl Event {
    /// The event of a kind, with the fields that the kind uses. The body has its whole width.
    pub fn read(kind: u8, body: &[u8]) -> Option<Event> {
        let word = |at: usize| u32::from_le_bytes([body[at], body[at + 1], body[at + 2], body[at + 3]]);
        let named = u16::from_le_bytes([body[0], body[1]]);
        let first = Party { member: body[2], kind: body[12] };
        let second = Party { member: body[3], kind: body[13] };
        Event::of(kind, named, [first, second], word(4), word(8))
    }

    /// As `read`, from the fields. No other number than 1 to 10 is a kind.
    pub fn of(kind: u8, named: u16, [first, second]: [Party; 2], quantity: u32, price: u32) -> Option<Event> {
        Some(match kind {
            1 => Event::Trade { security: named, seller: first, buyer: second, quantity, price },
            2 => Event::Price { security: named, price },
            3 => Event::Delivery { short: named, quantity },
            4 => Event::Attempt { short: named },
            5 => Event::Offer { short: named, offerer: first.member, quantity, price },
            6 => Event::Award { short: named },
            7 => Event::Confirm { award: named },
            8 => Event::Cash { short: named },
            9 => Event::Close,
            10 => Event::PairOff { short: named, long: price, quantity },
            _ => return None,
        })
    }

    pub fn kind(&self) -> u8 {
        match self {
            Event::Trade { .. } => 1,
            Event::Price { .. } => 2,
            Event::Delivery { .. } => 3,
            Event::Attempt { .. } => 4,
            Event::Offer { .. } => 5,
            Event::Award { .. } => 6,
            Event::Confirm { .. } => 7,
            Event::Cash { .. } => 8,
            Event::Close => 9,
            Event::PairOff { .. } => 10,
        }
    }

    pub fn body(&self) -> Body {
        // Where there is no such member, or it is no side of a trade, its bytes are spare and so zero, as those of own are.
        let (nobody, alone) = (Party::own(0), Party::own);
        let (named, first, second, quantity, price) = match *self {
            Event::Trade { security, seller, buyer, quantity, price } => (security, seller, buyer, quantity, price),
            Event::Price { security, price } => (security, nobody, nobody, 0, price),
            Event::Delivery { short, quantity } => (short, nobody, nobody, quantity, 0),
            Event::Offer { short, offerer, quantity, price } => (short, alone(offerer), nobody, quantity, price),
            Event::Attempt { short } | Event::Award { short } | Event::Cash { short } => (short, nobody, nobody, 0, 0),
            Event::Confirm { award } => (award, nobody, nobody, 0, 0),
            Event::Close => (0, nobody, nobody, 0, 0),
            Event::PairOff { short, long, quantity } => (short, nobody, nobody, quantity, long),
        };
        let mut body = [0; WIDTH];
        body[0..2].copy_from_slice(&named.to_le_bytes());
        [body[2], body[12]] = [first.member, first.kind];
        [body[3], body[13]] = [second.member, second.kind];
        body[4..8].copy_from_slice(&quantity.to_le_bytes());
        body[8..12].copy_from_slice(&price.to_le_bytes());
        body
    }
}
