//! The four calls that discharge a short: delivery, confirmation of an award, cash settlement, pair-off.

use super::{
    number, place, require, Answer, Book, Cause, Charge, Longs, Manner, Piece, Position, Side, HOUSE, SHEET_PLACES,
};
use crate::charges;
use crate::refusal::Refusal;
use crate::windows::{step, Step};

impl Position {
    fn discharge(&mut self, quantity: u32, manner: Manner) {
        match manner {
            Manner::Delivered => self.delivered += quantity,
            Manner::BoughtIn => self.bought_in += quantity,
            Manner::Cash => self.cash += quantity,
            Manner::Paired => self.paired += quantity,
        }
    }
}

impl Book {
    pub(super) fn delivery(&mut self, sheet: usize, short: u16, quantity: u32) -> Result<Answer, Refusal> {
        require(sheet >= SHEET_PLACES, Refusal::SheetSize)?;
        let short = self.position(short)?;
        require(quantity > 0, Refusal::Quantity)?;
        require(self.positions[short].side == Side::Short, Refusal::Long)?;
        require(self.positions[short].is_due(self.day), Refusal::Window)?;
        require(!self.auction_runs_on(short), Refusal::Auction)?;
        require(quantity <= self.free(short), Refusal::NotFree)?;
        Ok(Answer { quantity, pieces: self.discharge(short, quantity, Manner::Delivered) })
    }

    pub(super) fn confirm(&mut self, sheet: usize, which: u16) -> Result<Answer, Refusal> {
        require(sheet >= SHEET_PLACES, Refusal::SheetSize)?;
        let award = place(which, self.awards.len()).ok_or(Refusal::NotThere)?;
        let award = &mut self.awards[award];
        require(!award.confirmed, Refusal::Confirmed)?;
        award.confirmed = true;
        let (short, quantity, price) = (award.short, award.quantity, award.price);
        let pieces = self.discharge(short, quantity, Manner::BoughtIn);
        let &Position { member, reference_price, .. } = &self.positions[short];
        let dearer = i64::from(price) - i64::from(reference_price);
        let cents = i64::from(quantity) * dearer;
        let cause = Cause::BuyIn { award: which, short: number(short), quantity, price, reference_price };
        self.accounts.pay(Charge { payer: member, payee: HOUSE, cents, cause });
        Ok(Answer { quantity, pieces })
    }

    pub(super) fn cash(&mut self, sheet: usize, short: u16) -> Result<Answer, Refusal> {
        require(sheet >= SHEET_PLACES, Refusal::SheetSize)?;
        let short = self.position(short)?;
        require(self.positions[short].side == Side::Short, Refusal::Long)?;
        require(self.allows(short, Step::Cash), Refusal::Window)?;
        let latest = self.price_of_today(short)?;
        let quantity = self.positions[short].open();
        require(quantity > 0, Refusal::NotFree)?;

        let class = self.security_of(short).class;
        let &Position { member: payer, reference_price: short_reference, .. } = &self.positions[short];
        let mut pieces = self.discharge(short, quantity, Manner::Cash);
        let references = pieces.iter().map(|piece| self.long_of(piece).reference_price);
        let price = charges::cash_price(class, short_reference, references, latest);
        let longs = self.longs_of(&pieces);
        for piece in &mut pieces {
            piece.cents = u64::from(piece.quantity) * price;
            let payee = self.long_of(piece).member;
            let &mut Piece { short, long, quantity, cents, .. } = piece;
            let cause = Cause::Payment { short, long, quantity, short_reference, longs, latest, price };
            self.accounts.pay(Charge { payer, payee, cents: cents as i64, cause });
        }
        let fee = charges::cash_fee(u64::from(quantity) * u64::from(latest));
        let cause = Cause::Fee { short: number(short), quantity, latest };
        self.accounts.pay(Charge { payer, payee: HOUSE, cents: fee as i64, cause });
        Ok(Answer { quantity, pieces })
    }

    /// Sets a short off against a long that the call names. Nothing is dealt out, and nothing is paid.
    pub(super) fn pair_off(&mut self, sheet: usize, short: u16, long: u32, quantity: u32) -> Result<Answer, Refusal> {
        require(sheet >= SHEET_PLACES, Refusal::SheetSize)?;
        let short = self.position(short)?;
        // Positions have numbers of 16 bits, so that a larger one is none of theirs.
        let long = u16::try_from(long).map_err(|_| Refusal::NotThere).and_then(|long| self.position(long))?;
        require(quantity > 0, Refusal::Quantity)?;
        require(self.positions[short].side == Side::Short, Refusal::Long)?;
        require(self.positions[short].is_due(self.day), Refusal::Window)?;
        require(self.is_due_long_beside(short, long), Refusal::NoPair)?;
        require(!self.auction_runs_on(short), Refusal::Auction)?;
        require(quantity <= self.free(short) && quantity <= self.positions[long].open(), Refusal::NotFree)?;
        for position in [short, long] {
            self.positions[position].discharge(quantity, Manner::Paired);
        }
        let [short, long] = [short, long].map(number);
        Ok(Answer { quantity, pieces: vec![Piece { short, long, quantity, manner: Manner::Paired, cents: 0 }] })
    }

    /// Whether the other position is a due long of the short's member, kind and security.
    fn is_due_long_beside(&self, short: usize, other: usize) -> bool {
        let holding = |position: &Position| (position.member, position.kind, position.security);
        let [short, other] = [short, other].map(|position| &self.positions[position]);
        other.side == Side::Long && other.is_due(self.day) && holding(other) == holding(short)
    }

    fn long_of(&self, piece: &Piece) -> &Position {
        &self.positions[usize::from(piece.long) - 1]
    }

    /// The longs of a discharge, each of which has one of the pieces.
    fn longs_of(&self, pieces: &[Piece]) -> Longs {
        let references = pieces.iter().map(|piece| (self.long_of(piece).reference_price, piece.long));
        let higher = |one: (u32, u16), next: (u32, u16)| if next.0 > one.0 { next } else { one };
        let (reference_price, highest) = references.reduce(higher).unwrap_or_default();
        Longs { count: pieces.len() as u16, highest, reference_price }
    }

    pub fn allows(&self, short: usize, wanted: Step) -> bool {
        let class = self.security_of(short).class;
        self.positions[short].r(self.day).is_some_and(|r| step(class, r) == wanted)
    }

    /// The open quantity that no unconfirmed award of today has taken.
    pub fn free(&self, short: usize) -> u32 {
        let awarded: u32 = self
            .awards
            .iter()
            .filter(|award| award.short == short && !award.confirmed)
            .map(|award| award.quantity)
            .sum();
        self.positions[short].open() - awarded
    }

    /// Deals the quantity out to the due longs of the security. The pieces have no cents yet.
    fn discharge(&mut self, short: usize, quantity: u32, manner: Manner) -> Vec<Piece> {
        let mut pieces = Vec::new();
        let mut left = quantity;
        for &at in &self.securities[self.positions[short].security].longs {
            let long = &mut self.positions[at];
            // The longs stand in order of their delivery days, so none after this one is due either.
            if left == 0 || !long.is_due(self.day) {
                break;
            }
            let share = left.min(long.open());
            if share > 0 {
                long.discharge(share, manner);
                left -= share;
                pieces.push(Piece { short: number(short), long: number(at), quantity: share, manner, cents: 0 });
            }
        }
        assert_eq!(left, 0, "due shorts and due longs have equal open totals");
        self.positions[short].discharge(quantity, manner);
        pieces
    }
}
