//! The states that have to do with the kinds of business, own and client.

use super::{is_late, position, State, Survey};
use second::book::{Answer, Book, Business, Manner, Position, Trade};
use second::events::Party;
use second::refusal::Refusal;
use std::collections::BTreeMap;

/// What a member traded in one kind and security on one day, in units and in the highest prices.
#[derive(Clone, Copy, Default)]
struct Traded {
    bought: u64,
    sold: u64,
    dearest_purchase: u32,
    dearest_sale: u32,
}

impl Traded {
    fn buy(&mut self, trade: &Trade) {
        self.bought += u64::from(trade.quantity);
        self.dearest_purchase = self.dearest_purchase.max(trade.price);
    }

    fn sell(&mut self, trade: &Trade) {
        self.sold += u64::from(trade.quantity);
        self.dearest_sale = self.dearest_sale.max(trade.price);
    }

    fn is_short(&self) -> bool {
        self.sold > self.bought
    }

    fn is_long(&self) -> bool {
        self.bought > self.sold
    }
}

/// What each member traded in each security, own and client.
fn traded(trades: &[Trade]) -> BTreeMap<(u8, usize), [Traded; 2]> {
    let mut traded: BTreeMap<(u8, usize), [Traded; 2]> = BTreeMap::new();
    for trade in trades {
        let Trade { security, seller, buyer, .. } = *trade;
        traded.entry((seller.member, security)).or_default()[seller.kind as usize].sell(trade);
        traded.entry((buyer.member, security)).or_default()[buyer.kind as usize].buy(trade);
    }
    traded
}

impl Survey {
    pub(super) fn refused_trade(&mut self, book: &Book, seller: Party, buyer: Party, refusal: Refusal) {
        let is_kind = |party: Party| Business::of(party.kind).is_some();
        let is_one_member = seller.member == buyer.member;
        match refusal {
            Refusal::SellerIsBuyer => {
                self.reach_if(seller == Party::client(seller.member), State::OneselfClient);
                self.reach_if(!is_kind(seller), State::OneselfNoKind);
            }
            Refusal::TradeKind => {
                self.reach_if(is_one_member, State::OneselfTwoBytes);
                self.reach_if(is_kind(buyer) && seller.kind == 2, State::SellerKind2);
                self.reach_if(is_kind(buyer) && seller.kind == 255, State::SellerKind255);
                self.reach_if(is_kind(seller) && buyer.kind == 2, State::BuyerKind2);
                self.reach_if(is_kind(seller) && buyer.kind == 255, State::BuyerKind255);
                self.reach_if(book.trades.len() == 512, State::FullNoKind);
            }
            Refusal::TradesFull => {
                let has_client = [seller, buyer].iter().any(|party| *party == Party::client(party.member));
                self.reach_if(has_client, State::FullClient);
            }
            _ => {}
        }
    }

    /// A day that is about to be closed.
    pub(super) fn kinds_of_close(&mut self, book: &Book) {
        for kinds in traded(book.todays_trades()).values() {
            self.netted_kinds(kinds);
        }
    }

    fn netted_kinds(&mut self, kinds: &[Traded; 2]) {
        let is_nothing = |kind: &Traded| kind.sold > 0 && kind.sold == kind.bought;
        let is_part = |kind: &Traded| kind.sold > 0 && kind.bought > 0 && kind.sold != kind.bought;
        self.reach_if(kinds.iter().any(is_nothing), State::NettedToNothing);
        self.reach_if(kinds.iter().any(is_part), State::NettedInPart);
        let [own, client] = kinds;
        let both_short = own.is_short() && client.is_short();
        let both_long = own.is_long() && client.is_long();
        let opposite = own.is_short() && client.is_long() || own.is_long() && client.is_short();
        self.reach_if(both_short, State::BothShort);
        self.reach_if(both_long, State::BothLong);
        self.reach_if(opposite, State::ShortAndLong);
        self.reach_if(opposite && own.sold + client.sold == own.bought + client.bought, State::KindsCancel);
        let one_is_nothing = is_nothing(own) != is_nothing(client);
        self.reach_if(
            one_is_nothing && kinds.iter().any(|kind| kind.is_short() || kind.is_long()),
            State::OneKindNothing,
        );
        let differ = both_short && own.dearest_sale != client.dearest_sale
            || both_long && own.dearest_purchase != client.dearest_purchase;
        self.reach_if(differ, State::ReferencesByKind);
    }

    pub(super) fn kinds_of_pieces(&mut self, book: &Book, answer: &Answer) {
        for piece in &answer.pieces {
            let (short, long) = (position(book, piece.short), position(book, piece.long));
            let differ = short.kind != long.kind;
            let is_client = short.kind == Business::Client;
            self.reach_if(differ && is_client, State::ClientToOwn);
            self.reach_if(differ && !is_client, State::OwnToClient);
            self.reach_if(differ && short.member == long.member, State::ToOtherKind);
            let is_paid = piece.manner == Manner::Cash;
            self.reach_if(is_paid && differ && short.member == long.member, State::CashToOtherKind);
            let state = match piece.manner {
                Manner::Delivered => State::ClientDelivered,
                Manner::BoughtIn => State::ClientBoughtIn,
                Manner::Cash => State::ClientCash,
                Manner::Paired => State::ClientPaired,
            };
            self.reach_if(is_client, state);
        }
        let longs: Vec<&Position> = answer.pieces.iter().map(|piece| position(book, piece.long)).collect();
        let is_other_kind = |one: &Position, other: &Position| one.member == other.member && one.kind != other.kind;
        let both_kinds = longs.iter().any(|one| longs.iter().any(|other| is_other_kind(one, other)));
        self.reach_if(both_kinds, State::LongsOfBothKinds);
    }

    /// The kinds in which a failing member of a security fails.
    pub(super) fn failing_in_one_kind(&mut self, book: &Book, member: u8, security: usize) {
        let held = book.positions.iter().filter(|held| held.member == member && held.security == security);
        let is_failing = |held: &&Position| is_late(book, held) && held.r(book.day) > Some(0);
        let [own, client] = [Business::Own, Business::Client]
            .map(|kind| held.clone().filter(is_failing).any(|short| short.kind == kind));
        self.reach_if(client && !own, State::FailingClient);
        self.reach_if(own && !client && held.clone().any(|held| held.kind == Business::Client), State::FailingOwn);
    }
}
