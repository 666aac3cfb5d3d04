//! Counts the states that histories reach, so that a comparison can want each of them.

mod auctions;
mod kinds;
mod pairing;

use super::terms::{Term, Terms};
use pairing::Pairing;
use second::book::{
    Answer, Auction, Award, Book, Business, LatestPrice, Piece, Position, Side, MOST_ATTEMPTS, SHEET_PLACES,
};
use second::charges;
use second::events::{Event, MOST_EVENTS};
use second::refusal::Refusal;
use second::transcript::open;

/// The times each state was reached.
pub struct Survey {
    times: [u64; State::WORDS.len()],
}

macro_rules! states {
    ($($state:ident $words:literal,)*) => {
        #[derive(Clone, Copy)]
        enum State { $($state,)* }

        impl State {
            const WORDS: [&'static str; [$($words),*].len()] = [$($words),*];
        }
    };
}

states! {
    NoEvents "a file without events",
    MostEvents "a file of 2,048 events",
    PartDelivery "a delivery in part",
    AwardedUnits "a delivery refused because of awards",
    ThreePieces "a discharge in three pieces or more",
    ManyPieces "a discharge in 400 pieces or more",
    OneMember "a piece with one member on both sides",
    TwoDays "a piece between positions of two delivery days",
    Attempt1 "an attempt in class 1",
    FirstAttempt2 "an attempt at r 27 in class 2",
    FirstAttempt3 "an attempt at r 27 in class 3",
    LaterAttempt2 "an attempt at r 37 or later in class 2",
    LaterAttempt3 "an attempt at r 37 or later in class 3",
    SecondAuction "a second auction on one day",
    SixteenAuctions "sixteen auctions on one day",
    NoOffers "an award without offers",
    PartAward "an award that takes an offer in part",
    LeftOver "offers left over at an award",
    TieDecides "two offers of one price, of which only the earlier is taken whole",
    PartAtTie "an offer taken in part, at the price of an earlier one that is taken whole",
    NothingAtTie "an offer that finds nothing left, at the price of an earlier one that is taken whole",
    AcrossCheaper "two offers of one price taken, with a cheaper one between them",
    DearestFirst "three offers or more that arrive dearest first",
    TwoOfOneMember "two offers of one member taken",
    NotMet "offers that do not meet the open quantity",
    Dearer "an award confirmed above the reference price",
    Cheaper "an award confirmed below the reference price",
    ChargeAndCredit "an auction whose awards are all confirmed, above the reference price and below",
    ThreeConfirmed "an auction of three awards or more, all confirmed, one of them below the reference price",
    Fine1 "a failed award in class 1",
    Fine2 "a failed award in class 2",
    Fine3 "a failed award in class 3",
    HighFine "a failed award that costs more than the least",
    Late "a late short that is fined",
    LateUnpriced "a late short of class 1 without a price",
    TwoShorts "a member with two open shorts in a security",
    Cash1 "cash settlement in class 1",
    FirstCash2 "cash settlement before r 40 in class 2",
    LaterCash2 "cash settlement at r 40 or later in class 2",
    FirstCash3 "cash settlement before r 40 in class 3",
    LaterCash3 "cash settlement at r 40 or later in class 3",
    LeastFee "a cash settlement at the least fee",
    MiddleFee "a cash settlement at a fee between the limits",
    RoundedUpFee "a cash settlement at a fee that is rounded up",
    GreatestFee "a cash settlement at the greatest fee",
    ShortHighest "a cash price that is the short's reference price, above those of different longs and the raised price",
    RaisedHighest "a cash price that is the latest price raised, above the reference prices of different longs",
    FirstHighest "a cash price that is the first long's reference price, above the others",
    MiddleHighest "a cash price that is a middle long's reference price, above the others",
    LastHighest "a cash price that is the last long's reference price, above the others",
    LongHighest3 "a cash price of class 3 that is a long's reference price, below the latest price doubled",
    HigherAfter "a due long with a reference price above the cash price, after the quantity is used up",
    HigherEmpty "a due long with a reference price above the cash price, before the pieces, with nothing open",
    HigherNotDue "a long with a reference price above the cash price that is not due",
    NettedToNothing "a member that bought what it sold in one kind on one day",
    NettedInPart "a member that bought and sold different quantities in one kind on one day",
    MostPositions "a book of 1,024 positions",
    TwoPrices "two prices of a security on one day",
    AttemptAfterOlder "an attempt on a price of today after one of an earlier day",
    CashAfterOlder "a cash settlement on a price of today after one of an earlier day",
    AttemptOnSecond "an attempt on the second of two different prices of today",
    CashOnSecond "a cash settlement on the second of two different prices of today",
    AttemptYesterday "an attempt refused on a price of yesterday",
    CashYesterday "a cash settlement refused on a price of yesterday",
    AttemptLongAgo "an attempt refused on a price of ten days ago or more",
    CashLongAgo "a cash settlement refused on a price of ten days ago or more",
    SeventeenthOld "an attempt refused on an old price after sixteen attempts",
    SeventeenthToday "an attempt on a price of today refused after sixteen attempts",
    SecondAttempt "a second attempt on a short refused",
    NothingOpenOldAttempt "an attempt refused on an old price where nothing is open",
    NothingOpenOldCash "a cash settlement refused on an old price where nothing is open",
    NothingOpenAttempt "an attempt on a price of today refused because nothing is open",
    NothingOpenCash "a cash settlement on a price of today refused because nothing is open",
    LateOnOld "a late short fined by a price of an earlier day",
    AcrossKinds "a trade of a member with itself across kinds",
    OneselfClient "a trade of a member with itself refused, both sides client",
    OneselfNoKind "a trade of a member with itself refused with 14, both sides of one byte that is no kind",
    OneselfTwoBytes "a trade of a member with itself refused with 33, as its bytes differ and one is no kind",
    SellerKind2 "a trade refused for the seller's kind alone, which is 2",
    SellerKind255 "a trade refused for the seller's kind alone, which is 255",
    BuyerKind2 "a trade refused for the buyer's kind alone, which is 2",
    BuyerKind255 "a trade refused for the buyer's kind alone, which is 255",
    FullNoKind "a trade refused for a kind where 512 trades are held",
    FullClient "a trade with a client refused because 512 trades are held",
    BothShort "a member short in both kinds of a security at one close",
    BothLong "a member long in both kinds of a security at one close",
    ShortAndLong "a member short in one kind of a security and long in the other at one close",
    KindsCancel "a member whose two kinds of a security would be nothing together at one close",
    OneKindNothing "a member with one kind of a security netted to nothing, and the other not, at one close",
    ReferencesByKind "two shorts or longs of a member at one close, alike but for kind and reference price",
    ClientToOwn "a client short dealt to an own long",
    OwnToClient "an own short dealt to a client long",
    LongsOfBothKinds "a discharge over longs of one member in both kinds",
    ToOtherKind "a piece from one kind of a member to its other",
    CashToOtherKind "a cash settlement that a member pays itself, from one kind to the other",
    ClientDelivered "a client short delivered",
    ClientBoughtIn "a client short bought in",
    ClientCash "a client short settled in cash",
    FailingClient "an offer refused of a member that is failing for its clients alone",
    FailingOwn "an offer refused of a member that is failing for itself alone, beside a client position",
    LateClient "a late client short that is fined",
    PairedPart "a pair-off that leaves both positions open",
    PairedShort "a pair-off of all that is open of the short, and less than that of the long",
    PairedLong "a pair-off of all that is open of the long, and less than that of the short",
    PairedBoth "a pair-off of all that is open of both positions",
    PairedShortFirst "a pair-off of a short with a long of a later delivery day",
    PairedLongFirst "a pair-off of a short with a long of an earlier delivery day",
    PairedShortToday "a pair-off on the short's delivery day",
    PairedLongToday "a pair-off on the long's delivery day",
    Paired1 "a pair-off in class 1",
    Paired2 "a pair-off in class 2",
    Paired3 "a pair-off in class 3",
    PairedBesideAuction "a pair-off while an auction runs on another short",
    PairedAwarded "a pair-off of a short with awards that are not confirmed",
    PairedAllFree "a pair-off of all that is free of a short with awards that are not confirmed",
    PairedBoughtIn "a pair-off of a short after an award on it was confirmed",
    PairedDelivered "a pair-off with a long to which was delivered before",
    ClientPaired "a client short paired off",
    DeliveredRest "a delivery of a short after a pair-off of it",
    BoughtInRest "an award confirmed on a short after a pair-off of it",
    CashOfRest "a cash settlement of a short after a pair-off of it",
    PastPaired "a discharge dealt past a long that was lowered by a pair-off",
    OfferAfterPairing "an offer of a member that would be failing but for a pair-off",
    LessFine "a late fine that is lower because of a pair-off",
    WholeShort "a short that is paired off whole",
    WholeLong "a long that is paired off whole",
    PairNoShort "a pair-off of position 0 refused",
    PairNoLong "a pair-off with position 0 refused",
    PairWide "a pair-off refused with a long that is one which fits in its low 16 bits alone",
    MissingNothing "a pair-off refused with 11 where the quantity is 0",
    MissingFromLong "a pair-off refused with 11 where the first position is long",
    PairNothing "a pair-off of 0 units refused",
    NothingFromLong "a pair-off of 0 units refused with 12 where the first position is long",
    PairFromLong "a pair-off refused as its first position is long",
    PairEarly "a pair-off of a short that is not due refused, with a due long of its holder",
    EarlyNoPair "a pair-off refused with 17 where the second position is no due long of the holder",
    PairNotDue "a pair-off refused with a long that is wrong in that it is not due alone",
    PairMember "a pair-off refused with a due long that is wrong in its member alone",
    PairKind "a pair-off refused with a due long that is wrong in its kind alone",
    PairSecurity "a pair-off refused with a due long that is wrong in its security alone",
    PairItself "a pair-off of a short with itself refused",
    PairOtherShort "a pair-off refused with another due short of the holder",
    NoPairInAuction "a pair-off refused with 34 where an auction runs on the short",
    NoPairBeyond "a pair-off refused with 34 where the quantity exceeds what is free",
    PairInAuction "a pair-off refused as an auction runs on the short",
    BeyondInAuction "a pair-off refused with 18 where the quantity exceeds what is open",
    PairBeyondFree "a pair-off refused for awards alone",
    PairBeyondShort "a pair-off refused as it exceeds what is open of the short alone",
    PairBeyondLong "a pair-off refused as it exceeds what is open of the long alone",
}

/// The prices that a history has given so far, by security.
type Prices = Vec<Vec<LatestPrice>>;

impl Default for Survey {
    fn default() -> Survey {
        Survey { times: [0; State::WORDS.len()] }
    }
}

impl Survey {
    pub fn times(&self) -> impl Iterator<Item = (&'static str, u64)> + '_ {
        State::WORDS.into_iter().zip(self.times.iter().copied())
    }

    /// Adds the states that a history goes through; an input that is refused has none.
    pub fn add(&mut self, input: &[u8]) {
        let Ok((mut book, events)) = open(input) else {
            return;
        };
        self.reach_if(events.is_empty(), State::NoEvents);
        self.reach_if(events.len() == MOST_EVENTS, State::MostEvents);
        let mut prices = vec![Vec::new(); book.securities.len()];
        for event in &events {
            self.call(&mut book, &mut prices, event);
        }
        self.reach_if(book.positions.len() == 1_024, State::MostPositions);
        self.wholly_paired(&book);
    }

    fn reach_if(&mut self, holds: bool, state: State) {
        self.times[state as usize] += u64::from(holds);
    }

    fn call(&mut self, book: &mut Book, prices: &mut Prices, event: &Event) {
        // What the call is about to change.
        match event {
            Event::Award { short } => self.award(book, usize::from(*short)),
            Event::Close if book.auction.is_none() => self.close(book),
            _ => {}
        }
        match book.call(event, SHEET_PLACES) {
            Ok(answer) => self.accepted(book, prices, event, &answer),
            Err(refusal) => self.refused(book, event, refusal),
        }
    }

    fn accepted(&mut self, book: &Book, prices: &mut Prices, event: &Event, answer: &Answer) {
        match *event {
            Event::Trade { seller, buyer, .. } => self.reach_if(seller.member == buyer.member, State::AcrossKinds),
            Event::Price { security, price } => {
                let prices = &mut prices[usize::from(security) - 1];
                self.reach_if(prices.last().is_some_and(|latest| latest.day == book.day), State::TwoPrices);
                prices.push(LatestPrice { price, day: book.day });
            }
            Event::Delivery { short, .. } => {
                self.reach_if(position(book, short).open() > 0, State::PartDelivery);
            }
            Event::Attempt { short } => {
                let short = position(book, short);
                self.attempt(book, short);
                self.on_price_of_today(&prices[short.security], [State::AttemptAfterOlder, State::AttemptOnSecond]);
            }
            Event::Confirm { award } => {
                let award = &book.awards[usize::from(award) - 1];
                let reference = book.positions[award.short].reference_price;
                self.reach_if(award.price > reference, State::Dearer);
                self.reach_if(award.price < reference, State::Cheaper);
                self.confirmed(book, award.short);
            }
            Event::Offer { short, offerer, .. } => self.offered(book, offerer, position(book, short).security),
            Event::PairOff { short, long, quantity } => self.paired(book, Pairing { short, long, quantity }),
            Event::Cash { short } => {
                let terms = Terms::of(book, short.into(), answer.pieces.iter().map(|piece| piece.long.into()));
                let short = position(book, short);
                self.cash(book, short, answer);
                self.cash_price(book, short, &terms.expect("a cash settlement has all its terms"), answer);
                self.on_price_of_today(&prices[short.security], [State::CashAfterOlder, State::CashOnSecond]);
            }
            _ => {}
        }
        self.pieces(book, answer);
        self.kinds_of_pieces(book, answer);
        self.discharged_beside(book, answer);
    }

    /// An accepted step, by the prices of its security, of which the last is today's.
    fn on_price_of_today(&mut self, prices: &[LatestPrice], [after_older, on_second]: [State; 2]) {
        let Some((latest, earlier)) = prices.split_last() else {
            return;
        };
        self.reach_if(earlier.iter().any(|price| price.day < latest.day), after_older);
        let first_of_today = earlier.last().filter(|price| price.day == latest.day);
        self.reach_if(first_of_today.is_some_and(|first| first.price != latest.price), on_second);
    }

    fn refused(&mut self, book: &Book, event: &Event, refusal: Refusal) {
        let is_seventeenth = book.attempts.len() == MOST_ATTEMPTS;
        match (*event, refusal) {
            (Event::Trade { seller, buyer, .. }, _) => self.refused_trade(book, seller, buyer, refusal),
            (Event::Offer { short, offerer, .. }, Refusal::Failing) => {
                self.failing_in_one_kind(book, offerer, position(book, short).security);
            }
            (Event::Delivery { short, quantity }, Refusal::NotFree) => {
                let open = position(book, short).open();
                self.reach_if(quantity <= open, State::AwardedUnits);
            }
            (Event::Attempt { short }, Refusal::OldPrice) => {
                let [yesterday, long_ago] = [State::AttemptYesterday, State::AttemptLongAgo];
                self.on_old_price(book, position(book, short), [yesterday, long_ago, State::NothingOpenOldAttempt]);
                self.reach_if(is_seventeenth, State::SeventeenthOld);
            }
            (Event::Cash { short }, Refusal::OldPrice) => {
                let [yesterday, long_ago] = [State::CashYesterday, State::CashLongAgo];
                self.on_old_price(book, position(book, short), [yesterday, long_ago, State::NothingOpenOldCash]);
            }
            (Event::Attempt { short }, Refusal::Attempts) => {
                let is_second = book.attempts.contains(&(usize::from(short) - 1));
                self.reach_if(is_second, State::SecondAttempt);
                self.reach_if(is_seventeenth && !is_second, State::SeventeenthToday);
            }
            (Event::PairOff { short, long, quantity }, _) => {
                self.refused_pair_off(book, Pairing { short, long, quantity }, refusal);
            }
            (Event::Attempt { .. }, Refusal::NotFree) => self.reach_if(true, State::NothingOpenAttempt),
            (Event::Cash { .. }, Refusal::NotFree) => self.reach_if(true, State::NothingOpenCash),
            _ => {}
        }
    }

    /// A step refused on an old price, by the day on which that was given.
    fn on_old_price(&mut self, book: &Book, short: &Position, [yesterday, long_ago, nothing_open]: [State; 3]) {
        let given = book.securities[short.security].latest_price.map(|latest| latest.day);
        self.reach_if(given.is_some_and(|day| day + 1 == book.day), yesterday);
        self.reach_if(given.is_some_and(|day| day + 10 <= book.day), long_ago);
        self.reach_if(short.open() == 0, nothing_open);
    }

    fn pieces(&mut self, book: &Book, answer: &Answer) {
        self.reach_if(answer.pieces.len() >= 3, State::ThreePieces);
        self.reach_if(answer.pieces.len() >= 400, State::ManyPieces);
        for piece in &answer.pieces {
            let (short, long) = (position(book, piece.short), position(book, piece.long));
            self.reach_if(short.member == long.member, State::OneMember);
            self.reach_if(short.delivery_day != long.delivery_day, State::TwoDays);
        }
    }

    fn attempt(&mut self, book: &Book, short: &Position) {
        match (book.securities[short.security].class, short.r(book.day)) {
            (1, _) => self.reach_if(true, State::Attempt1),
            (2, Some(27)) => self.reach_if(true, State::FirstAttempt2),
            (2, _) => self.reach_if(true, State::LaterAttempt2),
            (_, Some(27)) => self.reach_if(true, State::FirstAttempt3),
            _ => self.reach_if(true, State::LaterAttempt3),
        }
        self.reach_if(book.attempts.len() == 2, State::SecondAuction);
        self.reach_if(book.attempts.len() == MOST_ATTEMPTS, State::SixteenAuctions);
    }

    /// An award that is about to end the auction on this short.
    fn award(&mut self, book: &Book, short: usize) {
        let Some(Auction { offers, .. }) = book.auction.as_ref().filter(|auction| auction.short + 1 == short) else {
            return;
        };
        let open = u64::from(book.positions[short - 1].open());
        let offered: u64 = offers.iter().map(|offer| u64::from(offer.quantity)).sum();
        self.reach_if(offers.is_empty(), State::NoOffers);
        self.reach_if((1..open).contains(&offered), State::NotMet);
        self.taken(offers, open);
        let mut taken = 0;
        let mut sorted = offers.clone();
        sorted.sort_by_key(|offer| offer.price);
        for (at, offer) in sorted.iter().enumerate() {
            let quantity = u64::from(offer.quantity);
            self.reach_if(taken < open && taken + quantity > open, State::PartAward);
            self.reach_if(taken >= open, State::LeftOver);
            let tie = at > 0 && sorted[at - 1].price == offer.price;
            self.reach_if(tie && taken <= open && taken + quantity > open, State::TieDecides);
            taken += quantity;
        }
    }

    fn cash(&mut self, book: &Book, short: &Position, answer: &Answer) {
        let security = &book.securities[short.security];
        let latest = security.latest_price.expect("cash settlement needs a price").price;
        let early = short.r(book.day).is_some_and(|r| r < 40);
        let state = match (security.class, early) {
            (1, _) => State::Cash1,
            (2, true) => State::FirstCash2,
            (2, false) => State::LaterCash2,
            (_, true) => State::FirstCash3,
            (_, false) => State::LaterCash3,
        };
        self.reach_if(true, state);
        let value = u64::from(answer.quantity) * u64::from(latest);
        let fee = charges::cash_fee(value);
        self.reach_if(fee == 25_000, State::LeastFee);
        self.reach_if(fee == 100_000, State::GreatestFee);
        self.reach_if((25_001..100_000).contains(&fee), State::MiddleFee);
        self.reach_if((25_001..100_000).contains(&fee) && fee > value / 40_000, State::RoundedUpFee);
    }

    /// Which term the price of a settlement is, where its longs have different reference prices, and whether a long
    /// without a piece has a higher one.
    fn cash_price(&mut self, book: &Book, short: &Position, terms: &Terms, answer: &Answer) {
        let price = terms.highest();
        if answer.pieces.iter().any(|piece| piece.cents != u64::from(piece.quantity) * price) {
            return;
        }
        let differ = terms.longs.iter().any(|&reference| reference != terms.longs[0]);
        if let Some(term) = terms.above_all_others().filter(|_| differ) {
            let last = terms.longs.len() - 1;
            let state = match term {
                Term::Short => State::ShortHighest,
                Term::Raised => State::RaisedHighest,
                Term::Long(0) => State::FirstHighest,
                Term::Long(place) if place == last => State::LastHighest,
                Term::Long(_) => State::MiddleHighest,
            };
            self.reach_if(true, state);
            let security = &book.securities[short.security];
            let doubled = security.latest_price.map_or(0, |latest| 2 * u64::from(latest.price));
            let is_long = matches!(term, Term::Long(_));
            self.reach_if(security.class == 3 && is_long && price < doubled, State::LongHighest3);
        }
        self.higher_longs(book, short, price, &answer.pieces);
    }

    /// The longs of the security without a piece whose reference price is above the price of the settlement. Those with
    /// nothing open come first, since each discharge begins with the first long that is open.
    fn higher_longs(&mut self, book: &Book, short: &Position, price: u64, pieces: &[Piece]) {
        let longs = book.securities[short.security].longs.iter().map(|&place| (place + 1, &book.positions[place]));
        for (number, long) in longs.filter(|(_, long)| u64::from(long.reference_price) > price) {
            let is_due = long.is_due(book.day);
            let is_before = pieces.first().is_some_and(|piece| number < usize::from(piece.long));
            let is_after = pieces.last().is_some_and(|piece| number > usize::from(piece.long));
            self.reach_if(is_due && is_after && long.open() > 0, State::HigherAfter);
            self.reach_if(is_due && is_before && long.open() == 0, State::HigherEmpty);
            self.reach_if(!is_due, State::HigherNotDue);
        }
    }

    /// A close that is about to happen.
    fn close(&mut self, book: &Book) {
        for award in book.awards.iter().filter(|award| !award.confirmed) {
            self.failed_award(book, award);
        }
        for (at, short) in book.positions.iter().enumerate().filter(|(_, position)| is_late(book, position)) {
            let security = &book.securities[short.security];
            if security.class == 1 {
                self.late(book.day, short, security.latest_price);
                self.late_after_pairing(short, security.latest_price);
            }
            let mut others = security.shorts.iter().filter(|&&other| other != at).map(|&other| &book.positions[other]);
            self.reach_if(others.any(|other| other.member == short.member && other.open() > 0), State::TwoShorts);
        }
        self.kinds_of_close(book);
    }

    /// A late short of class 1 with the latest price of its security.
    fn late(&mut self, today: u16, short: &Position, latest: Option<LatestPrice>) {
        self.reach_if(latest.is_none(), State::LateUnpriced);
        if let Some(LatestPrice { price, day }) = latest {
            let is_fined = charges::late_fine(u64::from(short.open()) * u64::from(price)) > 0;
            self.reach_if(is_fined, State::Late);
            self.reach_if(is_fined && short.kind == Business::Client, State::LateClient);
            self.reach_if(is_fined && day < today, State::LateOnOld);
        }
    }

    fn failed_award(&mut self, book: &Book, award: &Award) {
        let security = &book.securities[book.positions[award.short].security];
        let value = u64::from(award.quantity) * u64::from(security.latest_price.map_or(0, |latest| latest.price));
        let state = match security.class {
            1 => State::Fine1,
            2 => State::Fine2,
            _ => State::Fine3,
        };
        self.reach_if(true, state);
        self.reach_if(charges::award_fine(security.class, value) > 100_000, State::HighFine);
    }
}

fn position(book: &Book, number: u16) -> &Position {
    &book.positions[usize::from(number) - 1]
}

fn is_late(book: &Book, position: &Position) -> bool {
    position.side == Side::Short && position.open() > 0 && position.is_due(book.day)
}
