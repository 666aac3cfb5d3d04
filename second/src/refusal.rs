//! The refusals of document 01, 'Why a call is turned down', and of document 02, Slip 1, 'The desk's page', Slip 3, 'How
//! old is a price', Slip 5, 'Own and client accounts', and Slip 7, 'Pair-off', by their numbers there.

#[derive(Clone, Copy, Debug, PartialEq, Eq)]
pub enum Refusal {
    RegisterSize = 1,
    Class = 2,
    Isin = 3,
    RepeatedIsin = 4,
    FileSize = 5,
    Kind = 6,
    Spare = 7,
    SheetSize = 8,
    Member = 9,
    Security = 10,
    NotThere = 11,
    Quantity = 12,
    Price = 13,
    SellerIsBuyer = 14,
    TradesFull = 15,
    Long = 16,
    Window = 17,
    Auction = 18,
    NoPrice = 19,
    Attempts = 20,
    Failing = 21,
    Ceiling = 22,
    OffersFull = 23,
    NotFree = 24,
    Confirmed = 25,
    LastDay = 26,
    Date = 27,
    Holidays = 28,
    BusinessDay = 29,
    After2099 = 30,
    PageSize = 31,
    OldPrice = 32,
    TradeKind = 33,
    NoPair = 34,
}

/// A refusal of a register or an event file, with the number of the security or event that it meets, if it meets one.
#[derive(Clone, Copy, Debug, PartialEq, Eq)]
pub struct Located {
    pub refusal: Refusal,
    pub number: Option<usize>,
}

impl From<Refusal> for Located {
    fn from(refusal: Refusal) -> Located {
        Located { refusal, number: None }
    }
}

impl From<Located> for Refusal {
    fn from(located: Located) -> Refusal {
        located.refusal
    }
}
