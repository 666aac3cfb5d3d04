//! The close: fines, netting of the day's trades, the next day. Fines go by the latest price, whatever its age.

use super::netting::netted;
use super::{number, require, Book, Cause, Charge, LatestPrice, Side, HOUSE, LAST_DAY};
use crate::charges;
use crate::refusal::Refusal;

impl Book {
    pub(super) fn close(&mut self) -> Result<u32, Refusal> {
        require(self.auction.is_none(), Refusal::Auction)?;
        require(self.day < LAST_DAY, Refusal::LastDay)?;
        self.fine_awards();
        self.fine_late_shorts();
        self.net_trades();
        self.awards.clear();
        self.attempts.clear();
        self.day += 1;
        Ok(0)
    }

    fn fine_awards(&mut self) {
        for (place, award) in self.awards.iter().enumerate().filter(|(_, award)| !award.confirmed) {
            let security = &self.securities[self.positions[award.short].security];
            if let Some(LatestPrice { price: latest, .. }) = security.latest_price {
                let quantity = award.quantity;
                let fine = charges::award_fine(security.class, u64::from(quantity) * u64::from(latest));
                let [award_number, short] = [place, award.short].map(number);
                let cause = Cause::UnconfirmedAward { award: award_number, short, quantity, latest };
                self.accounts.pay(Charge { payer: award.offerer, payee: HOUSE, cents: fine as i64, cause });
            }
        }
    }

    fn fine_late_shorts(&mut self) {
        for security in self.securities.iter().filter(|security| security.class == 1) {
            let Some(LatestPrice { price: latest, .. }) = security.latest_price else {
                continue;
            };
            let shorts = security.shorts.iter().map(|&place| (place, &self.positions[place]));
            for (place, short) in shorts.take_while(|(_, short)| short.is_due(self.day)) {
                let quantity = short.open();
                let fine = charges::late_fine(u64::from(quantity) * u64::from(latest));
                let cause = Cause::Late { short: number(place), quantity, latest };
                self.accounts.pay(Charge { payer: short.member, payee: HOUSE, cents: fine as i64, cause });
            }
        }
    }

    fn net_trades(&mut self) {
        for position in netted(self.todays_trades(), self.day) {
            let security = &mut self.securities[position.security];
            let side = match position.side {
                Side::Short => &mut security.shorts,
                Side::Long => &mut security.longs,
            };
            side.push(self.positions.len());
            self.positions.push(position);
        }
        self.netted_trades = self.trades.len();
    }
}
