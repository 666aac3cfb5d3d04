//! The calendar: every date of the century written out once, with its day of the week. A date is a number yyyymmdd.

use crate::refusal::Refusal;

const LAST_BUSINESS_DAY: usize = 9_999;
const MOST_HOLIDAYS: usize = 64;

struct Date {
    number: u32,
    weekend: bool,
}

pub struct Calendar {
    century: Vec<Date>,
}

impl Calendar {
    pub fn of_the_century() -> Calendar {
        let numbers = (2000..=2099).flat_map(|year| {
            (1..=12).flat_map(move |month| (1..=days_in(year, month)).map(move |day| 10_000 * year + 100 * month + day))
        });
        // 2000-01-01 is a Saturday, so each week of the century begins with its weekend.
        let weekends = (0..7).map(|day| day < 2).cycle();
        let century = numbers.zip(weekends).map(|(number, weekend)| Date { number, weekend }).collect();
        Calendar { century }
    }

    /// Every date of the century, in order.
    pub fn dates(&self) -> impl Iterator<Item = u32> + '_ {
        self.century.iter().map(|date| date.number)
    }

    pub fn day_to_date(&self, opening: u32, holidays: &[u8], day: u32) -> Result<u32, Refusal> {
        let holidays = self.holidays(&[opening], holidays)?;
        let day = day as usize;
        if !(1..=LAST_BUSINESS_DAY).contains(&day) {
            return Err(Refusal::BusinessDay);
        }
        self.business_days(opening, holidays).nth(day - 1).ok_or(Refusal::After2099)
    }

    pub fn date_to_day(&self, opening: u32, holidays: &[u8], date: u32) -> Result<u32, Refusal> {
        let holidays = self.holidays(&[opening, date], holidays)?;
        self.business_days(opening, holidays)
            .take(LAST_BUSINESS_DAY)
            .take_while(|&business_day| business_day <= date)
            .zip(1..)
            .find(|&(business_day, _)| business_day == date)
            .map(|(_, number)| number)
            .ok_or(Refusal::BusinessDay)
    }

    /// The list of holidays, once it and the other dates of the call have passed.
    fn holidays(&self, others: &[u32], bytes: &[u8]) -> Result<Vec<u32>, Refusal> {
        let holidays = bytes
            .chunks(4)
            .map(|word| word.try_into().map(u32::from_le_bytes))
            .collect::<Result<Vec<_>, _>>()
            .map_err(|_| Refusal::Date)?;
        if !others.iter().chain(&holidays).all(|&date| self.is_date(date)) {
            return Err(Refusal::Date);
        }
        let ascending = holidays.windows(2).all(|pair| pair[0] < pair[1]);
        if holidays.len() > MOST_HOLIDAYS || !ascending {
            return Err(Refusal::Holidays);
        }
        Ok(holidays)
    }

    fn is_date(&self, number: u32) -> bool {
        self.century.binary_search_by_key(&number, |date| date.number).is_ok()
    }

    fn business_days(&self, opening: u32, holidays: Vec<u32>) -> impl Iterator<Item = u32> + '_ {
        let before = self.century.partition_point(|date| date.number < opening);
        self.century[before..]
            .iter()
            .filter(move |date| !date.weekend && holidays.binary_search(&date.number).is_err())
            .map(|date| date.number)
    }
}

fn days_in(year: u32, month: u32) -> u32 {
    let leap = year.is_multiple_of(4) && (!year.is_multiple_of(100) || year.is_multiple_of(400));
    match month {
        2 if leap => 29,
        2 => 28,
        4 | 6 | 9 | 11 => 30,
        _ => 31,
    }
}
