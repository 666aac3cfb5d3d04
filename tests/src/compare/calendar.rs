//! Day to date and date to day. Dates are written 2000_01_31.
#![allow(clippy::inconsistent_digit_grouping)]

use super::hex;
use crate::check::{Check, Round, Tests};
use fails_book_tests::desk::{self, Answer};
use fails_book_tests::random::Random;
use second::calendar::Calendar;
use std::collections::BTreeSet;

const FIRST: u32 = 2000_01_01;
const CHRISTMAS: [u32; 2] = [2024_12_25, 2024_12_26];
const LAST_DAY: [u32; 1] = [2099_12_31];

pub fn exhaustive(tests: &mut Tests, calendar: &Calendar) {
    tests.check("calendar: known dates", &[0, 27, 28, 29, 30], |check| known(check, calendar));
    tests.check("calendar: each date of the century as opening", &[0, 30], |check| {
        each_date_as_opening(check, calendar);
    });
    tests.check("calendar: each number from year 1999, month 0, day 0 as opening", &[0, 27], |check| {
        each_number_as_opening(check, calendar);
    });
    tests.check("calendar: each such number as asked date", &[0, 27, 29], |check| {
        each_number_as_asked_date(check, calendar);
    });
    tests.check("calendar: each such number as holiday", &[0, 27], |check| each_number_as_holiday(check, calendar));
    tests.check("calendar: lists of 0 to 300 holidays and of many", &[0, 28], |check| {
        holiday_lists_of_each_length(check, calendar);
    });
    tests.check("calendar: round trips from each date of the century", &[0, 29], |check| {
        round_trips_of_dates(check, calendar);
    });
    tests.check("calendar: round trips of days 1 to 9,999", &[0, 30], |check| round_trips_of_days(check, calendar));
}

pub fn seeded(round: &mut Round, calendar: &Calendar) {
    let dates: Vec<u32> = calendar.dates().collect();
    round.check("calendar: random openings and holidays, day to date", &[0, 27, 28, 29, 30], |check, random| {
        random_days_to_dates(check, random, calendar, &dates);
    });
    round.check("calendar: random openings and holidays, date to day", &[0, 27, 28, 29], |check, random| {
        random_dates_to_days(check, random, calendar, &dates);
    });
    round.check("calendar: random round trips", &[0], |check, random| {
        random_round_trips(check, random, calendar, &dates);
    });
    round.check("calendar: holiday lists alone", &[0, 27, 28], |check, random| {
        random_holiday_lists(check, random, calendar, &dates);
    });
}

fn each_date_as_opening(check: &mut Check, calendar: &Calendar) {
    for opening in calendar.dates() {
        to_date(check, calendar, opening, &[], 1);
        to_date(check, calendar, opening, &packed(&[opening]), 1);
    }
}

fn each_number_as_opening(check: &mut Check, calendar: &Calendar) {
    for number in numbers() {
        to_date(check, calendar, number, &[], 1);
    }
}

fn each_number_as_asked_date(check: &mut Check, calendar: &Calendar) {
    for number in numbers() {
        to_day(check, calendar, first_of_year(number), &[], number);
    }
    // Day 9,999 from the first opening is in 2038.
    for date in calendar.dates().filter(|date| (2037..=2039).contains(&(date / 10_000))) {
        to_day(check, calendar, FIRST, &[], date);
    }
}

fn each_number_as_holiday(check: &mut Check, calendar: &Calendar) {
    for number in numbers() {
        to_date(check, calendar, first_of_year(number), &packed(&[number]), 200);
    }
}

fn holiday_lists_of_each_length(check: &mut Check, calendar: &Calendar) {
    let dates: Vec<u32> = calendar.dates().collect();
    // 16,384 dates are 65,536 bytes.
    for count in (0..=300).chain([16_384, 16_385, dates.len()]) {
        to_date(check, calendar, FIRST, &packed(&dates[..count]), 1);
        to_day(check, calendar, FIRST, &packed(&dates[..count]), 2010_01_04);
    }
}

fn round_trips_of_dates(check: &mut Check, calendar: &Calendar) {
    for date in calendar.dates() {
        let opening = first_of_year(date);
        let day = to_day(check, calendar, opening, &[], date);
        if day.refusal == 0 {
            let back = desk::day_to_date(opening, &[], day.quantity);
            let input = || format!("opening {opening} day {}", day.quantity);
            check.same_answer(input, back, Answer::accepted(date));
        }
    }
}

fn round_trips_of_days(check: &mut Check, calendar: &Calendar) {
    for opening in [FIRST, 2030_06_15, 2090_09_01] {
        for day in 1..=9_999 {
            let date = to_date(check, calendar, opening, &[], day);
            if date.refusal == 0 {
                let back = desk::date_to_day(opening, &[], date.quantity);
                let input = || format!("opening {opening} date {}", date.quantity);
                check.same_answer(input, back, Answer::accepted(day));
            }
        }
    }
}

fn random_days_to_dates(check: &mut Check, random: &mut Random, calendar: &Calendar, dates: &[u32]) {
    for _ in 0..6_000 {
        let (opening, holidays) = opening_and_holidays(random, dates);
        let day = match random.below(6) {
            0 => random.pick(&[0, 1, 2, 9_998, 9_999, 10_000, 10_001, 65_536 + 1, u32::MAX]),
            1 => random.between(1, 12_000) as u32,
            2 => near_the_end(random, dates, opening),
            _ => random.between(1, 300) as u32,
        };
        to_date(check, calendar, opening, &holidays, day);
    }
}

fn random_dates_to_days(check: &mut Check, random: &mut Random, calendar: &Calendar, dates: &[u32]) {
    for _ in 0..6_000 {
        let (opening, holidays) = opening_and_holidays(random, dates);
        let place = place_of(dates, opening);
        let date = match random.below(6) {
            0 => random.pick(dates),
            1 => invalid_date(random, dates),
            2 => holidays.first_chunk().map_or(opening, |&word| u32::from_le_bytes(word)),
            // Day 9,999 is about 13,998 calendar days away.
            3 => date_at(dates, place + random.between(13_980, 14_100)),
            4 => date_at(dates, place.saturating_sub(random.below(10))),
            _ => date_at(dates, place + random.below(400)),
        };
        to_day(check, calendar, opening, &holidays, date);
    }
}

fn random_round_trips(check: &mut Check, random: &mut Random, calendar: &Calendar, dates: &[u32]) {
    for _ in 0..3_000 {
        let opening = random.pick(dates);
        let holidays = packed(&ascending_holidays(random, dates, place_of(dates, opening)));
        let day = random.between(1, 3_000) as u32;
        let date = to_date(check, calendar, opening, &holidays, day);
        if date.refusal == 0 {
            let back = desk::date_to_day(opening, &holidays, date.quantity);
            let input = || format!("opening {opening} holidays {} date {}", hex(&holidays), date.quantity);
            check.same_answer(input, back, Answer::accepted(day));
        }
    }
}

fn random_holiday_lists(check: &mut Check, random: &mut Random, calendar: &Calendar, dates: &[u32]) {
    for _ in 0..20_000 {
        let (_, holidays) = opening_and_holidays(random, dates);
        to_date(check, calendar, FIRST, &holidays, 3);
    }
}

/// Answers worked out by hand, wanted of the desk and of the second implementation alike.
fn known(check: &mut Check, calendar: &Calendar) {
    known_days_to_dates(check, calendar);
    known_dates_to_days(check, calendar);
    known_holiday_lists_cut_off(check, calendar);
}

fn known_days_to_dates(check: &mut Check, calendar: &Calendar) {
    let many = many_holidays();
    let past_the_list: Vec<u32> = many.iter().copied().chain([2001_02_29]).collect();
    for (opening, holidays, day, refusal, date) in [
        (FIRST, &[][..], 1, 0, 2000_01_03),
        (FIRST, &[], 5, 0, 2000_01_07),
        (FIRST, &[], 6, 0, 2000_01_10),
        // Monday 3 January 2000 and 9,998 business days: 1,999 weeks and three days.
        (FIRST, &[], 9_999, 0, 2038_04_29),
        (FIRST, &[], 10_000, 29, 0),
        (FIRST, &[], 0, 29, 0),
        (2000_02_29, &[], 2, 0, 2000_03_01),
        (2024_12_24, &CHRISTMAS, 2, 0, 2024_12_27),
        (2024_12_24, &CHRISTMAS, 3, 0, 2024_12_30),
        (2024_12_25, &CHRISTMAS, 1, 0, 2024_12_27),
        (2099_12_31, &[], 1, 0, 2099_12_31),
        (2099_12_31, &[], 2, 30, 0),
        (2099_12_31, &LAST_DAY, 1, 30, 0),
        (2099_12_31, &LAST_DAY, 10_000, 29, 0),
        (2001_02_29, &[], 1, 27, 0),
        (1999_12_31, &[], 1, 27, 0),
        (2100_01_01, &[], 1, 27, 0),
        (FIRST, &many[..64], 2, 0, 2000_01_04),
        (FIRST, &many[..65], 1, 28, 0),
        (FIRST, &past_the_list, 10_000, 27, 0),
        (FIRST, &[2000_01_04, 2000_01_04], 1, 28, 0),
        (FIRST, &[2000_01_05, 2000_01_04], 10_000, 28, 0),
    ] {
        let known = Answer { refusal, quantity: date };
        let holidays = packed(holidays);
        let input = || format!("opening {opening} holidays {} day {day}", hex(&holidays));
        let second = calendar.day_to_date(opening, &holidays, day);
        check.known_answer(input, desk::day_to_date(opening, &holidays, day), second, known);
    }
}

fn known_dates_to_days(check: &mut Check, calendar: &Calendar) {
    let many = many_holidays();
    for (opening, holidays, date, refusal, day) in [
        (FIRST, &[][..], 2000_01_07, 0, 5),
        (FIRST, &[], 2000_01_08, 29, 0),
        (FIRST, &[], 2000_01_10, 0, 6),
        (FIRST, &[], 2038_04_29, 0, 9_999),
        (FIRST, &[], 2038_04_30, 29, 0),
        (2024_12_24, &CHRISTMAS, 2024_12_26, 29, 0),
        (2024_12_24, &CHRISTMAS, 2024_12_30, 0, 3),
        (2024_12_24, &CHRISTMAS, 2024_12_23, 29, 0),
        (2099_12_31, &LAST_DAY, 2099_12_31, 29, 0),
        (FIRST, &many[..65], 2000_01_08, 28, 0),
        (FIRST, &many[..65], 2000_02_30, 27, 0),
    ] {
        let known = Answer { refusal, quantity: day };
        let holidays = packed(holidays);
        let input = || format!("opening {opening} holidays {} date {date}", hex(&holidays));
        let second = calendar.date_to_day(opening, &holidays, date);
        check.known_answer(input, desk::date_to_day(opening, &holidays, date), second, known);
    }
}

fn known_holiday_lists_cut_off(check: &mut Check, calendar: &Calendar) {
    for rest in 1..=3 {
        let cut_off = &packed(&[2000_01_04, 2000_01_05])[..4 + rest];
        let input = || format!("opening {FIRST} holidays {} day 1", hex(cut_off));
        let second = calendar.day_to_date(FIRST, cut_off, 1);
        check.known_answer(input, desk::day_to_date(FIRST, cut_off, 1), second, Answer::refused(27));
    }
}

/// 65 holidays, 1 more than a list may have.
fn many_holidays() -> Vec<u32> {
    (2001_01_01..=2001_01_31).chain(2001_03_01..=2001_03_31).chain(2001_05_01..=2001_05_03).collect()
}

fn to_date(check: &mut Check, calendar: &Calendar, opening: u32, holidays: &[u8], day: u32) -> Answer {
    let answer = desk::day_to_date(opening, holidays, day);
    let input = || format!("opening {opening} holidays {} day {day}", hex(holidays));
    check.same_answer(input, answer, calendar.day_to_date(opening, holidays, day));
    answer
}

fn to_day(check: &mut Check, calendar: &Calendar, opening: u32, holidays: &[u8], date: u32) -> Answer {
    let answer = desk::date_to_day(opening, holidays, date);
    let input = || format!("opening {opening} holidays {} date {date}", hex(holidays));
    check.same_answer(input, answer, calendar.date_to_day(opening, holidays, date));
    answer
}

/// Every number of the form of a date from 1999 to 2100, with months and days that there are not.
fn numbers() -> impl Iterator<Item = u32> {
    (1999..=2100)
        .flat_map(|year| (0..=13).flat_map(move |month| (0..=32).map(move |day| 10_000 * year + 100 * month + day)))
}

fn first_of_year(number: u32) -> u32 {
    (number / 10_000).clamp(2000, 2099) * 10_000 + 101
}

fn packed(dates: &[u32]) -> Vec<u8> {
    dates.iter().flat_map(|date| date.to_le_bytes()).collect()
}

fn place_of(dates: &[u32], date: u32) -> usize {
    dates.partition_point(|&earlier| earlier < date).min(dates.len() - 1)
}

fn date_at(dates: &[u32], place: usize) -> u32 {
    dates[place.min(dates.len() - 1)]
}

/// The number of a business day close to the last one of the century.
fn near_the_end(random: &mut Random, dates: &[u32], opening: u32) -> u32 {
    let left = dates.len() - place_of(dates, opening);
    (left * 5 / 7 + random.below(20)).saturating_sub(15) as u32
}

fn opening_and_holidays(random: &mut Random, dates: &[u32]) -> (u32, Vec<u8>) {
    let opening = match random.below(12) {
        0 => invalid_date(random, dates),
        1 => date_at(dates, dates.len() - random.between(1, 100)),
        _ => random.pick(dates),
    };
    let mut holidays = ascending_holidays(random, dates, place_of(dates, opening));
    if random.one_in(4) && !holidays.is_empty() {
        let at = random.below(holidays.len());
        let other = random.below(holidays.len());
        match random.below(4) {
            0 => holidays.swap(at, other),
            1 => holidays[at] = holidays[other],
            2 => holidays.insert(at, holidays[at]),
            _ => holidays[at] = invalid_date(random, dates),
        }
    }
    let mut bytes = packed(&holidays);
    if random.one_in(16) {
        bytes.truncate(bytes.len().saturating_sub(random.between(1, 3)));
    }
    (opening, bytes)
}

/// Up to 70 holidays, 6 more than a list may have; weekends among them.
fn ascending_holidays(random: &mut Random, dates: &[u32], place: usize) -> Vec<u32> {
    let count = match random.below(6) {
        0 => 0,
        1 => random.between(60, 70),
        2 => 64,
        _ => random.between(1, 40),
    };
    // Close together, so that they often meet the days walked over; at times a whole run of days.
    let span = random.pick(&[count.max(1), 100, 300, 15_000]);
    let mut holidays = BTreeSet::new();
    for step in 0..count {
        let away = if span == count { step } else { random.below(span) };
        holidays.insert(date_at(dates, place + away));
    }
    holidays.into_iter().collect()
}

/// Most often a date that is none.
fn invalid_date(random: &mut Random, dates: &[u32]) -> u32 {
    let date = random.pick(dates);
    match random.below(7) {
        0 => random.pick(&[0, 1999_12_31, 2100_01_01, 2001_02_29, 2000_02_30, 2000_04_31, u32::MAX]),
        1 => date / 100 * 100,
        2 => date / 100 * 100 + random.between(29, 99) as u32,
        3 => date / 10_000 * 10_000 + date % 100,
        4 => date / 10_000 * 10_000 + 1_300 + date % 100,
        5 => date + random.pick(&[1_000_000, 2_000_000]),
        _ => random.sized_word() as u32,
    }
}
