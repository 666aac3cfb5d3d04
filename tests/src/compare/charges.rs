//! Day windows, prices, fees and fines.

use crate::check::{Check, Round, Tests};
use fails_book_tests::desk;
use fails_book_tests::random::Random;
use second::{charges, windows};

const CLASSES: [u8; 6] = [0, 1, 2, 3, 4, 255];

pub fn exhaustive(tests: &mut Tests) {
    tests.check("windows: edges of document 01", &[], window_edges);
    tests.check("windows: every class byte, r 0 to 400 and 65,535", &[], windows_of_every_class_byte);
    tests.check("charges: edges of document 01", &[], charge_edges);
    tests.check("charges: cash prices known beforehand", &[], cash_price_edges);
    tests.check("rounding: divisors 0 to 200, values 0 to 1,000", &[], rounding_of_small_values);
    tests.check("fees and fines: each place where a quotient steps", &[], steps_of_fees_and_fines);
    tests.check("prices: every price to 2,000 and the largest", &[], ceilings_of_every_class_byte);
}

pub fn seeded(round: &mut Round) {
    round.check("windows: random days", &[], random_windows);
    round.check("rounding: random values", &[], random_rounding);
    round.check("fees and fines: random values", &[], random_fees_and_fines);
    round.check("prices: random prices", &[], random_prices);
}

fn window_edges(check: &mut Check) {
    let class_1 = [(4, 0), (5, 4), (7, 4), (8, 8)].map(|(r, step)| (1, r, step));
    let class_2 = [(26, 0), (27, 4), (28, 0), (30, 8), (36, 8), (37, 4)].map(|(r, step)| (2, r, step));
    for (class, r, step) in class_1.into_iter().chain(class_2) {
        let input = || format!("class {class} r {r}");
        check.known(input, desk::step(class, r), windows::step(class, r) as u8, step);
    }
}

fn windows_of_every_class_byte(check: &mut Check) {
    for class in 0..=u8::MAX {
        for r in (0..=400).chain([u16::MAX]) {
            let input = || format!("class {class} r {r}");
            check.same(input, desk::step(class, r), windows::step(class, r) as u8);
        }
    }
}

fn charge_edges(check: &mut Check) {
    let mut edge = |name: &str, desk, second, known| check.known(|| name.to_string(), desk, second, known);
    for (value, fee) in
        [(1_000_019_999, 25_000), (1_000_020_000, 25_001), (4_000_000_001, 100_000), (u64::MAX, 100_000)]
    {
        edge(&format!("fee on {value}"), desk::cash_fee(value), charges::cash_fee(value), fee);
    }
    for (class, value, fine) in [
        (1, 250_001_249, 100_000),
        (1, 250_001_250, 100_001),
        (2, 250_001_249, 100_000),
        (2, 250_001_250, 100_001),
        (3, 250_001_250, 100_000),
    ] {
        let name = format!("buy-in fine of class {class} on {value}");
        edge(&name, desk::award_fine(class, value), charges::award_fine(class, value), fine);
    }
    for (value, fine) in [(4_999, 0), (5_000, 1)] {
        edge(&format!("late fine on {value}"), desk::late_fine(value), charges::late_fine(value), fine);
    }
    for (class, ceiling) in [(1, 202), (2, 202), (3, 104)] {
        let name = format!("ceiling of class {class} at 101");
        edge(&name, desk::ceiling(class, 101), charges::ceiling(class, 101), ceiling);
    }
    let (desk, second) = (desk::cash_price(3, 1, 1, 20_000), charges::cash_price(3, 1, [1], 20_000));
    edge("cash price of class 3 at 20,000", desk, second, 20_300);
}

/// Class, the short's reference price, the longs', the latest price, and the price of a unit in cash.
const CASH_PRICES: [(u8, u32, &[u32], u32, u64); 27] = [
    // The squeeze's.
    (1, 1_200, &[1_000, 1_200], 1_100, 2_200),
    // A long's, wherever it stands, or the short's.
    (1, 1_000, &[2_500], 1_100, 2_500),
    (1, 1_000, &[2_500, 1_500], 1_100, 2_500),
    (1, 1_000, &[1_500, 2_500], 1_100, 2_500),
    (1, 1_000, &[1_500, 2_500, 2_000], 1_100, 2_500),
    (2, 1_000, &[2_000, 1_500, 2_500], 1_100, 2_500),
    (2, 2_500, &[2_000, 1_500, 2_400], 1_100, 2_500),
    (2, 2_500, &[2_500, 2_500], 1_100, 2_500),
    // By one cent.
    (1, 2_199, &[2_199, 2_199], 1_100, 2_200),
    (1, 2_199, &[2_201, 2_200], 1_100, 2_201),
    (2, 2_201, &[2_199, 2_200], 1_100, 2_201),
    (2, 2_200, &[2_201, 2_202], 1_100, 2_202),
    // In class 3 the raise is by 300.
    (3, 1_000, &[1_399, 1_200], 1_100, 1_400),
    (3, 1_000, &[1_200, 1_400], 1_100, 1_400),
    (3, 1_000, &[1_200, 1_401], 1_100, 1_401),
    (3, 1_402, &[1_401, 1_200], 1_100, 1_402),
    (3, 1, &[1, 2], 1, 301),
    // The largest numbers, the last two of them of no book.
    (1, 1, &[10_000_000, 9_999_999], 10_000_000, 20_000_000),
    (3, 10_000_000, &[10_000_000, 1], 10_000_000, 10_000_300),
    (2, u32::MAX, &[u32::MAX], u32::MAX, 8_589_934_590),
    (3, u32::MAX, &[u32::MAX], u32::MAX, 4_294_967_595),
    // A number that is no class has no raised price.
    (0, 5, &[7, 6], 1_000, 7),
    (0, 8, &[7, 6], 1_000, 8),
    (4, 5, &[6, 7], 1_000, 7),
    (255, 5, &[6, 7, 4], u32::MAX, 7),
    (0, 0, &[0], 1_000, 0),
    (3, 0, &[0], 0, 300),
];

/// The second implementation is given all the longs' reference prices, the desk the highest alone.
fn cash_price_edges(check: &mut Check) {
    for (class, short, longs, latest, known) in CASH_PRICES {
        let [desk, second] = cash_prices(class, short, longs, latest);
        check.known(|| cash_words(class, short, longs, latest), desk, second, known);
    }
}

fn cash_prices(class: u8, short: u32, longs: &[u32], latest: u32) -> [u64; 2] {
    let highest = longs.iter().copied().fold(0, u32::max);
    let second = charges::cash_price(class, short, longs.iter().copied(), latest);
    [desk::cash_price(class, short, highest, latest), second]
}

fn cash_words(class: u8, short: u32, longs: &[u32], latest: u32) -> String {
    format!("class {class} short's reference {short} longs' references {longs:?} latest price {latest}")
}

fn rounding_of_small_values(check: &mut Check) {
    for divisor in 0..=200 {
        for value in 0..=1_000 {
            let input = || format!("value {value} divisor {divisor}");
            check.same(input, desk::rounded(value, divisor), charges::rounded(value, divisor));
        }
    }
}

fn steps_of_fees_and_fines(check: &mut Check) {
    // Half a divisor apart, from below the least charge to above the greatest.
    for value in (990_000_000..4_010_000_000).step_by(20_000).flat_map(around) {
        check.same(|| format!("fee on {value}"), desk::cash_fee(value), charges::cash_fee(value));
    }
    for value in (248_000_000..252_000_000).step_by(1_250).flat_map(around) {
        for class in CLASSES {
            let input = || format!("buy-in fine of class {class} on {value}");
            check.same(input, desk::award_fine(class, value), charges::award_fine(class, value));
        }
    }
    for value in (5_000..20_000_000).step_by(5_000).flat_map(around) {
        check.same(|| format!("late fine on {value}"), desk::late_fine(value), charges::late_fine(value));
    }
}

fn ceilings_of_every_class_byte(check: &mut Check) {
    for class in 0..=u8::MAX {
        for latest in (0..=2_000).chain(u32::MAX - 50..=u32::MAX) {
            let input = || format!("class {class} latest price {latest}");
            check.same(input, desk::ceiling(class, latest), charges::ceiling(class, latest));
        }
    }
}

fn random_windows(check: &mut Check, random: &mut Random) {
    for _ in 0..20_000 {
        let (class, r) = (random.pick(&CLASSES), random.sized_word() as u16);
        let input = || format!("class {class} r {r}");
        check.same(input, desk::step(class, r), windows::step(class, r) as u8);
    }
}

fn random_rounding(check: &mut Check, random: &mut Random) {
    for _ in 0..200_000 {
        let divisor = random.sized_word() as u32;
        // Near a half of the divisor, where rounding turns.
        let halves = random.sized_word().saturating_mul(u64::from(divisor)) / 2;
        let largest = u64::MAX - random.sized_word() % (u64::from(divisor) + 1);
        for value in [random.sized_word(), halves.saturating_sub(1), halves, halves.saturating_add(1), largest] {
            let input = || format!("value {value} divisor {divisor}");
            check.same(input, desk::rounded(value, divisor), charges::rounded(value, divisor));
        }
    }
}

fn random_fees_and_fines(check: &mut Check, random: &mut Random) {
    for _ in 0..200_000 {
        let value = any_value(random);
        let class = random.pick(&CLASSES);
        check.same(|| format!("fee on {value}"), desk::cash_fee(value), charges::cash_fee(value));
        check.same(|| format!("late fine on {value}"), desk::late_fine(value), charges::late_fine(value));
        let input = || format!("buy-in fine of class {class} on {value}");
        check.same(input, desk::award_fine(class, value), charges::award_fine(class, value));
    }
}

fn random_prices(check: &mut Check, random: &mut Random) {
    for _ in 0..200_000 {
        let class = random.pick(&CLASSES);
        let latest = random.sized_word() as u32;
        let input = || format!("class {class} latest price {latest}");
        check.same(input, desk::ceiling(class, latest), charges::ceiling(class, latest));
        // References about as high as the latest price raised, so that each term is highest at times.
        let short = near_raised(random, latest);
        let longs: Vec<u32> = (0..random.between(1, 5)).map(|_| near_raised(random, latest)).collect();
        let [desk, second] = cash_prices(class, short, &longs, latest);
        check.same(|| cash_words(class, short, &longs, latest), desk, second);
    }
}

fn around(value: u64) -> [u64; 3] {
    [value - 1, value, value + 1]
}

fn any_value(random: &mut Random) -> u64 {
    match random.below(4) {
        0 => u64::MAX - random.below(50_000) as u64,
        1 => random.word() % 5_000_000_000,
        _ => random.sized_word(),
    }
}

fn near_raised(random: &mut Random, latest: u32) -> u32 {
    match random.below(4) {
        0 => random.sized_word() as u32,
        1 => latest.saturating_add(300),
        2 => latest.saturating_mul(2),
        _ => latest.saturating_mul(2).saturating_add(random.below(700) as u32).saturating_sub(350),
    }
}
