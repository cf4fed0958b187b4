// What the benchmarks over a bond's terms share: dates in plain Rust, bonds, and the time of both. The plain functions are inlined as
// they would be if they stood in the file that calls them.

use crate::margin_unit::{Date, Terms};
use crate::oracle::random::Random;
use crate::oracle::schedule::{self, date};
use crate::oracle::schedule_terms::terms;
use std::time::{Duration, Instant};

// The bonds of a set that is timed, and the rounds, of which the best counts.
const BONDS: usize = 1_000;
const ROUNDS: usize = 200;

// ---------------------------------------------------------------------------------------------------------------------
// Plain Rust
// ---------------------------------------------------------------------------------------------------------------------

#[inline(always)]
pub fn month_length(year: u32, month: u32) -> u32 {
    match month {
        4 | 6 | 9 | 11 => 30,
        2 if year % 4 == 0 && (year % 100 != 0 || year % 400 == 0) => 29,
        2 => 28,
        _ => 31,
    }
}

#[inline(always)]
pub fn is_date(date: Date) -> bool {
    (2000..=2099).contains(&date.year)
        && (1..=12).contains(&date.month)
        && (1..=month_length(date.year, date.month)).contains(&date.day)
}

// Days since 1 March of the year 0, with years that begin in March, so that the day of a leap year stands last.
#[inline(always)]
pub fn day_number(date: Date) -> u32 {
    let year = if date.month > 2 { date.year } else { date.year - 1 };
    let month = (date.month + 9) % 12;
    365 * year + year / 4 - year / 100 + year / 400 + (153 * month + 2) / 5 + date.day - 1
}

// So many months before maturity, months counted from the year 0.
#[inline(always)]
pub fn coupon_date(maturity: Date, months: u32) -> Date {
    let at = 12 * maturity.year + maturity.month - 1 - months;
    let (year, month) = (at / 12, at % 12 + 1);
    Date { year, month, day: maturity.day.min(month_length(year, month)) }
}

// How many coupon dates lie after a date that is before maturity.
#[inline(always)]
pub fn dates_after(date: Date, maturity: Date, step: u32) -> u32 {
    let apart = 12 * maturity.year + maturity.month - 12 * date.year - date.month;
    apart / step + (coupon_date(maturity, apart / step * step) > date) as u32
}

// 26 and 27, of a bond whose flows lie after a date and have so much room; else its coupon, and how many flows there are.
#[inline(always)]
pub fn check(after: Date, terms: &Terms, room: usize) -> Result<(u32, u32), u32> {
    let Terms { maturity, rate, frequency } = *terms;
    if maturity <= after {
        return Err(26);
    }
    if frequency == 0 || frequency > 2 || rate > 1_000_000 {
        return Err(27);
    }
    let coupon = (rate + frequency / 2) / frequency;
    let count = if coupon == 0 { 1 } else { dates_after(after, maturity, 12 / frequency) };
    match count > 120 || room < 8 * count as usize {
        true => Err(27),
        false => Ok((coupon, count)),
    }
}

// A flow's record: its days, in 16 bits, two bytes of 0, and its amount.
#[inline(always)]
pub fn put(record: &mut [u8], days: u32, amount: u32) {
    record[..4].copy_from_slice(&days.to_le_bytes());
    record[4..].copy_from_slice(&amount.to_le_bytes());
}

// As the library gives it: how many flows there are, or number × 65,536.
#[inline(always)]
pub fn code_of(flows: Result<u32, u32>) -> u32 {
    flows.unwrap_or_else(|number| number * 65_536)
}

// ---------------------------------------------------------------------------------------------------------------------
// Bonds, and the time of both
// ---------------------------------------------------------------------------------------------------------------------

// Terms from any day on, over so many years, at such rates and frequencies; one in four matures at a month's end.
pub fn bonds(years: [u64; 2], rates: [u64; 2], frequencies: &[u32]) -> Vec<schedule::Terms> {
    let mut random = Random::new(2);
    let bond = |_| {
        let [year, month, day] =
            [(2000, 2039), (1, 12), (1, 28)].map(|(low, high)| random.between(low, high) as u32);
        let at = 12 * year + month - 1 + random.between(12 * years[0], 12 * years[1]) as u32;
        let (last_year, last_month) = (at / 12, at % 12 + 1);
        let last_day = if random.between(0, 3) == 0 { month_length(last_year, last_month) } else { day };
        let rate = random.between(rates[0], rates[1]) as u32;
        terms(date(year, month, day), date(last_year, last_month, last_day), rate, random.any(frequencies))
    };
    (0..BONDS).map(bond).collect()
}

pub fn handed_date(schedule::Date { year, month, day }: schedule::Date) -> Date {
    Date { year, month, day }
}

pub fn handed(terms: &schedule::Terms) -> (Date, Terms) {
    let (maturity, rate, frequency) = (handed_date(terms.maturity), terms.rate, terms.frequency);
    (handed_date(terms.evaluation), Terms { maturity, rate, frequency })
}

fn time(run: impl FnOnce()) -> Duration {
    let start = Instant::now();
    run();
    start.elapsed()
}

// What the unit and plain Rust take for a set in which so many flows are written, each by turns.
pub fn time_both(what: &str, flows: u32, mut run: [impl FnMut() -> u32; 2]) {
    let mut best = [Duration::MAX; 2];
    for _ in 0..ROUNDS {
        for (best, run) in best.iter_mut().zip(&mut run) {
            *best = (*best).min(time(|| assert_eq!(run(), flows)));
        }
    }
    let [ours, plain] = best.map(|time| 1e9 * time.as_secs_f64() / BONDS as f64);
    let mean = flows as f64 / BONDS as f64;
    println!(
        "{what}, {mean:.1} flows: ours {ours:.0} ns, plain {plain:.0} ns, ours / plain {:.2}",
        ours / plain
    );
}
