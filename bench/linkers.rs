// How long the unit takes to write an inflation bond's flows, beside plain Rust.
//
// The same bonds and index prices go to the unit's static library and to plain Rust. Answers and all bytes have to be equal, of
// these and of many good and damaged bonds with buffers and lists of prices that are at times too short, before anything is
// timed. README.md has the commands.

#[allow(dead_code)]
#[path = "../oracle"]
mod oracle {
    pub mod book;
    pub mod linkers;
    pub mod linkers_terms;
    pub mod random;
    pub mod schedule;
    pub mod schedule_terms;
    pub mod store;
    pub mod valuing;
}
#[allow(dead_code)]
#[path = "../bindings/rust/margin_unit.rs"]
mod margin_unit;
mod terms;
use margin_unit::{Date, Terms};
use oracle::linkers_terms::{any_call, examples, faults_alone, faults_in_pairs, linker, months_needed, Call};
use oracle::random::Random;
use oracle::schedule;
use oracle::schedule_terms::MOST_BYTES;
use std::hint::black_box;
use terms::*;

// Calls by chance that are compared.
const BY_CHANCE: usize = 20_000;

// ---------------------------------------------------------------------------------------------------------------------
// Plain Rust
// ---------------------------------------------------------------------------------------------------------------------

// Months from January 2000 on.
fn month_number(date: Date) -> usize {
    (12 * (date.year - 2_000) + date.month - 1) as usize
}

fn nearest(n: u64, d: u64) -> u64 {
    (2 * n + d) / (2 * d)
}

fn index_number(prices: &[u32], date: Date) -> u64 {
    let month = month_number(date);
    let (three, two) = (prices[month - 3] as u64, prices[month - 2] as u64);
    let (passed, days) = (date.day as u64 - 1, month_length(date.year, date.month) as u64);
    nearest(10 * (three * (days - passed) + two * passed), days)
}

fn plain_linker_flows(
    evaluation: Date,
    issue: Date,
    terms: &Terms,
    btp_italia: u32,
    prices: &[u32],
    buffer: &mut [u8],
) -> u32 {
    code_of(write_flows(evaluation, issue, terms, btp_italia != 0, prices, buffer))
}

// 25 to 29, with so much room; else the coupon.
fn check_linker(
    evaluation: Date,
    issue: Date,
    terms: &Terms,
    prices: &[u32],
    room: usize,
) -> Result<u32, u32> {
    if !is_date(evaluation) || !is_date(issue) || !is_date(terms.maturity) {
        return Err(25);
    }
    let (coupon, _) = check(evaluation.max(issue), terms, room)?;
    if !prices.iter().fold(true, |good, price| good & (1..=10_000_000).contains(price)) {
        return Err(28);
    }
    if month_number(issue) < 3 || month_number(terms.maturity) - 2 >= prices.len() {
        return Err(29);
    }
    Ok(coupon)
}

// How many flows there are, or the refusal's number. Flows are gathered before any is written; coupons that are paid matter to a
// BTP Italia alone.
fn write_flows(
    evaluation: Date,
    issue: Date,
    terms: &Terms,
    btp_italia: bool,
    prices: &[u32],
    buffer: &mut [u8],
) -> Result<u32, u32> {
    let coupon = check_linker(evaluation, issue, terms, prices, buffer.len())?;
    let (maturity, step) = (terms.maturity, 12 / terms.frequency);
    let due = dates_after(evaluation.max(issue), maturity, step);
    let first = if btp_italia { dates_after(issue, maturity, step) } else { due };
    let mut base = index_number(prices, issue);
    let today = day_number(evaluation);
    let (mut flows, mut count) = ([(0, 0); 120], 0);
    for back in (0..first).rev() {
        let date = coupon_date(maturity, back * step);
        let number = index_number(prices, date);
        if back < due {
            let indexed = nearest(coupon as u64 * nearest(100_000 * number, base), 100_000);
            if indexed > 10_000_000 {
                return Err(30);
            }
            let amount = if back == 0 { indexed as u32 + 1_000_000 } else { indexed as u32 };
            if amount > 0 {
                flows[count] = (day_number(date) - today, amount);
                count += 1;
            }
        }
        if btp_italia {
            base = base.max(number);
        }
    }
    for (record, &(days, amount)) in buffer.chunks_exact_mut(8).zip(&flows[..count]) {
        put(record, days, amount);
    }
    Ok(count as u32)
}

// ---------------------------------------------------------------------------------------------------------------------
// Both, in one run
// ---------------------------------------------------------------------------------------------------------------------

type Unit = fn(Date, Date, &Terms, u32, &[u32], &mut [u8]) -> u32;

// The unit, plain Rust.
const UNITS: [Unit; 2] = [margin_unit::call_linker_flows, plain_linker_flows];

// Both come to the same, in the answer and in every byte.
fn compare(Call { linker, room }: &Call) -> u32 {
    let ((evaluation, terms), issue) = (handed(&linker.terms), handed_date(linker.issue));
    let [ours, plain] = UNITS.map(|unit| {
        let mut lent: Vec<u8> = (0..*room).map(|i| 255 - i as u8).collect();
        (unit(evaluation, issue, &terms, linker.btp_italia, &linker.prices, &mut lent), lent)
    });
    assert!(ours == plain, "the unit differs from plain Rust: {linker:?}, {room} bytes");
    ours.0
}

// Every number of flows and every refusal has to occur.
fn compare_many() {
    let mut random = Random::new(3);
    let mut calls: Vec<Call> =
        examples().into_iter().map(|linker| Call { linker, room: MOST_BYTES }).collect();
    calls.extend([faults_alone(), faults_in_pairs()].concat().into_iter().map(|(_, call)| call));
    let by_chance = (0..BY_CHANCE).map(|_| any_call(&mut random));
    let mut codes: Vec<u32> = calls.into_iter().chain(by_chance).map(|call| compare(&call)).collect();
    codes.sort();
    codes.dedup();
    assert!(codes.into_iter().eq((1..=120).chain((25..=30).map(|number| number * 65_536))));
}

// Issued up to ten years before evaluation, from April 2000 on.
fn issues(bonds: &[schedule::Terms]) -> Vec<schedule::Date> {
    let mut random = Random::new(4);
    let issue = |terms: &schedule::Terms| {
        let before = terms.evaluation.months_before(random.between(0, 120) as u32);
        before.max(schedule::date(2_000, 4, 1))
    };
    bonds.iter().map(issue).collect()
}

// An index that rises by 2 % a year, about, for so many months.
fn index(count: usize) -> Vec<u32> {
    let mut random = Random::new(5);
    let mut price = 1_000_000;
    let next = |_| {
        price = price * random.between(9_980, 10_053) / 10_000;
        price as u32
    };
    (0..count).map(next).collect()
}

// All bonds of a set take the prices that the last of them to mature needs.
fn time_linkers(what: &str, bonds: &[schedule::Terms], btp_italia: u32) {
    let issues = issues(bonds);
    let prices = index(bonds.iter().map(|terms| months_needed(terms.maturity)).max().unwrap());
    let bonds = || bonds.iter().zip(&issues);
    let counts = bonds().map(|(&terms, &issue)| {
        let linker = linker(terms, issue, btp_italia, prices.clone());
        compare(&Call { linker, room: MOST_BYTES })
    });
    let counts: Vec<u32> = counts.collect();
    assert!(counts.iter().all(|&count| count <= 120), "terms are refused");
    let handed: Vec<_> = bonds().map(|(terms, &issue)| (handed(terms), handed_date(issue))).collect();
    let run = UNITS.map(|unit| {
        let mut lent = [0; MOST_BYTES];
        let (handed, prices) = (&handed, &prices);
        move || {
            let call = |((evaluation, terms), issue): &((Date, Terms), Date)| {
                unit(*evaluation, *issue, terms, btp_italia, prices, black_box(&mut lent))
            };
            handed.iter().map(call).sum()
        }
    });
    time_both(&format!("{what}, {} prices", prices.len()), counts.iter().sum(), run);
}

fn main() {
    compare_many();
    time_linkers("usual BTP Italia", &bonds([2, 10], [1_000, 40_000], &[2]), 1);
    time_linkers("usual others", &bonds([2, 30], [1_000, 40_000], &[1, 2]), 0);
    time_linkers("long BTP Italia", &bonds([59, 59], [1_000, 40_000], &[2]), 1);
    time_linkers("long others", &bonds([59, 59], [1_000, 40_000], &[2]), 0);
}
