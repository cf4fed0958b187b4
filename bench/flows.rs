// How long the unit takes to write a bond's flows from its terms, beside plain Rust.
//
// The same bonds go to the unit's static library and to plain Rust, which works out a date's day number by the formula that is
// usual for it and not by a table. Answers and all bytes have to be equal, of these and of many good and damaged terms with
// buffers that are at times too short, before anything is timed. README.md has the commands.

#[allow(dead_code)]
#[path = "../oracle"]
mod oracle {
    pub mod book;
    pub mod random;
    pub mod schedule;
    pub mod schedule_terms;
    pub mod store;
    pub mod valuing;
}
#[allow(dead_code)]
#[path = "../bindings/rust/margin_unit.rs"]
mod margin_unit;
mod terms;
use margin_unit::{Date, Terms};
use oracle::random::Random;
use oracle::schedule;
use oracle::schedule_terms::{any_call, examples, faults_alone, faults_in_pairs, Call, MOST_BYTES};
use std::hint::black_box;
use terms::*;

// Calls by chance that are compared.
const BY_CHANCE: usize = 20_000;

// ---------------------------------------------------------------------------------------------------------------------
// Plain Rust
// ---------------------------------------------------------------------------------------------------------------------

fn plain_flows(evaluation: Date, terms: &Terms, buffer: &mut [u8]) -> u32 {
    code_of(write_flows(evaluation, terms, buffer))
}

// How many flows there are, or the refusal's number.
fn write_flows(evaluation: Date, terms: &Terms, buffer: &mut [u8]) -> Result<u32, u32> {
    let Terms { maturity, frequency, .. } = *terms;
    if !is_date(evaluation) || !is_date(maturity) {
        return Err(25);
    }
    let (coupon, count) = check(evaluation, terms, buffer.len())?;
    let (today, step) = (day_number(evaluation), 12 / frequency);
    for (record, back) in buffer.chunks_exact_mut(8).zip((0..count).rev()) {
        let days = day_number(coupon_date(maturity, back * step)) - today;
        put(record, days, if back == 0 { coupon + 1_000_000 } else { coupon });
    }
    Ok(count)
}

// ---------------------------------------------------------------------------------------------------------------------
// Both, in one run
// ---------------------------------------------------------------------------------------------------------------------

type Unit = fn(Date, &Terms, &mut [u8]) -> u32;

// The unit, plain Rust.
const UNITS: [Unit; 2] = [margin_unit::call_flows, plain_flows];

// Both come to the same, in the answer and in every byte.
fn compare(&Call { terms, room }: &Call) -> u32 {
    let (evaluation, bond) = handed(&terms);
    let [ours, plain] = UNITS.map(|unit| {
        let mut lent: Vec<u8> = (0..room).map(|i| 255 - i as u8).collect();
        (unit(evaluation, &bond, &mut lent), lent)
    });
    assert!(ours == plain, "the unit differs from plain Rust: {terms:?}, {room} bytes");
    ours.0
}

// Every number of flows and every refusal has to occur.
fn compare_many() {
    let mut random = Random::new(1);
    let mut calls: Vec<Call> = examples().iter().map(|&terms| Call { terms, room: MOST_BYTES }).collect();
    calls.extend([faults_alone(), faults_in_pairs()].concat().iter().map(|&(_, call)| call));
    calls.extend((0..BY_CHANCE).map(|_| any_call(&mut random)));
    let mut codes: Vec<u32> = calls.iter().map(compare).collect();
    codes.sort();
    codes.dedup();
    assert!(codes.into_iter().eq((1..=120).chain([25, 26, 27].map(|number| number * 65_536))));
}

fn time_bonds(what: &str, bonds: &[schedule::Terms]) {
    let counts: Vec<u32> = bonds.iter().map(|&terms| compare(&Call { terms, room: MOST_BYTES })).collect();
    assert!(counts.iter().all(|&count| count <= 120), "terms are refused");
    let flows: u32 = counts.iter().sum();
    let handed: Vec<(Date, Terms)> = bonds.iter().map(handed).collect();
    let run = UNITS.map(|unit| {
        let mut lent = [0; MOST_BYTES];
        let handed = &handed;
        move || handed.iter().map(|(evaluation, bond)| unit(*evaluation, bond, black_box(&mut lent))).sum()
    });
    time_both(what, flows, run);
}

fn main() {
    compare_many();
    time_bonds("usual bonds", &bonds([2, 30], [1_000, 60_000], &[1, 2]));
    time_bonds("long bonds", &bonds([59, 59], [1_000, 60_000], &[2]));
    time_bonds("zero-coupon bonds", &bonds([1, 30], [0, 0], &[1, 2]));
}
