// Terms of bonds and lent buffers: by hand, with a fault, by chance, damaged. For the tests of the bindings, in C and in Rust,
// and the benchmark.

use super::random::Random;
use super::schedule::{date, month_length, Date, Terms, FIRST, LAST};

// Terms, and the bytes of the lent buffer.
#[derive(Clone, Copy, Debug, PartialEq)]
pub struct Call {
    pub terms: Terms,
    pub room: usize,
}

// Bytes that suffice for every bond.
pub const MOST_BYTES: usize = 8 * 120;

pub fn terms(evaluation: Date, maturity: Date, rate: u32, frequency: u32) -> Terms {
    Terms { evaluation, maturity, rate, frequency }
}

// ---------------------------------------------------------------------------------------------------------------------
// By hand
// ---------------------------------------------------------------------------------------------------------------------

// Good terms.
pub fn examples() -> Vec<Terms> {
    let spring = date(2018, 4, 20);
    let mut examples: Vec<Terms> = [0, 1, 2, 3, 40_000, 99_999, 999_999, 1_000_000]
        .iter()
        .flat_map(|&rate| [1, 2].map(|frequency| terms(spring, date(2020, 8, 31), rate, frequency)))
        .collect();
    examples.extend([
        terms(spring, date(2018, 4, 21), 50_000, 1),
        terms(spring, date(2020, 9, 30), 50_000, 2),
        terms(spring, date(2024, 2, 29), 50_000, 1),
        terms(spring, date(2024, 2, 29), 50_000, 2),
        terms(spring, date(2023, 2, 28), 50_000, 2),
        terms(date(2019, 8, 30), date(2021, 8, 31), 50_000, 2),
        terms(date(2019, 8, 31), date(2021, 8, 31), 50_000, 2),
        terms(date(2019, 9, 1), date(2021, 8, 31), 50_000, 2),
        terms(FIRST, FIRST.next_day(), 50_000, 2),
        terms(FIRST, date(2000, 2, 29), 50_000, 2),
        terms(FIRST, date(2060, 1, 1), 50_000, 2),
        terms(date(2000, 7, 1), date(2060, 7, 1), 1, 2),
        terms(date(2099, 12, 30), LAST, 50_000, 2),
        terms(date(2040, 1, 1), LAST, 50_000, 2),
        terms(FIRST, LAST, 50_000, 1),
        terms(FIRST, LAST, 0, 2),
    ]);
    examples
}

// ---------------------------------------------------------------------------------------------------------------------
// Faults
// ---------------------------------------------------------------------------------------------------------------------

// What refuses a good call: its number, and the edit that puts it. They stand by rising number, and the earlier of two stays a
// fault where its edit comes second.
pub type Fault = (u32, fn(&mut Call));

pub const FAULTS: [Fault; 36] = [
    (25, |call| call.terms.evaluation.year = 1999),
    (25, |call| call.terms.evaluation.year = 2100),
    (25, |call| call.terms.evaluation.year = 0),
    (25, |call| call.terms.evaluation.year |= 65_536),
    (25, |call| call.terms.evaluation.month = 0),
    (25, |call| call.terms.evaluation.month = 13),
    (25, |call| call.terms.evaluation.month = u32::MAX),
    (25, |call| call.terms.evaluation.day = 0),
    (25, |call| call.terms.evaluation.day = 32),
    (25, |call| call.terms.evaluation.day = u32::MAX),
    (25, |call| call.terms.evaluation = date(2001, 2, 29)),
    (25, |call| call.terms.evaluation = date(2018, 4, 31)),
    (25, |call| call.terms.maturity.year = 1999),
    (25, |call| call.terms.maturity.year = 2100),
    (25, |call| call.terms.maturity.year = u32::MAX),
    (25, |call| call.terms.maturity.month = 0),
    (25, |call| call.terms.maturity.month = 13),
    (25, |call| call.terms.maturity.month |= 256),
    (25, |call| call.terms.maturity.day = 0),
    (25, |call| call.terms.maturity.day = 32),
    (25, |call| call.terms.maturity.day |= 256),
    (25, |call| call.terms.maturity = date(2099, 2, 29)),
    (25, |call| call.terms.maturity = date(2000, 2, 30)),
    (26, |call| call.terms.maturity = call.terms.evaluation),
    (26, |call| (call.terms.evaluation, call.terms.maturity) = (date(2060, 7, 1), FIRST)),
    (26, |call| (call.terms.evaluation, call.terms.maturity) = (date(2020, 3, 1), date(2020, 2, 29))),
    (27, |call| call.terms.frequency = 0),
    (27, |call| call.terms.frequency = 3),
    (27, |call| call.terms.frequency = 12),
    (27, |call| call.terms.frequency |= 65_536),
    (27, |call| call.terms.frequency = u32::MAX),
    (27, |call| call.terms.rate = 1_000_001),
    (27, |call| call.terms.rate = u32::MAX),
    (27, |call| *call = Call { terms: terms(FIRST, date(2060, 7, 1), 50_000, 2), room: 8 * 121 }),
    (27, |call| call.room = 39),
    (27, |call| call.room = 0),
];

// A good call with no byte to spare.
pub fn sound() -> Call {
    Call { terms: terms(date(2018, 4, 20), date(2020, 8, 31), 40_000, 2), room: 40 }
}

// That call after the edits of some faults, with the number of the last.
fn with(edits: &[Fault]) -> (u32, Call) {
    let mut call = sound();
    edits.iter().for_each(|(_, edit)| edit(&mut call));
    (edits.last().unwrap().0, call)
}

pub fn faults_alone() -> Vec<(u32, Call)> {
    FAULTS.iter().map(|&fault| with(&[fault])).collect()
}

// Every two, with the number that counts: the lower one.
pub fn faults_in_pairs() -> Vec<(u32, Call)> {
    let rising = |i: usize| FAULTS[i + 1..].iter().map(move |&second| with(&[second, FAULTS[i]]));
    (0..FAULTS.len()).flat_map(rising).collect()
}

// ---------------------------------------------------------------------------------------------------------------------
// By chance
// ---------------------------------------------------------------------------------------------------------------------

// A date of the calendar, often late in its month, at times in the calendar's first or last year.
pub fn any_date(random: &mut Random) -> Date {
    let year = match random.between(0, 9) {
        0 => random.any(&[2000, 2099]),
        _ => random.between(2000, 2099) as u32,
    };
    let month = random.between(1, 12) as u32;
    let length = month_length(year, month);
    let day = match random.between(0, 2) {
        0 => random.between(28, length as u64) as u32,
        _ => random.between(1, length as u64) as u32,
    };
    date(year, month, day)
}

fn any_terms(random: &mut Random) -> Terms {
    let rate = match random.between(0, 3) {
        0 => random.any(&[0, 0, 1, 2, 3, 999_999, 1_000_000]),
        1 => random.between(0, 1_000_000) as u32,
        _ => random.between(1, 100_000) as u32,
    };
    terms(any_date(random), any_date(random), rate, random.any(&[1, 2, 2]))
}

// Terms that are refused for nothing but a short buffer.
pub fn good_terms(random: &mut Random) -> Terms {
    loop {
        let good = any_terms(random);
        if good.flows(MOST_BYTES).is_ok() {
            return good;
        }
    }
}

// Numbers within and past the bounds of some field.
const NEAR: [u32; 16] = [0, 1, 2, 3, 12, 13, 29, 30, 31, 32, 1999, 2000, 2099, 2100, 1_000_001, u32::MAX];

// Good terms with a field or two changed: to a number near a bound, by a bit, or to that of other terms.
pub fn damaged_terms(random: &mut Random) -> Terms {
    let mut damaged = good_terms(random);
    for _ in 0..random.any(&[1, 1, 2]) {
        let mut other = any_terms(random);
        let place = random.between(0, 7) as usize;
        change(random, fields(&mut damaged)[place], *fields(&mut other)[place]);
    }
    damaged
}

// A field changed to a number near a bound, by a bit, or to another's.
pub fn change(random: &mut Random, field: &mut u32, other: u32) {
    let bit = 1 << random.between(0, 31);
    *field = [random.any(&NEAR), *field ^ bit, other][random.between(0, 2) as usize];
}

pub fn fields(terms: &mut Terms) -> [&mut u32; 8] {
    let Terms { evaluation, maturity, rate, frequency } = terms;
    [
        &mut evaluation.year,
        &mut evaluation.month,
        &mut evaluation.day,
        &mut maturity.year,
        &mut maturity.month,
        &mut maturity.day,
        rate,
        frequency,
    ]
}

// The bytes that its flows take, and about as many: none, one short, one or many more. Where they are refused, about those
// of a flow.
pub fn rooms(terms: &Terms) -> [usize; 5] {
    let needed = 8 * terms.flows(MOST_BYTES).map_or(1, |flows| flows.len());
    [0, needed - 1, needed, needed + 1, needed + 1_000]
}

// One in four damaged, and buffers that mostly suffice.
pub fn any_call(random: &mut Random) -> Call {
    let terms = match random.between(0, 3) {
        0 => damaged_terms(random),
        _ => good_terms(random),
    };
    Call { terms, room: any_room(random, rooms(&terms)) }
}

pub fn any_room(random: &mut Random, [none, short, enough, longer, long]: [usize; 5]) -> usize {
    random.any(&[none, short, enough, enough, longer, longer, long, long])
}
