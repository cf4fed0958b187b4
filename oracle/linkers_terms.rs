// Inflation bonds, index prices and lent buffers: by hand, with a fault, by chance, damaged. For the tests of the bindings, in C
// and in Rust, and the benchmark.

use super::linkers::{Linker, MOST_PRICE};
use super::random::Random;
use super::schedule::{date, month_length, Date, Terms, FIRST, LAST};
use super::schedule_terms::{self, any_date, any_room, change, good_terms, terms, FAULTS, MOST_BYTES};

// A bond with its prices, and the bytes of the lent buffer.
#[derive(Clone, Debug, PartialEq)]
pub struct Call {
    pub linker: Linker,
    pub room: usize,
}

pub fn linker(terms: Terms, issue: Date, btp_italia: u32, prices: Vec<u32>) -> Linker {
    Linker { terms, issue, btp_italia, prices }
}

// How many prices a bond needs that matures then: up to that of the month two before.
pub fn months_needed(maturity: Date) -> usize {
    (12 * (maturity.year as usize - 2000) + maturity.month as usize).saturating_sub(2)
}

// The bond with none of its prices, with one too few, with just enough, and with one and many more.
pub fn with_lists(linker: &Linker) -> [Linker; 5] {
    let needed = months_needed(linker.terms.maturity);
    [0, needed - 1, needed, needed + 1, needed + 100].map(|length| {
        let mut linker = linker.clone();
        linker.prices.resize(length, MOST_PRICE);
        linker
    })
}

// ---------------------------------------------------------------------------------------------------------------------
// By hand
// ---------------------------------------------------------------------------------------------------------------------

// A price for each month, from some months' own: of the others it is that of the last before it.
pub fn prices_from(count: usize, first: u32, own: &[(u32, u32, u32)]) -> Vec<u32> {
    let mut prices = vec![first; count];
    for &(year, month, price) in own {
        prices[(12 * (year - 2000) + month - 1) as usize..].fill(price);
    }
    prices
}

// A row of document 004's example: of issue or a coupon date the prices of three and of two months before, the index number and
// the coefficient, all of four decimals.
#[derive(Clone, Copy, Debug)]
pub struct Row {
    pub three: u32,
    pub two: u32,
    pub number: i128,
    pub coefficient: u32,
}

const fn row(three: u32, two: u32, number: i128, coefficient: u32) -> Row {
    Row { three, two, number, coefficient }
}

// A BTP Italia of 23 April 2014 that matures on 23 April 2020.
pub const PRINTED: [Row; 13] = [
    row(1_001_867, 1_000_934, 1_001_183, 10_000),
    row(1_001_867, 1_003_735, 1_003_193, 10_020),
    row(994_398, 997_199, 996_452, 9_933),
    row(1_000_934, 1_002_801, 1_002_259, 9_991),
    row(997_000, 995_000, 995_533, 9_924),
    row(1_000_000, 1_002_000, 1_001_419, 9_982),
    row(1_006_000, 1_010_000, 1_008_933, 10_057),
    row(1_010_000, 1_014_000, 1_012_839, 10_039),
    row(1_015_000, 1_015_000, 1_015_000, 10_021),
    row(1_019_800, 1_020_512, 1_020_305, 10_052),
    row(1_024_024, 1_024_667, 1_024_495, 10_041),
    row(1_029_478, 1_030_520, 1_030_218, 10_056),
    row(1_035_662, 1_036_637, 1_036_377, 10_060),
];

pub fn printed_bond(evaluation: Date, rate: u32, btp_italia: u32) -> Linker {
    let months = (0..).map(|half| (2014 + half / 2, 1 + 6 * (half % 2)));
    let own =
        |((year, month), row): ((u32, u32), Row)| [(year, month, row.three), (year, month + 1, row.two)];
    let own: Vec<_> = months.zip(PRINTED).flat_map(own).collect();
    let (issue, maturity) = (date(2014, 4, 23), date(2020, 4, 23));
    let prices = prices_from(months_needed(maturity), 900_000, &own);
    linker(terms(evaluation, maturity, rate, 2), issue, btp_italia, prices)
}

// Prices that rise or fall by so many ten-thousandths of themselves a month.
pub fn steady_prices(count: usize, first: u32, change: i64) -> Vec<u32> {
    let mut price = first as i64;
    let next = |_| {
        let this = price;
        price = (price + price * change / 10_000).clamp(1, MOST_PRICE as i64);
        this as u32
    };
    (0..count).map(next).collect()
}

// Inflation, deflation, and prices that rise, fall and rise again.
fn markets(count: usize) -> Vec<Vec<u32>> {
    let mut waves = steady_prices(count, 1_000_000, 20);
    waves.iter_mut().enumerate().for_each(|(i, price)| *price -= 20_000 * (i as u32 / 3 % 5));
    vec![
        vec![1_000_000; count],
        steady_prices(count, 1_000_000, 15),
        steady_prices(count, 1_000_000, -15),
        steady_prices(count, MOST_PRICE, -2_000),
        waves,
    ]
}

// Good bonds: of both kinds, before issue, at it and after it, with day 1, month ends and Februaries, at every kind of rate.
pub fn examples() -> Vec<Linker> {
    let (issue, today) = (date(2014, 4, 23), date(2018, 4, 20));
    let mut examples = Vec::new();
    for btp_italia in [0, 1] {
        for evaluation in [FIRST, issue, date(2014, 10, 22), date(2014, 10, 23), today, date(2020, 4, 22)] {
            examples.push(printed_bond(evaluation, 8_250, btp_italia));
        }
        for rate in [0, 1, 2, 3, 999_999, 1_000_000] {
            examples.push(printed_bond(today, rate, btp_italia));
        }
    }
    let bonds = [
        (terms(today, date(2024, 2, 29), 16_500, 2), date(2012, 8, 29)),
        (terms(today, date(2023, 2, 28), 16_500, 1), date(2013, 2, 27)),
        (terms(today, date(2020, 8, 31), 16_500, 2), date(2014, 2, 28)),
        (terms(today, date(2026, 9, 1), 4_000, 2), date(2018, 3, 1)),
        (terms(today, date(2026, 9, 15), 4_000, 2), date(2020, 3, 31)),
        (terms(today, date(2018, 4, 21), 4_000, 1), date(2018, 4, 20)),
        (terms(FIRST, date(2060, 4, 1), 25_000, 2), date(2000, 4, 1)),
        (terms(date(2039, 12, 31), LAST, 25_000, 2), date(2001, 5, 31)),
        (terms(FIRST, LAST, 1_000_000, 1), date(2000, 4, 30)),
    ];
    for (terms, issue) in bonds {
        let markets = markets(months_needed(terms.maturity)).into_iter().enumerate();
        examples.extend(markets.map(|(i, prices)| linker(terms, issue, i as u32 % 2, prices)));
    }
    examples.extend(edges());
    examples
}

// Coupons of 10,000,000 after indexing, on the way and at maturity, and one of 10,000,001 that is paid; coupons that become 0,
// and two that round to 1; halves of index numbers, in a February of 28 days.
fn edges() -> Vec<Linker> {
    let (issue, maturity) = (date(2018, 5, 1), date(2020, 5, 2));
    let bond = |evaluation, rate, prices| linker(terms(evaluation, maturity, rate, 2), issue, 0, prices);
    let count = months_needed(maturity);
    let to = |year, price| prices_from(count, 10_000, &[(year, 1, price)]);
    let february =
        linker(terms(date(2018, 1, 1), date(2019, 2, 8), 1_000_000, 2), date(2018, 1, 8), 0, falling());
    vec![
        bond(issue, 200_000, to(2019, 1_000_000)),
        bond(issue, 200_000, to(2020, 1_000_000)),
        bond(date(2019, 12, 31), 200_000, over_by_one(count, 2019)),
        bond(issue, 200_000, to(2019, 1)),
        bond(issue, 20, prices_from(count, 1_000, &[(2019, 2, 49), (2019, 8, 50), (2020, 2, 51)])),
        Linker { btp_italia: 1, ..february.clone() },
        february,
    ]
}

// An index of 1,000,000.1 ten-thousandths on 2 May of the year, 100.00001 times the first prices.
pub fn over_by_one(count: usize, year: u32) -> Vec<u32> {
    prices_from(count, 10_000, &[(year, 2, 1_000_000), (year, 3, 1_000_003), (year, 4, 1_000_000)])
}

// The price of three months before 8 February 2019 is 107, and of two before 100: 105.25.
pub fn falling() -> Vec<u32> {
    prices_from(months_needed(date(2019, 2, 8)), 107, &[(2018, 12, 100)])
}

// ---------------------------------------------------------------------------------------------------------------------
// Faults
// ---------------------------------------------------------------------------------------------------------------------

// What refuses a good call: its number, and the edit that puts it. They stand by rising number, and the earlier of two stays a
// fault where its edit comes second.
type Fault = (u32, Box<dyn Fn(&mut Call)>);

// A good call with no byte and no price to spare, and many paid coupons.
pub fn sound() -> Call {
    let schedule_terms::Call { terms, room } = schedule_terms::sound();
    let prices = steady_prices(months_needed(terms.maturity), 1_000_000, 10);
    Call { linker: linker(terms, date(2000, 4, 15), 1, prices), room }
}

// Of issue, of prices and of coupons.
const OWN_FAULTS: [(u32, fn(&mut Call)); 28] = [
    (25, |call| call.linker.issue.year = 1999),
    (25, |call| call.linker.issue.year = 2100),
    (25, |call| call.linker.issue.year = u32::MAX),
    (25, |call| call.linker.issue.year |= 65_536),
    (25, |call| call.linker.issue.month = 0),
    (25, |call| call.linker.issue.month = 13),
    (25, |call| call.linker.issue.month |= 256),
    (25, |call| call.linker.issue.day = 0),
    (25, |call| call.linker.issue.day = 32),
    (25, |call| call.linker.issue = date(2001, 2, 29)),
    (25, |call| call.linker.issue = date(2018, 4, 31)),
    (26, |call| call.linker.issue = call.linker.terms.maturity),
    (26, |call| (call.linker.issue, call.linker.terms.maturity) = (LAST, date(2099, 12, 30))),
    (27, |call| {
        call.linker.issue = date(2019, 8, 31);
        call.linker.terms = terms(date(2018, 4, 20), date(2020, 8, 31), 40_000, 2);
        call.room = 15;
    }),
    (28, |call| put(call, 0, 0)),
    (28, |call| put(call, 0, MOST_PRICE + 1)),
    (28, |call| put(call, 100, 0)),
    (28, |call| put(call, 245, u32::MAX)),
    (28, |call| put(call, 246, 0)),
    (28, |call| put(call, 2_000, MOST_PRICE + 1)),
    (29, |call| call.linker.prices.clear()),
    (29, |call| call.linker.prices.truncate(1)),
    (29, |call| call.linker.prices.truncate(245)),
    (29, |call| call.linker.issue = FIRST),
    (29, |call| call.linker.issue = date(2000, 3, 31)),
    (29, |call| {
        call.linker.terms.maturity = date(2020, 9, 1);
        call.linker.prices.truncate(246);
    }),
    (30, |call| {
        call.linker.terms.rate = 1_000_000;
        call.linker.prices[..230].fill(1);
    }),
    (30, |call| {
        call.linker.terms.rate = 200_000;
        call.linker.prices.fill(10_000);
        call.linker.prices[244..].copy_from_slice(&[1_000_003, 1_000_000]);
    }),
];

// The price of a month, in a list that reaches there.
fn put(call: &mut Call, month: usize, price: u32) {
    let prices = &mut call.linker.prices;
    prices.resize(prices.len().max(month + 1), 1_000_000);
    prices[month] = price;
}

// Those of any bond's terms, and an inflation bond's own.
fn faults() -> Vec<Fault> {
    let mut faults: Vec<Fault> = OWN_FAULTS.map(|(number, edit)| (number, Box::new(edit) as Box<_>)).into();
    for (number, edit) in FAULTS {
        let edit = move |call: &mut Call| {
            let mut bond = schedule_terms::Call { terms: call.linker.terms, room: call.room };
            edit(&mut bond);
            (call.linker.terms, call.room) = (bond.terms, bond.room);
        };
        faults.push((number, Box::new(edit)));
    }
    faults.sort_by_key(|&(number, _)| number);
    faults
}

// That call after the edits of some faults, with the number of the last.
fn with(edits: &[&Fault]) -> (u32, Call) {
    let mut call = sound();
    edits.iter().for_each(|(_, edit)| edit(&mut call));
    (edits.last().unwrap().0, call)
}

pub fn faults_alone() -> Vec<(u32, Call)> {
    faults().iter().map(|fault| with(&[fault])).collect()
}

// Every two, with the number that counts: the lower one.
pub fn faults_in_pairs() -> Vec<(u32, Call)> {
    let faults = faults();
    let rising =
        |i: usize| faults[i + 1..].iter().map(|second| with(&[second, &faults[i]])).collect::<Vec<_>>();
    (0..faults.len()).flat_map(rising).collect()
}

// ---------------------------------------------------------------------------------------------------------------------
// By chance
// ---------------------------------------------------------------------------------------------------------------------

// Prices that hardly move, that rise or fall a lot, small ones, and any.
pub fn any_prices(random: &mut Random, count: usize) -> Vec<u32> {
    let (first, low, high) = match random.between(0, 7) {
        0 => return (0..count).map(|_| random.between(1, MOST_PRICE as u64) as u32).collect(),
        1 => (1_000, 9_900, 10_300),
        2 => (MOST_PRICE as u64, 9_300, 10_050),
        3 => (random.between(1, 300), 9_000, 11_200),
        4 => (1_000_000, 10_000, 10_000),
        _ => (1_000_000, 9_930, 10_090),
    };
    let mut price = first;
    let next = |_| {
        price = (price * random.between(low, high) / 10_000).clamp(1, MOST_PRICE as u64);
        price as u32
    };
    (0..count).map(next).collect()
}

// Issue: any date, one of the years before evaluation, or a coupon date and the days about it.
fn any_issue(random: &mut Random, terms: &Terms) -> Date {
    let Terms { evaluation, maturity, .. } = *terms;
    let mut issue = any_date(random);
    match random.between(0, 7) {
        0 => return evaluation,
        1 => return maturity.months_before(6 * random.between(1, 12) as u32),
        2 => return maturity.months_before(6 * random.between(1, 12) as u32).next_day(),
        3 | 4 => {}
        _ => issue.year = (evaluation.year - random.between(0, 20) as u32).max(2000),
    }
    let day = random.any(&[1, issue.day, issue.day, issue.day]);
    Date { day: day.min(month_length(issue.year, issue.month)), ..issue }
}

fn any_linker(random: &mut Random) -> Linker {
    let mut terms = good_terms(random);
    if random.between(0, 7) == 0 {
        terms.maturity.day = 1;
    }
    let spare = random.any(&[0, 0, 0, 1, 100]);
    let prices = any_prices(random, months_needed(terms.maturity) + spare);
    linker(terms, any_issue(random, &terms), random.any(&[0, 0, 0, 1, 1, 2, 65_536, u32::MAX]), prices)
}

// A bond that is refused for nothing but a short buffer.
pub fn good_linker(random: &mut Random) -> Linker {
    loop {
        let good = any_linker(random);
        if good.flows(MOST_BYTES).is_ok() {
            return good;
        }
    }
}

// A good bond with a field or two changed, prices taken away or one changed, or those up to some month far lower.
pub fn damaged_linker(random: &mut Random) -> Linker {
    let mut damaged = good_linker(random);
    for _ in 0..random.any(&[1, 1, 2]) {
        match random.between(0, 5) {
            0..=2 => {
                let mut other = any_linker(random);
                let place = random.between(0, 11) as usize;
                change(random, fields(&mut damaged)[place], *fields(&mut other)[place]);
            }
            3 => damage_length(random, &mut damaged.prices),
            4 => damage_price(random, &mut damaged.prices),
            _ => {
                let low = random.between(0, damaged.prices.len() as u64) as usize;
                damaged.prices[..low].iter_mut().for_each(|price| *price = (*price / 1_000).max(1));
            }
        }
    }
    damaged
}

fn fields(linker: &mut Linker) -> Vec<&mut u32> {
    let Linker { terms, issue, btp_italia, .. } = linker;
    let own = [&mut issue.year, &mut issue.month, &mut issue.day, btp_italia];
    schedule_terms::fields(terms).into_iter().chain(own).collect()
}

fn damage_length(random: &mut Random, prices: &mut Vec<u32>) {
    let (most, any) = (prices.len(), random.between(0, prices.len() as u64) as usize);
    prices.truncate(random.any(&[0, 1, most.saturating_sub(1), most.saturating_sub(2), any]));
}

// Any price, or one of the last year's.
fn damage_price(random: &mut Random, prices: &mut [u32]) {
    let back = random.any(&[1, 12, 2_000]).min(prices.len() as u64);
    if back > 0 {
        let place = prices.len() - random.between(1, back) as usize;
        prices[place] = random.any(&[0, 1, MOST_PRICE, MOST_PRICE + 1, u32::MAX]);
    }
}

// The bytes that its flows take before they are indexed, and about as many, as of any bond.
pub fn rooms(linker: &Linker) -> [usize; 5] {
    schedule_terms::rooms(&linker.unindexed())
}

// One in four damaged, and buffers that mostly suffice.
pub fn any_call(random: &mut Random) -> Call {
    let linker = match random.between(0, 3) {
        0 => damaged_linker(random),
        _ => good_linker(random),
    };
    let room = any_room(random, rooms(&linker));
    Call { linker, room }
}
