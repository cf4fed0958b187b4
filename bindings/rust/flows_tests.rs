//! `margin_unit_flows`, called from Rust, beside the oracle: every answer, every byte of the lent buffer and those around it.

use super::oracle::book::{read, Bond, Position, Refusal, FLOWS};
use super::oracle::random::Random;
use super::oracle::schedule::{code_of, date, held, month_length, Date, Flows, Terms, FIRST, LAST};
use super::oracle::schedule_terms::*;
use super::{accepted, margin_unit, named, refused, shape, FULL};

// ---------------------------------------------------------------------------------------------------------------------
// One call beside the oracle
// ---------------------------------------------------------------------------------------------------------------------

// Bytes before and after the lent ones, which nobody may write to; an odd number, so that the buffer is not aligned.
pub const AROUND: usize = 13;

// A lent buffer and what stands around it, each byte by its place.
pub fn lent(room: usize) -> Vec<u8> {
    (0..AROUND + room + AROUND).map(|i| (37 * i + 11) as u8).collect()
}

pub fn handed_date(Date { year, month, day }: Date) -> margin_unit::Date {
    margin_unit::Date { year, month, day }
}

pub fn handed(terms: &Terms) -> (margin_unit::Date, margin_unit::Terms) {
    let (maturity, rate, frequency) = (handed_date(terms.maturity), terms.rate, terms.frequency);
    (handed_date(terms.evaluation), margin_unit::Terms { maturity, rate, frequency })
}

pub fn refusal_of(Refusal { number, item }: Refusal) -> margin_unit::Refusal {
    margin_unit::Refusal { number, item: item as u32 }
}

// The library's answer and bytes are the oracle's; so are those of the safe function. That gets every byte turned over: one
// that is written with what it held in the first call is seen in the second.
pub fn compare_both(
    expected: &Result<Flows, Refusal>,
    room: usize,
    call: impl FnOnce(&mut [u8]) -> u32,
    write: impl FnOnce(&mut [u8]) -> Result<usize, margin_unit::Refusal>,
) {
    let inner = AROUND..AROUND + room;
    let (mut called, mut written) = (lent(room), lent(room));
    written.iter_mut().for_each(|byte| *byte = !*byte);
    let must = [&called, &written].map(|before| {
        let mut must = before.clone();
        must[inner.clone()].copy_from_slice(&held(expected, &before[inner.clone()]));
        must
    });
    assert_eq!(call(&mut called[inner.clone()]), code_of(expected), "{room} bytes");
    let result = write(&mut written[inner]);
    assert_eq!(result, expected.as_ref().map(Vec::len).map_err(|&refusal| refusal_of(refusal)));
    assert!([called, written] == must, "bytes differ: {room} bytes, {expected:?}");
}

fn compare(terms: Terms, room: usize) -> Result<Flows, Refusal> {
    let expected = terms.flows(room);
    let (evaluation, bond) = handed(&terms);
    compare_both(
        &expected,
        room,
        |buffer| margin_unit::call_flows(evaluation, &bond, buffer),
        |buffer| margin_unit::write_flows(evaluation, &bond, buffer),
    );
    expected
}

// The safe functions' flows, each by itself.
pub fn decoded(flows: Result<Flows, Refusal>) -> Result<Vec<margin_unit::Flow>, margin_unit::Refusal> {
    let flow = |(days, amount)| margin_unit::Flow { days, amount };
    flows.map(|flows| flows.into_iter().map(flow).collect()).map_err(refusal_of)
}

// Days and amounts, in a buffer with no byte to spare.
fn flows(terms: Terms) -> Flows {
    let flows = compare(terms, MOST_BYTES).unwrap_or_else(|refusal| panic!("{terms:?}: {refusal:?}"));
    compare(terms, 8 * flows.len()).unwrap()
}

fn refused_with(number: u32, terms: Terms, room: usize) {
    assert_eq!(compare(terms, room), Err(Refusal { number, item: 0 }), "{terms:?}, {room} bytes");
}

pub fn day_before(of: Date) -> Date {
    match of.day {
        1 => Date { day: 31, ..of }.months_before(1),
        day => Date { day: day - 1, ..of },
    }
}

// ---------------------------------------------------------------------------------------------------------------------
// Flows
// ---------------------------------------------------------------------------------------------------------------------

// Figures by hand, one bond each: the coupon, and the days of its flows.
#[test]
fn flows_by_hand() {
    let spring = date(2018, 4, 20);
    let summer = date(2020, 8, 31);
    let expected: [(Terms, u32, &[u16]); 14] = [
        (terms(spring, summer, 40_000, 2), 20_000, &[133, 314, 498, 680, 864]),
        (terms(spring, summer, 40_000, 1), 40_000, &[133, 498, 864]),
        (terms(spring, summer, 1, 2), 1, &[133, 314, 498, 680, 864]),
        (terms(spring, summer, 999_999, 2), 500_000, &[133, 314, 498, 680, 864]),
        (terms(spring, summer, 0, 2), 0, &[864]),
        (terms(spring, date(2020, 9, 30), 50_000, 2), 25_000, &[163, 344, 528, 710, 894]),
        (terms(spring, date(2024, 2, 29), 50_000, 1), 50_000, &[314, 680, 1_045, 1_410, 1_775, 2_141]),
        (terms(date(2019, 8, 30), date(2021, 8, 31), 50_000, 2), 25_000, &[1, 183, 367, 548, 732]),
        (terms(date(2019, 8, 31), date(2021, 8, 31), 50_000, 2), 25_000, &[182, 366, 547, 731]),
        (terms(date(2019, 9, 1), date(2021, 8, 31), 50_000, 2), 25_000, &[181, 365, 546, 730]),
        (terms(FIRST, date(2000, 1, 2), 50_000, 2), 25_000, &[1]),
        (terms(FIRST, date(2000, 2, 29), 50_000, 2), 25_000, &[59]),
        (terms(date(2099, 12, 30), LAST, 1_000_000, 1), 1_000_000, &[1]),
        (terms(FIRST, LAST, 0, 1), 0, &[36_524]),
    ];
    for (terms, coupon, days) in expected {
        let mut due: Flows = days.iter().map(|&days| (days, coupon)).collect();
        due.last_mut().unwrap().1 += 1_000_000;
        assert_eq!(flows(terms), due);
    }
}

// The decoded flows are those written.
#[test]
fn decoded_flows() {
    let mut random = Random::new(21);
    let by_chance = (0..500).map(|_| any_call(&mut random).terms);
    for terms in examples().into_iter().chain(by_chance) {
        let (evaluation, bond) = handed(&terms);
        assert_eq!(margin_unit::flows(evaluation, &bond), decoded(terms.flows(MOST_BYTES)));
    }
}

// From the calendar's first day to every other, from every day to the next, and from every day to the last.
#[test]
fn every_day() {
    let mut today = FIRST;
    for passed in 0..36_524 {
        let next = today.next_day();
        let days = |evaluation, maturity| compare(terms(evaluation, maturity, 0, 1), 8).unwrap()[0].0;
        assert_eq!(
            [days(FIRST, next), days(today, next), days(today, LAST)],
            [passed + 1, 1, 36_524 - passed]
        );
        today = next;
    }
    assert_eq!(today, LAST);
}

// Every day from the 28th of a month on as maturity, and evaluation about some of its coupon dates, at which the flows become
// fewer by one.
#[test]
fn month_ends() {
    let mut random = Random::new(22);
    let months = (2000..2100).flat_map(|year| (1..=12).map(move |month| (year, month)));
    for (year, month) in months {
        for day in 28..=month_length(year, month) {
            for frequency in [1, 2] {
                let maturity = date(year, month, day);
                about_coupon_dates(maturity, frequency, &mut random);
                let _ = compare(terms(FIRST, maturity, 30_001, frequency), MOST_BYTES);
            }
        }
    }
}

// The coupon date before maturity, one of those before that, and the earliest that the calendar or 120 flows allow.
fn about_coupon_dates(maturity: Date, frequency: u32, random: &mut Random) {
    let most = ((12 * (maturity.year - 2000) + maturity.month - 1) * frequency / 12).min(119);
    for after in [1, random.between(1, most.max(1) as u64) as u32, most] {
        let due = maturity.months_before(after * 12 / frequency);
        if FIRST < due && due < maturity {
            let count = |evaluation| flows(terms(evaluation, maturity, 30_001, frequency)).len() as u32;
            assert_eq!([day_before(due), due, due.next_day()].map(count), [after + 1, after, after]);
        }
    }
}

// Sixty years of half-yearly coupons are 120 flows; a day more of them, and there are 121.
#[test]
fn most_flows() {
    for (year, month) in (2000..2040).flat_map(|year| [(year, 1), (year, 6), (year, 7), (year, 12)]) {
        for day in [1, 2, 28] {
            let evaluation = date(year, month, day);
            let bond = terms(evaluation, date(year + 60, month, day), 30_000, 2);
            assert_eq!(flows(bond).len(), 120);
            if evaluation > FIRST {
                let earlier = Terms { evaluation: day_before(evaluation), ..bond };
                refused_with(27, earlier, 8 * 121);
                assert_eq!(flows(Terms { rate: 0, ..earlier }).len(), 1);
            }
        }
    }
    refused_with(27, terms(FIRST, date(2060, 7, 1), 1, 2), 8 * 121);
    refused_with(27, terms(FIRST, LAST, 1_000_000, 2), 8 * 200);
    assert_eq!(flows(terms(FIRST, LAST, 1_000_000, 1)).len(), 100);
}

// A coupon is the rate, or half of it, rounded up where it is odd.
#[test]
fn rates_and_frequencies() {
    let rates = [0, 1, 2, 3, 4, 5, 99_999, 999_998, 999_999, 1_000_000, 1_000_001, 1_000_002, u32::MAX];
    for rate in rates {
        for frequency in [0, 1, 2, 3, 4, 6, 12, 256, 257, 258, 65_537, 65_538, u32::MAX - 1, u32::MAX] {
            let bond = terms(date(2018, 4, 20), date(2020, 8, 31), rate, frequency);
            if rate > 1_000_000 || frequency == 0 || frequency > 2 {
                refused_with(27, bond, MOST_BYTES);
                continue;
            }
            let coupon = rate / frequency + rate % frequency;
            let due = flows(bond);
            assert!(due.iter().rev().skip(1).all(|&(_, amount)| amount == coupon));
            assert_eq!(due.last().unwrap().1, 1_000_000 + coupon);
            assert_eq!(due.len() as u32, if rate == 0 { 1 } else { 1 + 2 * frequency });
        }
    }
}

// ---------------------------------------------------------------------------------------------------------------------
// Refusals and buffers
// ---------------------------------------------------------------------------------------------------------------------

// Every fault by itself and every two: 25 comes before 26, and that before all of 27.
#[test]
fn faults() {
    assert_eq!(flows(sound().terms).len() * 8, sound().room);
    for (number, Call { terms, room }) in [faults_alone(), faults_in_pairs()].concat() {
        refused_with(number, terms, room);
    }
}

// Each refusal of terms that the header names.
#[test]
fn refusals_of_terms_by_name() {
    let spring = date(2018, 4, 20);
    let faults = [
        ("TERMS_DATE", terms(spring, date(2021, 2, 29), 40_000, 2)),
        ("TERMS_MATURITY", terms(spring, spring, 40_000, 2)),
        ("TERMS_RANGE", terms(spring, date(2020, 8, 31), 40_000, 3)),
    ];
    let mut refusals = named();
    refusals.retain(|(name, _)| name.starts_with("REFUSED_TERMS_"));
    assert_eq!(refusals.len(), faults.len());
    for ((name, number), (fault, terms)) in refusals.into_iter().zip(faults) {
        assert_eq!(name, format!("REFUSED_{fault}"));
        refused_with(number as u32, terms, MOST_BYTES);
        let (evaluation, bond) = handed(&terms);
        let refusal = margin_unit::flows(evaluation, &bond).unwrap_err();
        assert_eq!(refusal.to_string(), format!("refused {number} 0"));
    }
}

// Both ends of the calendar, and the days past them.
#[test]
fn ends_of_the_calendar() {
    let [early, late] = [date(1999, 12, 31), date(2100, 1, 1)];
    for inside in [FIRST, date(2050, 6, 15), LAST] {
        for outside in [early, late] {
            refused_with(25, terms(outside, inside, 40_000, 2), MOST_BYTES);
            refused_with(25, terms(inside, outside, 40_000, 2), MOST_BYTES);
        }
        refused_with(26, terms(inside, inside, 40_000, 2), MOST_BYTES);
        refused_with(26, terms(inside, FIRST, 40_000, 2), MOST_BYTES);
        refused_with(26, terms(LAST, inside, 40_000, 2), MOST_BYTES);
    }
    for (evaluation, maturity) in [(early, late), (late, early), (early, early), (late, late)] {
        refused_with(25, terms(evaluation, maturity, 40_000, 2), MOST_BYTES);
    }
}

// The days about the ends of all months, as maturity after the calendar's first day and as evaluation before its last: those
// that there are, are dates.
#[test]
fn lengths_of_months() {
    let months = (2000..2100).flat_map(|year| (0..=13).map(move |month| (year, month)));
    for (year, month) in months {
        for day in [0, 1, 28, 29, 30, 31, 32] {
            let given = date(year, month, day);
            for (evaluation, maturity) in [(FIRST, given), (given, LAST)] {
                let expected = match () {
                    _ if !given.is_in_calendar() => Some(25),
                    _ if evaluation == maturity => Some(26),
                    _ => None,
                };
                let refusal = compare(terms(evaluation, maturity, 0, 1), 8).err();
                assert_eq!(refusal.map(|refusal| refusal.number), expected, "{given:?}");
            }
        }
    }
}

// Every length up to a record past what is needed; then none, a byte short, just enough, a byte more and many.
#[test]
fn lengths_of_lent_buffers() {
    for room in 0..=8 * 6 {
        let count = compare(sound().terms, room).map(|flows| flows.len());
        assert_eq!(count.map_err(|refusal| refusal.number), if room < 40 { Err(27) } else { Ok(5) });
    }
    for terms in examples() {
        let [none, short, enough, longer, long] = rooms(&terms);
        refused_with(27, terms, none);
        refused_with(27, terms, short);
        assert!([enough, longer, long, 1 << 17].iter().all(|&room| compare(terms, room).is_ok()));
    }
}

// Every number that is handed over, with each of its bits changed, and at both ends.
#[test]
fn extreme_numbers() {
    let Terms { evaluation, maturity, rate, frequency } = sound().terms;
    let numbers = |d: Date| [d.year, d.month, d.day];
    let given = [&numbers(evaluation)[..], &numbers(maturity), &[rate, frequency]].concat();
    let compare =
        |n: &[u32]| compare(terms(date(n[0], n[1], n[2]), date(n[3], n[4], n[5]), n[6], n[7]), MOST_BYTES);
    for (place, &number) in given.iter().enumerate() {
        let refused = Err(Refusal { number: if place < 6 { 25 } else { 27 }, item: 0 });
        let mut changed = given.clone();
        for bit in 0..32 {
            changed[place] = number ^ (1 << bit);
            let result = compare(&changed);
            assert!(bit < 20 || result == refused);
        }
        changed[place] = u32::MAX;
        assert_eq!(compare(&changed), refused);
    }
    for all in [0, 1, u32::MAX / 2, u32::MAX] {
        assert_eq!(compare(&[all; 8]), Err(Refusal { number: 25, item: 0 }));
    }
}

// ---------------------------------------------------------------------------------------------------------------------
// Terms by chance
// ---------------------------------------------------------------------------------------------------------------------

// Every number of flows and every refusal occurs.
#[test]
fn terms_by_chance() {
    let mut random = Random::new(23);
    let (mut numbers, mut refusals) = ([0; 121], [0; 28]);
    for _ in 0..12_000 {
        let Call { terms, room } = any_call(&mut random);
        match compare(terms, room) {
            Ok(flows) => numbers[flows.len()] += 1,
            Err(refusal) => refusals[refusal.number as usize] += 1,
        }
    }
    assert!(numbers[1..].iter().all(|&count| count > 0), "{numbers:?}");
    assert!(refusals[25..].iter().all(|&count| count > 50), "{refusals:?}");
}

// Several threads at once, with little stack: a thread of 24 KiB, a good part of which is its own, has room for a call.
#[test]
fn threads_with_little_stack() {
    let mut random = Random::new(24);
    let calls: Vec<Call> = (0..300).map(|_| any_call(&mut random)).chain([sound()]).collect();
    let expected: Vec<u32> = calls.iter().map(|call| code_of(&call.terms.flows(call.room))).collect();
    let calls: Vec<_> = calls.iter().map(|call| (handed(&call.terms), lent(call.room))).collect();
    let call = |((evaluation, bond), bytes): &mut (_, Vec<u8>)| {
        let end = bytes.len() - AROUND;
        margin_unit::call_flows(*evaluation, bond, &mut bytes[AROUND..end])
    };
    threads(&calls, call, &expected);
}

// Four threads make all the calls.
pub fn threads<C: Clone + Send + 'static>(calls: &[C], call: fn(&mut C) -> u32, expected: &[u32]) {
    let threads = [0; 4].map(|_| {
        let mut calls = calls.to_vec();
        let run = move || calls.iter_mut().map(call).collect::<Vec<u32>>();
        std::thread::Builder::new().stack_size(24 * 1024).spawn(run).unwrap()
    });
    for thread in threads {
        assert_eq!(thread.join().unwrap(), expected);
    }
}

// ---------------------------------------------------------------------------------------------------------------------
// In a book
// ---------------------------------------------------------------------------------------------------------------------

// Bonds by maturity, rate and frequency.
type Issue = (Date, u32, u32);

pub const TODAY: Date = Date { year: 2018, month: 4, day: 20 };

// Today's book with so many bonds, each held at par, and their flows as the library writes them, one bond after the other: each
// into what is left of the section, and how many there are.
pub fn book_with(bonds: usize, write: impl Fn(usize, &mut [u8]) -> usize) -> Vec<u8> {
    let mut book = shape(20, 9_000, 1, 8).book(1);
    book.vertices.last_mut().unwrap().days = 20_000;
    book.bonds.clear();
    book.positions.clear();
    let mut section = vec![255; bonds * margin_unit::MOST_FLOWS_BYTES];
    let mut first = 0;
    for i in 0..bonds {
        let number = write(i, &mut section[8 * first as usize..]) as u32;
        book.bonds.push(Bond { curve: 0, zeros: [0; 3], price: 1_000_000, first, number });
        book.positions.push(Position { bond: i as u32, nominal: 1_000_000 });
        first += number;
    }
    section.truncate(8 * first as usize);
    book.with_sections(|sections| sections[FLOWS] = section)
}

fn book_of(issues: &[Issue]) -> Vec<u8> {
    book_with(issues.len(), |i, room| {
        let (maturity, rate, frequency) = issues[i];
        let (evaluation, bond) = handed(&terms(TODAY, maturity, rate, frequency));
        margin_unit::write_flows(evaluation, &bond, room).unwrap()
    })
}

// The flows are read from the book, and it comes to a margin.
#[test]
fn flows_in_a_book() {
    let issues = [
        (date(2020, 8, 31), 40_000, 2),
        (date(2024, 2, 29), 0, 1),
        (date(2072, 12, 31), 27_501, 2),
        (date(2018, 4, 21), 1, 1),
    ];
    let due = issues.map(|(maturity, rate, frequency)| flows(terms(TODAY, maturity, rate, frequency)));
    assert_eq!(due.each_ref().map(Vec::len), [5, 1, 110, 1]);
    let bytes = book_of(&issues);
    let read = read(&bytes).unwrap().flows;
    assert!(read
        .iter()
        .map(|flow| (flow.days, flow.zero, flow.amount))
        .eq(due.concat().iter().map(|&(d, a)| (d, 0, a))));
    let outcome = accepted(&bytes, FULL);
    assert_eq!(outcome.exposures.iter().sum::<i128>(), 4_000_000);
    assert!(outcome.euros > 0);
}

// What only a book refuses: flows past the last vertex, here at 20,000 days, and more than 10,000,000 in all.
#[test]
fn flows_that_a_book_refuses() {
    let (short, last, high) = ((date(2020, 8, 31), 40_000, 2), date(2073, 1, 21), date(2026, 8, 31));
    assert_eq!(flows(terms(TODAY, last, 0, 1)), [(20_000, 1_000_000)]);
    let total = flows(terms(TODAY, high, 1_000_000, 1)).iter().map(|flow| flow.1).sum::<u32>();
    assert_eq!(total, 10_000_000);
    accepted(&book_of(&[short, (last, 0, 1), (high, 1_000_000, 1)]), FULL);
    refused(&book_of(&[short, (last.next_day(), 0, 1)]), FULL, 14, 1);
    refused(&book_of(&[short, (date(2027, 8, 31), 1_000_000, 1)]), FULL, 15, 1);
}
