//! `margin_unit_linker_flows`, called from Rust, beside the oracle: every answer, every byte of the lent buffer and those
//! around it, and every price.

use super::flows_tests::{
    book_with, compare_both, day_before, decoded, handed, handed_date, lent, threads, AROUND, TODAY,
};
use super::oracle::book::{read, Refusal};
use super::oracle::linkers::{Linker, MOST_PRICE};
use super::oracle::linkers_terms::*;
use super::oracle::random::Random;
use super::oracle::schedule::{code_of, date, held, month_length, Date, Flows, Terms, FIRST, LAST};
use super::oracle::schedule_terms::{terms, MOST_BYTES};
use super::{accepted, margin_unit, named, FULL};
use std::hint::black_box;

// ---------------------------------------------------------------------------------------------------------------------
// One call beside the oracle
// ---------------------------------------------------------------------------------------------------------------------

// Prices between numbers that no price can be.
fn lent_prices(prices: &[u32]) -> Vec<u32> {
    let around: Vec<u32> = (0..AROUND).map(|i| u32::MAX - i as u32).collect();
    [&around, prices, &around].concat()
}

pub fn handed_linker(linker: &Linker) -> (margin_unit::Date, margin_unit::Linker) {
    let (evaluation, terms) = handed(&linker.terms);
    let (issue, btp_italia) = (handed_date(linker.issue), linker.btp_italia != 0);
    (evaluation, margin_unit::Linker { terms, issue, btp_italia })
}

// The library's answer, bytes and prices are the oracle's, and so are those of the safe function.
fn compare(linker: &Linker, room: usize) -> Result<Flows, Refusal> {
    let expected = linker.flows(room);
    let (evaluation, bond) = handed_linker(linker);
    let margin_unit::Linker { terms, issue, .. } = bond;
    let mut lent = lent_prices(&linker.prices);
    let prices = &lent[AROUND..][..linker.prices.len()];
    compare_both(
        &expected,
        room,
        |buffer| margin_unit::call_linker_flows(evaluation, issue, &terms, linker.btp_italia, prices, buffer),
        |buffer| margin_unit::write_linker_flows(evaluation, &bond, prices, buffer),
    );
    // the compiler may not take it that a shared slice keeps its contents
    assert!(*black_box(&mut lent) == lent_prices(&linker.prices), "prices differ: {linker:?}");
    expected
}

// Days and amounts, in a buffer that suffices, and in one with no byte to spare before coupons are indexed.
fn flows(linker: &Linker) -> Flows {
    let flows = compare(linker, MOST_BYTES).unwrap_or_else(|refusal| panic!("{linker:?}: {refusal:?}"));
    assert_eq!(compare(linker, rooms(linker)[2]).unwrap(), flows);
    flows
}

fn amounts(linker: &Linker) -> Vec<u32> {
    flows(linker).iter().map(|&(_, amount)| amount).collect()
}

fn refused_with(number: u32, linker: &Linker, room: usize) {
    assert_eq!(compare(linker, room), Err(Refusal { number, item: 0 }), "{linker:?}, {room} bytes");
}

// The bond after an edit.
fn edited(linker: &Linker, edit: impl FnOnce(&mut Linker)) -> Linker {
    let mut linker = linker.clone();
    edit(&mut linker);
    linker
}

// ---------------------------------------------------------------------------------------------------------------------
// Figures by hand
// ---------------------------------------------------------------------------------------------------------------------

// The index is 1 at issue, so that a coefficient is its date's index number, and a coupon of 50,000 comes to half as many
// millionths: of 10,011,828 on 23 April 2014, and of 10,031,927 on 23 October.
#[test]
fn index_numbers_of_the_request() {
    let own = [(2014, 1, 1_001_867), (2014, 2, 1_000_934), (2014, 7, 1_001_867), (2014, 8, 1_003_735)];
    let prices = prices_from(200, 10_000, &own);
    let bond = |maturity| {
        linker(terms(date(2013, 12, 1), maturity, 50_000, 1), date(2013, 10, 1), 0, prices.clone())
    };
    assert_eq!(amounts(&bond(date(2014, 4, 23))), [1_000_000 + 5_005_914]);
    assert_eq!(amounts(&bond(date(2014, 10, 23))), [1_000_000 + 5_015_964]);
    let dates = [date(2014, 4, 23), date(2014, 10, 23)];
    assert_eq!(dates.map(|due| bond(due).number(due).unwrap()), [10_011_828, 10_031_927]);
}

// Document 004's BTP Italia: coupons of 500,000 are five times the coefficients, and those have to be the printed ones, which
// have four decimals; the first is the request's 1.00201. The index numbers are the printed ones too.
#[test]
fn printed_btp_italia() {
    let bond = printed_bond(FIRST, 1_000_000, 1);
    let mut amounts = amounts(&bond);
    *amounts.last_mut().unwrap() -= 1_000_000;
    assert_eq!(amounts[0], 5 * 100_201);
    assert_eq!(amounts.len() + 1, PRINTED.len());
    for (amount, printed) in amounts.iter().zip(&PRINTED[1..]) {
        assert_eq!(amount % 5, 0);
        assert!((amount / 5).abs_diff(10 * printed.coefficient) <= 10, "{amount}, {printed:?}");
    }
    let dates = (0..13).rev().map(|half| bond.terms.maturity.months_before(6 * half));
    for (date, printed) in dates.zip(&PRINTED) {
        assert!((bond.number(date).unwrap() - 10 * printed.number).abs() <= 5, "{date:?}, {printed:?}");
    }
}

// Seen from 20 April 2018 five of its flows are left. At 0.825 % their coupons are the printed ones, whose coefficients are all
// above 1.
#[test]
fn printed_coupons() {
    let due = flows(&printed_bond(date(2018, 4, 20), 8_250, 1));
    assert_eq!(due, [(3, 4_134), (186, 4_147), (368, 4_142), (551, 4_148), (734, 1_004_150)]);
}

// The largest number before a coupon is a paid one's; that of another bond is issue's. Prices stand still but for a peak in the
// year of the first coupon.
#[test]
fn largest_paid_coupon() {
    let bond = terms(date(2019, 1, 1), date(2021, 6, 1), 100_000, 1);
    let peak = prices_from(260, 1_000_000, &[(2017, 1, 2_000_000), (2018, 1, 1_000_000)]);
    let [italia, other] = [1, 0].map(|kind| linker(bond, date(2016, 6, 1), kind, peak.clone()));
    assert_eq!(amounts(&italia), [50_000, 50_000, 1_050_000]);
    assert_eq!(amounts(&other), [100_000, 100_000, 1_100_000]);
    let later = Linker { issue: date(2017, 6, 2), ..italia };
    assert_eq!(amounts(&later), amounts(&Linker { btp_italia: 0, ..later.clone() }));
}

// On 8 February 2019 the index number is 1,052.5: the whole of it is rounded, to 1,053, of issue's 1,070. The addend alone,
// -17.5, would go to -18.
#[test]
fn halves_by_hand() {
    let bond = terms(date(2018, 12, 1), date(2019, 2, 8), 1_000_000, 1);
    let fallen = linker(bond, date(2018, 1, 8), 0, falling());
    assert_eq!(amounts(&fallen), [1_000_000 + 984_110]);
}

// Half of a millionth is rounded up, and less than half of one leaves no coupon; the last flow is never without the principal.
#[test]
fn coupons_that_become_0() {
    let prices = prices_from(300, 1_000, &[(2019, 2, 49), (2019, 8, 50), (2020, 2, 49)]);
    let bond = linker(terms(date(2018, 5, 1), date(2020, 5, 2), 20, 2), date(2018, 5, 1), 0, prices);
    assert_eq!(amounts(&bond), [10, 10, 1, 1_000_000]);
    let needed = rooms(&bond)[2];
    assert_eq!(needed, 8 * 5);
    for room in 0..needed {
        refused_with(27, &bond, room);
    }
    assert_eq!(amounts(&Linker { btp_italia: 7, ..bond }), [10, 10, 1, 1_000_000]);
}

// ---------------------------------------------------------------------------------------------------------------------
// Kinds, evaluation and issue
// ---------------------------------------------------------------------------------------------------------------------

// 0 is no, and any other number yes.
#[test]
fn kinds() {
    let bond = printed_bond(date(2014, 4, 23), 1_000_000, 0);
    let italia = amounts(&Linker { btp_italia: 1, ..bond.clone() });
    assert_ne!(amounts(&bond), italia);
    for kind in (0..32).map(|bit| 1 << bit).chain([3, 255, 65_535, 65_537, u32::MAX - 1, u32::MAX]) {
        assert_eq!(amounts(&Linker { btp_italia: kind, ..bond.clone() }), italia, "{kind}");
    }
}

// Prices that change every month, for any bond.
fn moving_prices() -> Vec<u32> {
    let mut random = Random::new(31);
    (0..1_200).map(|_| random.between(900_000, 1_100_000) as u32).collect()
}

// Every evaluation over years, from before issue on: the flows are those of before less those that are past, with as many days
// fewer.
#[test]
fn every_evaluation() {
    let (issue, maturity) = (date(2014, 4, 23), date(2020, 8, 31));
    let first = terms(date(2014, 1, 1), maturity, 40_000, 2);
    for btp_italia in [0, 1] {
        let mut bond = linker(first, issue, btp_italia, moving_prices());
        let all = flows(&bond);
        assert_eq!(all.len(), 13);
        let mut passed = 0;
        while bond.terms.evaluation < maturity {
            let left = all.iter().filter(|&&(days, _)| days > passed);
            let left: Flows = left.map(|&(days, amount)| (days - passed, amount)).collect();
            assert_eq!(compare(&bond, MOST_BYTES), Ok(left));
            bond.terms.evaluation = bond.terms.evaluation.next_day();
            passed += 1;
        }
        refused_with(26, &bond, MOST_BYTES);
    }
}

// Every issue over years, about coupon dates and evaluation too: a coupon date bears a coupon from the day before it on.
#[test]
fn every_issue() {
    let (evaluation, maturity) = (date(2018, 4, 20), date(2020, 2, 29));
    let bond = terms(evaluation, maturity, 40_000, 2);
    let mut issue = date(2015, 12, 1);
    while issue < maturity {
        for btp_italia in [0, 1] {
            let dates = [0, 6, 12, 18].map(|months| maturity.months_before(months));
            let count = dates.iter().filter(|&&due| due > issue && due > evaluation).count();
            let linker = linker(bond, issue, btp_italia, moving_prices());
            assert_eq!(compare(&linker, MOST_BYTES).unwrap().len(), count);
        }
        issue = issue.next_day();
    }
    for btp_italia in [0, 1] {
        refused_with(26, &linker(bond, issue, btp_italia, moving_prices()), MOST_BYTES);
    }
}

// ---------------------------------------------------------------------------------------------------------------------
// Days and months
// ---------------------------------------------------------------------------------------------------------------------

// Every day of a year and of a leap year as maturity and, some months before, as issue; small prices, of which halves and all
// other parts come about, in both kinds.
#[test]
fn every_day_of_a_month() {
    let mut random = Random::new(32);
    let mut maturity = date(2019, 1, 1);
    while maturity < date(2021, 1, 1) {
        for btp_italia in [0, 1] {
            let prices: Vec<u32> = (0..260).map(|_| random.between(90, 120) as u32).collect();
            for months in [7, 13, 24, 48] {
                let issue = maturity.months_before(months);
                let bond = terms(date(2018, 3, 1), maturity, 1_000_000, 2);
                flows(&linker(bond, issue, btp_italia, prices.clone()));
            }
        }
        maturity = maturity.next_day();
    }
}

// In a February of 28 days index numbers come to halves, where prices rise and where they fall.
#[test]
fn halves_in_february() {
    let mut random = Random::new(33);
    let mut halves = 0;
    for day in 1..=28 {
        let maturity = date(2023, 2, day);
        for _ in 0..100 {
            let count = months_needed(maturity);
            let mut prices = vec![400; count];
            prices[count - 2..].fill_with(|| random.between(1, 400) as u32);
            halves += ((prices[count - 1].abs_diff(prices[count - 2]) * 10 * (day - 1)) % 28 == 14) as usize;
            let bond = terms(date(2022, 12, 1), maturity, 50_000, 1);
            flows(&linker(bond, date(2022, 1, 1), 0, prices));
        }
    }
    assert!(halves > 100, "{halves}");
}

// A bond from the calendar's first month that can have an issue to its last.
#[test]
fn whole_calendar() {
    for (issue_day, maturity_day) in [(1, 1), (1, 31), (30, 31), (15, 30)] {
        let (issue, maturity) = (date(2000, 4, issue_day), date(2099, 12, maturity_day));
        for evaluation in [FIRST, date(2000, 4, 30), date(2039, 12, 31), date(2099, 11, 30)] {
            for (btp_italia, frequency) in [(0, 1), (1, 1), (0, 2), (1, 2)] {
                let bond = terms(evaluation, maturity, 20_000, frequency);
                let bond = linker(bond, issue, btp_italia, steady_prices(1_198, 500_000, 10));
                let most = rooms(&bond)[2].max(MOST_BYTES);
                let refused = frequency == 2 && evaluation < date(2039, 12, 31);
                assert_eq!(compare(&bond, most).is_err(), refused);
                refused_with(
                    if refused { 27 } else { 29 },
                    &edited(&bond, |bond| bond.prices.truncate(1_197)),
                    most,
                );
            }
        }
    }
}

// Sixty years of half-yearly coupons are 120 flows after the later of evaluation and issue; a day more, and there are 121.
#[test]
fn most_flows() {
    let (first, last) = (date(2004, 7, 1), date(2064, 7, 1));
    for (evaluation, issue) in [(first, first), (FIRST, first), (first, date(2000, 4, 2))] {
        for btp_italia in [0, 1] {
            let bond = linker(terms(evaluation, last, 30_000, 2), issue, btp_italia, moving_prices());
            assert_eq!(flows(&bond).len(), 120);
            let later = evaluation.max(issue);
            let earlier = edited(&bond, |bond| {
                let dates = [&mut bond.terms.evaluation, &mut bond.issue];
                dates.into_iter().filter(|date| **date == later).for_each(|date| *date = day_before(later));
            });
            refused_with(27, &earlier, 8 * 121);
            assert_eq!(flows(&edited(&earlier, |bond| bond.terms.rate = 0)).len(), 1);
        }
    }
}

// ---------------------------------------------------------------------------------------------------------------------
// Prices
// ---------------------------------------------------------------------------------------------------------------------

// Every length of the list: up to the month two before maturity's, also on the first of a month and at rate 0.
#[test]
fn lengths_of_lists() {
    for (day, rate) in [(1, 30_000), (2, 30_000), (30, 30_000), (1, 0), (30, 0)] {
        let (maturity, prices) = (date(2005, 6, day), moving_prices());
        let bond = linker(terms(date(2004, 1, 1), maturity, rate, 2), date(2001, 12, day), day % 2, prices);
        for length in 0..=80 {
            let listed = edited(&bond, |bond| bond.prices.truncate(length));
            assert_eq!(compare(&listed, MOST_BYTES).is_ok(), length >= 64, "{length}");
            if length < 64 {
                refused_with(29, &listed, MOST_BYTES);
            }
        }
        flows(&bond);
    }
    for example in examples() {
        let [none, short, enough, longer, long] = with_lists(&example);
        refused_with(29, &none, MOST_BYTES);
        refused_with(29, &short, MOST_BYTES);
        assert!([enough, longer, long].iter().all(|listed| flows(listed) == flows(&example)));
    }
}

// Issue needs the prices of three and of two months before, from January 2000 on, on every day of its month; at rate 0 too, and
// in both kinds, though no coupon that is left needs them.
#[test]
fn earliest_issues() {
    for (rate, btp_italia) in [(0, 0), (0, 1), (40_000, 0), (40_000, 1)] {
        let mut issue = FIRST;
        while issue < date(2000, 7, 1) {
            let bond = terms(date(2018, 4, 20), date(2020, 8, 31), rate, 2);
            let bond = linker(bond, issue, btp_italia, moving_prices());
            match issue < date(2000, 4, 1) {
                true => refused_with(29, &bond, MOST_BYTES),
                false => assert_eq!(flows(&bond).len(), if rate == 0 { 1 } else { 5 }),
            }
            issue = issue.next_day();
        }
    }
}

// A price out of its bounds, wherever it stands: before the months that are needed, among them, and past them. It is looked for
// before a missing month.
#[test]
fn prices_out_of_bounds() {
    let bond = linker(
        terms(date(2004, 1, 1), date(2005, 6, 30), 30_000, 2),
        date(2003, 2, 1),
        1,
        vec![1_000_000; 80],
    );
    flows(&bond);
    for place in 0..80 {
        for price in [0, MOST_PRICE + 1, 1 << 24, 1 << 31, u32::MAX] {
            let wrong = edited(&bond, |bond| bond.prices[place] = price);
            refused_with(28, &wrong, MOST_BYTES);
            refused_with(28, &edited(&wrong, |bond| bond.prices.truncate(place + 1)), MOST_BYTES);
            refused_with(28, &edited(&wrong, |bond| bond.terms.rate = 0), MOST_BYTES);
        }
        for price in [1, MOST_PRICE] {
            let bound = edited(&bond, |bond| bond.prices[place] = price);
            assert_ne!(compare(&bound, MOST_BYTES), Err(Refusal { number: 28, item: 0 }));
        }
    }
    refused_with(28, &edited(&bond, |bond| bond.prices = vec![0]), MOST_BYTES);
}

// Prices at both bounds, next to each other too.
#[test]
fn extreme_prices() {
    let mut random = Random::new(34);
    let mut refused = 0;
    for rate in [0, 1, 2, 1_000_000] {
        for _ in 0..500 {
            let prices = (0..260).map(|_| random.any(&[1, 2, MOST_PRICE - 1, MOST_PRICE])).collect();
            let issue = date(2016, random.between(1, 12) as u32, random.between(1, 28) as u32);
            let maturity = date(2021, random.between(1, 6) as u32, random.between(1, 28) as u32);
            let bond = terms(date(2018, 4, 20), maturity, rate, random.any(&[1, 2]));
            let result = compare(&linker(bond, issue, random.any(&[0, 1]), prices), MOST_BYTES);
            refused += (result == Err(Refusal { number: 30, item: 0 })) as usize;
        }
    }
    assert!((50..1_000).contains(&refused), "{refused}");
}

// ---------------------------------------------------------------------------------------------------------------------
// Large coupons
// ---------------------------------------------------------------------------------------------------------------------

// An indexed coupon of 10,000,000 passes, at maturity with the principal on top; one of 10,000,001 does not, unless it is paid.
#[test]
fn largest_coupons() {
    let (issue, maturity) = (date(2018, 5, 1), date(2020, 5, 2));
    let count = months_needed(maturity);
    let bond = |evaluation, prices| linker(terms(evaluation, maturity, 200_000, 2), issue, 0, prices);
    for (year, place, principal) in [(2019, 2, 0), (2020, 4, 1_000_000)] {
        let most = bond(issue, prices_from(count, 10_000, &[(year, 2, 1_000_000)]));
        assert_eq!(*flows(&most).last().unwrap(), (732, 11_000_000));
        let over = bond(issue, over_by_one(count, year));
        refused_with(30, &over, MOST_BYTES);
        let lower = edited(&over, |bond| bond.terms.rate -= 2);
        assert_eq!(amounts(&lower)[place], 9_999_901 + principal);
    }
    let over = bond(date(2019, 5, 1), over_by_one(count, 2019));
    refused_with(30, &over, MOST_BYTES);
    let paid = edited(&over, |bond| bond.terms.evaluation = date(2019, 5, 2));
    assert_eq!(amounts(&paid), [10_000_000, 11_000_000]);
    let before_issue = edited(&over, |bond| bond.issue = date(2019, 5, 2));
    assert_eq!(amounts(&before_issue).len(), 2);
}

// ---------------------------------------------------------------------------------------------------------------------
// Refusals and buffers
// ---------------------------------------------------------------------------------------------------------------------

// Every fault by itself and every two: the lower number counts.
#[test]
fn faults() {
    let Call { linker, room } = sound();
    assert_eq!(flows(&linker).len() * 8, room);
    for (number, Call { linker, room }) in [faults_alone(), faults_in_pairs()].concat() {
        refused_with(number, &linker, room);
    }
}

// Each refusal of an inflation bond that the header names.
#[test]
fn refusals_of_linkers_by_name() {
    let Call { linker: good, .. } = sound();
    let faults: [(&str, Linker); 6] = [
        ("TERMS_DATE", edited(&good, |bond| bond.issue = date(2001, 2, 29))),
        ("TERMS_MATURITY", edited(&good, |bond| bond.issue = bond.terms.maturity)),
        ("TERMS_RANGE", edited(&good, |bond| bond.terms.frequency = 3)),
        ("LINKER_PRICE", edited(&good, |bond| bond.prices.push(0))),
        ("LINKER_MONTH", edited(&good, |bond| bond.prices.truncate(245))),
        ("LINKER_COUPON", edited(&good, |bond| bond.prices[..244].fill(1))),
    ];
    let mut refusals = named();
    refusals.retain(|&(name, number)| name.starts_with("REFUSED_") && number >= 25);
    assert_eq!(refusals.len(), faults.len());
    for ((name, number), (fault, linker)) in refusals.into_iter().zip(faults) {
        assert_eq!(name, format!("REFUSED_{fault}"));
        refused_with(number as u32, &linker, MOST_BYTES);
        let (evaluation, bond) = handed_linker(&linker);
        let refusal = margin_unit::linker_flows(evaluation, &bond, &linker.prices).unwrap_err();
        assert_eq!(refusal.to_string(), format!("refused {number} 0"));
    }
}

// Every length up to a record past what is needed; then none, a byte short, just enough, a byte more and many.
#[test]
fn lengths_of_lent_buffers() {
    let Call { linker, room: needed } = sound();
    for room in 0..=needed + 8 {
        let count = compare(&linker, room).map(|flows| flows.len());
        assert_eq!(count.map_err(|refusal| refusal.number), if room < needed { Err(27) } else { Ok(5) });
    }
    for example in examples() {
        let [none, short, enough, longer, long] = rooms(&example);
        refused_with(27, &example, none);
        refused_with(27, &example, short);
        assert!([enough, longer, long, 1 << 17].iter().all(|&room| compare(&example, room).is_ok()));
    }
}

// The bytes may stand at any address: eight in a row are of every kind.
#[test]
fn addresses() {
    let Call { linker, room } = sound();
    let (evaluation, bond) = handed_linker(&linker);
    let expected = held(&linker.flows(room), &vec![255; room]);
    for offset in 0..8 {
        let mut bytes = vec![255; offset + room];
        let count = margin_unit::write_linker_flows(evaluation, &bond, &linker.prices, &mut bytes[offset..]);
        assert_eq!(count, Ok(5));
        assert!(bytes[..offset].iter().all(|&byte| byte == 255) && bytes[offset..] == expected);
    }
}

// Both ends of the calendar, and the days past them.
#[test]
fn ends_of_the_calendar() {
    let good = sound().linker;
    for outside in [date(1999, 12, 31), date(2100, 1, 1), date(2000, 0, 31), date(2099, 13, 1)] {
        refused_with(25, &edited(&good, |bond| bond.issue = outside), MOST_BYTES);
        refused_with(25, &edited(&good, |bond| bond.terms.evaluation = outside), MOST_BYTES);
        refused_with(25, &edited(&good, |bond| bond.terms.maturity = outside), MOST_BYTES);
    }
    refused_with(26, &edited(&good, |bond| bond.issue = LAST), MOST_BYTES);
    refused_with(29, &edited(&good, |bond| bond.issue = FIRST), MOST_BYTES);
    for month in (2000..2100).flat_map(|year| (0..=13).map(move |month| (year, month))) {
        for day in [0, 1, 28, 29, 30, 31, 32] {
            let issue = date(month.0, month.1, day);
            let bond = edited(&good, |bond| (bond.issue, bond.terms.maturity) = (issue, LAST));
            let is_date = (1..=12).contains(&month.1) && day >= 1 && day <= month_length(month.0, month.1);
            let refused = compare(&edited(&bond, |bond| bond.terms.frequency = 0), 0).unwrap_err().number;
            let expected = if issue == LAST { 26 } else { 27 };
            assert_eq!(refused, if is_date { expected } else { 25 }, "{issue:?}");
        }
    }
}

// Every number that is handed over, with each of its bits changed, and at both ends.
#[test]
fn extreme_numbers() {
    let good = sound().linker;
    let numbers = |d: Date| [d.year, d.month, d.day];
    let Terms { evaluation, maturity, rate, frequency } = good.terms;
    let dates = [evaluation, good.issue, maturity].map(numbers).concat();
    let given = [&dates[..], &[rate, frequency, good.btp_italia]].concat();
    let compare = |n: &[u32]| {
        let bond = terms(date(n[0], n[1], n[2]), date(n[6], n[7], n[8]), n[9], n[10]);
        compare(&linker(bond, date(n[3], n[4], n[5]), n[11], good.prices.clone()), MOST_BYTES)
    };
    for (place, &number) in given.iter().enumerate() {
        let refused = |number| Err(Refusal { number, item: 0 });
        let must = [25, 27, 0][(place >= 9) as usize + (place == 11) as usize];
        let mut changed = given.clone();
        for bit in 0..32 {
            changed[place] = number ^ (1 << bit);
            let result = compare(&changed);
            assert!(bit < 20 || result == refused(must) || must == 0 && result.is_ok());
        }
        changed[place] = u32::MAX;
        let result = compare(&changed);
        assert!(result == refused(must) || must == 0 && result.is_ok());
    }
    for all in [0, 1, u32::MAX / 2, u32::MAX] {
        assert_eq!(compare(&[all; 12]), Err(Refusal { number: 25, item: 0 }));
    }
}

// ---------------------------------------------------------------------------------------------------------------------
// By chance
// ---------------------------------------------------------------------------------------------------------------------

// The decoded flows are those written.
#[test]
fn decoded_flows() {
    let mut random = Random::new(35);
    let by_chance = (0..500).map(|_| any_call(&mut random).linker);
    for linker in examples().into_iter().chain(by_chance) {
        let (evaluation, bond) = handed_linker(&linker);
        let result = margin_unit::linker_flows(evaluation, &bond, &linker.prices);
        assert_eq!(result, decoded(linker.flows(MOST_BYTES)));
    }
}

// Every number of flows and every refusal occurs, and coupons that become 0 in bonds of either kind.
#[test]
fn linkers_by_chance() {
    let mut random = Random::new(36);
    let (mut numbers, mut refusals, mut fewer) = ([0; 121], [0; 31], [0; 2]);
    for _ in 0..12_000 {
        let Call { linker, room } = any_call(&mut random);
        match compare(&linker, room) {
            Ok(flows) => {
                numbers[flows.len()] += 1;
                fewer[(linker.btp_italia != 0) as usize] += (8 * flows.len() < rooms(&linker)[2]) as usize;
            }
            Err(refusal) => refusals[refusal.number as usize] += 1,
        }
    }
    assert!(numbers[1..].iter().all(|&count| count > 0), "{numbers:?}");
    assert!(refusals[25..].iter().all(|&count| count > 50), "{refusals:?}");
    assert!(fewer.iter().all(|&count| count > 50), "{fewer:?}");
}

// Several threads at once, with little stack: a thread of 24 KiB, a good part of which is its own, has room for a call.
#[test]
fn threads_with_little_stack() {
    let mut random = Random::new(37);
    let calls: Vec<Call> = (0..300).map(|_| any_call(&mut random)).chain([sound()]).collect();
    let expected: Vec<u32> = calls.iter().map(|call| code_of(&call.linker.flows(call.room))).collect();
    let calls: Vec<_> = calls
        .iter()
        .map(|Call { linker, room }| (handed_linker(linker), linker.prices.clone(), lent(*room)))
        .collect();
    let call = |((evaluation, bond), prices, bytes): &mut ((_, margin_unit::Linker), Vec<u32>, Vec<u8>)| {
        let end = bytes.len() - AROUND;
        let margin_unit::Linker { terms, issue, btp_italia } = bond;
        let buffer = &mut bytes[AROUND..end];
        margin_unit::call_linker_flows(*evaluation, *issue, terms, *btp_italia as u32, prices, buffer)
    };
    threads(&calls, call, &expected);
}

// ---------------------------------------------------------------------------------------------------------------------
// In a book
// ---------------------------------------------------------------------------------------------------------------------

// The flows are read from the book, bond after bond, and it comes to a margin.
#[test]
fn linkers_in_a_book() {
    let bonds = [0, 1, 1].map(|btp_italia| printed_bond(TODAY, 8_250, btp_italia));
    let bytes = book_with(bonds.len(), |i, room| {
        let (evaluation, bond) = handed_linker(&bonds[i]);
        margin_unit::write_linker_flows(evaluation, &bond, &bonds[i].prices, room).unwrap()
    });
    let read = read(&bytes).unwrap().flows;
    let due = bonds.each_ref().map(flows).concat();
    assert!(read
        .iter()
        .map(|flow| (flow.days, flow.zero, flow.amount))
        .eq(due.iter().map(|&(d, a)| (d, 0, a))));
    assert!(accepted(&bytes, FULL).euros > 0);
}
