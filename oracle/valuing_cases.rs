// Books for the valuing layer, good and damaged, and what must be printed of each for the word `exposures`.
//
// Written from documents 01 and 02 alone: the builder and the checker of book.rs, and the checker and the figures of
// valuing.rs. Every case names the refusal that it was made for, and the checker has to agree with it before anything is
// written.

use super::book::*;
use super::random::Random;
use super::store::{print_line, Layer, Store};
use super::unit_books::orders;
use super::valuing::*;

// ---------------------------------------------------------------------------------------------------------------------
// What `exposures` prints of a file
// ---------------------------------------------------------------------------------------------------------------------

// The most bytes that are taken for this word.
const LONGEST_VALUED: usize = 65_535;

fn print_file(bytes: &[u8]) -> String {
    print_checked(check_values(bytes), |out, book| print_line(out, "exposures", &exposures_of(&book)))
}

// ---------------------------------------------------------------------------------------------------------------------
// Books
// ---------------------------------------------------------------------------------------------------------------------

// Two vertices, 90 and 180 days, and one bond at par.
fn ninety(prices: [u32; 2], flows: &[(u16, u32)], nominal: i64) -> Book {
    book(&[(0, 90, prices[0]), (0, 180, prices[1])], &[(0, 1_000_000, flows)], &[(0, nominal)])
}

// One vertex and a bond with one flow on it for each dirty price.
fn priced(prices: &[u32], positions: &[(u32, i64)]) -> Book {
    let bonds: Vec<(u8, u32, &[(u16, u32)])> =
        prices.iter().map(|&price| (0, price, &[(365, 1_000_000)][..])).collect();
    book(&[(0, 365, 950_000)], &bonds, positions)
}

// ---------------------------------------------------------------------------------------------------------------------
// Damaged books
// ---------------------------------------------------------------------------------------------------------------------

fn days_cases(cases: &mut Cases) {
    let five = five();
    for (place, i) in PLACES {
        let last = points_of(&five, five.bonds[i].curve).last().unwrap().days as u16;
        let mut days = |kind: &str, j: usize, edit: &dyn Fn(&mut Book) -> u16| {
            let bytes = five.with(|b| flow(b, i, j).days = edit(b));
            cases.refused(&format!("14-days-{kind}-{place}"), 14, i, bytes);
        };
        days("0", 0, &|_| 0);
        days("0-in-second-flow", 1, &|_| 0);
        days("equal-second-flow", 1, &|b| flow(b, i, 0).days);
        days("equal-third-flow", 2, &|b| flow(b, i, 1).days);
        days("fall-second-flow", 1, &|b| flow(b, i, 0).days - 1);
        days("fall-third-flow", 2, &|b| flow(b, i, 1).days - 1);
        days("past-own-curve", 2, &|_| last + 1);
        for (j, zero) in [(0, 1), (1, 0x8000), (2, 0x0100), (2, 0x0080)] {
            let bytes = five.with(|b| flow(b, i, j).zero = zero);
            cases.refused(&format!("14-zero-bytes-{zero:04x}-flow-{j}-{place}"), 14, i, bytes);
        }
    }
    cases.refused("14-days-65535", 14, 4, five.with(|b| flow(b, 4, 2).days = 65_535));
    cases.refused(
        "14-all-flows-past-own-curve",
        14,
        2,
        five.with(|b| (0..3).for_each(|j| flow(b, 2, j).days += 30)),
    );
    // The third bond's curve ends at 30 days, the first's at 365.
    cases.refused(
        "14-curve-of-another-bond",
        14,
        2,
        five.with(|b| (0..3).for_each(|j| flow(b, 2, j).days = flow(b, 0, j).days)),
    );
    // The days of the bond before go on into the next bond: no bond has to start later than another ended.
    let (first, second) = ([(10, 9_000), (180, 9_000)], [(180, 9_000)]);
    let vertices = [(0, 90, 990_000), (0, 180, 980_000)];
    let bonds: [(u8, u32, &[(u16, u32)]); 2] = [(0, 900_000, &first), (0, 900_000, &second)];
    cases.good("equal-days-of-two-bonds", book(&vertices, &bonds, &[(0, 55), (1, 66)]).bytes());
}

fn amount_cases(cases: &mut Cases) {
    let five = five();
    for (j, (place, i)) in PLACES.into_iter().enumerate() {
        for amount in [0, MOST_AMOUNT + 1, u32::MAX] {
            let bytes = five.with(|b| flow(b, i, j).amount = amount);
            cases.refused(&format!("15-amount-{amount}-{place}"), 15, i, bytes);
        }
        let amounts = |total: u32| {
            five.with(|b| {
                flow(b, i, 0).amount = 4_000_000;
                flow(b, i, 1).amount = 5_999_999;
                flow(b, i, 2).amount = total - 9_999_999;
            })
        };
        cases.refused(&format!("15-total-10000001-{place}"), 15, i, amounts(MOST_AMOUNT + 1));
        cases.good(&format!("amounts-total-10000000-{place}"), amounts(MOST_AMOUNT));
    }
    cases.refused(
        "15-two-of-10000000",
        15,
        3,
        five.with(|b| {
            flow(b, 3, 0).amount = MOST_AMOUNT;
            flow(b, 3, 2).amount = MOST_AMOUNT;
        }),
    );
    // The amounts total 2^32 + 3, which 32 bits take for 3.
    cases.refused(
        "15-total-wraps",
        15,
        1,
        five.with(|b| {
            flow(b, 1, 0).amount = u32::MAX;
            flow(b, 1, 1).amount = 3;
            flow(b, 1, 2).amount = 1;
        }),
    );
    // Two bonds' amounts together come to more than 10,000,000.
    cases.good(
        "amounts-of-two-bonds",
        five.with(|b| {
            flow(b, 0, 2).amount = 9_000_000;
            flow(b, 1, 2).amount = 9_000_000;
        }),
    );
    cases.good("amount-10000000-alone", ninety([1_000_000, 2_000_000], &[(180, MOST_AMOUNT)], 77).bytes());
}

fn worth_cases(cases: &mut Cases) {
    let five = five();
    for (place, i) in PLACES {
        let bytes = five.with(|b| (0..3).for_each(|j| flow(b, i, j).amount = 1));
        cases.refused(&format!("16-amounts-of-1-{place}"), 16, i, bytes);
        let bytes = five.with(|b| (0..2).for_each(|j| flow(b, i, j).amount = 1));
        cases.good(&format!("last-flow-alone-has-worth-{place}"), bytes);
    }
    // A worth of one millionth less than 1, and of 1.
    let one = |price: u32, amount: u32| {
        book(&[(3, 77, price)], &[(3, 1_000_000, &[(77, amount)])], &[(0, 1_000)]).bytes()
    };
    for (price, amount) in [(999_999, 1), (499_999, 2), (1, 999_999)] {
        cases.refused(&format!("16-{amount}-at-{price}"), 16, 0, one(price, amount));
    }
    for (price, amount) in [(1_000_000, 1), (1_999_999, 1), (500_000, 2), (1, 1_000_000), (1, MOST_AMOUNT)] {
        cases.good(&format!("s-not-0-by-{amount}-at-{price}"), one(price, amount));
    }
    // 120 worths under 1, which would total 119 if they were rounded together.
    let flows: Vec<(u16, u32)> = (1..=120).map(|j| (j, 1)).collect();
    cases.refused("16-120-flows", 16, 0, ninety([999_999, 999_999], &flows, 5).bytes());
    // The price between 999,999 and 1,000,000 is rounded down until the second vertex's days.
    cases.refused("16-price-rounds-down-at-179", 16, 0, ninety([999_999, 1_000_000], &[(179, 1)], 5).bytes());
    cases.good("s-1-at-second-vertex", ninety([999_999, 1_000_000], &[(180, 1)], 5).bytes());
    cases.refused("16-price-rounds-down-at-91", 16, 0, ninety([1_000_000, 999_999], &[(91, 1)], 5).bytes());
    cases.good("s-1-before-first-vertex", ninety([1_000_000, 999_999], &[(89, 1)], 5).bytes());
    // The older price would give the flow a worth.
    let older = book(&[(0, 90, 999_999)], &[(0, 1_000_000, &[(90, 1)])], &[(0, 5)]);
    cases.refused("16-newest-price-counts", 16, 0, older.with(|b| b.prices[0] = 2_000_000));
    cases.good("s-1-by-newest-price", older.with(|b| b.prices = vec![1, 1_000_000]));
    // The next curve's first vertex has a price that would give the flow a worth.
    let vertices = [(1, 90, 999_999), (2, 90, 2_000_000)];
    let bonds: [(u8, u32, &[(u16, u32)]); 1] = [(1, 1_000_000, &[(90, 1)])];
    cases.refused("16-own-curve-counts", 16, 0, book(&vertices, &bonds, &[(0, 5)]).bytes());
}

// No position holds the bond, and it is refused all the same.
fn unheld_cases(cases: &mut Cases) {
    let five = five();
    for number in 14..=16 {
        cases.refused(&format!("{number}-unheld-bond"), number, 1, five.with(|b| damage(b, number, 1)));
    }
}

fn position_cases(cases: &mut Cases) {
    let five = five();
    for length in [1, 6, 11, 13, 59, 61, 71, 12 * 4_096 + 1] {
        let bytes = five.with_sections(|s| s[POSITIONS].resize(length, 0));
        cases.refused(&format!("17-{length}-bytes"), 17, 0, bytes);
    }
    for (place, i) in PLACES {
        for bond in [5, 256, 65_536, 0x8000_0000, u32::MAX] {
            let bytes = five.with(|b| b.positions[i].bond = bond);
            cases.refused(&format!("18-bond-{bond}-{place}"), 18, i, bytes);
        }
        for nominal in [MOST_NOMINAL + 1, -MOST_NOMINAL - 1, 1 << 40, i64::MAX, i64::MIN, i64::MIN + 1] {
            let bytes = five.with(|b| b.positions[i].nominal = nominal);
            cases.refused(&format!("19-nominal-{}-{place}", signed_name(nominal)), 19, i, bytes);
        }
        for (sign, nominal) in [("long", MOST_NOMINAL), ("short", -MOST_NOMINAL)] {
            let bytes = five.with(|b| b.positions[i].nominal = nominal);
            cases.good(&format!("nominal-largest-{sign}-{place}"), bytes);
        }
    }
    cases.good("last-bond-held", five.with(|b| b.positions[4].bond = 4));
    // The nominal is out of range though its value would be small, and 0.
    cases.refused("19-small-value", 19, 0, priced(&[1], &[(0, MOST_NOMINAL + 1)]).bytes());
}

// Bond 0 has the highest dirty price, so that the largest nominal has a value of 20,000,000,000; at bond 1 the value is half
// the nominal, at bond 2 it is the nominal's millionth.
fn rich(positions: &[(u32, i64)]) -> Vec<u8> {
    priced(&[2_000_000, 500_000, 1], positions).bytes()
}

fn total_cases(cases: &mut Cases) {
    let most = MOST_NOMINAL;
    let full = [(0, most), (0, most), (0, most), (0, most), (0, most)];
    let and = |more: &[(u32, i64)]| rich(&[&full[..], more].concat());
    cases.good("total-100000000000", rich(&full));
    cases.good("total-100000000000-short", rich(&full.map(|(bond, nominal)| (bond, -nominal))));
    cases.good(
        "total-100000000000-both-signs",
        rich(&[(0, most), (0, -most), (0, most), (0, -most), (0, most)]),
    );
    cases.good("total-100000000000-and-zeros", and(&[(0, 0), (1, 0)]));
    cases.good("total-100000000000-value-rounds-down", and(&[(2, 499_999), (2, -499_999)]));
    cases.refused("20-one-over", 20, 0, and(&[(1, 2)]));
    cases.refused("20-one-over-short", 20, 0, and(&[(1, -2)]));
    cases.refused("20-half-rounds-up", 20, 0, and(&[(1, 1)]));
    cases.refused("20-half-rounds-up-short", 20, 0, and(&[(1, -1)]));
    cases.refused("20-millionths-round-up", 20, 0, and(&[(2, 500_000)]));
    cases.refused("20-over-at-first", 20, 0, rich(&[&[(1, 2)], &full[..]].concat()));
    // The signs would cancel.
    cases.refused(
        "20-long-and-short",
        20,
        0,
        rich(&[(0, most), (0, -most), (0, most), (0, -most), (0, most), (0, -most)]),
    );
    cases.refused("20-all-short", 20, 0, rich(&[(0, -most); 6]));
    // Before rounding the values total 100,000,000,000 exactly.
    let halves = [(0, most), (0, most), (0, most), (0, most), (0, most - 1), (1, 1), (1, 1), (1, 1), (1, 1)];
    cases.refused("20-halves-round-each", 20, 0, rich(&halves));
    // Before rounding they total more.
    cases.good("total-100000000000-parts-round-each", and(&[(2, 400_000), (2, 400_000), (2, 400_000)]));
    cases.refused("20-far-over", 20, 0, rich(&[(0, most); 60]));
    // The nominals total more, the values don't.
    cases.good("nominals-above-the-total", rich(&[(2, most); 20]));
}

// both 15 and 16 has an S of 0 as well.
fn order_cases(cases: &mut Cases) {
    let five = five();
    for (number, item) in [(14, 2), (15, 2), (16, 2), (17, 0), (18, 2), (19, 2), (20, 0)] {
        let alone = five.with(|b| damage(b, number, item));
        assert_eq!(check_values(&alone).err(), Some(Refusal { number, item }), "{number} alone");
    }
    let mut both = |first: (u32, usize), second: (u32, usize)| {
        let bytes = five.with(|b| {
            damage(b, second.0, second.1);
            damage(b, first.0, first.1);
        });
        let name = format!("both-{}-at-{}-and-{}-at-{}", first.0, first.1, second.0, second.1);
        cases.refused(&name, first.0, first.1, bytes);
    };
    for first in 14..=16 {
        for second in 14..=16 {
            both((first, 0), (second, 1));
            both((first, 3), (second, 4));
        }
        for second in first + 1..=16 {
            both((first, 0), (second, 0));
            both((first, 4), (second, 4));
        }
        for second in 17..=20 {
            both((first, 4), (second, 0));
        }
    }
    for first in 18..=19 {
        for second in 18..=19 {
            both((first, 0), (second, 1));
            both((first, 2), (second, 4));
        }
    }
    both((18, 0), (19, 0));
    both((18, 4), (19, 4));
    both((18, 0), (20, 0));
    both((19, 0), (20, 0));
    last_position_cases(cases);
    earlier_place_cases(cases);
}

// The values' total is above its bound before the last position is reached, and that one is refused.
fn last_position_cases(cases: &mut Cases) {
    let six = [(0, MOST_NOMINAL); 6];
    let and = |last: (u32, i64)| rich(&[&six[..], &[last]].concat());
    cases.refused("both-18-at-6-and-20-at-0", 18, 6, and((3, 0)));
    cases.refused("both-19-at-6-and-20-at-0", 19, 6, and((0, i64::MIN)));
    let uneven = five().with_sections(|s| {
        s[POSITIONS][..4].copy_from_slice(&5u32.to_le_bytes());
        s[POSITIONS].push(0);
    });
    cases.refused("both-17-at-0-and-18-at-0", 17, 0, uneven);
    let uneven = five().with_sections(|s| {
        s[POSITIONS][4..12].copy_from_slice(&i64::MIN.to_le_bytes());
        s[POSITIONS].pop();
    });
    cases.refused("both-17-at-0-and-19-at-0", 17, 0, uneven);
    let mut uneven = five();
    damage(&mut uneven, 20, 0);
    cases.refused("both-17-at-0-and-20-at-0", 17, 0, uneven.with_sections(|s| s[POSITIONS].push(0)));
}

// A fault of 1 to 13 at a last item, before one of 14 to 20 at the first.
fn earlier_place_cases(cases: &mut Cases) {
    let mut worse = five();
    for (number, item) in [(20, 0), (19, 0), (18, 0), (15, 1), (14, 0)] {
        damage(&mut worse, number, item);
    }
    cases.refused("all-from-14", 14, 0, worse.bytes());
    cases.refused("all-from-13", 13, 0, worse.with_sections(|s| s[FLOWS].push(0)));
    cases.refused("both-13-and-14-flow-less", 13, 0, worse.with_sections(|s| s[FLOWS].truncate(112)));
    cases.refused(
        "both-13-and-17",
        13,
        0,
        five().with_sections(|s| {
            s[FLOWS].push(0);
            s[POSITIONS].push(0);
        }),
    );
    cases.refused("both-12-at-4-and-14-at-0", 12, 4, worse.with(|b| b.bonds[4].first = 11));
    cases.refused("both-11-at-4-and-14-at-0", 11, 4, worse.with(|b| b.bonds[4].price = 0));
    cases.refused("both-10-and-14", 10, 0, worse.with_sections(|s| s[BONDS].push(0)));
    cases.refused("both-09-at-8-and-14-at-0", 9, 8, worse.with(|b| *b.prices.last_mut().unwrap() = 0));
    cases.refused("both-08-and-14", 8, 0, worse.with_sections(|s| s[PRICES].push(0)));
    cases.refused("both-07-at-8-and-14-at-0", 7, 8, worse.with(|b| b.vertices[8].curve = 8));
    cases.refused("both-06-and-14", 6, 0, worse.with_sections(|s| s[VERTICES].push(0)));
    cases.refused(
        "both-05-and-14",
        5,
        0,
        worse.with(|b| {
            b.parameters = Parameters::new(34, 1, 0, 5_000);
            b.prices = vec![1_000_000; 9 * 35];
        }),
    );
    cases.refused("both-04-and-14", 4, 0, worse.with(|b| b.parameters.tail = 2));
    cases.refused("both-03-and-14", 3, 0, worse.with(|b| b.parameters.zeros[5] = 1));
    cases.refused("both-02-and-14", 2, 0, [worse.bytes(), vec![0]].concat());
    cases.refused("01-47-bytes", 1, 0, worse.bytes()[..47].to_vec());
    cases.refused("01-empty", 1, 0, Vec::new());
    cases.refused("02-zeros", 2, 0, vec![0; 432]);
}

// ---------------------------------------------------------------------------------------------------------------------
// Good books
// ---------------------------------------------------------------------------------------------------------------------

// A good book whose exposures document 01 gives, or that can be told by head.
fn known(cases: &mut Cases, name: &str, book: Book, exposures: &[i128]) {
    assert_eq!(exposures_of(&book), exposures, "{name}");
    cases.good(name, book.bytes());
}

// The examples of 01.
fn example_cases(cases: &mut Cases) {
    known(cases, "printed", printed(), &[44_171, 955_829]);
    let share = |nominal| ninety([1_000_000, 1_000_000], &[(108, 1_000_000)], nominal);
    known(cases, "share-100001-at-108", share(100_001), &[80_000, 20_001]);
    known(cases, "share-minus-100001-at-108", share(-100_001), &[-80_000, -20_001]);
    known(cases, "minus-1-at-500000", priced(&[500_000], &[(0, -1)]), &[-1]);
    // The price at 120 days: 900,000, so that the two worths are equal.
    let flows = [(90, 1_000_000), (120, 1_000_000)];
    let third = ninety([900_000, 900_001], &flows, 6_000_000_000);
    assert_eq!(price_for(&points_of(&third, 0), 120), 900_000);
    known(cases, "price-at-120-rounds-down", third, &[5_000_000_000, 1_000_000_000]);
    let falling = ninety([900_001, 900_000], &flows, 6_000_000_000);
    assert_eq!(price_for(&points_of(&falling, 0), 120), 900_000);
    cases.good("price-at-120-rounds-down-falling", falling.bytes());
}

// Values: halves away from zero, each position by itself.
fn value_cases(cases: &mut Cases) {
    let mut single = |name: &str, price: u32, nominal: i64, value: i128| {
        known(cases, &format!("value-{name}"), priced(&[price], &[(0, nominal)]), &[value]);
    };
    single("1-at-500000", 500_000, 1, 1);
    single("1-at-499999", 499_999, 1, 0);
    single("minus-1-at-499999", 499_999, -1, 0);
    single("minus-1-at-500001", 500_001, -1, -1);
    single("3-at-500000", 500_000, 3, 2);
    single("minus-3-at-500000", 500_000, -3, -2);
    single("minus-5-at-500000", 500_000, -5, -3);
    single("1-at-2000000", 2_000_000, 1, 2);
    single("zero", 1_234_567, 0, 0);
    single("largest", 2_000_000, MOST_NOMINAL, 20_000_000_000);
    single("largest-short", 2_000_000, -MOST_NOMINAL, -20_000_000_000);
    single("largest-at-1", 1, MOST_NOMINAL, 10_000);
    single("499999-at-1", 1, 499_999, 0);
    single("500000-at-1", 1, 500_000, 1);
    single("minus-500000-at-1", 1, -500_000, -1);
    single("minus-1499999-at-1", 1, -1_499_999, -1);
    single("above-32-bits", 1_000_001, 5_000_000_000, 5_000_005_000);
    let mut several = |name: &str, price: u32, nominals: &[i64], value: i128| {
        let positions: Vec<(u32, i64)> = nominals.iter().map(|&nominal| (0, nominal)).collect();
        known(cases, &format!("not-netted-{name}"), priced(&[price], &positions), &[value]);
    };
    several("two-halves", 500_000, &[1, 1], 2);
    several("two-halves-short", 500_000, &[-1, -1], -2);
    several("three-at-400000", 400_000, &[1, 1, 1], 0);
    several("three-at-600000", 600_000, &[-1, -1, -1], -3);
    several("long-2-short-1", 500_000, &[2, -1], 0);
    several("short-2-long-1-at-400000", 400_000, &[-4, 1], -2);
    several("cancel", 999_999, &[12_345, -12_345], 0);
    several("zeros", 999_999, &[0, 0, 0], 0);
}

// Splits: where floors fall, and flows without worth.
fn split_cases(cases: &mut Cases) {
    let vertices = [(0, 10, 1_000_000), (0, 20, 1_000_000), (0, 30, 1_000_000), (0, 40, 1_000_000)];
    let mut split = |name: &str, amounts: [u32; 4], nominals: &[i64], shares: [i128; 4]| {
        let flows: Vec<(u16, u32)> = [10, 20, 30, 40].into_iter().zip(amounts).collect();
        let positions: Vec<(u32, i64)> = nominals.iter().map(|&nominal| (0, nominal)).collect();
        let book = book(&vertices, &[(0, 1_000_000, &flows)], &positions);
        known(cases, &format!("split-{name}"), book, &shares);
    };
    split("even", [1, 1, 1, 1], &[8], [2, 2, 2, 2]);
    split("7-of-4", [1, 1, 1, 1], &[7], [1, 2, 2, 2]);
    split("minus-7-of-4", [1, 1, 1, 1], &[-7], [-1, -2, -2, -2]);
    split("6-of-4", [1, 1, 1, 1], &[6], [1, 2, 1, 2]);
    split("minus-6-of-4", [1, 1, 1, 1], &[-6], [-1, -2, -1, -2]);
    split("1-of-4", [1, 1, 1, 1], &[1], [0, 0, 0, 1]);
    split("minus-1-of-4", [1, 1, 1, 1], &[-1], [0, 0, 0, -1]);
    split("1-by-1-is-not-netted", [1, 1, 1, 1], &[1, 1, 1, 1], [0, 0, 0, 4]);
    split("7-and-minus-6-are-not-netted", [1, 1, 1, 1], &[7, -6], [0, 0, 1, 0]);
    split("most-worth-first", [9_999_997, 1, 1, 1], &[999], [998, 0, 0, 1]);
    split("most-worth-last", [1, 1, 1, 9_999_997], &[999], [0, 0, 0, 999]);
    split(
        "small-s-large-value",
        [1, 1, 1, 4],
        &[MOST_NOMINAL],
        [1_428_571_428, 1_428_571_429, 1_428_571_428, 5_714_285_715],
    );
    let low = [(0, 10, 999_999), (0, 20, 1_000_000), (0, 30, 999_999), (0, 40, 1_000_000)];
    let mut floored = |name: &str, amounts: [u32; 4], nominal: i64, shares: [i128; 4]| {
        let flows: Vec<(u16, u32)> = [10, 20, 30, 40].into_iter().zip(amounts).collect();
        let book = book(&low, &[(0, 1_000_000, &flows)], &[(0, nominal)]);
        known(cases, &format!("worth-{name}"), book, &shares);
    };
    floored("0-in-first-and-third", [1, 2, 1, 3], 11, [0, 4, 0, 7]);
    floored("0-in-first-and-third-short", [1, 2, 1, 3], -11, [0, -4, 0, -7]);
    floored("rounds-down-in-first-and-third", [3, 2, 3, 3], 1_000, [222, 222, 222, 334]);
    worth_end_cases(cases);
}

// The first flows, or the last, have no worth.
fn worth_end_cases(cases: &mut Cases) {
    let vertices = [(0, 10, 1), (0, 20, 1), (0, 30, 1), (0, 40, 2_000_000)];
    let flows = [(3, 999_999), (10, 999_999), (20, 999_999), (30, 1_000_000), (40, 1)];
    let first = book(&vertices, &[(0, 1_500_000, &flows)], &[(0, 10), (0, -3)]);
    known(cases, "worth-0-in-first-three", first, &[0, 0, 4, 6]);
    let vertices = [(0, 10, 2_000_000), (0, 20, 1), (0, 30, 1)];
    let flows = [(10, 1), (20, 999_999), (30, 999_999)];
    let last = book(&vertices, &[(0, 1_500_000, &flows)], &[(0, 10), (0, -3)]);
    known(cases, "worth-0-in-last-two", last, &[10, 0, 0]);
}

// Mapping: before, on and between vertices, on several curves.
fn mapping_cases(cases: &mut Cases) {
    let four = [(1, 10, 1_000_000), (1, 20, 1_000_000), (1, 50, 1_000_000), (1, 20_000, 1_000_000)];
    let mut single = |days: u16, nominal: i64, exposures: [i128; 4]| {
        let book = book(&four, &[(1, 1_000_000, &[(days, 1_000_000)])], &[(0, nominal)]);
        known(cases, &format!("mapped-{}-at-{days}", signed_name(nominal)), book, &exposures);
    };
    single(1, 101, [101, 0, 0, 0]);
    single(9, 101, [101, 0, 0, 0]);
    single(10, 101, [101, 0, 0, 0]);
    single(11, 101, [90, 11, 0, 0]);
    single(19, 101, [10, 91, 0, 0]);
    single(20, 101, [0, 101, 0, 0]);
    single(21, 101, [0, 97, 4, 0]);
    single(35, 101, [0, 50, 51, 0]);
    single(35, -101, [0, -50, -51, 0]);
    single(49, -101, [0, -3, -98, 0]);
    single(49, 1, [0, 0, 1, 0]);
    single(21, 1, [0, 0, 1, 0]);
    single(21, -1, [0, 0, -1, 0]);
    single(50, -101, [0, 0, -101, 0]);
    single(51, 101, [0, 0, 100, 1]);
    single(19_999, MOST_NOMINAL, [0, 0, 501_253, 9_999_498_747]);
    single(20_000, -MOST_NOMINAL, [0, 0, 0, -10_000_000_000]);
    // Two shares meet between the same vertices: each is divided by itself.
    let flows = [(12, 500_000), (14, 500_000)];
    let two = book(&four, &[(1, 1_000_000, &flows)], &[(0, 6), (0, -6), (0, 6)]);
    known(cases, "mapped-each-share-by-itself", two, &[3, 3, 0, 0]);
    curve_cases(cases);
}

fn curve_cases(cases: &mut Cases) {
    let vertices = [
        (0, 90, 990_000),
        (0, 180, 980_000),
        (3, 90, 970_000),
        (3, 180, 960_000),
        (3, 360, 940_000),
        (4, 100, 999_999),
    ];
    let flows: &[(u16, u32)] = &[(45, 20_000), (90, 20_000), (100, 20_000)];
    let bonds = [(3, 1_000_000, flows), (0, 1_000_000, flows), (4, 1_000_000, flows)];
    let three = |positions: &[(u32, i64)]| book(&vertices, &bonds, positions);
    cases.good("three-curves", three(&[(0, 1_000), (1, -2_000), (2, 4_000), (1, 1)]).bytes());
    cases.good("three-curves-middle-held", three(&[(0, 123_457)]).bytes());
    cases.good("three-curves-first-held", three(&[(1, -123_457)]).bytes());
    known(cases, "three-curves-last-held", three(&[(2, 123_457)]), &[0, 0, 0, 0, 0, 123_457]);
    known(cases, "three-curves-zero-nominals", three(&[(0, 0), (1, 0), (2, 0)]), &[0; 6]);
    known(cases, "one-vertex", priced(&[1_000_000], &[(0, 7), (0, -9)]), &[-2]);
    cases.good("five", five().bytes());
    let eight: Vec<(u8, u16, u32)> =
        (0..64).map(|v| (v / 8, 100 + 50 * (v as u16 % 8), 1_000_000 - 3_001 * v as u32)).collect();
    let flows = [(30, 9_001), (120, 8_002), (275, 7_003), (400, 6_004), (449, 5_005), (450, 900_006)];
    let bonds: Vec<(u8, u32, &[(u16, u32)])> =
        (0..8).map(|curve| (7 - curve, 900_000 + 31_111 * curve as u32, &flows[..])).collect();
    let positions: Vec<(u32, i64)> = (0..8).map(|i| (i, (i as i64 - 3) * 1_234_567)).collect();
    cases.good("vertices-64", book(&eight, &bonds, &positions).bytes());
}

// Bounds: 120 flows, the highest and lowest of all fields, long histories, 1,024 bonds, 4,096 positions, as many bytes as fit.
fn boundary_cases(cases: &mut Cases) {
    let flows: Vec<(u16, u32)> = (1..=120).map(|j| (30 * j, 83_333 - j as u32)).collect();
    let vertices = [(6, 365, 960_000), (6, 1_000, 900_000), (6, 3_600, 700_000)];
    let long = |nominals: &[(u32, i64)]| book(&vertices, &[(6, 1_043_210, &flows)], nominals).bytes();
    cases.good("flows-120", long(&[(0, 5_000_000), (0, -119), (0, MOST_NOMINAL)]));
    cases.good("flows-120-short", long(&[(0, -1_234_567_891)]));
    cases.good("highest", highest().bytes());
    known(cases, "lowest", lowest(), &[1]);
    let older = five().with(|b| {
        b.parameters = Parameters::new(7, 3, 5, 9_000);
        b.prices = (0..9).flat_map(|v| (0..15).map(move |j| 999_999 - 1_000 * v - 37 * j)).collect();
    });
    cases.good("history-of-15", older);
    many_bond_cases(cases);
    many_position_cases(cases);
    longest_cases(cases);
}

fn highest() -> Book {
    let flows: Vec<(u16, u32)> =
        (0..120).map(|j| (19_881 + j, if j == 0 { MOST_AMOUNT - 119 } else { 1 })).collect();
    book(
        &[(7, 19_999, 2_000_000), (7, 20_000, 2_000_000)],
        &[(7, 2_000_000, &flows)],
        &[(0, MOST_NOMINAL); 5],
    )
}

fn lowest() -> Book {
    book(&[(0, 1, 1)], &[(0, 1, &[(1, 1_000_000)])], &[(0, 500_000)])
}

fn many_bonds() -> Book {
    let mut many =
        book(&[(0, 100, 990_000), (0, 1_100, 890_000)], &[], &[(1_023, 5_000), (0, -4_000), (511, 3)]);
    for i in 0..1_024 {
        many.push_bond(0, 900_000 + 97 * i, &[(i as u16 + 1, 1_000 + i)]);
    }
    many
}

fn many_bond_cases(cases: &mut Cases) {
    let many = many_bonds();
    cases.good("bonds-1024", many.bytes());
    cases.refused("18-bond-1024-of-1024", 18, 1, many.with(|b| b.positions[1].bond = 1_024));
}

// Nominals of both signs, one after the other over so many bonds.
fn many_positions(count: usize, bonds: usize) -> Vec<(u32, i64)> {
    let position = |i: usize| ((i % bonds) as u32, i as i64 * 7_919 % 20_011 - 10_000);
    (0..count).map(position).collect()
}

// 64 vertices, bonds of 120 flows and so many positions.
fn many_held(count: usize) -> Book {
    let vertices: Vec<(u8, u16, u32)> =
        (0..64).map(|v| (v / 8, 200 * (v as u16 % 8 + 1), 1_000_000 - 3_001 * v as u32)).collect();
    let flows: Vec<(u16, u32)> = (1..=120).map(|j| (13 * j, 83_333 - j as u32)).collect();
    let bonds: Vec<(u8, u32, &[(u16, u32)])> =
        (0..8).map(|curve| (curve, 900_000 + 31_111 * curve as u32, &flows[..])).collect();
    book(&vertices, &bonds, &many_positions(count, 8))
}

// 4,096 positions, which are more bytes than the program `unit` takes, and a position more.
fn many_position_cases(cases: &mut Cases) {
    cases.good("vertices-64-flows-120-positions-4096", many_held(4_096).bytes());
    cases.refused("17-4097-positions", 17, 0, many_held(4_097).bytes());
}

// As long as a book can be that is taken, and the most bytes that are; one more is too long, whatever the book.
fn longest_cases(cases: &mut Cases) {
    let vertices = [(0, 365)];
    let mut many = Book::market(Parameters::new(3, 1, 0, 9_900), &vertices, vec![3, 2, 4, 987_654]);
    (0..679).for_each(|i| many.push_bond(0, 900_000 + 97 * i, &[(i as u16 % 365 + 1, 1_000 + i)]));
    let position = |(bond, nominal): (u32, i64)| Position { bond, nominal };
    many.positions = many_positions(4_096, 679).into_iter().map(position).collect();
    let longest = many.bytes();
    assert_eq!(longest.len(), LONGEST_VALUED - 3);
    cases.good("longest", longest.clone());
    cases.refused("02-longest-and-3-bytes", 2, 0, [longest.clone(), vec![0; 3]].concat());
    cases.add("too-long-by-a-byte", [longest, vec![0; 4]].concat());
    cases.add("too-long-by-twice", vec![0; 2 * LONGEST_VALUED]);
}

// ---------------------------------------------------------------------------------------------------------------------
// Which bonds are held
// ---------------------------------------------------------------------------------------------------------------------

// Positions of one bond that stand apart, and bonds that no position holds, where neighbouring bonds differ.
fn held_cases(cases: &mut Cases) {
    let five = uneven(5);
    for (name, held) in [
        ("first-alone", vec![0; 7]),
        ("middle-alone", vec![2; 7]),
        ("last-alone", vec![4; 7]),
        ("all-but-first", [1, 2, 3, 4].repeat(3)),
        ("all-but-middle", [0, 1, 3, 4].repeat(3)),
        ("all-but-last", [0, 1, 2, 3].repeat(3)),
        ("first-at-both-ends", vec![0, 3, 1, 4, 2, 0]),
        ("last-at-both-ends", vec![4, 1, 0, 3, 2, 4]),
        ("first-and-last", [4, 0].repeat(4)),
    ] {
        cases.good(&format!("held-{name}"), holding(&five, held).bytes());
    }
    let whole = holding(&five, [0, 1, 2, 3, 4].repeat(4));
    for (order, book) in orders(&whole, &mut Random::new(24)) {
        known(cases, &format!("held-four-times-{order}"), book, &exposures_of(&whole));
    }
    cancelling_cases(cases, &five);
    // As many positions, and as many bonds, as there can be; of these the last position holds the first.
    cases.good("held-last-4096-times", holding(&five, [4; 4_096]).bytes());
    let twice = (0..2).flat_map(|_| (0..1_024).rev());
    cases.good("held-each-of-1024-twice", holding(&many_bonds(), twice).bytes());
}

// Two positions of one bond cancel, with others between them; and then all do.
fn cancelling_cases(cases: &mut Cases, five: &Book) {
    let mut two = holding(five, [0, 3, 1, 0, 2]);
    let others = Book { positions: [1, 2, 4].map(|p| two.positions[p].clone()).to_vec(), ..two.clone() };
    two.positions[3].nominal = -two.positions[0].nominal;
    known(cases, "held-and-two-cancel", two, &exposures_of(&others));
    let mut all = holding(five, [0, 1, 2, 3, 4, 3, 1]);
    let opposite = |p: &Position| Position { nominal: -p.nominal, ..p.clone() };
    all.positions.extend(all.positions.clone().iter().map(opposite));
    known(cases, "held-and-all-cancel", all, &[0; 9]);
}

// ---------------------------------------------------------------------------------------------------------------------
// No position
// ---------------------------------------------------------------------------------------------------------------------

// An empty positions section, by request W2: every exposure is 0, whatever the vertices and bonds. They are still checked.
fn empty_cases(cases: &mut Cases) {
    for (name, book) in [
        ("printed", printed()),
        ("five", five()),
        ("lowest", lowest()),
        ("highest", highest()),
        ("bonds-1024", many_bonds()),
        ("vertices-64-flows-120", many_held(1)),
    ] {
        let nothing = vec![0; book.vertices.len()];
        known(cases, &format!("no-position-{name}"), book.without_positions(), &nothing);
    }
    let empty = five().without_positions();
    cases.refused("13-no-position", 13, 0, empty.with_sections(|s| s[FLOWS].push(0)));
    for number in 14..=16 {
        for (place, i) in PLACES {
            let bytes = empty.with(|b| damage(b, number, i));
            cases.refused(&format!("{number}-no-position-{place}"), number, i, bytes);
        }
    }
}

// ---------------------------------------------------------------------------------------------------------------------
// Books by chance
// ---------------------------------------------------------------------------------------------------------------------

fn any_book(random: &mut Random) -> Book {
    let parameters = Parameters::new(
        random.between(1, 3) as u16,
        random.between(1, 2) as u8,
        random.between(0, 2) as u8,
        random.between(5_000, 9_999) as u16,
    );
    let vertices = any_vertices(random);
    let level = any_size(random, 2_000_000);
    let count = vertices.len() * parameters.history();
    let prices = (0..count).map(|_| random.between(level / 2 + 1, level) as u32).collect();
    let mut book = Book::market(parameters, &vertices, prices);
    add_holdings(&mut book, random);
    book
}

// The same, of those that pass.
fn good_book(random: &mut Random) -> Book {
    loop {
        let book = any_book(random);
        if check_values(&book.bytes()).is_ok() {
            return book;
        }
    }
}

// A good book with one to three changes: fields of flows and positions mostly, at times bytes or a length of a section.
fn damaged(mut book: Book, random: &mut Random) -> Vec<u8> {
    for _ in 0..[1, 1, 2, 3][random.between(0, 3) as usize] {
        change_field(&mut book, random);
    }
    let mut sections = book.sections();
    match random.between(0, 15) {
        0 => damage_section(&mut sections[random.between(0, 5) as usize], random),
        1 | 2 => damage_section(&mut sections[POSITIONS], random),
        _ => {}
    }
    join(&sections)
}

fn random_cases(cases: &mut Cases) {
    let mut random = Random::new(20);
    for i in 1..=80 {
        cases.good(&format!("random-{i:02}"), good_book(&mut random).bytes());
    }
    for i in 1..=160 {
        let bytes = damaged(good_book(&mut random), &mut random);
        let outcome = outcome(&check_values(&bytes));
        cases.add(&format!("damaged-{i:03}-{outcome}"), bytes);
    }
}

// The same without positions.
fn random_empty_cases(cases: &mut Cases) {
    let mut random = Random::new(23);
    for i in 1..=8 {
        let book = good_book(&mut random).without_positions();
        let nothing = vec![0; book.vertices.len()];
        known(cases, &format!("no-position-random-{i}"), book, &nothing);
    }
    for i in 1..=16 {
        let bytes = damaged(good_book(&mut random).without_positions(), &mut random);
        let outcome = outcome(&check_values(&bytes));
        cases.add(&format!("no-position-damaged-{i:02}-{outcome}"), bytes);
    }
}

// At times with many positions, at times without any.
fn book_by_chance(random: &mut Random) -> Vec<u8> {
    let mut book = good_book(random);
    if random.between(0, 3) == 0 {
        crowd(&mut book, random);
    }
    clear_at_times(&mut book, random);
    damaged(book, random)
}

fn all_cases(cases: &mut Cases) {
    example_cases(cases);
    value_cases(cases);
    split_cases(cases);
    mapping_cases(cases);
    boundary_cases(cases);
    days_cases(cases);
    amount_cases(cases);
    worth_cases(cases);
    unheld_cases(cases);
    position_cases(cases);
    total_cases(cases);
    order_cases(cases);
    held_cases(cases);
    empty_cases(cases);
    random_cases(cases);
    random_empty_cases(cases);
}

pub fn put(store: &mut Store) {
    let refusal = |bytes: &[u8]| check_values(bytes).err();
    let exposures = Layer { longest: LONGEST_VALUED, ..layer("exposures", refusal, print_file) };
    store.put(exposures, all_cases, book_by_chance);
}
