// Books for the scenarios layer, good and damaged, and what must be printed of each for the word `returns`.
//
// Written from documents 01 and 02 alone: the builder and the checker of book.rs, the checker of valuing.rs, and the checker
// and the figures of scenarios.rs. Every case names the refusal that it was made for, and the checker has to agree with it
// before anything is written.

use super::book::*;
use super::random::Random;
use super::scenarios::*;
use super::store::{print_line, Store};
use super::valuing::*;
use std::cmp::Ordering;

// ---------------------------------------------------------------------------------------------------------------------
// What `returns` prints of a file
// ---------------------------------------------------------------------------------------------------------------------

fn print_file(bytes: &[u8]) -> String {
    print_checked(check_returns(bytes), |out, (_, histories)| {
        print_line(out, "unscaled", &unscaled_of(&histories));
        print_line(out, "scaled", &scaled_of(&histories));
    })
}

// ---------------------------------------------------------------------------------------------------------------------
// Books
// ---------------------------------------------------------------------------------------------------------------------

fn parameters(lookback: u16, holding_period: u8, warm_up: u8, smoothing: u16) -> Parameters {
    Parameters { smoothing, ..Parameters::new(lookback, holding_period, warm_up, 9_900) }
}

// A market on one curve, with one bond and one position.
fn market(parameters: Parameters, prices: &[Vec<u32>]) -> Book {
    let mut book = one_curve(parameters, prices);
    book.push_bond(0, 1_000_000, &[(30, 1_000_000)]);
    book.positions.push(Position { bond: 0, nominal: 1_000 });
    book
}

// One vertex, holding period 1.
fn one_day(lookback: u16, warm_up: u8, smoothing: u16, prices: &[u32]) -> Book {
    market(parameters(lookback, 1, warm_up, smoothing), &[prices.to_vec()])
}

// One vertex with these returns, the first of them the warm-up. With holding period 10 the first ten returns don't depend on
// each other's prices, and are met exactly; they start at par, or where a return of −1,000,000 has to.
fn chosen(warm_up: u8, smoothing: u16, returns: &[i64]) -> Book {
    let lookback = returns.len() as u16 - warm_up as u16;
    let first = |j: usize| if returns.get(j) == Some(&-MOST) { 2_000_000 } else { 1_000_000 };
    let prices = prices_from((0..10).map(first).collect(), returns);
    let made = returns_of(&prices, 10);
    assert!(made.iter().zip(returns).take(10).all(|(&a, &b)| a == b as i128), "{returns:?}");
    market(parameters(lookback, 10, warm_up, smoothing), &[prices])
}

// The history of a book's only vertex.
fn only(book: &Book) -> History {
    assert_eq!(book.vertices.len(), 1);
    histories_of(book).remove(0)
}

fn with_faults(faults: &[(Fault, usize)]) -> Book {
    let mut book = nine();
    for &(fault, vertex) in faults {
        fault.put(&mut book, vertex);
    }
    book
}

// ---------------------------------------------------------------------------------------------------------------------
// Good books
// ---------------------------------------------------------------------------------------------------------------------

// A good book whose scenarios document 01 gives, or that can be told by head.
fn known(cases: &mut Cases, name: &str, book: Book, unscaled: &[i128], scaled: &[i128]) {
    let histories = histories_of(&book);
    assert_eq!(unscaled_of(&histories), unscaled, "{name}");
    assert_eq!(scaled_of(&histories), scaled, "{name}");
    cases.good(name, book.bytes());
}

// The examples of 01. Of the printed book it gives T and U of both kinds: the largest loss, and the sum of those that each
// exposure alone would have.
fn example_cases(cases: &mut Cases) {
    let printed = printed();
    let (exposures, histories) = (exposures_of(&printed), histories_of(&printed));
    let largest = |kind: fn(&History) -> &[i128]| {
        let profit = |s: usize| (0..2).map(|v: usize| exposures[v] * kind(&histories[v])[s]).sum::<i128>();
        let alone = |v: usize| kind(&histories[v]).iter().map(|r| (exposures[v] * r).abs()).max().unwrap();
        ((0..4).map(|s| profit(s).abs()).max().unwrap(), (0..2).map(alone).sum::<i128>())
    };
    assert_eq!(largest(History::unscaled_scenarios), (27_791_450_000, 29_558_290_000));
    assert_eq!(largest(History::scaled_scenarios), (26_729_614_530, 28_469_510_220));
    cases.good("printed", printed.bytes());
    known(cases, "return-minus-1", one_day(1, 0, 940, &[2_000_000, 1_999_999]), &[-1], &[-1]);
}

// A return alone: the newest volatility is its own, so that its scaled return is the return.
fn return_cases(cases: &mut Cases) {
    let alone = |earlier: u32, price: u32| one_day(1, 0, 940, &[earlier, price]);
    for (earlier, price, r) in [
        (1_000_000, 1_000_001, 1),
        (1_999_999, 2_000_000, 1),
        (2_000_000, 1_999_998, -1),
        (2_000_000, 1_999_997, -2),
        (128, 129, 7_813),
        (128, 127, -7_813),
        (640_000, 640_008, 13),
        (640_000, 639_992, -13),
        (640_000, 640_007, 11),
        (640_000, 639_993, -11),
        (3, 4, 333_333),
        (3, 5, 666_667),
        (3, 2, -333_333),
        (3, 1, -666_667),
        (2, 1, -500_000),
        (1, 1, 0),
        (777_777, 777_777, 0),
        (2_000_000, 2_000_000, 0),
        (1, 2, 1_000_000),
        (1_000_000, 2_000_000, 1_000_000),
        (999_999, 1_999_998, 1_000_000),
        (1_000_000, 1_999_999, 999_999),
        (2_000_000, 1, -1_000_000),
        (1_999_999, 1, -999_999),
        (2_000_000, 2, -999_999),
        (2_000_000, 3, -999_999),
        (1_000_000, 1, -999_999),
    ] {
        known(cases, &format!("return-{earlier}-to-{price}"), alone(earlier, price), &[r], &[r]);
    }
    // 1 to 4,296: as 32 bits the return is 32,704.
    for (earlier, price, r) in [
        (999_999, 1_999_999, 1_000_001),
        (999_998, 1_999_997, 1_000_001),
        (999_999, 2_000_000, 1_000_002),
        (666_666, 1_333_333, 1_000_002),
        (1, 3, 2_000_000),
        (2, 5, 1_500_000),
        (1, 4_296, 4_295_000_000),
        (1, 2_000_000, 1_999_999_000_000),
        (3, 2_000_000, 666_665_666_667),
    ] {
        let book = alone(earlier, price);
        assert_eq!(only(&book).returns, [r]);
        cases.refused(&format!("21-return-{earlier}-to-{price}"), 21, 0, book.bytes());
    }
}

// Volatilities of 0, variances that fall to 0 and that are as large as they can be.
fn volatility_cases(cases: &mut Cases) {
    known(cases, "constant", one_day(4, 2, 940, &[850_000; 7]), &[0; 4], &[0; 4]);
    known(cases, "constant-at-1", one_day(3, 0, 1, &[1; 4]), &[0; 3], &[0; 3]);
    let moved = one_day(3, 1, 999, &[1_000_000, 1_010_000, 1_010_000, 1_010_000, 1_010_000]);
    assert!(only(&moved).volatilities.iter().all(|&volatility| volatility > 0));
    known(cases, "returns-0-volatility-not-0", moved, &[0; 3], &[0; 3]);
    // The own volatility is 0, the newest is not.
    let last = chosen(0, 940, &[0, 0, 700, 0, 900_000]);
    assert_eq!(only(&last).volatilities[..2], [0, 0]);
    cases.good("volatility-0-then-not", last.bytes());
    // The newest volatility is 0: scaled returns are halves, away from zero.
    for (r, half) in [(1, 1), (-1, -1), (2, 1), (3, 2), (-3, -2), (-4, -2), (7, 4), (-9, -5)] {
        let book = chosen(0, 1, &[r, 0, 0, 0]);
        assert_eq!(only(&book).newest(), 0);
        let name = format!("newest-volatility-0-return-{}", signed_name(r));
        known(cases, &name, book, &[r as i128, 0, 0, 0], &[half, 0, 0, 0]);
    }
    // Variances 10,000, 10 and 0; the last return's is 10 × 999.
    let book = chosen(0, 1, &[1, 0, 0, 1]);
    assert_eq!(only(&book).volatilities, [100, 3, 0, 99]);
    known(cases, "variance-falls-to-0-and-rises", book, &[1, 0, 0, 1], &[1, 0, 0, 1]);
    // The least variance of a return that isn't 0: 10, by smoothing factor 999.
    let book = chosen(1, 999, &[0, 1, 0, -1]);
    assert_eq!(only(&book).volatilities, [0, 3, 3, 4]);
    known(cases, "variance-10", book, &[1, 0, -1], &[1, 0, -1]);
    for smoothing in [1, 999] {
        for (name, r) in [("up", MOST), ("down", -MOST)] {
            let book = chosen(0, smoothing, &[r]);
            assert_eq!(only(&book).newest(), 100_000_000);
            let name = format!("variance-largest-{name}-smoothing-{smoothing}");
            known(cases, &name, book, &[r as i128], &[r as i128]);
        }
        let all = [MOST, -MOST, MOST, -MOST];
        let book = chosen(0, smoothing, &all);
        assert_eq!(only(&book).volatilities, [100_000_000; 4]);
        let same = all.map(|r| r as i128);
        known(cases, &format!("variance-stays-largest-smoothing-{smoothing}"), book, &same, &same);
        cases.good(
            &format!("first-return-0-smoothing-{smoothing}"),
            chosen(0, smoothing, &[0, 5_000, 4_000]).bytes(),
        );
    }
}

// Scaled returns that lie at halves, and where a root or a variance that isn't rounded down would show.
fn rounding_cases(cases: &mut Cases) {
    for (sign, name) in [(1, "up"), (-1, "down")] {
        let mut found = 0;
        for (r, x) in (1..60).flat_map(|r| (1..60).map(move |x| (r, x))) {
            let returns = [sign * (100 + 7 * r), x * 37];
            let book = chosen(0, [500, 940, 999][found % 3], &returns);
            let history = only(&book);
            let (own, newest) = (history.volatilities[0], history.newest());
            let half = (history.returns[0] * (newest + own)).rem_euclid(2 * own) == own;
            if half && own != newest {
                found += 1;
                cases.good(&format!("scaled-half-{name}-{found}"), book.bytes());
            }
            if found == 6 {
                break;
            }
        }
        assert_eq!(found, 6);
    }
    let mut random = Random::new(3);
    let others: [(&str, fn(i128, i128) -> i128); 2] = [("nearest", nearest), ("up", |n, d| (n + d - 1) / d)];
    for (name, round) in others {
        let mut found = 0;
        while found < 3 {
            let smoothing = random.between(900, 999) as u16;
            let size = random.between(10, 3_000);
            let returns: Vec<i64> =
                (0..10).map(|_| random.between(0, 2 * size) as i64 - size as i64).collect();
            let book = chosen(2, smoothing, &returns);
            let other = History::by(round, whole_root, &book.parameters, &book.prices);
            if other.scaled_scenarios() != only(&book).scaled_scenarios()
                && check_returns(&book.bytes()).is_ok()
            {
                found += 1;
                cases.good(&format!("variance-not-rounded-{name}-{found}"), book.bytes());
            }
        }
    }
}

// The root rounded to the nearest, and rounded up.
fn nearest_root(n: i128) -> i128 {
    let root = whole_root(n);
    root + (n > root * root + root) as i128
}

fn root_up(n: i128) -> i128 {
    let root = whole_root(n);
    root + (n > root * root) as i128
}

// Variances of every size up to near 10^16 where a root that isn't rounded down would show.
fn root_cases(cases: &mut Cases) {
    let mut random = Random::new(4);
    let others: [(&str, fn(i128) -> i128); 2] = [("nearest", nearest_root), ("up", root_up)];
    for (name, root) in others {
        for size in [3, 10, 100, 3_000, 40_000, 300_000, 900_000] {
            let mut found = 0;
            while found < 2 {
                let smoothing = random.between(900, 999) as u16;
                let returns: Vec<i64> = (0..10).map(|_| random.size(size)).collect();
                let book = chosen(2, smoothing, &returns);
                let other = History::by(floor, root, &book.parameters, &book.prices);
                if other.scaled_scenarios() != only(&book).scaled_scenarios()
                    && check_returns(&book.bytes()).is_ok()
                {
                    found += 1;
                    cases.good(&format!("root-not-{name}-returns-{size}-{found}"), book.bytes());
                }
            }
        }
    }
}

// ---------------------------------------------------------------------------------------------------------------------
// Damaged books
// ---------------------------------------------------------------------------------------------------------------------

fn range_cases(cases: &mut Cases) {
    cases.good("nine", nine().bytes());
    for (kind, fault) in FAULTS {
        for (place, half) in PLACES {
            let vertex = 2 * half;
            let bytes = with_faults(&[(fault, vertex)]).bytes();
            cases.refused(&format!("21-{kind}-{place}"), 21, vertex, bytes);
        }
    }
    // Two vertices out of range: the first counts, whatever the kinds.
    for (first, one) in FAULTS {
        for (second, other) in FAULTS {
            let bytes = with_faults(&[(one, 3), (other, 5)]).bytes();
            cases.refused(&format!("21-{first}-at-3-and-{second}-at-5"), 21, 3, bytes);
        }
        let bytes = with_faults(&(0..9).map(|vertex| (one, vertex)).collect::<Vec<_>>()).bytes();
        cases.refused(&format!("21-{first}-at-all"), 21, 0, bytes);
    }
    // One return out of range, at each place.
    for at in 0..9 {
        let mut returns = [0; 9];
        returns[at] = 1_000_001;
        let prices = prices_from(vec![999_999; 2], &returns);
        let book = market(parameters(6, 2, 3, 500), &[prices]);
        assert_eq!(only(&book).faults()[..2], [at < 3, at >= 3]);
        cases.refused(&format!("21-1000001-at-{at}"), 21, 0, book.bytes());
        let book = market(parameters(6, 2, 3, 500), &[prices_from(vec![1_000_000; 2], &returns)]);
        assert_eq!(only(&book).returns[at], MILLION);
        cases.good(&format!("return-1000000-at-{at}"), book.bytes());
        let mut prices = vec![2_000_000; 11];
        prices[at + 2..].iter_mut().step_by(2).for_each(|price| *price = 1);
        let book = market(parameters(6, 2, 3, 500), &[prices]);
        assert_eq!(only(&book).returns[at], -MILLION);
        cases.good(&format!("return-minus-1000000-at-{at}"), book.bytes());
    }
}

// A return out of range in long histories: the first and the last of the warm-up, the first and the last of the scenarios.
fn long_history_cases(cases: &mut Cases) {
    for (lookback, holding_period, at) in
        [(8, 1, 0), (8, 3, 254), (8, 10, 255), (8, 1, 262), (1_024, 10, 1_278)]
    {
        let mut returns = vec![0; lookback as usize + 255];
        returns[at] = 1_000_001;
        let prices = prices_from(vec![999_999; holding_period as usize], &returns);
        let book =
            market(parameters(lookback, holding_period, 255, 990), &[vec![500_000; prices.len()], prices]);
        assert_eq!(histories_of(&book)[1].faults()[..2], [at < 255, at >= 255]);
        cases.refused(&format!("21-1000001-at-{at}-lookback-{lookback}"), 21, 1, book.bytes());
    }
}

// A fault of 1 to 20 at a last item, before 21 at the first vertex.
fn order_cases(cases: &mut Cases) {
    for (kind, fault) in FAULTS {
        let worse = with_faults(&[(fault, 0)]);
        for (number, item) in [(14, 4), (15, 4), (16, 4), (17, 0), (18, 4), (19, 4), (20, 0)] {
            let bytes = worse.with(|b| damage(b, number, item));
            cases.refused(&format!("both-{number}-at-{item}-and-21-{kind}-at-0"), number, item, bytes);
        }
    }
    let worse = with_faults(&[(Fault::WarmUp, 0), (Fault::Scenario, 4), (Fault::Scaled, 8)]);
    cases.refused("both-13-and-21", 13, 0, worse.with_sections(|s| s[FLOWS].push(0)));
    cases.refused("both-12-at-4-and-21-at-0", 12, 4, worse.with(|b| b.bonds[4].first = 11));
    cases.refused("both-11-at-4-and-21-at-0", 11, 4, worse.with(|b| b.bonds[4].price = 0));
    cases.refused("both-10-and-21", 10, 0, worse.with_sections(|s| s[BONDS].push(0)));
    cases.refused("both-09-at-8-and-21-at-0", 9, 8, worse.with(|b| *b.prices.last_mut().unwrap() = 0));
    cases.refused("both-09-at-0-and-21-at-0", 9, 0, worse.with(|b| b.prices[0] = 0));
    cases.refused("both-08-and-21", 8, 0, worse.with_sections(|s| s[PRICES].push(0)));
    cases.refused("both-07-at-8-and-21-at-0", 7, 8, worse.with(|b| b.vertices[8].curve = 8));
    cases.refused("both-06-and-21", 6, 0, worse.with_sections(|s| s[VERTICES].push(0)));
    let wild = |j: usize| if j % 2 == 0 { 1 } else { 2_000_000 };
    cases.refused(
        "both-05-and-21",
        5,
        0,
        worse.with(|b| {
            b.parameters = Parameters::new(34, 1, 0, 5_000);
            b.prices = (0..9 * 35).map(wild).collect();
        }),
    );
    cases.refused("both-04-and-21-smoothing-0", 4, 0, worse.with(|b| b.parameters.smoothing = 0));
    cases.refused("both-04-and-21-smoothing-1000", 4, 0, worse.with(|b| b.parameters.smoothing = 1_000));
    cases.refused("both-04-and-21-holding-period-0", 4, 0, worse.with(|b| b.parameters.holding_period = 0));
    cases.refused("both-04-and-21-lookback-0", 4, 0, worse.with(|b| b.parameters.lookback = 0));
    cases.refused("both-03-and-21", 3, 0, worse.with(|b| b.parameters.zeros[5] = 1));
    cases.refused("both-02-and-21", 2, 0, [worse.bytes(), vec![0]].concat());
    cases.refused("01-47-bytes", 1, 0, worse.bytes()[..47].to_vec());
    cases.refused("01-empty", 1, 0, Vec::new());
}

// ---------------------------------------------------------------------------------------------------------------------
// Where scaled returns leave their range
// ---------------------------------------------------------------------------------------------------------------------

// Smoothing factors; for 190, 960 and 990 the root of 10 × (1,000 − smoothing factor) is whole.
const SMOOTHINGS: [u16; 7] = [1, 190, 500, 940, 960, 990, 999];

// A volatility is at least so many times the size of its return.
fn least_ratio(smoothing: u16) -> i128 {
    whole_root(10 * (1_000 - smoothing as i128))
}

// The largest newest volatility at which no scaled return can be out of range. It only picks test points, and decides
// nothing.
fn calm_volatility(smoothing: u16) -> i128 {
    MILLION * least_ratio(smoothing)
}

// With changes up to this many millionths the newest volatility is at most that one. It only picks test points, too.
fn calm_change(smoothing: u16) -> i128 {
    10_000 * least_ratio(smoothing)
}

fn largest_scaled(book: &Book) -> i128 {
    only(book).scaled_scenarios().iter().map(|r| r.abs()).max().unwrap()
}

// The least number up to the highest that has a property that all later ones have too.
fn least(highest: i64, has: impl Fn(i64) -> bool) -> Option<i64> {
    let (mut low, mut high) = (-1, highest + 1);
    while high - low > 1 {
        let middle = (low + high) / 2;
        if has(middle) {
            high = middle;
        } else {
            low = middle;
        }
    }
    (high <= highest).then_some(high)
}

// The larger the newest return, the larger the newest volatility and with it the scaled scenarios: the last newest return
// with which the book passes, and the first with which it is refused.
fn frontier(cases: &mut Cases, name: &str, smoothing: u16, before: &[i64], sign: i64) {
    let book = |x: i64| chosen(1, smoothing, &[before, &[sign * x]].concat());
    let first = least(MOST - 1, |x| check_returns(&book(x).bytes()).is_err()).expect(name);
    let (inside, outside) = (book(first - 1), book(first));
    assert_eq!(largest_scaled(&inside), MILLION, "{name}");
    assert_eq!(only(&inside).scaled[1].abs(), MILLION, "{name}");
    assert_eq!(only(&outside).faults(), Fault::Scaled.kinds(), "{name}");
    cases.good(&format!("scaled-1000000-{name}"), inside.bytes());
    let by = largest_scaled(&outside);
    cases.refused(&format!("21-scaled-{by}-{name}"), 21, 0, outside.bytes());
}

fn frontier_cases(cases: &mut Cases) {
    for smoothing in SMOOTHINGS {
        for (r, sign) in [(MOST, 1), (MOST, -1), (-MOST, 1), (-MOST, -1), (999_990, 1), (-999_990, 1)] {
            let name = format!(
                "smoothing-{smoothing}-by-{}-newest-{}",
                signed_name(r),
                ["down", "up"][(sign > 0) as usize]
            );
            frontier(cases, &name, smoothing, &[0, r], sign);
        }
    }
    for smoothing in [500, 940, 960, 990, 999] {
        for r in [900_000, -800_000] {
            let name = format!("smoothing-{smoothing}-by-{}", signed_name(r));
            frontier(cases, &name, smoothing, &rising(smoothing, r), 1);
        }
    }
    for (smoothing, r) in [
        (940, 300_000),
        (940, -100_000),
        (990, 100_000),
        (990, -10_000),
        (999, 1),
        (999, -1),
        (999, 2),
        (999, -3),
        (999, 5_000),
    ] {
        let name = format!("smoothing-{smoothing}-by-{}", signed_name(r));
        frontier(cases, &name, smoothing, &rising(smoothing, r), -1);
    }
}

// A return of 0, the first one, and returns that raise the volatility until the first one's scaled return can leave the
// range by one more. Each is as large as its own scaled return allows.
fn rising(smoothing: u16, first: i64) -> Vec<i64> {
    let mut returns = vec![0, first];
    let own = only(&chosen(1, smoothing, &returns)).newest();
    let bound = own * (2 * MILLION - first.abs() as i128) / first.abs() as i128;
    while check_returns(&chosen(1, smoothing, &[&returns[..], &[MOST - 1]].concat()).bytes()).is_ok() {
        assert!(returns.len() < 19, "{smoothing} {first}");
        let sign = if returns.len() < 10 { 1 } else { -1 };
        let with = |x: i64| chosen(1, smoothing, &[&returns[..], &[sign * x]].concat());
        let next = least(MOST - 1, |x| {
            let history = only(&with(x));
            scaled_return(*history.returns.last().unwrap(), bound, history.newest()).abs() > MILLION - 2_000
        });
        returns.push(sign * (next.unwrap_or(MOST) - 1));
    }
    returns
}

// Returns with a newest volatility of exactly so much: the newest return comes to less, and the one before to the rest.
fn newest_at(smoothing: u16, before: &[i64], volatility: i128) -> Book {
    let book = |y: i64, x: i64| chosen(1, smoothing, &[before, &[y, x]].concat());
    let x = least(MOST, |x| only(&book(0, x)).newest() >= volatility).unwrap() - 1;
    let y = least(MOST, |y| only(&book(y, x)).newest() >= volatility).unwrap();
    let found = book(y, x);
    assert_eq!(only(&found).newest(), volatility);
    found
}

// Newest volatilities about the one up to which all scaled scenarios are in range: up to it a book passes, above it the check
// tells.
fn edge_cases(cases: &mut Cases) {
    let mut random = Random::new(21);
    for smoothing in SMOOTHINGS {
        let edge = calm_volatility(smoothing);
        let root = edge / MILLION;
        let mut at = |kind: &str, before: &[i64], volatility: i128| {
            let book = newest_at(smoothing, before, volatility).bytes();
            let name = format!("newest-volatility-{volatility}-smoothing-{smoothing}-{kind}");
            match check_returns(&book) {
                Ok(_) => cases.good(&name, book),
                Err(_) => {
                    assert!(volatility > edge, "{name}");
                    cases.refused(&format!("21-{name}"), 21, 0, book)
                }
            }
        };
        let large = if smoothing == 999 { 940_000 } else { MOST };
        for more in [-1, 0, 1, root - 1, root, root + 1] {
            at("up", &[0, large], edge + more);
        }
        for more in [-1, 0, 1, root] {
            at("down", &[0, -large], edge + more);
        }
        for chance in 1..=3 {
            let size = [1_000, 30_000, 300_000][chance - 1];
            let mut before = vec![0];
            before.extend((0..7).map(|_| random.between(0, 2 * size) as i64 - size as i64));
            for more in [-1, 0, 1] {
                at(&format!("random-{chance}"), &before, edge + more);
            }
        }
    }
}

// A newest variance of exactly so much, after a return of 1,000,000: the newest return, then each one before it, comes as
// near as it can. The newest is tried smaller until all is met.
fn variance_at(smoothing: u16, variance: i128) -> Book {
    let newest = |returns: &[i64]| *only(&chosen(1, smoothing, returns)).variances.last().unwrap();
    let fill = |returns: &mut [i64], at: usize| {
        let above = least(MOST, |r| {
            let mut more = returns.to_vec();
            more[at] = r;
            newest(&more) > variance
        });
        returns[at] = above.unwrap_or(MOST + 1) - 1;
    };
    let mut found = vec![0, MOST, 0, 0, 0, 0, 0, 0, 0, 0];
    fill(&mut found, 9);
    while newest(&found) != variance {
        found[9] -= 1;
        found[2..9].fill(0);
        (2..9).rev().for_each(|at| fill(&mut found, at));
    }
    chosen(1, smoothing, &found)
}

// A scaled scenario that leaves the range where the newest variance becomes a square; the one before has a root that 64-bit
// floats round up.
fn square_cases(cases: &mut Cases) {
    for smoothing in [190, 360, 510] {
        let edge = calm_volatility(smoothing);
        let root = edge + edge / MILLION;
        assert!(((root * root - 1) as f64).sqrt() == root as f64);
        let under = variance_at(smoothing, root * root - 1);
        let square = variance_at(smoothing, root * root);
        assert_eq!([only(&under).newest(), only(&square).newest()], [root - 1, root]);
        cases.good(&format!("newest-variance-under-a-square-smoothing-{smoothing}"), under.bytes());
        cases.refused(&format!("21-newest-variance-a-square-smoothing-{smoothing}"), 21, 0, square.bytes());
    }
}

// How a vertex's largest change over the holding period lies to the calm one.
fn largest_change(parameters: &Parameters, prices: &[u32]) -> Ordering {
    let bound = calm_change(parameters.smoothing);
    let pairs = prices.iter().zip(&prices[parameters.holding_period as usize..]);
    let change = |(&earlier, &price): (&u32, &u32)| {
        ((price as i128 - earlier as i128).abs() * MILLION).cmp(&(bound * earlier as i128))
    };
    pairs.map(change).max().unwrap()
}

// Prices a holding period apart: a long calm with one small move, then a run of changes by the calm one and some price units
// more, up and back, or down and half as much up.
fn about_calm(smoothing: u16, run: usize, way: i128, units: i128, first: i128) -> Vec<u32> {
    let bound = calm_change(smoothing);
    let mut prices = vec![first; 24];
    prices[16] += way;
    for _ in 0..run {
        let from = *prices.last().unwrap();
        let to = from + way * (from * bound / MILLION + units);
        prices.push(to);
        prices.push(if way > 0 { from } else { to + to * bound / (2 * MILLION) });
    }
    prices.pop();
    prices.iter().map(|&price| price as u32).collect()
}

// Three vertices move up, three down, by a price unit less than the calm change, by the calm change, by a price unit more.
// None can leave the range so near to it.
fn calm_change_cases(cases: &mut Cases) {
    for (smoothing, run) in [(1, 2), (500, 4), (940, 12), (999, 40)] {
        for holding_period in [1, 3] {
            let vertex = |way: i128, units: i128| {
                let path = |first: i128| about_calm(smoothing, run, way, units, first);
                let paths: Vec<Vec<u32>> = (0..holding_period).map(|j| path(1_000_000 - 100 * j)).collect();
                (0..paths[0].len()).flat_map(|i| paths.iter().map(move |path| path[i])).collect::<Vec<u32>>()
            };
            let kinds = [(1, -1), (1, 0), (1, 1), (-1, -1), (-1, 0), (-1, 1)];
            let prices = kinds.map(|(way, units)| vertex(way, units));
            let warm_up = 5;
            let lookback = prices[0].len() as u16 - holding_period as u16 - warm_up as u16;
            let parameters = parameters(lookback, holding_period as u8, warm_up, smoothing);
            for ((_, units), own) in kinds.iter().zip(&prices) {
                assert_eq!(largest_change(&parameters, own), units.cmp(&0));
            }
            let change = calm_change(smoothing);
            let name = format!("changes-by-{change}-smoothing-{smoothing}-holding-period-{holding_period}");
            cases.good(&name, market(parameters, &prices).bytes());
        }
    }
}

// The returns before a run, all 0.
const CALM: usize = 100;

// A calm, an early return, returns that grow by a quarter, then a run of returns x, up and down in turn. Where the early one
// isn't below x, the run's first is the early one.
fn burst(smoothing: u16, holding_period: u8, early: i64, run: usize, x: i64) -> Book {
    let mut sizes = Vec::new();
    let mut size = early;
    while size < x {
        sizes.push(size);
        size += (size + 3) / 4;
    }
    sizes.extend(vec![x; run]);
    let signed = |(i, &size): (usize, &i64)| if i / holding_period as usize % 2 == 0 { size } else { -size };
    let mut returns = vec![0; CALM];
    returns.extend(sizes.iter().enumerate().map(signed));
    let warm_up = 60;
    let lookback = returns.len() as u16 - warm_up as u16;
    let prices = prices_from(vec![1_000_000; holding_period as usize], &returns);
    market(parameters(lookback, holding_period, warm_up, smoothing), &[prices])
}

// The largest x with which all scaled returns are in range; with one more the early return's, and it alone, is not. Its own
// volatility is the least that its return can have. After an early return of 1 the newest is 2,000,000 times as much.
fn burst_cases(cases: &mut Cases) {
    for (smoothing, holding_period, early, run, x) in [
        (1, 1, MOST, 2, 999_750),
        (500, 3, MOST, 12, 828_487),
        (940, 1, 1, 40, 498_656),
        (940, 3, MOST, 60, 397_429),
        (999, 3, 1, 900, 77_802),
    ] {
        let [inside, outside] = [x, x + 1].map(|x| burst(smoothing, holding_period, early, run, x));
        for book in [&inside, &outside] {
            assert_eq!(largest_change(&book.parameters, &book.prices), Ordering::Greater);
        }
        let history = only(&outside);
        assert_eq!(history.faults(), Fault::Scaled.kinds());
        let out = (0..history.scaled.len()).filter(|&j| history.scaled[j].abs() > MILLION);
        assert!(out.eq([CALM]));
        assert!(early > 1 || history.newest() >= 2 * MILLION * history.volatilities[CALM]);
        let name = |x: i64| format!("calm-then-{x}-smoothing-{smoothing}-holding-period-{holding_period}");
        cases.good(&name(x), inside.bytes());
        cases.refused(&format!("21-{}", name(x + 1)), 21, 0, outside.bytes());
    }
}

// A vertex whose scaled scenario is just out of range after vertices where it is just in range.
fn later_vertex_cases(cases: &mut Cases) {
    for smoothing in [500, 940, 990, 999] {
        let returns = |x: i64| [0, 950_000, 0, -x];
        let book = |x: i64| chosen(1, smoothing, &returns(x));
        let first = least(MOST - 1, |x| check_returns(&book(x).bytes()).is_err()).unwrap();
        let (inside, outside) = (book(first - 1), book(first));
        let four = vec![inside.prices.clone(); 4];
        let bytes = market(inside.parameters.clone(), &four).bytes();
        cases.good(&format!("four-just-inside-smoothing-{smoothing}"), bytes);
        for at in [1, 3] {
            let mut prices = four.clone();
            prices[at] = outside.prices.clone();
            let bytes = market(inside.parameters.clone(), &prices).bytes();
            cases.refused(&format!("21-just-outside-smoothing-{smoothing}-at-{at}"), 21, at, bytes);
        }
        // As a return of the warm-up it isn't scaled.
        let mut warm_up = outside.clone();
        (warm_up.parameters.warm_up, warm_up.parameters.lookback) = (2, 2);
        assert!(only(&warm_up).scaled[1].abs() > MILLION);
        cases.good(&format!("warm-up-just-outside-smoothing-{smoothing}"), warm_up.bytes());
    }
}

// ---------------------------------------------------------------------------------------------------------------------
// Shapes
// ---------------------------------------------------------------------------------------------------------------------

fn walks(parameters: Parameters, vertices: usize, size: u64, seed: u64) -> Book {
    let mut random = Random::new(seed);
    let prices: Vec<Vec<u32>> =
        (0..vertices).map(|_| walk(&mut random, size, parameters.history())).collect();
    market(parameters, &prices)
}

fn shape_cases(cases: &mut Cases) {
    let mut shape = |name: &str, parameters: Parameters, vertices: usize, size: u64| {
        let seed = 1_000 + name.len() as u64;
        cases.good(name, walks(parameters, vertices, size, seed).bytes());
    };
    for holding_period in 1..=10 {
        shape(&format!("holding-period-{holding_period}"), parameters(6, holding_period, 3, 940), 2, 9_000);
        shape(
            &format!("lookback-1-holding-period-{holding_period}"),
            parameters(1, holding_period, 0, 940),
            3,
            9_000,
        );
    }
    for warm_up in [0, 1, 2, 127, 128, 254, 255] {
        shape(&format!("warm-up-{warm_up}"), parameters(3, 2, warm_up, 970), 2, 9_000);
        shape(&format!("lookback-1-warm-up-{warm_up}"), parameters(1, 1, warm_up, 970), 1, 9_000);
    }
    for smoothing in [1, 2, 499, 500, 501, 940, 998, 999] {
        shape(&format!("smoothing-{smoothing}"), parameters(12, 1, 5, smoothing), 2, 40_000);
        shape(&format!("smoothing-{smoothing}-calm"), parameters(12, 1, 5, smoothing), 2, 20);
    }
    for lookback in [2, 255, 256, 257] {
        shape(&format!("lookback-{lookback}"), parameters(lookback, 3, 10, 940), 2, 9_000);
    }
    shape("lookback-1024", parameters(1_024, 1, 0, 940), 2, 12_000);
    shape("lookback-1024-warm-up-255-holding-period-10", parameters(1_024, 10, 255, 999), 3, 2_000);
    shape("vertices-64", parameters(40, 1, 6, 940), 64, 30_000);
    shape("vertices-64-lookback-1", parameters(1, 1, 0, 940), 64, 300_000);
    longest_cases(cases);
}

// As many entries as fit the bytes that the program takes; one more byte is too long, whatever the book.
fn longest_cases(cases: &mut Cases) {
    let mut book = walks(parameters(1_018, 1, 0, 970), 8, 4_000, 77);
    book.flows.extend([31, 32].map(|days| Flow { days, zero: 0, amount: 1_000 }));
    book.bonds[0].number = 3;
    book.positions.push(Position { bond: 0, nominal: -7 });
    let longest = book.bytes();
    assert_eq!(longest.len(), LONGEST);
    cases.good("longest", longest.clone());
    cases.add("too-long-by-a-byte", [longest, vec![0]].concat());
}

// ---------------------------------------------------------------------------------------------------------------------
// No position
// ---------------------------------------------------------------------------------------------------------------------

// A good book without its positions, which has the same returns.
fn empty(cases: &mut Cases, name: &str, book: &Book) {
    let without = book.without_positions().bytes();
    assert_eq!(print_file(&without), print_file(&book.bytes()), "{name}");
    cases.good(&format!("no-position-{name}"), without);
}

// An empty positions section, by request W2: the vertices have their returns all the same, and are refused all the same.
fn empty_cases(cases: &mut Cases) {
    empty(cases, "printed", &printed());
    empty(cases, "nine", &nine());
    empty(cases, "constant", &one_day(4, 2, 940, &[850_000; 7]));
    empty(cases, "largest-returns", &chosen(0, 999, &[MOST, -MOST, MOST, -MOST]));
    empty(cases, "lookback-1", &walks(parameters(1, 1, 0, 940), 3, 9_000, 50));
    let longest = parameters(1_024, 10, 255, 999);
    empty(cases, "lookback-1024-warm-up-255-holding-period-10", &walks(longest, 3, 2_000, 51));
    empty(cases, "vertices-64", &walks(parameters(40, 1, 6, 940), 64, 30_000, 52));
    for (kind, fault) in FAULTS {
        for (place, half) in PLACES {
            let bytes = with_faults(&[(fault, 2 * half)]).without_positions().bytes();
            cases.refused(&format!("21-no-position-{kind}-{place}"), 21, 2 * half, bytes);
        }
    }
}

// ---------------------------------------------------------------------------------------------------------------------
// Books by chance
// ---------------------------------------------------------------------------------------------------------------------

// One that passes.
fn good_book(random: &mut Random) -> Book {
    loop {
        let parameters = any_parameters(random, 16);
        let book = any_moves(random, parameters);
        if check_returns(&book.bytes()).is_ok() {
            return book;
        }
    }
}

// A good book with one to three changes: prices mostly, fields of flows and positions, at times bytes or a length of a
// section.
fn damaged(mut book: Book, random: &mut Random) -> Vec<u8> {
    for _ in 0..[1, 1, 2, 3][random.between(0, 3) as usize] {
        match random.between(0, 7) {
            0 => change_field(&mut book, random),
            _ => change_prices(&mut book, random),
        }
    }
    let mut sections = book.sections();
    if random.between(0, 15) == 0 {
        damage_section(&mut sections[random.between(0, 5) as usize], random);
    }
    join(&sections)
}

fn random_cases(cases: &mut Cases) {
    let mut random = Random::new(22);
    for i in 1..=64 {
        cases.good(&format!("random-{i:02}"), good_book(&mut random).bytes());
    }
    for i in 1..=120 {
        let bytes = damaged(good_book(&mut random), &mut random);
        let outcome = outcome(&check_returns(&bytes));
        cases.add(&format!("damaged-{i:03}-{outcome}"), bytes);
    }
}

// The same without positions.
fn random_empty_cases(cases: &mut Cases) {
    let mut random = Random::new(24);
    for i in 1..=8 {
        empty(cases, &format!("random-{i}"), &good_book(&mut random));
    }
    for i in 1..=16 {
        let bytes = damaged(good_book(&mut random).without_positions(), &mut random);
        let outcome = outcome(&check_returns(&bytes));
        cases.add(&format!("no-position-damaged-{i:02}-{outcome}"), bytes);
    }
}

// At times without positions.
fn book_by_chance(random: &mut Random) -> Vec<u8> {
    let mut book = good_book(random);
    clear_at_times(&mut book, random);
    damaged(book, random)
}

fn all_cases(cases: &mut Cases) {
    example_cases(cases);
    return_cases(cases);
    volatility_cases(cases);
    rounding_cases(cases);
    root_cases(cases);
    shape_cases(cases);
    range_cases(cases);
    long_history_cases(cases);
    frontier_cases(cases);
    edge_cases(cases);
    square_cases(cases);
    calm_change_cases(cases);
    burst_cases(cases);
    later_vertex_cases(cases);
    order_cases(cases);
    empty_cases(cases);
    random_cases(cases);
    random_empty_cases(cases);
}

pub fn put(store: &mut Store) {
    let returns = layer("returns", |bytes| check_returns(bytes).err(), print_file);
    store.put(returns, all_cases, book_by_chance);
}
