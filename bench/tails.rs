// How long the unit takes for a tail, beside a plain sort of all losses and beside `select_nth_unstable_by`.
//
// The same losses go to the unit's static library and to plain Rust: those of 100 books of 64 vertices, a tail for each
// vertex and each kind of returns, and then losses in orders that are easy for one of them. Every sum and every list has to
// be equal before anything is timed. There are several natural ways to sort or to select; the quickest of each counts. The
// library looks first whether it can take the losses; the time of that is taken off. README.md has the commands.

#[path = "../oracle/random.rs"]
mod random;
use random::Random;
use std::cmp::Reverse;
use std::hint::black_box;
use std::time::{Duration, Instant};

extern "C" {
    // The unit: the losses and the lent list, each by its start and its number of entries. It gives the sum, and leaves the
    // k listed scenarios in the list, with zeros behind them where there are fewer losses. Losses are at most 1,024, each at
    // most 10^17; k is 1 to 16, and not above the list's entries. Else it gives 2^64 − 1 and writes nothing. The check, which
    // it makes first, gives 1 or 0.
    fn tails_of(losses: *const u64, losses_len: usize, k: usize, list: *mut u16, list_len: usize) -> u64;
    fn tails_check(losses: *const u64, losses_len: usize, k: usize, entries: usize) -> u32;
}

const BOOKS: usize = 100;
const VERTICES: usize = 64;
const LOOKBACK: usize = 1_024;
const COUNTS: [usize; 3] = [16, 4, 1];

// A book is timed for a few rounds, since there are many; a series of one order for more, since a round takes a tenth of a
// millisecond, and something else on the machine may last longer than a few.
const BOOK_ROUNDS: usize = 8;
const ORDER_ROUNDS: usize = 200;

// ---------------------------------------------------------------------------------------------------------------------
// Losses
// ---------------------------------------------------------------------------------------------------------------------

type Losses = Vec<u64>;

fn loss(double: bool, pnl: i64) -> u64 {
    match double {
        true => pnl.unsigned_abs(),
        false => (-pnl).max(0) as u64,
    }
}

// The losses that each vertex of a book alone has, unscaled and scaled: returns of up to 1.5%, the scaled ones larger or
// smaller by up to half.
fn book(double: bool, random: &mut Random) -> Vec<Losses> {
    let mut all = Vec::new();
    for _ in 0..VERTICES {
        let exposure = random.size(100_000_000_000 / VERTICES as u64);
        let unscaled: Vec<i64> = (0..LOOKBACK).map(|_| random.size(15_000)).collect();
        let scaled = unscaled.iter().map(|r| r * (1_000 + random.size(500)) / 1_000).collect();
        for returns in [unscaled, scaled] {
            all.push(returns.iter().map(|r| loss(double, exposure * r)).collect());
        }
    }
    all
}

fn rising(random: &mut Random) -> Losses {
    let mut losses: Losses = (0..LOOKBACK).map(|_| random.next() % 1_000_000_000_000_000).collect();
    losses.sort();
    losses
}

fn with_zeros(random: &mut Random, zero: fn(usize) -> bool) -> Losses {
    rising(random).iter().enumerate().map(|(s, &x)| if zero(s) { 0 } else { x }).collect()
}

// Orders that a sort finds quickly, since it looks for runs, and orders that keep the largest losses apart or together.
const ORDERS: [(&str, fn(&mut Random) -> Losses); 10] = [
    ("rising", rising),
    ("falling", |random| rising(random).into_iter().rev().collect()),
    ("all equal", |random| vec![random.next(); LOOKBACK]),
    ("all zero", |_| vec![0; LOOKBACK]),
    ("rising, last 16 zero", |random| with_zeros(random, |s| s >= LOOKBACK - 16)),
    ("rising, every 16th zero", |random| with_zeros(random, |s| s % 16 == 0)),
    ("rising, every 4th zero", |random| with_zeros(random, |s| s % 4 == 0)),
    ("falling, then rising", |random| {
        let losses = rising(random);
        (0..LOOKBACK).map(|s| losses[(s.abs_diff(LOOKBACK / 2) * 2).min(LOOKBACK - 1)]).collect()
    }),
    ("rising, in blocks of 16", |random| {
        let losses = rising(random);
        (0..LOOKBACK).map(|s| losses[s - s % 16]).collect()
    }),
    ("rising, two swapped in 50", |random| {
        let mut losses = rising(random);
        (0..LOOKBACK - 50).step_by(50).for_each(|s| losses.swap(s, s + 7));
        losses
    }),
];

// ---------------------------------------------------------------------------------------------------------------------
// The unit and plain Rust
// ---------------------------------------------------------------------------------------------------------------------

// The sum of the k largest losses; their scenarios go to the list, by falling loss, then rising number.
type Tail = fn(&[u64], usize, &mut [u16]) -> u64;

fn unit(losses: &[u64], k: usize, list: &mut [u16]) -> u64 {
    unsafe { tails_of(losses.as_ptr(), losses.len(), k, list.as_mut_ptr(), list.len()) }
}

// What the unit does before it takes a tail.
fn check(losses: &[u64], k: usize, list: &mut [u16]) -> u64 {
    unsafe { tails_check(losses.as_ptr(), losses.len(), k, list.len()) as u64 }
}

fn pairs(losses: &[u64]) -> Vec<(u64, u16)> {
    losses.iter().zip(0..).map(|(&x, s)| (x, s)).collect()
}

fn numbers(losses: &[u64]) -> Vec<u16> {
    (0..losses.len() as u16).collect()
}

fn take_pairs(first: &[(u64, u16)], list: &mut [u16]) -> u64 {
    list.iter_mut().zip(first).for_each(|(to, from)| *to = from.1);
    first.iter().map(|pair| pair.0).sum()
}

fn take_numbers(losses: &[u64], first: &[u16], list: &mut [u16]) -> u64 {
    list[..first.len()].copy_from_slice(first);
    first.iter().map(|&s| losses[s as usize]).sum()
}

const SORTS: [(&str, Tail); 6] = [
    ("numbers, sort_by", |losses, k, list| {
        let mut all = numbers(losses);
        all.sort_by(|&a, &b| losses[b as usize].cmp(&losses[a as usize]));
        take_numbers(losses, &all[..k], list)
    }),
    ("numbers, sort_by_key", |losses, k, list| {
        let mut all = numbers(losses);
        all.sort_by_key(|&s| Reverse(losses[s as usize]));
        take_numbers(losses, &all[..k], list)
    }),
    ("numbers, sort_unstable_by", |losses, k, list| {
        let mut all = numbers(losses);
        all.sort_unstable_by(|a, b| losses[*b as usize].cmp(&losses[*a as usize]).then(a.cmp(b)));
        take_numbers(losses, &all[..k], list)
    }),
    ("pairs, sort_by", |losses, k, list| {
        let mut all = pairs(losses);
        all.sort_by(|a, b| b.0.cmp(&a.0));
        take_pairs(&all[..k], list)
    }),
    ("pairs, sort_unstable_by", |losses, k, list| {
        let mut all = pairs(losses);
        all.sort_unstable_by(|a, b| b.0.cmp(&a.0).then(a.1.cmp(&b.1)));
        take_pairs(&all[..k], list)
    }),
    ("pairs, sort_unstable_by_key", |losses, k, list| {
        let mut all = pairs(losses);
        all.sort_unstable_by_key(|&(x, s)| (Reverse(x), s));
        take_pairs(&all[..k], list)
    }),
];

const SELECTIONS: [(&str, Tail); 2] = [
    ("numbers", |losses, k, list| {
        let mut all = numbers(losses);
        let order = |a: &u16, b: &u16| losses[*b as usize].cmp(&losses[*a as usize]).then(a.cmp(b));
        all.select_nth_unstable_by(k - 1, order);
        all[..k].sort_unstable_by(order);
        take_numbers(losses, &all[..k], list)
    }),
    ("pairs", |losses, k, list| {
        let mut all = pairs(losses);
        let order = |a: &(u64, u16), b: &(u64, u16)| b.0.cmp(&a.0).then(a.1.cmp(&b.1));
        all.select_nth_unstable_by(k - 1, order);
        all[..k].sort_unstable_by(order);
        take_pairs(&all[..k], list)
    }),
];

// ---------------------------------------------------------------------------------------------------------------------
// All of them, in one run
// ---------------------------------------------------------------------------------------------------------------------

// The sum, and what is left in a list that is longer than it needs: the entries past k are to keep their contents.
fn result(tail: Tail, losses: &[u64], k: usize) -> (u64, [u16; 17]) {
    let mut list = [u16::MAX; 17];
    (tail(losses, k, &mut list), list)
}

// The unit has to refuse each of these, and to leave the list as it was.
fn check_refusals() {
    let over = [100_000_000_000_000_001];
    let cases: [(&[u64], usize, usize); 5] = [
        (&[1, 2], 0, 2),
        (&[1; 20], 17, 17),
        (&[1; 1_025], 1, 1),
        (&[1, 2], 2, 1),
        (&over, 1, 1),
    ];
    for (losses, k, entries) in cases {
        let mut list = vec![u16::MAX; entries];
        assert_eq!((check(losses, k, &mut list), unit(losses, k, &mut list)), (0, u64::MAX));
        assert!(list.iter().all(|&s| s == u16::MAX), "the unit refuses and writes");
    }
}

// It has to take fewer losses than k: all are listed, and zeros fill the k entries.
fn check_few() {
    let mut list = vec![u16::MAX; 4];
    assert_eq!((check(&[1, 2], 3, &mut list), unit(&[1, 2], 3, &mut list)), (1, 3));
    assert_eq!(list, [1, 0, 0, u16::MAX]);
}

fn all_tails() -> Vec<(&'static str, Tail)> {
    [("", unit as Tail)].into_iter().chain(SORTS).chain(SELECTIONS).collect()
}

// What each takes for all of these losses once, the best of some rounds; the unit without its check.
fn times(series: &[Losses], k: usize, rounds: usize) -> Vec<Duration> {
    let tails = all_tails();
    for losses in series {
        let expected = result(SORTS[0].1, losses, k);
        assert!(expected.1[k..].iter().all(|&s| s == u16::MAX));
        assert!(tails.iter().all(|(_, tail)| result(*tail, losses, k) == expected), "sums or lists differ");
        assert_eq!(result(check, losses, k).0, 1);
    }
    let timed: Vec<Tail> = tails.iter().map(|(_, tail)| *tail).chain([check as Tail]).collect();
    let mut best = vec![Duration::MAX; timed.len()];
    for _ in 0..rounds {
        for (best, tail) in best.iter_mut().zip(&timed) {
            let mut list = [0; 16];
            let start = Instant::now();
            for losses in series {
                black_box(tail(black_box(losses), k, black_box(&mut list)));
            }
            *best = (*best).min(start.elapsed());
        }
    }
    let check = best.pop().unwrap();
    best[0] = best[0].saturating_sub(check);
    best
}

fn print_times(what: &str, k: usize, count: usize, times: &[Duration]) {
    let each = |time: &Duration| 1e9 * time.as_secs_f64() / count as f64;
    let quickest = |tails: &[(&'static str, Tail)], times: &[Duration]| {
        let all = tails.iter().zip(times).map(|(&(name, _), time)| (name, each(time)));
        all.min_by(|a, b| a.1.total_cmp(&b.1)).unwrap()
    };
    let ours = each(&times[0]);
    let (sort, sorted) = quickest(&SORTS, &times[1..]);
    let (selection, selected) = quickest(&SELECTIONS, &times[1 + SORTS.len()..]);
    println!(
        "{what}, k {k}: ours {ours:.0} ns a tail; sort {sorted:.0} ns ({sort}), ours / sort {:.2}; \
         select_nth {selected:.0} ns ({selection}), ours / select_nth {:.2}",
        ours / sorted,
        ours / selected
    );
}

fn main() {
    check_refusals();
    check_few();
    let mut random = Random::new(1);
    let mut totals = [(); COUNTS.len()].map(|_| vec![Duration::ZERO; all_tails().len()]);
    let mut count = 0;
    for i in 0..BOOKS {
        let series = book(i % 2 == 1, &mut random);
        count += series.len();
        for (total, k) in totals.iter_mut().zip(COUNTS) {
            total.iter_mut().zip(times(&series, k, BOOK_ROUNDS)).for_each(|(total, time)| *total += time);
        }
    }
    println!("{LOOKBACK} losses a tail; best of {BOOK_ROUNDS} rounds a book, of {ORDER_ROUNDS} an order");
    for (total, k) in totals.iter().zip(COUNTS) {
        print_times(&format!("{BOOKS} books, {count} tails"), k, count, total);
    }
    for (name, order) in ORDERS {
        let series: Vec<Losses> = (0..2 * VERTICES).map(|_| order(&mut random)).collect();
        for k in COUNTS {
            print_times(name, k, series.len(), &times(&series, k, ORDER_ROUNDS));
        }
    }
}
