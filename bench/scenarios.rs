// How long the unit takes to check a book and to fill the returns buffer, beside plain Rust.
//
// One book of 64 vertices with LP 1,024, holding period 1 and warm-up 255 is checked and filled by the unit's static library
// and by plain Rust, once with the standard library's whole root and once with the root of 64-bit floats, corrected. The book
// has to pass, a damaged copy must not, and the buffers have to be equal before anything is timed. The library's fill checks the
// book first, so its time is less that of the check. README.md has the commands.

#[path = "../oracle/random.rs"]
mod random;
mod returns;
use random::Random;
use returns::*;
use std::hint::black_box;
use std::time::{Duration, Instant};

extern "C" {
    // The unit: the book's bytes and the lent buffer, each by its start and its number of entries. The check gives 1 where
    // the book passes 1 to 21, else 0. The fill checks the book: it gives 1 where the book passes and the buffer has the entries
    // that its returns need, else 0, and then writes nothing.
    fn scenarios_check(book: *const u8, book_len: usize) -> u32;
    fn scenarios_fill(book: *const u8, book_len: usize, out: *mut i32, out_len: usize) -> u32;
}

const VERTICES: usize = 64;
const LOOKBACK: usize = 1_024;
const HOLDING_PERIOD: usize = 1;
const WARM_UP: usize = 255;
const SMOOTHING: u64 = 940;
const HISTORY: usize = LOOKBACK + HOLDING_PERIOD + WARM_UP;
const ENTRIES: usize = 2 * VERTICES * LOOKBACK;

const ROUNDS: usize = 60;

// ---------------------------------------------------------------------------------------------------------------------
// The book
// ---------------------------------------------------------------------------------------------------------------------

// Prices that move by up to 1.5% a day; one bond and one position.
fn book() -> Vec<u8> {
    let mut random = Random::new(1);
    let mut parameters = Vec::new();
    parameters.extend((LOOKBACK as u16).to_le_bytes());
    parameters.extend([HOLDING_PERIOD as u8, WARM_UP as u8]);
    parameters.extend(9_900u16.to_le_bytes());
    parameters.extend((SMOOTHING as u16).to_le_bytes());
    parameters.extend([1, 80, 0, 0, 0, 0, 0, 0]);
    let mut vertices = Vec::new();
    let mut prices = Vec::new();
    for v in 0..VERTICES {
        let days = 30 * (v % 8 + 1) as u16;
        vertices.extend([v as u8 / 8, 0]);
        vertices.extend(days.to_le_bytes());
        let mut price = 900_000 + random.next() % 100_000;
        for _ in 0..HISTORY {
            price = (price * (985_000 + random.next() % 30_001) / 1_000_000).clamp(200_000, 1_900_000);
            prices.extend((price as u32).to_le_bytes());
        }
    }
    let bonds: Vec<u8> = [0, 1_000_000, 0, 1].into_iter().flat_map(u32::to_le_bytes).collect();
    let mut flows = Vec::new();
    flows.extend([30, 0, 0, 0]);
    flows.extend(1_000_000u32.to_le_bytes());
    let mut positions = Vec::new();
    positions.extend(0u32.to_le_bytes());
    positions.extend(1_000_000i64.to_le_bytes());
    let sections = [parameters, vertices, prices, bonds, flows, positions];
    let mut directory = Vec::new();
    let mut at = 48;
    for section in &sections {
        directory.extend((at as u32).to_le_bytes());
        directory.extend((section.len() as u32).to_le_bytes());
        at += section.len();
    }
    [vec![directory], sections.to_vec()].concat().concat()
}

// A copy that 21 refuses at its last vertex: a price of 1 is followed by one that is far above twice as much.
fn damaged(book: &[u8]) -> Vec<u8> {
    let start = u32_at(book, 16) as usize;
    let price = VERTICES * HISTORY - LOOKBACK / 2;
    let mut copy = book.to_vec();
    copy[start + 4 * price..][..4].copy_from_slice(&1u32.to_le_bytes());
    copy
}

// ---------------------------------------------------------------------------------------------------------------------
// Plain Rust
// ---------------------------------------------------------------------------------------------------------------------

fn u32_at(bytes: &[u8], at: usize) -> u32 {
    u32::from_le_bytes(bytes[at..at + 4].try_into().unwrap())
}

const PARAMETERS_SECTION: usize = 0;
const VERTICES_SECTION: usize = 1;
const PRICES_SECTION: usize = 2;

fn section(book: &[u8], i: usize) -> &[u8] {
    let (offset, length) = (u32_at(book, 8 * i) as usize, u32_at(book, 8 * i + 4) as usize);
    &book[offset..offset + length]
}

struct Parameters {
    lookback: usize,
    holding_period: usize,
    warm_up: usize,
    smoothing: u64,
    history: usize,
}

fn parameters(book: &[u8]) -> Parameters {
    let bytes = section(book, PARAMETERS_SECTION);
    let lookback = u16::from_le_bytes([bytes[0], bytes[1]]) as usize;
    let (holding_period, warm_up) = (bytes[2] as usize, bytes[3] as usize);
    let smoothing = u16::from_le_bytes([bytes[6], bytes[7]]) as u64;
    Parameters { lookback, holding_period, warm_up, smoothing, history: lookback + holding_period + warm_up }
}

fn read_prices(prices: &mut [i64], bytes: &[u8]) {
    for (price, bytes) in prices.iter_mut().zip(bytes.chunks_exact(4)) {
        *price = u32::from_le_bytes(bytes.try_into().unwrap()) as i64;
    }
}

fn fill(book: &[u8], out: &mut [i32], root: impl Fn(u64) -> u64) {
    let Parameters { lookback, holding_period, warm_up, smoothing, history } = parameters(book);
    let vertices = section(book, VERTICES_SECTION).len() / 4;
    let (unscaled, rest) = out.split_at_mut(vertices * lookback);
    let scaled = &mut rest[..vertices * lookback];
    let mut prices = vec![0; history];
    let mut volatilities = vec![0; lookback];
    let rows = unscaled.chunks_exact_mut(lookback).zip(scaled.chunks_exact_mut(lookback));
    for (bytes, (unscaled, scaled)) in section(book, PRICES_SECTION).chunks_exact(4 * history).zip(rows) {
        read_prices(&mut prices, bytes);
        let mut variance = 0;
        for (j, (earlier, price)) in prices.iter().zip(&prices[holding_period..]).enumerate() {
            let r = nearest((price - earlier) * 1_000_000, *earlier);
            variance = next_variance(smoothing, j, variance, r);
            if j >= warm_up {
                unscaled[j - warm_up] = r as i32;
                volatilities[j - warm_up] = root(variance);
            }
        }
        let newest = volatilities[lookback - 1];
        for ((scaled, r), own) in scaled.iter_mut().zip(unscaled).zip(&volatilities) {
            *scaled = scaled_return(*r as i64, newest, *own) as i32;
        }
    }
}

// Refusal 21 alone, of a book that 1 to 20 let pass: every return, and every scaled scenario.
fn check(book: &[u8], root: impl Fn(u64) -> u64) -> bool {
    let Parameters { lookback, holding_period, warm_up, smoothing, history } = parameters(book);
    let mut prices = vec![0; history];
    let mut returns = vec![0; lookback];
    let mut volatilities = vec![0; lookback];
    for bytes in section(book, PRICES_SECTION).chunks_exact(4 * history) {
        read_prices(&mut prices, bytes);
        let mut variance = 0;
        for (j, (earlier, price)) in prices.iter().zip(&prices[holding_period..]).enumerate() {
            let r = nearest((price - earlier) * 1_000_000, *earlier);
            if !in_range(r) {
                return false;
            }
            variance = next_variance(smoothing, j, variance, r);
            if j >= warm_up {
                returns[j - warm_up] = r;
                volatilities[j - warm_up] = root(variance);
            }
        }
        let newest = volatilities[lookback - 1];
        if returns.iter().zip(&volatilities).any(|(r, own)| !in_range(scaled_return(*r, newest, *own))) {
            return false;
        }
    }
    true
}

// ---------------------------------------------------------------------------------------------------------------------
// Both, in one run
// ---------------------------------------------------------------------------------------------------------------------

type Fill = fn(&[u8], &mut [i32]);
type Check = fn(&[u8]) -> bool;

fn check_and_fill(book: &[u8], out: &mut [i32]) -> bool {
    match unsafe { scenarios_fill(book.as_ptr(), book.len(), out.as_mut_ptr(), out.len()) } {
        1 => true,
        0 => false,
        other => panic!("the unit's fill gives {other}"),
    }
}

// The unit, which checks the book first, plain Rust, plain Rust with the root of floats.
const FILLS: [Fill; 3] = [
    |book, out| assert!(check_and_fill(book, out), "the unit does not fill"),
    |book, out| fill(book, out, u64::isqrt),
    |book, out| fill(book, out, float_root),
];

const CHECKS: [Check; 3] = [
    |book| match unsafe { scenarios_check(book.as_ptr(), book.len()) } {
        1 => true,
        0 => false,
        other => panic!("the unit's check gives {other}"),
    },
    |book| check(book, u64::isqrt),
    |book| check(book, float_root),
];

// What a fill leaves in a buffer that is longer than it needs: the last entry is to keep its contents.
fn filled(book: &[u8], fill: Fill) -> Vec<i32> {
    let mut out = vec![i32::MIN; ENTRIES + 1];
    fill(book, &mut out);
    out
}

fn time(run: impl FnOnce()) -> Duration {
    let start = Instant::now();
    run();
    start.elapsed()
}

fn print_times(what: &str, best: [Duration; 3]) {
    let [ours, plain, plain_float] = best.map(|time| time.as_secs_f64());
    println!("{what}: ours {:.0} us", 1e6 * ours);
    println!("{what}: plain {:.0} us, ours / plain {:.2}", 1e6 * plain, ours / plain);
    println!("{what}: plain, float root {:.0} us, ours / plain {:.2}", 1e6 * plain_float, ours / plain_float);
}

fn main() {
    let book = book();
    let damaged = damaged(&book);
    for check in CHECKS {
        assert!(check(&book), "the book is refused");
        assert!(!check(&damaged), "the damaged copy passes");
    }
    let [ours, plain, plain_float] = FILLS.map(|fill| filled(&book, fill));
    assert!(plain[..ENTRIES].iter().all(|r| in_range(*r as i64)));
    assert!(plain == plain_float, "the two plain fills differ");
    assert!(plain == ours, "the unit's buffer differs from plain Rust's");
    for (book, entries) in [(&damaged, ENTRIES), (&book, ENTRIES - 1)] {
        let mut out = vec![i32::MIN; entries];
        assert!(!check_and_fill(book, &mut out), "the unit fills what it has to refuse");
        assert!(out.iter().all(|r| *r == i32::MIN), "the unit refuses and writes");
    }
    let mut best_checks = [Duration::MAX; 3];
    let mut best_fills = [Duration::MAX; 3];
    let mut out = vec![0; ENTRIES];
    for _ in 0..ROUNDS {
        for (best, check) in best_checks.iter_mut().zip(CHECKS) {
            *best = (*best).min(time(|| assert!(black_box(check(black_box(&book))))));
        }
        for (best, fill) in best_fills.iter_mut().zip(FILLS) {
            *best = (*best).min(time(|| fill(black_box(&book), black_box(&mut out))));
        }
    }
    println!("{ENTRIES} entries, best of {ROUNDS} rounds");
    print_times("check", best_checks);
    best_fills[0] -= best_checks[0];
    print_times("fill", best_fills);
}
