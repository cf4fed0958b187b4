// How long the unit takes for a whole square root, beside the standard library's and beside the root of 64-bit floats, corrected.
//
// The numbers are the variances of a full book, numbers of every size up to 10^16, and small ones: variances of prices that
// hardly move. The unit's static library and plain Rust take the root of each into a buffer. All roots have to be equal before
// anything is timed, and the unit's have to be `u64::isqrt`'s at the edges too: squares, their neighbours, the ends of the range
// of 64 bits. README.md has the commands.

#[path = "../oracle/random.rs"]
mod random;
#[allow(dead_code)]
mod returns;
use random::Random;
use returns::{float_root, nearest, next_variance};
use std::hint::black_box;
use std::time::{Duration, Instant};

extern "C" {
    // The unit: the root of each value, into a buffer that has at least as many entries, and 1. Else 0, and nothing is written.
    fn roots_of(values: *const u64, values_len: usize, out: *mut u64, out_len: usize) -> u32;
}

const VERTICES: usize = 64;
const LOOKBACK: usize = 1_024;
const WARM_UP: usize = 255;
const SMOOTHING: u64 = 940;
const COUNT: usize = VERTICES * LOOKBACK;

const ROUNDS: usize = 300;

// ---------------------------------------------------------------------------------------------------------------------
// The numbers
// ---------------------------------------------------------------------------------------------------------------------

// The variances of a book's scenarios: holding period 1, prices that move by up to so many millionths a day.
fn variances(random: &mut Random, largest: u64) -> Vec<u64> {
    let mut all = Vec::new();
    for _ in 0..VERTICES {
        let mut price = 900_000 + (random.next() % 100_000) as i64;
        let mut variance = 0;
        for j in 0..LOOKBACK + WARM_UP {
            let change = (random.next() % (2 * largest + 1)) as i64 - largest as i64;
            let later = (price * (1_000_000 + change) / 1_000_000).clamp(200_000, 1_900_000);
            variance = next_variance(SMOOTHING, j, variance, nearest((later - price) * 1_000_000, price));
            price = later;
            if j >= WARM_UP {
                all.push(variance);
            }
        }
    }
    all
}

// Numbers whose count of bits is any from 1 to 54, by chance, none above 10^16.
fn of_every_size(random: &mut Random) -> Vec<u64> {
    let number = |random: &mut Random| (2 * random.next() >> (random.next() % 54)).clamp(1, 10_000_000_000_000_000);
    (0..COUNT).map(|_| number(random)).collect()
}

// Squares and their neighbours, from 0 up to the largest number of 64 bits.
fn edges() -> Vec<u64> {
    let mut all = vec![0, 1, 2, 3, 9_999_999_999_999_999, 10_000_000_000_000_000, 10_000_000_000_000_001, u64::MAX - 1, u64::MAX];
    for bit in 1..64 {
        all.extend([(1 << bit) - 1, 1 << bit, (1 << bit) + 1]);
    }
    for i in 0..32_768u64 {
        for root in [i + 2, 131_072 * i + 131_071, 100_000_000 - i, 4_294_967_295 - i] {
            all.extend([root * root - 1, root * root, root * root + 1, root * root + 2 * root]);
        }
    }
    all
}

// ---------------------------------------------------------------------------------------------------------------------
// Both, in one run
// ---------------------------------------------------------------------------------------------------------------------

type Roots = fn(&[u64], &mut [u64]);

fn unit(values: &[u64], out: &mut [u64]) -> u32 {
    unsafe { roots_of(values.as_ptr(), values.len(), out.as_mut_ptr(), out.len()) }
}

fn plain(values: &[u64], out: &mut [u64], root: impl Fn(u64) -> u64) {
    for (root_of_it, value) in out.iter_mut().zip(values) {
        *root_of_it = root(*value);
    }
}

// The unit, plain Rust, plain Rust with the root of floats.
const ALL: [Roots; 3] = [
    |values, out| assert!(unit(values, out) == 1, "the unit takes no roots"),
    |values, out| plain(values, out, u64::isqrt),
    |values, out| plain(values, out, float_root),
];

// What is left in a buffer that is longer than it needs: the last entry is to keep its contents.
fn must_be_roots(values: &[u64], roots: Roots) {
    let mut out = vec![u64::MAX; values.len() + 1];
    roots(values, &mut out);
    assert!(out[values.len()] == u64::MAX, "an entry is written past the roots");
    for (value, root) in values.iter().zip(&out) {
        assert!(*root == value.isqrt(), "the root of {value} is not {root}");
    }
}

fn must_refuse(values: &[u64]) {
    let mut out = vec![u64::MAX; values.len() - 1];
    assert!(unit(values, &mut out) == 0, "the unit takes a short buffer");
    assert!(out.iter().all(|root| *root == u64::MAX), "the unit refuses and writes");
}

fn time(run: impl FnOnce()) -> Duration {
    let start = Instant::now();
    run();
    start.elapsed()
}

fn main() {
    must_be_roots(&edges(), ALL[0]);
    let mut random = Random::new(1);
    let sets = [
        ("variances of a full book", variances(&mut random, 15_000)),
        ("numbers of every size up to 10^16", of_every_size(&mut random)),
        ("variances of prices that hardly move", variances(&mut random, 10)),
    ];
    for (_, values) in &sets {
        ALL.iter().for_each(|roots| must_be_roots(values, *roots));
        must_refuse(values);
    }
    println!("{COUNT} roots, best of {ROUNDS} rounds");
    for (what, values) in &sets {
        let mut best = [Duration::MAX; 3];
        let mut out = vec![0; values.len()];
        for _ in 0..ROUNDS {
            for (best, roots) in best.iter_mut().zip(ALL) {
                *best = (*best).min(time(|| roots(black_box(values), black_box(&mut out))));
            }
        }
        let [ours, plain, float] = best.map(|time| 1e9 * time.as_secs_f64() / values.len() as f64);
        println!("{what}: ours {ours:.1} ns a root");
        println!("{what}: u64::isqrt {plain:.1} ns, ours / plain {:.2}", ours / plain);
        println!("{what}: float root {float:.1} ns, ours / plain {:.2}", ours / float);
    }
}
