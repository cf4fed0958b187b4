// How long the unit takes from a book to its margin, beside plain Rust.
//
// Three books go to the unit's static library and to the plain unit of plain.rs, which takes roots by the standard library or by
// 64-bit floats, corrected: a full one, at document 01's limits, one of few bonds that are held by many positions, and one of a
// usual size. Every figure and every entry of the three buffers has to be equal before anything is timed, and so do the answers
// to many damaged books and short buffers.
// README.md has the commands.

#[allow(dead_code)]
#[path = "../oracle"]
mod oracle {
    pub mod book;
    pub mod random;
    pub mod scenarios;
    pub mod store;
    pub mod unit_books;
    pub mod valuing;
}
#[allow(dead_code)]
#[path = "../bindings/rust/margin_unit.rs"]
mod margin_unit;
mod plain;
mod returns;
use oracle::book::Parameters;
use oracle::random::Random;
use oracle::unit_books::{crowded_book, damaged, damaged_book, good_book, Shape};
use plain::{Figures, Refusal};
use returns::float_root;
use std::hint::black_box;
use std::time::{Duration, Instant};

// Books by chance that are compared before the two are timed.
const BY_CHANCE: usize = 4_000;

// ---------------------------------------------------------------------------------------------------------------------
// Books
// ---------------------------------------------------------------------------------------------------------------------

// Vertices, LP, warm-up, bonds, their flows and positions are as many as document 01 lets them be.
fn full() -> Vec<u8> {
    let parameters = Parameters::new(1_024, 1, 255, 9_900);
    let (curves, vertices, bonds, flows, positions) = (8, 64, 1_024, 120, 4_096);
    Shape { parameters, curves, vertices, bonds, flows, positions, moves: 15_000 }.book(1).bytes()
}

// As many positions, and few bonds and scenarios: most of the time goes into values, splits and mapping.
fn crowded() -> Vec<u8> {
    let parameters = Parameters::new(16, 1, 20, 9_900);
    let (curves, vertices, bonds, flows, positions) = (8, 64, 64, 120, 4_096);
    Shape { parameters, curves, vertices, bonds, flows, positions, moves: 15_000 }.book(4).bytes()
}

fn usual() -> Vec<u8> {
    let parameters = Parameters::new(250, 1, 20, 9_900);
    let (curves, vertices, bonds, flows, positions) = (2, 20, 60, 20, 200);
    Shape { parameters, curves, vertices, bonds, flows, positions, moves: 15_000 }.book(2).bytes()
}

// ---------------------------------------------------------------------------------------------------------------------
// The unit and plain Rust
// ---------------------------------------------------------------------------------------------------------------------

// Lent buffers; each entry starts as what no book comes to.
#[derive(Debug, PartialEq)]
struct Lent {
    exposures: Vec<i64>,
    returns: Vec<i32>,
    list: Vec<u16>,
}

impl Lent {
    fn new(exposures: usize, returns: usize, list: usize) -> Lent {
        Lent {
            exposures: vec![i64::MIN; exposures],
            returns: vec![i32::MIN; returns],
            list: vec![u16::MAX; list],
        }
    }
}

type Unit = fn(&[u8], &mut Lent) -> Result<Figures, Refusal>;

// The unit, plain Rust, plain Rust with the root of floats.
const UNITS: [Unit; 3] = [
    |book, lent| {
        let mut figures = [0; 10];
        match margin_unit::call(book, &mut lent.exposures, &mut lent.returns, &mut lent.list, &mut figures) {
            0 => Ok(figures),
            refusal => Err(Refusal { number: refusal / 65_536, item: refusal as usize % 65_536 }),
        }
    },
    |book, lent| plain::run(book, &mut lent.exposures, &mut lent.returns, &mut lent.list, u64::isqrt),
    |book, lent| plain::run(book, &mut lent.exposures, &mut lent.returns, &mut lent.list, float_root),
];

// All three come to the same, in the figures or the refusal and in every entry.
fn compare(book: &[u8], [exposures, returns, list]: [usize; 3]) -> Result<Figures, Refusal> {
    let [ours, plain, plain_float] = UNITS.map(|unit| {
        let mut lent = Lent::new(exposures, returns, list);
        (unit(book, &mut lent), lent)
    });
    assert!(plain == plain_float, "the two plain units differ");
    assert!(ours == plain, "the unit differs from plain Rust: {:?} and {:?}", ours.0, plain.0);
    ours.0
}

// Damaged books and good ones, half of each with many positions, and buffers that mostly suffice: every refusal has to occur.
fn compare_by_chance() {
    let mut random = Random::new(3);
    let mut counts = [0; 25];
    for i in 0..BY_CHANCE {
        let book = match i % 4 {
            0 => good_book(&mut random).bytes(),
            1 => crowded_book(&mut random).bytes(),
            2 => damaged_book(&mut random),
            _ => damaged(crowded_book(&mut random), &mut random),
        };
        let lengths =
            [8, 640, 32].map(|enough| enough - [0, 0, 0, enough / 2, enough][random.between(0, 4) as usize]);
        let refusal = compare(&book, lengths).err();
        counts[refusal.map_or(0, |refusal| refusal.number as usize)] += 1;
    }
    assert!(counts.iter().all(|&count| count > 0), "{counts:?}");
}

// ---------------------------------------------------------------------------------------------------------------------
// Both, in one run
// ---------------------------------------------------------------------------------------------------------------------

fn time(run: impl FnOnce()) -> Duration {
    let start = Instant::now();
    run();
    start.elapsed()
}

fn time_book(what: &str, book: &[u8], rounds: usize) {
    compare(book, [65, 131_073, 33]).expect("the book is refused");
    let mut lent = Lent::new(64, 131_072, 32);
    let mut best = [Duration::MAX; 3];
    for _ in 0..rounds {
        for (best, unit) in best.iter_mut().zip(UNITS) {
            *best = (*best).min(time(|| assert!(black_box(unit(black_box(book), &mut lent)).is_ok())));
        }
    }
    let [ours, plain, plain_float] = best.map(|time| 1e6 * time.as_secs_f64());
    println!("{what}, {} bytes, best of {rounds} rounds: ours {ours:.0} us", book.len());
    println!("{what}: plain {plain:.0} us, ours / plain {:.2}", ours / plain);
    println!("{what}: plain, float root {plain_float:.0} us, ours / plain {:.2}", ours / plain_float);
}

fn main() {
    compare_by_chance();
    time_book("full book", &full(), 60);
    time_book("crowded book", &crowded(), 300);
    time_book("usual book", &usual(), 2_000);
}
