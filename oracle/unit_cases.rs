// Books for the whole unit, good and damaged, and what must be printed of each for the word `unit`.
//
// Written from documents 01 and 02 alone, by unit.rs. Every case names the refusal that it was made for, and the checker has
// to agree with it before anything is written. Of a book with few scenarios every choice of k is tried: none may total more
// than T. A book that shows one of 01's wrong turns is computed that way too, and has to come out differently.

use super::book::*;
use super::random::Random;
use super::scenarios::*;
use super::store::Store;
use super::tails::*;
use super::unit::*;
use super::unit_books::*;
use super::unit_faults::refused_cases;
use super::valuing::*;

// ---------------------------------------------------------------------------------------------------------------------
// The checker
// ---------------------------------------------------------------------------------------------------------------------

// The most scenarios of which every choice is tried.
const FEW: usize = 12;

fn refusal_of(bytes: &[u8]) -> Option<Refusal> {
    match run(bytes, FULL) {
        Err(refusal) => Some(refusal),
        Ok(outcome) => {
            check_tails(tail_mode(&read(bytes).unwrap().parameters), &outcome);
            None
        }
    }
}

fn check_tails(tail: Tail, outcome: &Outcome) {
    for (charge, rows) in [&outcome.unscaled, &outcome.scaled].into_iter().zip(outcome.rows()) {
        let losses = losses_of(tail, &outcome.exposures, &rows);
        assert!(charge.tail <= charge.undiversified);
        if losses.len() <= FEW {
            assert_eq!(charge.tail, most_of_choices(&losses, outcome.k));
        }
    }
}

// What a book comes to that has to pass.
fn outcome_of(book: &Book) -> Outcome {
    run(&book.bytes(), FULL).unwrap()
}

// ---------------------------------------------------------------------------------------------------------------------
// Books
// ---------------------------------------------------------------------------------------------------------------------

// The first confidence, from the lowest on, that gives this k.
fn confidence_for(lookback: usize, k: usize) -> u16 {
    let count = |confidence: u16| tail_count(&Parameters::new(lookback as u16, 1, 0, confidence));
    (5_000..=9_999).find(|&confidence| count(confidence) == k as u64).unwrap()
}

fn parameters(tail: Tail, p: u8, k: usize, lookback: usize, holding_period: u8) -> Parameters {
    let confidence = confidence_for(lookback, k);
    let tail = tail as u8;
    Parameters { tail, decorrelation: p, ..Parameters::new(lookback as u16, holding_period, 0, confidence) }
}

// A book with these exposures and unscaled returns, up to ten of them: over a holding period of 10 each is met exactly.
fn plain(tail: Tail, p: u8, k: usize, exposures: &[i64], returns: &[&[i64]]) -> Book {
    let paths: Vec<Vec<u32>> = returns.iter().map(|row| prices_from(vec![1_000_000; 10], row)).collect();
    let book = exposed(parameters(tail, p, k, returns[0].len(), 10), &paths, exposures);
    let met = returns.concat().into_iter().map(|r| r as i128);
    assert!(unscaled_of(&histories_of(&book)).into_iter().eq(met));
    book
}

// Exposures and prices by chance, with so many scenarios.
fn chance(tail: Tail, p: u8, k: usize, lookback: usize, random: &mut Random) -> Book {
    let vertices = random.between(2, 3) as usize;
    let paths: Vec<Vec<u32>> = (0..vertices).map(|_| walk(random, 9_000, lookback + 1)).collect();
    let exposures: Vec<i64> = (0..vertices).map(|_| random.size(50_000_000)).collect();
    exposed(parameters(tail, p, k, lookback, 1), &paths, &exposures)
}

// ---------------------------------------------------------------------------------------------------------------------
// Document 01's examples
// ---------------------------------------------------------------------------------------------------------------------

fn example_cases(cases: &mut Cases) {
    let lines = "tail 1\n\
                 unscaled 27791450000 29558290000 353368000 28144818000 0\n\
                 scaled 26729614530 28469510220 347979138 27077593668 0\n\
                 margin 28145\n";
    let printed = printed();
    assert_eq!(print_file(&printed.bytes()), lines);
    assert_eq!(outcome_of(&printed).exposures, [44_171, 955_829]);
    cases.good("printed", printed.bytes());
    for p in [0, 1, 79, 99, 100] {
        cases.good(&format!("printed-p-{p}"), printed.with(|b| b.parameters.decorrelation = p));
    }
    for (sign, nominal) in [("long", 1_000_000), ("short", -1_000_000)] {
        let single = printed.with(|b| (b.parameters.tail, b.positions[0].nominal) = (0, nominal));
        cases.good(&format!("printed-single-{sign}"), single);
    }
    let nothing = "tail 1\n\
                   unscaled 0 0 0 0 0\n\
                   scaled 0 0 0 0 0\n\
                   margin 0\n";
    assert_eq!(print_file(&printed.without_positions().bytes()), nothing);
    empty(cases, "printed-without-position", &printed);
    let nominal = |nominal: i64| printed.with(|b| b.positions[0].nominal = nominal);
    cases.good("printed-nominal-10000000000", nominal(MOST_NOMINAL));
    cases.refused("19-printed-nominal-10000000001", 19, 0, nominal(MOST_NOMINAL + 1));
    cases.good("nine", nine().bytes());
}

// k as document 01's examples have it, and LP 1, the only one that k can equal.
fn count_example_cases(cases: &mut Cases) {
    let book = |lookback: u16, confidence: u16| {
        let parameters = Parameters::new(lookback, 1, 0, confidence);
        let path = walk(&mut Random::new(lookback as u64), 9_000, lookback as usize + 1);
        exposed(parameters, &[path], &[12_345])
    };
    for (lookback, confidence, k) in [
        (250, 9_900, 2),
        (251, 9_900, 3),
        (40, 9_900, 1),
        (1_000, 9_835, 16),
        (1_024, 9_844, 16),
        (33, 5_000, 16),
        (1, 5_000, 1),
        (1, 9_999, 1),
        (2, 5_000, 1),
        (3, 5_000, 1),
    ] {
        let book = book(lookback, confidence);
        assert_eq!(outcome_of(&book).k, k);
        cases.good(&format!("tail-{lookback}-at-{confidence}-is-{k}"), book.bytes());
    }
    for (lookback, confidence) in [(1_000, 9_834), (34, 5_000), (1_024, 9_838), (1_024, 5_000)] {
        let bytes = book(lookback, confidence).bytes();
        cases.refused(&format!("05-whole-{lookback}-at-{confidence}"), 5, 0, bytes);
    }
}

// ---------------------------------------------------------------------------------------------------------------------
// Value, split and mapping, told by the margin
// ---------------------------------------------------------------------------------------------------------------------

type Vertices<'a> = &'a [(u8, u16, u32)];
type Bonds<'a> = &'a [(u8, u32, &'a [(u16, u32)])];

// One scenario, in which the price of vertex v doubles and no other moves: the margin is the size of its exposure.
fn moving(vertices: Vertices, bonds: Bonds, positions: &[(u32, i64)], v: usize) -> Book {
    let mut book = book(vertices, bonds, positions);
    for (i, prices) in book.prices.chunks_mut(2).enumerate() {
        prices[0] = if i == v { prices[1] / 2 } else { prices[1] };
    }
    book
}

fn margin_is(cases: &mut Cases, name: &str, book: Book, euros: i128) {
    let outcome = outcome_of(&book);
    assert_eq!((outcome.euros, outcome.unscaled), (euros, outcome.scaled), "{name}");
    cases.good(name, book.bytes());
}

// A book whose positions are netted, bond by bond.
fn netted(book: &Book) -> Book {
    let mut other = book.clone();
    let total = |i: u32| book.positions.iter().filter(|p| p.bond == i).map(|p| p.nominal).sum();
    other.positions = (0..book.bonds.len() as u32).map(|i| Position { bond: i, nominal: total(i) }).collect();
    other
}

// A book whose values are floored: each position has a bond of its own, at par.
fn floored(book: &Book) -> Book {
    let mut other = Book { bonds: Vec::new(), flows: Vec::new(), positions: Vec::new(), ..book.clone() };
    for (i, position) in book.positions.iter().enumerate() {
        let bond = &book.bonds[position.bond as usize];
        let flows: Vec<(u16, u32)> = flows_of(book, bond).iter().map(|f| (f.days, f.amount)).collect();
        let nominal = (position.nominal * bond.price as i64).div_euclid(1_000_000);
        other.push_bond(bond.curve, 1_000_000, &flows);
        other.positions.push(Position { bond: i as u32, nominal });
    }
    other
}

fn value_cases(cases: &mut Cases) {
    let priced = |price: u32, nominals: &[i64]| {
        let positions: Vec<(u32, i64)> = nominals.iter().map(|&nominal| (0, nominal)).collect();
        moving(&[(0, 365, 950_000)], &[(0, price, &[(365, 1_000_000)])], &positions, 0)
    };
    for (name, price, nominals, euros) in [
        ("1-at-499999", 499_999, &[1][..], 0),
        ("1-at-500000", 500_000, &[1], 1),
        ("minus-1-at-500000", 500_000, &[-1], 1),
        ("minus-1-at-500001", 500_001, &[-1], 1),
        ("zeros", 1_234_567, &[0, 0, 0], 0),
        ("largest", 2_000_000, &[MOST_NOMINAL], 20_000_000_000),
        ("largest-short", 2_000_000, &[-MOST_NOMINAL], 20_000_000_000),
    ] {
        margin_is(cases, &format!("value-{name}"), priced(price, nominals), euros);
    }
    for (name, price, nominals, euros) in [
        ("100-at-400000", 400_000, &[1; 100][..], 0),
        ("100-at-600000", 600_000, &[1; 100], 100),
        ("100-short-at-600000", 600_000, &[-1; 100], 100),
        ("two-halves", 500_000, &[1, 1], 2),
        ("long-and-short", 500_000, &[3, -1, -1], 0),
        ("short-of-a-million", 333_333, &[-1_000_001, 1_000_003, -7], 1),
    ] {
        let book = priced(price, nominals);
        assert_ne!(outcome_of(&netted(&book)).euros, euros, "{name}");
        margin_is(cases, &format!("not-netted-{name}"), book, euros);
    }
    for (name, price, nominals, euros) in [
        ("minus-1-at-400000", 400_000, &[-1][..], 0),
        ("minus-1-at-1", 1, &[-1], 0),
        ("minus-1000001-at-400000", 400_000, &[-1_000_001], 400_000),
        ("many", 1_100_000, &[-1, -2, -3, -4, -11, 12], 9),
    ] {
        let book = priced(price, nominals);
        assert_ne!(outcome_of(&floored(&book)).euros, euros, "{name}");
        margin_is(cases, &format!("not-floored-{name}"), book, euros);
    }
}

// What each vertex's exposure must be.
fn exposures_are(
    cases: &mut Cases,
    name: &str,
    (vertices, bonds): (Vertices, Bonds),
    positions: &[(u32, i64)],
    exposures: &[i128],
) {
    for (v, exposure) in exposures.iter().enumerate() {
        let book = moving(vertices, bonds, positions, v);
        assert_eq!(outcome_of(&book).exposures, exposures, "{name}");
        margin_is(cases, &format!("{name}-at-{v}"), book, exposure.abs());
    }
}

fn mapping_cases(cases: &mut Cases) {
    let ninety: Vertices = &[(0, 90, 1_000_000), (0, 180, 1_000_000)];
    let share: (Vertices, Bonds) = (ninety, &[(0, 1_000_000, &[(108, 1_000_000)])]);
    exposures_are(cases, "share-100001", share, &[(0, 100_001)], &[80_000, 20_001]);
    exposures_are(cases, "share-minus-100001", share, &[(0, -100_001)], &[-80_000, -20_001]);
    exposures_are(cases, "shares-by-themselves", share, &[(0, 4), (0, -3), (0, 4)], &[4, 1]);
    let four: Vertices = &[(3, 10, 1_000_000), (3, 20, 1_000_000), (3, 30, 1_000_000), (3, 40, 1_000_000)];
    let even: (Vertices, Bonds) = (four, &[(3, 1_000_000, &[(10, 1), (20, 1), (30, 1), (40, 1)])]);
    exposures_are(cases, "split-7", even, &[(0, 7)], &[1, 2, 2, 2]);
    exposures_are(cases, "split-7-and-minus-6", even, &[(0, 7), (0, -6)], &[0, 0, 1, 0]);
    exposures_are(cases, "split-1-by-1", even, &[(0, 1), (0, 1), (0, 1), (0, 1)], &[0, 0, 0, 4]);
    // Each flow on its own curve, before, on and between its vertices.
    let curves: Vertices = &[(0, 100, 980_000), (0, 200, 960_000), (4, 50, 990_000), (7, 90, 970_000)];
    let flows: &[(u16, u32)] = &[(20, 100_000), (50, 900_000)];
    let bonds: Bonds = &[(7, 1_000_000, flows), (0, 1_000_000, &[(150, 1_000_000)]), (4, 900_000, flows)];
    exposures_are(
        cases,
        "curves",
        (curves, bonds),
        &[(1, 1_001), (0, -55), (2, 700), (1, -2_002)],
        &[-501, -500, 630, -55],
    );
    // The price at 120 days is 900,000, so that the two worths are equal.
    let rising: Vertices = &[(0, 90, 900_000), (0, 180, 900_001)];
    let two: Bonds = &[(0, 1_000_000, &[(90, 1_000_000), (120, 1_000_000)])];
    let book = moving(rising, two, &[(0, 6_000_000_000)], 0);
    margin_is(cases, "price-at-120", book, 5_000_000_000);
}

// Positions of one bond that stand apart, and bonds that no position holds. The bonds lie on a curve each, and have 4, 1 and 2
// flows, each of which gets an equal part.
fn held_cases(cases: &mut Cases) {
    let par = |(curve, days)| (curve, days, 1_000_000);
    let vertices = [(0, 10), (0, 20), (0, 30), (0, 40), (3, 50), (5, 60), (5, 80)].map(par);
    let bonds: Bonds = &[
        (0, 1_000_000, &[(10, 1), (20, 1), (30, 1), (40, 1)]),
        (3, 1_000_000, &[(50, 1)]),
        (5, 1_000_000, &[(60, 1), (80, 1)]),
    ];
    let mut held = |name: &str, positions: &[(u32, i64)], exposures: [i128; 7]| {
        exposures_are(cases, &format!("held-{name}"), (&vertices, bonds), positions, &exposures);
    };
    let apart = [(2, 10), (0, 40), (1, 7), (0, -8), (2, -30), (1, 5), (0, 4)];
    held("apart", &apart, [9, 9, 9, 9, 12, -10, -10]);
    held("first-alone", &[(0, 4), (0, 8), (0, -20)], [-2, -2, -2, -2, 0, 0, 0]);
    held("last-alone", &[(2, 6), (2, 2), (2, -4)], [0, 0, 0, 0, 0, 2, 2]);
    held("and-two-cancel", &[(0, 8), (1, 6), (2, 4), (1, -6), (0, 4)], [3, 3, 3, 3, 0, 2, 2]);
}

// ---------------------------------------------------------------------------------------------------------------------
// Lists and tails
// ---------------------------------------------------------------------------------------------------------------------

// T, U, D and M of the unscaled kind, and its list.
fn known(cases: &mut Cases, name: &str, book: Book, figures: [i128; 4], list: &[usize]) {
    let charge = outcome_of(&book).unscaled;
    assert_eq!([charge.tail, charge.undiversified, charge.add_on, charge.total], figures, "{name}");
    assert_eq!(charge.list, list, "{name}");
    cases.good(name, book.bytes());
}

fn tie_cases(cases: &mut Cases) {
    use Tail::{Double, Single};
    let mut tied = |name: &str, tail: Tail, returns: &[i64], total: i128, list: &[usize]| {
        let book = plain(tail, 80, list.len(), &[1_000], &[returns]);
        let total = 1_000 * total;
        known(cases, &format!("ties-{name}"), book, [total, total, 0, total], list);
    };
    let swing = [5_000, -5_000, 5_000, -5_000, 5_000, -5_000, 5_000, -5_000, 5_000, -5_000];
    for k in 1..=5 {
        let odd: Vec<usize> = (0..k).map(|j| 2 * j + 1).collect();
        let all: Vec<usize> = (0..k).collect();
        tied(&format!("double-k-{k}"), Double, &swing, 5_000 * k as i128, &all);
        tied(&format!("single-k-{k}"), Single, &swing, 5_000 * k as i128, &odd);
    }
    tied("across-its-end", Double, &[30, -90, 30, 30, -90, 30], 210, &[1, 4, 0]);
    tied("across-its-end-single", Single, &[-30, -90, 30, -30, -90, -30], 210, &[1, 4, 0]);
    tied("largest-last", Double, &[50, 50, 50, 50, 50, -51], 151, &[5, 0, 1]);
    tied("within-and-across", Double, &[4, -8, 4, 8, -4, 8, 0, 4], 28, &[1, 3, 5, 0]);
    tied("rising", Double, &[1, 2, 3, 4, 5, 6, 7, 8, 9, 10], 40, &[9, 8, 7, 6, 5]);
    tied("falling", Double, &[10, 9, 8, 7, 6, 5, 4, 3, 2, 1], 40, &[0, 1, 2, 3, 4]);
    // P&Ls that tie as sums, of returns that don't.
    let rows: [&[i64]; 2] = [&[10, 0, 4, -10, 1, 9], &[0, 20, 12, 40, 18, 2]];
    let book = plain(Double, 0, 3, &[600, 300], &rows);
    known(cases, "ties-of-sums", book, [18_000, 40_800, 22_800, 40_800], &[0, 1, 2]);
    alternating_cases(cases);
}

// Prices that go up and down by the same: two sizes of returns, so ties at every k.
fn alternating_cases(cases: &mut Cases) {
    for k in 1..=16 {
        let (word, tail) = TAILS[k % 2];
        let path: Vec<u32> = (0..42).map(|j| [1_000_000, 1_020_000][j % 2]).collect();
        let paths = [path, vec![990_000; 42]];
        let book = exposed(parameters(tail, 80, k, 41, 1), &paths, &[7_001, -90]);
        cases.good(&format!("alternating-k-{k:02}-{word}"), book.bytes());
    }
}

// T as the total of the sizes of the k lowest P&Ls, the unscaled kind's.
fn lowest_sizes(outcome: &Outcome) -> i128 {
    let mut pnls = pnls_of(&outcome.exposures, &outcome.rows()[0]);
    pnls.sort();
    pnls[..outcome.k].iter().map(|pnl| pnl.abs()).sum()
}

// Gains in a single tail count nothing, though they are listed where fewer than k scenarios lose.
fn gain_cases(cases: &mut Cases) {
    let mut gains = |name: &str, returns: &[i64], total: i128, list: &[usize]| {
        let book = plain(Tail::Single, 0, list.len(), &[1_000], &[returns]);
        assert_ne!(lowest_sizes(&outcome_of(&book)), 1_000 * total, "{name}");
        let total = 1_000 * total;
        known(cases, &format!("gains-{name}"), book, [total, total, 0, total], list);
    };
    gains("only", &[9, 8, 7, 6, 5, 4], 0, &[0, 1, 2]);
    gains("fewer-losses-than-k", &[70, 20, -3, 0, 40, -9, 10, 80, 90, 11], 12, &[5, 2, 0, 1, 3]);
    gains("one-loss-last", &[70, 20, 3, 1, 40, 9, 10, 80, 90, -1], 1, &[9, 0, 1, 2, 3]);
    gains("one-loss-first", &[-500_000, 500, 600, 700, 800, 900], 500_000, &[0, 1, 2]);
    gains("one-scenario", &[1_000_000], 0, &[0]);
    // A short position gains where prices fall.
    let book = plain(Tail::Single, 0, 2, &[-1_000], &[&[-4, 3, -2, 1]]);
    known(cases, "gains-of-a-short-position", book, [4_000, 4_000, 0, 4_000], &[1, 3]);
    // The whole gains everywhere, and so T is 0; alone each vertex loses at times.
    let rows: [&[i64]; 2] = [&[-10, 20, -10, 20], &[20, -10, 20, -10]];
    let book = plain(Tail::Single, 50, 2, &[1_000, 1_000], &rows);
    known(cases, "gains-of-the-whole", book, [0, 40_000, 20_000, 20_000], &[0, 1]);
}

// Nothing is lost, in the whole or by any vertex.
fn zero_cases(cases: &mut Cases) {
    let row: &[i64] = &[500, -700, 0, 20, -30, 41];
    let mut nothing = |name: &str, book: Book| {
        assert_eq!(outcome_of(&book).euros, 0, "{name}");
        known(cases, &format!("zero-{name}"), book, [0; 4], &[0, 1, 2]);
    };
    for (word, tail) in TAILS {
        nothing(&format!("nominal-{word}"), plain(tail, 0, 3, &[0], &[row]));
        nothing(&format!("nominals-{word}"), plain(tail, 80, 3, &[0, 0, 0], &[row, row, row]));
        nothing(&format!("returns-{word}"), plain(tail, 0, 3, &[123_456, -99], &[&[0; 6], &[0; 6]]));
    }
    nothing("gains-single", plain(Tail::Single, 0, 3, &[900, -900], &[&[1, 2, 3, 4, 5, 6], &[-1; 6]]));
    let mut closed = plain(Tail::Double, 0, 3, &[5_000], &[row]);
    closed.positions.push(Position { bond: 0, nominal: -5_000 });
    nothing("long-and-short-of-one-bond", closed);
}

// ---------------------------------------------------------------------------------------------------------------------
// No position
// ---------------------------------------------------------------------------------------------------------------------

// What a book comes to without its positions, by request W2: zero exposures, margin 0 and scenarios 0 to k − 1. k and the
// returns are those of the book with positions.
fn empty_outcome(book: &Book) -> Outcome {
    let held = outcome_of(book);
    let list = (0..held.k).collect();
    let nothing = Charge { tail: 0, undiversified: 0, add_on: 0, total: 0, list };
    let exposures = vec![0; book.vertices.len()];
    Outcome { unscaled: nothing.clone(), scaled: nothing, euros: 0, exposures, ..held }
}

// A good book without its positions.
fn empty(cases: &mut Cases, name: &str, book: &Book) {
    let without = book.without_positions();
    assert_eq!(outcome_of(&without), empty_outcome(book), "{name}");
    cases.good(name, without.bytes());
}

fn empty_cases(cases: &mut Cases) {
    let mut random = Random::new(49);
    for (word, tail) in TAILS {
        for (p, k, lookback) in
            [(0, 1, 1), (100, 1, 40), (80, 7, 15), (0, 7, 60), (100, 16, 33), (99, 16, 90)]
        {
            let book = chance(tail, p, k, lookback, &mut random);
            empty(cases, &format!("no-position-k-{k:02}-of-{lookback}-p-{p}-{word}"), &book);
        }
    }
    empty(cases, "no-position-nine", &nine());
    // The shortest book that is accepted.
    let shortest = exposed(Parameters::new(1, 1, 0, 9_900), &[vec![1_000_000, 990_000]], &[5_000]);
    assert_eq!(shortest.without_positions().bytes().len(), 100);
    empty(cases, "no-position-shortest", &shortest);
    empty(cases, "no-position-largest", &largest(Tail::Double, 0, 16, [100_000_000_000, 0], 0));
    let mut shape = |name: &str, parameters: Parameters, counts: [usize; 5]| {
        let [curves, vertices, bonds, flows, positions] = counts;
        let shape = Shape { parameters, curves, vertices, bonds, flows, positions, moves: 9_000 };
        empty(cases, &format!("no-position-{name}"), &shape.book(50));
    };
    shape("vertices-64", Parameters::new(100, 1, 5, 9_700), [8, 64, 20, 12, 60]);
    shape("vertices-64-lookback-1", Parameters::new(1, 1, 0, 9_900), [5, 64, 30, 9, 40]);
    shape("lookback-1024-warm-up-255", Parameters::new(1_024, 10, 255, 9_844), [2, 4, 5, 6, 20]);
    shape("bonds-1024", Parameters::new(5, 1, 0, 7_500), [4, 9, 1_024, 1, 300]);
    shape("flows-120", Parameters::new(30, 2, 2, 8_000), [3, 8, 20, 120, 50]);
    longest_empty_cases(cases);
}

// As many bytes as the program takes with LP 1,024 and no position; one more is too long, whatever the book.
fn longest_empty_cases(cases: &mut Cases) {
    let parameters = Parameters::new(1_024, 1, 0, 9_844);
    let book = Shape { parameters, curves: 3, vertices: 7, bonds: 71, flows: 5, positions: 9, moves: 9_000 }
        .book(51);
    let bytes = book.without_positions().bytes();
    assert_eq!(bytes.len(), LONGEST);
    empty(cases, "no-position-longest", &book);
    cases.add("no-position-too-long-by-a-byte", [bytes, vec![0]].concat());
}

// ---------------------------------------------------------------------------------------------------------------------
// k
// ---------------------------------------------------------------------------------------------------------------------

// Every k of an even LP, of an odd one, where it is a half that goes down, and of a longer one.
fn count_cases(cases: &mut Cases) {
    let mut random = Random::new(40);
    for k in 1..=16 {
        let p = random.any(&[0, 20, 80, 99]);
        let (word, tail) = TAILS[k % 2];
        let even = chance(tail, p, k, 2 * k, &mut random);
        cases.good(&format!("k-{k:02}-of-{}-{word}", 2 * k), even.bytes());
        let (word, tail) = TAILS[(k + 1) % 2];
        let mut half = chance(tail, p, k, 2 * k + 1, &mut random);
        half.parameters.confidence = 5_000;
        assert_eq!(outcome_of(&half).k, k);
        assert_ne!(mean_of(&half, k), mean_of(&half, k + 1));
        cases.good(&format!("k-{k:02}-half-down-of-{}-{word}", 2 * k + 1), half.bytes());
        if k % 4 == 1 {
            let longer = chance(tail, p, k, 100, &mut random);
            cases.good(&format!("k-{k:02}-of-100-{word}"), longer.bytes());
        }
    }
}

// The unscaled T of so many scenarios, in euros for each.
fn mean_of(book: &Book, count: usize) -> i128 {
    let outcome = outcome_of(book);
    let losses = losses_of(tail_mode(&book.parameters), &outcome.exposures, &outcome.rows()[0]);
    ceiling(tail_of(&losses, count).0, count as i128 * MILLION)
}

// ---------------------------------------------------------------------------------------------------------------------
// Add-on and euros
// ---------------------------------------------------------------------------------------------------------------------

// Returns of 1,000,000 in size over ten days, and of nearly as much, by the seed. P&Ls nearly cancel where the exposures are
// of opposite signs, and U comes near 10^17 × k where they are as large as they can be.
fn largest(tail: Tail, p: u8, k: usize, exposures: [i64; 2], seed: u64) -> Book {
    let mut random = Random::new(seed);
    let mut ten = |low: u64, high: u64| [(); 10].map(|_| random.between(low, high) as u32);
    let paths = [[0, 0, 0], [90, 80, 20]].map(|[above, below, low]| {
        let low = ten(1, 1.max(low));
        let par = ten(1_000_000 + above / 2, 1_000_000 + above);
        [par, ten(2_000_000 - below, 2_000_000), low, low.map(|price| 2 * price), low].concat()
    });
    exposed(parameters(tail, p, k, 40, 10), &paths, &exposures)
}

// D with the product in 64 bits.
fn add_on_by_64_bits(p: u8, charge: &Charge) -> i128 {
    let product = (100 - p as u64).wrapping_mul((charge.undiversified - charge.tail) as u64);
    ceiling(product as i128, 100)
}

// (100 − p) × (U − T) of the unscaled charge.
fn product_of(book: &Book) -> i128 {
    let charge = outcome_of(book).unscaled;
    (100 - book.parameters.decorrelation as i128) * (charge.undiversified - charge.tail)
}

fn add_on_cases(cases: &mut Cases) {
    for k in 1..=16 {
        let (word, tail) = TAILS[k % 2];
        for p in [0, 80, 99, 100] {
            if p > 80 && k % 5 != 1 {
                continue;
            }
            let mut books = (1..9).map(|seed| largest(tail, p, k, [50_000_000_003, -49_999_999_997], seed));
            let book = books.find(|book| p % 100 == 0 || product_of(book) % 100 != 0).unwrap();
            let past_64_bits = product_of(&book) > u64::MAX as i128;
            let charge = outcome_of(&book).unscaled;
            assert!(past_64_bits || p > 80 || k < [2, 14][p as usize / 80]);
            assert!(!past_64_bits || add_on_by_64_bits(p, &charge) != charge.add_on);
            cases.good(&format!("add-on-k-{k:02}-p-{p}-{word}"), book.bytes());
        }
    }
    // The largest T and U that there are.
    for (word, tail) in TAILS {
        let book = largest(tail, 0, 16, [100_000_000_000, 0], 0);
        cases.good(&format!("largest-{word}"), book.bytes());
        let book = largest(tail, 80, 16, [-70_000_000_001, 29_999_999_999], 0);
        cases.good(&format!("largest-half-hedged-{word}"), book.bytes());
    }
}

// Exposures whose sizes total 10^11, each vertex alone losing by the largest return in every scenario, or gaining: P&Ls of 10^17.
fn extreme_cases(cases: &mut Cases) {
    let most = 100_000_000_000;
    let path = |falls: bool| match falls {
        true => [[2_000_000; 10], [1; 10]].concat()[..14].to_vec(),
        false => [[1_000_000; 10], [2_000_000; 10]].concat()[..14].to_vec(),
    };
    for (name, exposures) in [
        ("one", vec![most]),
        ("one-short", vec![-most]),
        ("long-and-short", vec![most / 2, -most / 2]),
        ("largest-then-little", vec![most - 1, -1]),
        ("little-then-largest", vec![1, 1 - most]),
        ("sixty-four", [[most / 64, -most / 64]; 32].concat()),
    ] {
        assert_eq!(exposures.iter().map(|x: &i64| x.abs()).sum::<i64>(), most);
        for ((word, tail), loses) in TAILS.into_iter().flat_map(|tail| [(tail, true), (tail, false)]) {
            let paths: Vec<Vec<u32>> = exposures.iter().map(|&x| path((x > 0) == loses)).collect();
            let book = exposed(parameters(tail, 80, 2, 4, 10), &paths, &exposures);
            let outcome = outcome_of(&book);
            let pnls = pnls_of(&outcome.exposures, &outcome.rows()[0]);
            assert!(pnls.iter().all(|pnl| pnl.abs() == most as i128 * MILLION));
            let total = if loses || tail == Tail::Double { 2 * most as i128 * MILLION } else { 0 };
            let name = format!("extreme-{name}-{}-{word}", if loses { "loses" } else { "gains" });
            known(cases, &name, book, [total, total, 0, total], &[0, 1]);
        }
    }
}

// T 0 and U not: p decides, and D is rounded up.
fn hedged_cases(cases: &mut Cases) {
    let row: &[i64] = &[500, -700, 0, 21, -31, 40];
    for (p, add_on) in [(0, 722_454), (1, 715_230), (50, 361_227), (80, 144_491), (99, 7_225), (100, 0)] {
        let rows: [&[i64]; 4] = [row, row, &[-1, 2, 1, 0, 0, 0], &[-1, 2, 1, 0, 0, 0]];
        let book = plain(Tail::Double, p, 2, &[301, -301, 9, -9], &rows);
        known(cases, &format!("hedged-p-{p}"), book, [0, 722_454, add_on, add_on], &[0, 1]);
    }
    let row: &[i64] = &[-10, 20, -30, 15];
    let book = plain(Tail::Double, 80, 2, &[1_000, -500], &[row, row]);
    known(cases, "half-hedged", book, [25_000, 75_000, 10_000, 35_000], &[2, 1]);
    let book = plain(Tail::Single, 80, 1, &[3, 2], &[&[-9, 0], &[0, -12]]);
    known(cases, "worst-in-turn", book, [27, 51, 5, 32], &[0]);
}

// Euros with T and D rounded apart.
fn euros_apart(outcome: &Outcome) -> i128 {
    let unit = outcome.k as i128 * MILLION;
    let apart = |charge: &Charge| ceiling(charge.tail, unit) + ceiling(charge.add_on, unit);
    apart(&outcome.unscaled).max(apart(&outcome.scaled))
}

fn euro_cases(cases: &mut Cases) {
    // Half a euro and 0.4 euros come to one.
    let book = plain(Tail::Double, 0, 1, &[1, -1], &[&[700_000], &[200_000]]);
    assert_eq!(euros_apart(&outcome_of(&book)), 2);
    margin_is(cases, "euros-0.5-and-0.4", book, 1);
    for (r, euros) in [(1, 1), (999_999, 1), (1_000_000, 1), (0, 0)] {
        let book = plain(Tail::Double, 0, 1, &[1], &[&[r]]);
        margin_is(cases, &format!("euros-of-{r}-millionths"), book, euros);
    }
    let book = plain(Tail::Double, 0, 1, &[1, 1], &[&[1_000_000], &[1]]);
    margin_is(cases, "euros-of-1000001-millionths", book, 2);
    let mut random = Random::new(41);
    let mut found = 0;
    while found < 8 {
        let k = random.between(1, 16) as usize;
        let (word, tail) = random.any(&TAILS);
        let book = chance(tail, [0, 80, 37, 99][found % 4], k, 40, &mut random);
        let outcome = outcome_of(&book);
        if euros_apart(&outcome) != outcome.euros {
            found += 1;
            cases.good(&format!("euros-rounded-once-{found}-{word}"), book.bytes());
        }
    }
    larger_kind_cases(cases);
}

// The scaled M is the larger where the newest prices move most, and the unscaled where they are calm.
fn larger_kind_cases(cases: &mut Cases) {
    let rising: Vec<i64> = (1..=10).map(|j| 900 * j * if j % 3 == 0 { -1 } else { 1 }).collect();
    let falling: Vec<i64> = rising.iter().rev().copied().collect();
    for (word, tail) in TAILS {
        for (name, row, scaled_larger) in [("scaled", &rising, true), ("unscaled", &falling, false)] {
            let book = plain(
                tail,
                80,
                3,
                &[1_000_000, -300_000],
                &[row, &[100, -200, 300, 0, 0, 50, 60, -70, 80, 9]],
            );
            let outcome = outcome_of(&book);
            assert_eq!(outcome.scaled.total > outcome.unscaled.total, scaled_larger, "{name}");
            cases.good(&format!("larger-{name}-{word}"), book.bytes());
        }
    }
}

// ---------------------------------------------------------------------------------------------------------------------
// The values' total
// ---------------------------------------------------------------------------------------------------------------------

fn total_cases(cases: &mut Cases) {
    let most = MOST_NOMINAL;
    let full = [(0, most), (0, -most), (0, most), (0, most), (0, most)];
    let and = |more: &[(u32, i64)]| {
        let flows: &[(u16, u32)] = &[(100, 40_000), (365, 1_000_000)];
        let bonds: Bonds = &[(0, 2_000_000, flows), (0, 500_000, flows), (0, 1, flows)];
        let positions = [&full[..], more].concat();
        moving(&[(0, 90, 980_000), (0, 365, 950_000)], bonds, &positions, 1).bytes()
    };
    cases.good("total-100000000000", and(&[]));
    cases.good("total-100000000000-and-zeros", and(&[(0, 0), (1, 0)]));
    cases.good("total-100000000000-values-round-to-0", and(&[(2, 499_999), (2, -499_999)]));
    cases.refused("20-one-over", 20, 0, and(&[(1, 2)]));
    cases.refused("20-one-over-short", 20, 0, and(&[(1, -2)]));
    cases.refused("20-half-rounds-up", 20, 0, and(&[(1, -1)]));
    cases.refused("20-would-cancel", 20, 0, and(&[(0, -most), (0, -most), (0, -most)]));
    cases.refused("20-millionths-round-up", 20, 0, and(&[(2, 500_000)]));
    cases.refused("20-far-over", 20, 0, and(&[(0, most); 60]));
    cases.refused("18-after-the-total", 18, 6, and(&[(0, most), (3, 0)]));
    cases.refused("19-after-the-total", 19, 6, and(&[(0, most), (0, i64::MIN)]));
}

// ---------------------------------------------------------------------------------------------------------------------
// Order, division, multiples
// ---------------------------------------------------------------------------------------------------------------------

// A book, the same in another order, and two books that share it out. The same figures; and no figure of the whole is more
// than the parts' sum.
fn division_cases(cases: &mut Cases, name: &str, book: &Book, random: &mut Random) {
    let whole = outcome_of(book);
    let other = reordered(book, random);
    assert_eq!(outcome_of(&other), whole, "{name}");
    let parts = divided(book, 1, random);
    let [first, second] = [&parts[0], &parts[1]].map(outcome_of);
    let figures = |o: &Outcome| {
        let of = |charge: &Charge| [charge.tail, charge.undiversified, charge.total];
        [&of(&o.unscaled)[..], &of(&o.scaled), &[o.euros]].concat()
    };
    let sums = figures(&first).into_iter().zip(figures(&second)).map(|(a, b)| a + b);
    assert!(figures(&whole).into_iter().zip(sums).all(|(figure, sum)| figure <= sum), "{name}");
    let sums = first.exposures.iter().zip(&second.exposures).map(|(a, b)| a + b);
    assert!(sums.eq(whole.exposures));
    cases.good(&format!("whole-{name}"), book.bytes());
    cases.good(&format!("whole-{name}-reordered"), other.bytes());
    cases.good(&format!("whole-{name}-first-part"), parts[0].bytes());
    cases.good(&format!("whole-{name}-second-part"), parts[1].bytes());
    empty_part_cases(cases, name, book);
}

// The same book divided into one with all of its positions, in another order, and one with none: the margin is that of the
// first, and the second's is 0.
fn empty_part_cases(cases: &mut Cases, name: &str, book: &Book) {
    let mut full = book.clone();
    full.positions.reverse();
    assert_eq!(outcome_of(&full), outcome_of(book), "{name}");
    cases.good(&format!("whole-{name}-full-part"), full.bytes());
    empty(cases, &format!("whole-{name}-empty-part"), book);
}

fn order_cases(cases: &mut Cases) {
    let mut random = Random::new(42);
    let mut found = 0;
    while found < 7 {
        let book = held_book(&mut random);
        if book.positions.len() > 3 && outcome_of(&book).euros > 0 {
            found += 1;
            division_cases(cases, &found.to_string(), &book, &mut random);
        }
    }
    let shape = |positions: usize, tail: Tail, k: usize| Shape {
        parameters: parameters(tail, 80, k, 60, 2),
        curves: 3,
        vertices: 7,
        bonds: 9,
        flows: 5,
        positions,
        moves: 9_000,
    };
    for (name, shape) in [
        ("of-40-positions", shape(40, Tail::Double, 4)),
        ("of-90-positions", shape(90, Tail::Single, 11)),
        ("of-2-positions", shape(2, Tail::Double, 16)),
    ] {
        division_cases(cases, name, &shape.book(43), &mut random);
    }
}

// So many times the exposures: T and U are so many times as much, and the rest is not more than that.
fn multiple_cases(cases: &mut Cases) {
    let mut random = Random::new(44);
    for (word, tail) in TAILS {
        let book = chance(tail, 37, 3, 20, &mut random);
        let one = outcome_of(&book);
        for n in [1, 2, 3, 10, 150] {
            let mut more = book.clone();
            more.positions.iter_mut().for_each(|position| position.nominal *= n);
            let outcome = outcome_of(&more);
            let n = n as i128;
            for (charge, once) in [(&outcome.unscaled, &one.unscaled), (&outcome.scaled, &one.scaled)] {
                assert_eq!((charge.tail, charge.undiversified), (n * once.tail, n * once.undiversified));
                assert!(charge.add_on <= n * once.add_on && charge.list == once.list);
            }
            assert!(outcome.euros <= n * one.euros);
            cases.good(&format!("times-{n}-{word}"), more.bytes());
        }
    }
}

// ---------------------------------------------------------------------------------------------------------------------
// Shapes
// ---------------------------------------------------------------------------------------------------------------------

fn shape_cases(cases: &mut Cases) {
    let mut shape = |name: &str, parameters: Parameters, counts: [usize; 5]| {
        let [curves, vertices, bonds, flows, positions] = counts;
        let shape = Shape { parameters, curves, vertices, bonds, flows, positions, moves: 9_000 };
        cases.good(&format!("shape-{name}"), shape.book(45).bytes());
    };
    shape("vertices-64", Parameters::new(100, 1, 5, 9_700), [8, 64, 20, 12, 60]);
    shape("vertices-64-lookback-1", Parameters::new(1, 1, 0, 9_900), [5, 64, 30, 9, 40]);
    shape("lookback-1024", Parameters::new(1_024, 1, 0, 9_900), [2, 6, 8, 10, 30]);
    shape("lookback-1024-warm-up-255", Parameters::new(1_024, 10, 255, 9_844), [2, 4, 5, 6, 20]);
    shape("warm-up-255", Parameters::new(20, 3, 255, 7_500), [3, 6, 5, 6, 20]);
    shape("bonds-1024", Parameters::new(5, 1, 0, 7_500), [4, 9, 1_024, 1, 300]);
    shape("flows-120", Parameters::new(30, 2, 2, 8_000), [3, 8, 20, 120, 50]);
    shape("positions-2000", Parameters::new(30, 5, 0, 8_500), [4, 20, 25, 10, 2_000]);
    shape("positions-2400-of-3-bonds", Parameters::new(5, 1, 0, 7_500), [3, 9, 3, 120, 2_400]);
    for holding_period in [2, 5, 10] {
        let name = format!("holding-period-{holding_period}");
        shape(&name, Parameters::new(36, holding_period, 4, 6_000), [2, 5, 6, 7, 12]);
    }
    bound_cases(cases);
    longest_cases(cases);
}

// LP 1,024, 1,024 bonds and a bond of 120 flows, all in one book.
fn bound_cases(cases: &mut Cases) {
    let prices = walk(&mut Random::new(48), 9_000, 1_025);
    let mut book = Book::market(Parameters::new(1_024, 1, 0, 9_900), &[(0, 20_000)], prices);
    (0..1_023).for_each(|i| book.push_bond(0, 900_000 + 97 * i, &[(i as u16 + 1, 1_000_000)]));
    book.push_bond(0, 1_043_210, &(1..=120).map(|j| (166 * j, 83_333 - j as u32)).collect::<Vec<_>>());
    book.positions = [(1_023, 5_000_001), (0, -400_000), (511, 77)]
        .map(|(bond, nominal)| Position { bond, nominal })
        .to_vec();
    cases.good("lookback-1024-bonds-1024-flows-120", book.bytes());
}

// As many bytes as the program takes; one more is too long, whatever the book.
fn longest_cases(cases: &mut Cases) {
    let parameters = Parameters::new(60, 1, 3, 8_000);
    let shape =
        Shape { parameters, curves: 5, vertices: 64, bonds: 100, flows: 14, positions: 30, moves: 9_000 };
    let mut book = shape.book(46);
    while book.bytes().len() < LONGEST {
        book.positions.push(Position { bond: 7, nominal: -3_001 });
    }
    assert_eq!(book.bytes().len(), LONGEST);
    cases.good("longest", book.bytes());
    cases.add("too-long-by-a-byte", [book.bytes(), vec![0]].concat());
    cases.add("too-long-by-twice", vec![0; 2 * LONGEST]);
}

// ---------------------------------------------------------------------------------------------------------------------
// Books by chance
// ---------------------------------------------------------------------------------------------------------------------

fn chance_cases(cases: &mut Cases) {
    let mut random = Random::new(47);
    for i in 1..=60 {
        cases.good(&format!("random-{i:02}"), held_book(&mut random).bytes());
    }
    for i in 1..=70 {
        let bytes = damaged(held_book(&mut random), &mut random);
        let outcome = outcome(&run(&bytes, FULL));
        cases.add(&format!("damaged-{i:02}-{outcome}"), bytes);
    }
    empty_chance_cases(cases);
    let mut random = Random::new(54);
    for i in 1..=10 {
        cases.good(&format!("crowded-random-{i:02}"), crowded_book(&mut random).bytes());
    }
}

// The same without positions.
fn empty_chance_cases(cases: &mut Cases) {
    let mut random = Random::new(53);
    for i in 1..=10 {
        empty(cases, &format!("no-position-random-{i:02}"), &held_book(&mut random));
    }
    for i in 1..=20 {
        let bytes = damaged(held_book(&mut random).without_positions(), &mut random);
        let outcome = outcome(&run(&bytes, FULL));
        cases.add(&format!("no-position-damaged-{i:02}-{outcome}"), bytes);
    }
}

// Half of them are damaged, some have no position, and some have many.
fn book_by_chance(random: &mut Random) -> Vec<u8> {
    match random.between(0, 3) {
        0 => good_book(random).bytes(),
        1 => crowded_book(random).bytes(),
        _ => damaged_book(random),
    }
}

fn all_cases(cases: &mut Cases) {
    example_cases(cases);
    count_example_cases(cases);
    value_cases(cases);
    mapping_cases(cases);
    held_cases(cases);
    tie_cases(cases);
    gain_cases(cases);
    zero_cases(cases);
    empty_cases(cases);
    count_cases(cases);
    add_on_cases(cases);
    extreme_cases(cases);
    hedged_cases(cases);
    euro_cases(cases);
    total_cases(cases);
    order_cases(cases);
    multiple_cases(cases);
    shape_cases(cases);
    refused_cases(cases);
    chance_cases(cases);
}

pub fn put(store: &mut Store) {
    store.put(layer("unit", refusal_of, print_file), all_cases, book_by_chance);
}
