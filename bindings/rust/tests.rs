//! The unit's library, called from Rust, beside the oracle: every answer, every figure and every entry of every buffer.

mod flows_tests;
mod holding_tests;
mod linker_tests;
#[allow(dead_code)]
mod margin_unit;
mod stack_tests;
#[allow(dead_code)]
#[path = "../../oracle"]
mod oracle {
    pub mod book;
    pub mod linkers;
    pub mod linkers_terms;
    pub mod random;
    pub mod scenarios;
    pub mod schedule;
    pub mod schedule_terms;
    pub mod store;
    pub mod tails;
    pub mod unit;
    pub mod unit_books;
    pub mod valuing;
}
use oracle::book::{printed, read_directory, Book, Parameters, Position, Refusal, POSITIONS};
use oracle::random::Random;
use oracle::scenarios::{nine, Fault};
use oracle::unit::{run, Charge, Lengths, Outcome, FULL};
use oracle::unit_books::{damaged_book, divided, good_book, held_book, reordered, Shape};
use oracle::valuing::MOST_NOMINAL;

// ---------------------------------------------------------------------------------------------------------------------
// One call beside the oracle
// ---------------------------------------------------------------------------------------------------------------------

// Lent buffers and figures, each with a few entries before and after it, to see that nothing is written there.
#[derive(Clone, Debug, PartialEq)]
struct Lent {
    lengths: Lengths,
    exposures: Vec<i64>,
    returns: Vec<i32>,
    list: Vec<u16>,
    figures: Vec<u64>,
}

const AROUND: usize = 4;

impl Lent {
    // Each entry starts as a number of its own that no book comes to.
    fn new(lengths: Lengths) -> Lent {
        let around = |length: usize| 0..AROUND + length + AROUND;
        Lent {
            lengths,
            exposures: around(lengths.exposures).map(|i| i64::MIN + i as i64).collect(),
            returns: around(lengths.returns).map(|i| i32::MIN + i as i32).collect(),
            list: around(lengths.list).map(|i| u16::MAX - i as u16).collect(),
            figures: around(10).map(|i| u64::MAX - i as u64).collect(),
        }
    }

    // The same with other contents, by their places.
    fn holding(mut self, entry: fn(u64) -> u64) -> Lent {
        self.exposures.iter_mut().zip(0..).for_each(|(to, i)| *to = entry(i) as i64);
        self.returns.iter_mut().zip(0..).for_each(|(to, i)| *to = entry(i) as i32);
        self.list.iter_mut().zip(0..).for_each(|(to, i)| *to = entry(i) as u16);
        self.figures.iter_mut().zip(0..).for_each(|(to, i)| *to = entry(i));
        self
    }

    // What is lent of it.
    fn entries(&mut self) -> (&mut [i64], &mut [i32], &mut [u16], &mut [u64; 10]) {
        let Lengths { exposures, returns, list } = self.lengths;
        (
            &mut self.exposures[AROUND..][..exposures],
            &mut self.returns[AROUND..][..returns],
            &mut self.list[AROUND..][..list],
            (&mut self.figures[AROUND..][..10]).try_into().unwrap(),
        )
    }

    fn call(&mut self, book: &[u8]) -> u32 {
        let (exposures, returns, list, figures) = self.entries();
        margin_unit::call(book, exposures, returns, list, figures)
    }

    fn run(&mut self, book: &[u8]) -> Result<margin_unit::Figures, margin_unit::Refusal> {
        let (exposures, returns, list, _) = self.entries();
        margin_unit::run(book, exposures, returns, list)
    }

    // As an accepted book must leave it.
    fn put(&mut self, outcome: &Outcome) {
        let (exposures, returns, list, figures) = self.entries();
        exposures.iter_mut().zip(&outcome.exposures).for_each(|(to, &x)| *to = x as i64);
        returns.iter_mut().zip(&outcome.returns).for_each(|(to, &r)| *to = r as i32);
        list.iter_mut().zip(outcome.list()).for_each(|(to, s)| *to = s as u16);
        let charge = |charge: &Charge| [charge.tail, charge.undiversified, charge.add_on, charge.total];
        let (unscaled, scaled) = (charge(&outcome.unscaled), charge(&outcome.scaled));
        let all = [&[outcome.k as i128][..], &unscaled, &scaled, &[outcome.euros]].concat();
        *figures = std::array::from_fn(|i| all[i] as u64);
    }
}

fn figures_of(outcome: &Outcome) -> margin_unit::Figures {
    let charge = |charge: &Charge| margin_unit::Charge {
        tail: charge.tail as u64,
        undiversified: charge.undiversified as u64,
        add_on: charge.add_on as u64,
        total: charge.total as u64,
    };
    let (unscaled, scaled) = (charge(&outcome.unscaled), charge(&outcome.scaled));
    margin_unit::Figures { k: outcome.k, unscaled, scaled, euros: outcome.euros as u64 }
}

// The library's answer, figures and buffers are the oracle's; so are those of the safe function, which has figures of its own.
fn compare(book: &[u8], lengths: Lengths) -> Result<Outcome, Refusal> {
    compare_with(book, Lent::new(lengths))
}

// The same with buffers and figures of any contents.
fn compare_with(book: &[u8], mut must: Lent) -> Result<Outcome, Refusal> {
    let expected = run(book, must.lengths);
    let (mut called, mut ran) = (must.clone(), must.clone());
    let (answer, result) = (called.call(book), ran.run(book));
    match &expected {
        Ok(outcome) => {
            must.put(outcome);
            ran.figures = must.figures.clone();
            assert_eq!(answer, 0);
            assert_eq!(result, Ok(figures_of(outcome)));
        }
        Err(Refusal { number, item }) => {
            assert_eq!((answer / 65_536, answer % 65_536), (*number, *item as u32));
            assert_eq!(result, Err(margin_unit::Refusal { number: *number, item: *item as u32 }));
        }
    }
    assert!(called == must, "figures or buffers differ, {expected:?}");
    assert!(ran == must, "the safe function's buffers differ, {expected:?}");
    expected
}

fn accepted(book: &[u8], lengths: Lengths) -> Outcome {
    compare(book, lengths).unwrap()
}

fn refused(book: &[u8], lengths: Lengths, number: u32, item: usize) {
    assert_eq!(compare(book, lengths), Err(Refusal { number, item }));
}

// What a book's buffers have to have, and a little more.
fn ample(book: &Book) -> Lengths {
    let vertices = book.vertices.len();
    Lengths {
        exposures: vertices + 1,
        returns: 2 * vertices * book.parameters.lookback as usize + 2,
        list: 33,
    }
}

// No entry at all.
const NONE: Lengths = Lengths { exposures: 0, returns: 0, list: 0 };

// ---------------------------------------------------------------------------------------------------------------------
// The C header
// ---------------------------------------------------------------------------------------------------------------------

// What the header gives a number, in its order: macros and enumerators, without MARGIN_UNIT_ before each.
fn named() -> Vec<(&'static str, u64)> {
    let named = |line: &'static str| {
        let words = line.split(|c: char| !c.is_ascii_alphanumeric() && c != '_');
        let mut words = words.filter(|word| !word.is_empty() && *word != "define");
        let name = words.next()?.strip_prefix("MARGIN_UNIT_")?;
        Some((name, words.next()?.parse().ok()?))
    };
    include_str!("../../include/margin_unit.h").lines().filter_map(named).collect()
}

// Figures whose values are their own places, as the wrapper takes them from the array.
fn places() -> margin_unit::Figures {
    margin_unit::figures_of(&std::array::from_fn(|i| i as u64))
}

#[test]
fn header_and_wrapper() {
    let margin_unit::Figures { k, unscaled, scaled, euros } = places();
    let expected = [
        ("VERSION", margin_unit::VERSION as u64),
        ("EXPOSURES", margin_unit::MOST_EXPOSURES as u64),
        ("RETURNS", margin_unit::MOST_RETURNS as u64),
        ("LIST", margin_unit::MOST_LIST as u64),
        ("FLOWS_BYTES", margin_unit::MOST_FLOWS_BYTES as u64),
        ("K", k as u64),
        ("UNSCALED", unscaled.tail),
        ("UNSCALED_TAIL", unscaled.tail),
        ("UNSCALED_UNDIVERSIFIED", unscaled.undiversified),
        ("UNSCALED_ADD_ON", unscaled.add_on),
        ("UNSCALED_TOTAL", unscaled.total),
        ("SCALED", scaled.tail),
        ("SCALED_TAIL", scaled.tail),
        ("SCALED_UNDIVERSIFIED", scaled.undiversified),
        ("SCALED_ADD_ON", scaled.add_on),
        ("SCALED_TOTAL", scaled.total),
        ("EUROS", euros),
        ("FIGURES", euros + 1),
        ("ACCEPTED", 0),
    ];
    let (refusals, others): (Vec<_>, Vec<_>) =
        named().into_iter().partition(|(name, _)| name.starts_with("REFUSED_"));
    assert_eq!(others, expected);
    assert!(refusals.iter().map(|&(_, number)| number).eq(1..=30), "{refusals:?}");
    assert_eq!(margin_unit::version(), margin_unit::VERSION);
}

// A fault by the header's name of its refusal, its item, the book that has it and the lengths of the lent buffers.
type Named = (&'static str, usize, Vec<u8>, Lengths);

// The faults that leave the positions alone: those before them, and those after them.
fn faults_around(good: &Book) -> [Vec<Named>; 2] {
    let fault = |name, item, edit: fn(&mut Book)| (name, item, good.with(edit), FULL);
    let short = |name, lengths| (name, 0, good.bytes(), lengths);
    let before = vec![
        ("DIRECTORY_SHORT", 0, good.bytes()[..47].to_vec(), FULL),
        ("DIRECTORY_PAIRS", 0, [good.bytes(), vec![0]].concat(), FULL),
        fault("PARAMETERS_FORM", 0, |b| b.parameters.zeros[5] = 1),
        fault("PARAMETERS_RANGE", 0, |b| b.parameters.smoothing = 1_000),
        fault("TAIL_COUNT", 0, |b| b.parameters = Parameters::new(1_000, 2, 3, 9_834)),
        fault("VERTICES_LENGTH", 0, |b| b.vertices.clear()),
        fault("VERTEX", 8, |b| b.vertices[8].zero = 1),
        fault("PRICES_LENGTH", 0, |b| b.prices.truncate(98)),
        fault("PRICE", 8, |b| b.prices[98] = 0),
        fault("BONDS_LENGTH", 0, |b| b.bonds.clear()),
        fault("BOND", 3, |b| b.bonds[3].price = 0),
        fault("BOND_FLOWS", 3, |b| b.bonds[3].number = 0),
        fault("FLOWS_LENGTH", 0, |b| b.flows.truncate(14)),
        fault("FLOW_DAYS", 3, |b| b.flows[9].days = 0),
        fault("FLOW_AMOUNTS", 3, |b| b.flows[9].amount = 0),
        fault("FLOW_WORTHS", 3, |b| b.flows[9..12].iter_mut().for_each(|flow| flow.amount = 1)),
    ];
    let after = vec![
        fault("RETURN", 8, |b| b.prices[92] = 1),
        short("EXPOSURES_SHORT", Lengths { exposures: 8, ..FULL }),
        short("RETURNS_SHORT", Lengths { returns: 107, ..FULL }),
        short("LIST_SHORT", Lengths { list: 1, ..FULL }),
    ];
    [before, after]
}

fn position_faults(good: &Book) -> Vec<Named> {
    let fault = |name, item, edit: fn(&mut Book)| (name, item, good.with(edit), FULL);
    vec![
        fault("POSITIONS_LENGTH", 0, |b| b.rest.push(0)),
        fault("POSITION_BOND", 4, |b| b.positions[4].bond = 5),
        fault("POSITION_NOMINAL", 4, |b| b.positions[4].nominal = MOST_NOMINAL + 1),
        fault("TOTAL_VALUE", 0, |b| b.positions = vec![Position { bond: 0, nominal: MOST_NOMINAL }; 10]),
    ]
}

// Each refusal of a book that the header names, by a book with that fault or a buffer that is too short; and again, but for
// those of positions, with no position in the book.
#[test]
fn refusals_by_name() {
    let mut names = named();
    let of_terms = ["REFUSED_TERMS_", "REFUSED_LINKER_"];
    names.retain(|(name, _)| name.starts_with("REFUSED_") && !of_terms.iter().any(|of| name.starts_with(of)));
    let number = |fault: &str| {
        let named = names.iter().find(|(name, _)| *name == format!("REFUSED_{fault}"));
        named.expect("the header names it").1 as u32
    };
    let (good, empty) = (nine(), nine().without_positions());
    for book in [&good, &empty] {
        accepted(&book.bytes(), Lengths { exposures: 9, returns: 108, list: 2 });
    }
    let [before, after] = faults_around(&good);
    let faults = [before, position_faults(&good), after].concat();
    assert!(faults.iter().map(|fault| number(fault.0)).eq(1..=24));
    assert_eq!(names.len(), faults.len());
    for (fault, item, book, lengths) in faults.into_iter().chain(faults_around(&empty).concat()) {
        refused(&book, lengths, number(fault), item);
    }
}

#[test]
fn refusal_in_words() {
    let refusal = Lent::new(FULL).run(&nine().with(|b| b.positions[4].bond = 5)).unwrap_err();
    assert_eq!(refusal.to_string(), "refused 18 4");
}

// ---------------------------------------------------------------------------------------------------------------------
// Buffers
// ---------------------------------------------------------------------------------------------------------------------

#[test]
fn printed_example() {
    let outcome = accepted(&printed().bytes(), FULL);
    assert_eq!(outcome.exposures, [44_171, 955_829]);
    let mut lent = Lent::new(FULL);
    let figures = lent.run(&printed().bytes()).unwrap();
    let charge = |[tail, undiversified, add_on, total]: [u64; 4]| margin_unit::Charge {
        tail,
        undiversified,
        add_on,
        total,
    };
    assert_eq!(figures.k, 1);
    assert_eq!(figures.unscaled, charge([27_791_450_000, 29_558_290_000, 353_368_000, 28_144_818_000]));
    assert_eq!(figures.scaled, charge([26_729_614_530, 28_469_510_220, 347_979_138, 27_077_593_668]));
    assert_eq!(figures.euros, 28_145);
    let (exposures, returns, list, _) = lent.entries();
    assert_eq!(exposures[..2], [44_171, 955_829]);
    assert_eq!(returns[..8], [-20_000, 20_000, -20_000, 0, 30_000, 0, -20_000, 0]);
    assert_eq!(returns[8..16], [-19_695, 19_695, -19_695, 0, 28_875, 0, -19_695, 0]);
    assert_eq!(list[..2], [0, 0]);
}

// Every buffer empty, an entry short, just long enough, and longer: 22 comes before 23, and 23 before 24; with positions in
// the book, and without.
#[test]
fn lengths_of_buffers() {
    let mut random = Random::new(1);
    let mut books = vec![printed(), nine(), shape(33, 5_000, 2, 3).book(1), shape(1, 9_999, 1, 1).book(2)];
    books.extend((0..12).map(|_| held_book(&mut random)));
    for book in books.iter().flat_map(|book| [book.clone(), book.without_positions()]) {
        let bytes = book.bytes();
        let needed = run(&bytes, FULL).unwrap().lengths();
        for exposures in about(needed.exposures) {
            for returns in about(needed.returns) {
                for list in about(needed.list) {
                    let expected = match () {
                        _ if exposures < needed.exposures => Some(22),
                        _ if returns < needed.returns => Some(23),
                        _ if list < needed.list => Some(24),
                        _ => None,
                    };
                    let lent = Lengths { exposures, returns, list };
                    assert_eq!(compare(&bytes, lent).err().map(|refusal| refusal.number), expected);
                }
            }
        }
    }
}

fn about(needed: usize) -> [usize; 4] {
    [0, needed - 1, needed, needed + 3]
}

// A refusal of the book comes before one of the buffers.
#[test]
fn book_before_buffers() {
    refused(&printed().bytes(), NONE, 22, 0);
    refused(&nine().with(|b| b.prices[11 * 8 + 4] = 1), NONE, 21, 8);
    refused(&nine().with(|b| b.positions[4].bond = 5), NONE, 18, 4);
    refused(&nine().with(|b| b.rest.push(0)), NONE, 17, 0);
    refused(&nine().with(|b| b.vertices[8].zero = 1), NONE, 7, 8);
    refused(&[], NONE, 1, 0);
}

// ---------------------------------------------------------------------------------------------------------------------
// Sizes
// ---------------------------------------------------------------------------------------------------------------------

fn shape(lookback: u16, confidence: u16, curves: usize, vertices: usize) -> Shape {
    let parameters = Parameters::new(lookback, 1, 0, confidence);
    Shape { parameters, curves, vertices, bonds: 5, flows: 4, positions: 9, moves: 9_000 }
}

#[test]
fn most_vertices_and_scenarios() {
    for (warm_up, holding_period, tail) in [(255, 1, 0), (255, 10, 1)] {
        let mut full = shape(1_024, 9_844, 8, 64);
        full.parameters.warm_up = warm_up;
        full.parameters.holding_period = holding_period;
        full.parameters.tail = tail;
        let bytes = full.book(3).bytes();
        assert!(bytes.len() > 300_000);
        let needed = accepted(&bytes, FULL).lengths();
        assert_eq!(needed, FULL);
        accepted(&bytes, Lengths { exposures: 65, returns: FULL.returns + 1, list: 33 });
        refused(&bytes, Lengths { exposures: 63, ..FULL }, 22, 0);
        refused(&bytes, Lengths { returns: FULL.returns - 1, ..FULL }, 23, 0);
        refused(&bytes, Lengths { list: 31, ..FULL }, 24, 0);
    }
}

#[test]
fn most_bonds_and_positions() {
    let full = Shape { bonds: 1_024, flows: 120, positions: 4_096, ..shape(6, 7_500, 3, 20) };
    let mut book = full.book(4);
    assert!(book.bytes().len() > 1_000_000);
    accepted(&book.bytes(), ample(&book));
    refused(&book.with(|b| b.positions[4_095].bond = 1_024), FULL, 18, 4_095);
    refused(&book.with(|b| b.positions[4_095].nominal = i64::MIN), FULL, 19, 4_095);
    refused(&book.with(|b| b.flows[120 * 1_024 - 1].zero = 1), FULL, 14, 1_023);
    refused(&book.with(|b| b.bonds[1_023].zeros[2] = 1), FULL, 11, 1_023);
    book.positions.push(Position { bond: 0, nominal: 0 });
    refused(&book.bytes(), FULL, 17, 0);
    let over = Shape { bonds: 1_025, ..shape(6, 7_500, 3, 20) };
    refused(&over.book(5).bytes(), FULL, 10, 0);
}

// Books past what the program takes.
#[test]
fn past_32768_bytes() {
    for positions in [2_500, 2_800, 4_096] {
        let long = Shape { positions, ..shape(20, 8_000, 2, 6) }.book(6);
        accepted(&long.bytes(), ample(&long));
        refused(&[long.bytes(), vec![0]].concat(), ample(&long), 2, 0);
    }
    refused(&vec![0; 1 << 20], FULL, 2, 0);
}

#[test]
fn few_bytes() {
    let book = printed().bytes();
    for length in 0..=60 {
        for bytes in [&book[..length], &vec![0; length], &vec![255; length]] {
            refused(bytes, FULL, if length < 48 { 1 } else { 2 }, 0);
        }
    }
    refused(&[], NONE, 1, 0);
    for length in 0..book.len() {
        assert!(compare(&book[..length], ample(&printed())).is_err());
    }
}

// ---------------------------------------------------------------------------------------------------------------------
// No position
// ---------------------------------------------------------------------------------------------------------------------

// A good book without its positions, in request W2's words: zero exposures, so that every figure but k is 0, margin 0, and
// scenarios 0 to k − 1 in both lists. k and the returns are what the book has with its positions, and every other entry, lent
// or not, is what it was. The oracle has to agree.
fn no_position(book: &Book, lent: &Lent) {
    let empty = book.without_positions().bytes();
    let (mut must, mut after) = (lent.clone(), lent.clone());
    assert_eq!(must.call(&book.bytes()), 0);
    assert_eq!(after.call(&empty), 0);
    let (vertices, k) = (book.vertices.len(), must.figures[AROUND] as u16);
    must.exposures = lent.exposures.clone();
    must.list = lent.list.clone();
    let (exposures, _, list, figures) = must.entries();
    exposures[..vertices].fill(0);
    list.iter_mut().zip((0..k).chain(0..k)).for_each(|(to, s)| *to = s);
    figures[1..].fill(0);
    assert!(after == must, "figures or buffers of a book without positions, {:?}", after.figures);
    let outcome = compare_with(&empty, lent.clone()).unwrap();
    assert!(outcome.exposures.iter().all(|&exposure| exposure == 0) && outcome.euros == 0);
}

// The lengths that a book needs.
fn needed(book: &Book) -> Lengths {
    run(&book.bytes(), FULL).unwrap().lengths()
}

// Whatever the buffers and figures held, and where they are just long enough or longer.
#[test]
fn no_positions() {
    let mut random = Random::new(10);
    let mut books = vec![printed(), nine(), shape(1, 9_999, 1, 1).book(8), shape(40, 9_900, 8, 64).book(9)];
    for k in 1..=16 {
        let mut half_down = shape(2 * k + 1, 5_000, 3, 7);
        half_down.parameters.tail = k as u8 % 2;
        half_down.parameters.decorrelation = [0, 80, 100][k as usize % 3];
        books.push(half_down.book(10));
    }
    books.extend((0..100).map(|_| held_book(&mut random)));
    let mut counts = [0; 17];
    for book in &books {
        for lengths in [needed(book), ample(book)] {
            let lent = Lent::new(lengths);
            no_position(book, &lent);
            let contents: [fn(u64) -> u64; 4] = [|_| 0, |_| u64::MAX, |i| i, |i| (i + 1) << 15 | 1];
            for entry in contents {
                no_position(book, &lent.clone().holding(entry));
            }
            // what the book itself left there
            let mut left = lent.clone();
            left.call(&book.bytes());
            no_position(book, &left);
        }
        counts[accepted(&book.without_positions().bytes(), ample(book)).k] += 1;
    }
    assert!(counts[1..].iter().all(|&count| count > 0), "{counts:?}");
}

// As many vertices and scenarios as there can be, and as many bonds and flows; with the buffers an entry short too.
#[test]
fn no_positions_in_full_books() {
    for tail in [0, 1] {
        let mut full = shape(1_024, 9_844, 8, 64);
        (full.parameters.warm_up, full.parameters.tail) = (255, tail);
        let book = full.book(11);
        no_position(&book, &Lent::new(FULL));
        let empty = book.without_positions().bytes();
        assert!(empty.len() > 300_000);
        refused(&empty, Lengths { exposures: 63, ..FULL }, 22, 0);
        refused(&empty, Lengths { returns: FULL.returns - 1, ..FULL }, 23, 0);
        refused(&empty, Lengths { list: 31, ..FULL }, 24, 0);
    }
    let book = Shape { bonds: 1_024, flows: 120, ..shape(6, 7_500, 3, 20) }.book(12);
    no_position(&book, &Lent::new(ample(&book)));
}

// One fault after the other, from the last that is looked for to the first: buffers an entry short, returns out of range, a
// byte of positions, bonds that nobody holds.
#[test]
fn no_positions_and_a_refusal() {
    let mut book = nine().without_positions();
    let Lengths { exposures, returns, list } = needed(&book);
    refused(&book.bytes(), Lengths { exposures, returns, list: list - 1 }, 24, 0);
    refused(&book.bytes(), Lengths { exposures, returns: returns - 1, list: list - 1 }, 23, 0);
    let short = Lengths { exposures: exposures - 1, returns: returns - 1, list: list - 1 };
    for lengths in [short, NONE] {
        refused(&book.bytes(), lengths, 22, 0);
    }
    for vertex in [8, 3, 0] {
        Fault::Scaled.put(&mut book, vertex);
        for lengths in [FULL, short, NONE] {
            refused(&book.bytes(), lengths, 21, vertex);
        }
    }
    book.rest.push(0);
    refused(&book.bytes(), NONE, 17, 0);
    for bond in [4, 0] {
        book.flows[3 * bond].amount = 0;
        refused(&book.bytes(), NONE, 15, bond);
    }
}

// A whole number of records, none included and 4,096 at the most, passes; 17 keeps every other length.
#[test]
fn lengths_of_positions() {
    for length in (0..=150).chain(12 * 4_095 - 1..=12 * 4_097 + 1) {
        let bytes = nine().with_sections(|sections| sections[POSITIONS] = vec![0; length]);
        if length % 12 == 0 && length <= 12 * 4_096 {
            assert_eq!(accepted(&bytes, ample(&nine())).exposures, [0; 9]);
        } else {
            refused(&bytes, ample(&nine()), 17, 0);
            refused(&bytes, NONE, 17, 0);
        }
    }
}

// ---------------------------------------------------------------------------------------------------------------------
// Books by chance
// ---------------------------------------------------------------------------------------------------------------------

// Lengths that suffice, mostly.
fn any_lengths(random: &mut Random) -> Lengths {
    let mut any = |most: u64, rarely: u64| match random.between(0, 9) {
        0 => random.between(0, rarely) as usize,
        _ => random.between(rarely, most) as usize,
    };
    Lengths { exposures: any(12, 8), returns: any(1_000, 640), list: any(40, 32) }
}

#[test]
fn good_books() {
    let mut random = Random::new(7);
    let (mut counts, mut empty) = ([0; 17], 0);
    for _ in 0..1_500 {
        let book = good_book(&mut random);
        let k = accepted(&book.bytes(), ample(&book)).k;
        counts[k] += 1;
        empty += book.positions.is_empty() as usize;
        let _ = compare(&book.bytes(), any_lengths(&mut random));
    }
    assert!(counts[1..].iter().all(|&count| count > 0), "{counts:?}");
    assert!(empty > 100, "{empty}");
}

#[test]
fn damaged_books() {
    let mut random = Random::new(8);
    // of all, and of those without positions, that the directory lets pass
    let [mut counts, mut empty] = [[0; 25]; 2];
    for _ in 0..4_000 {
        let bytes = damaged_book(&mut random);
        let number = compare(&bytes, any_lengths(&mut random)).err().map_or(0, |refusal| refusal.number);
        counts[number as usize] += 1;
        if read_directory(&bytes).is_ok_and(|sections| sections[POSITIONS].is_empty()) {
            empty[number as usize] += 1;
        }
    }
    assert!(counts.iter().all(|&count| count > 0), "{counts:?}");
    assert!(
        empty[17..=20] == [0; 4] && [0, 14, 15, 16, 21, 22, 23, 24].iter().all(|&n| empty[n] > 0),
        "{empty:?}"
    );
}

// ---------------------------------------------------------------------------------------------------------------------
// Order and division
// ---------------------------------------------------------------------------------------------------------------------

// What the library makes of a book.
fn figures(book: &Book) -> (margin_unit::Figures, Lent) {
    let mut lent = Lent::new(ample(book));
    (lent.run(&book.bytes()).unwrap(), lent)
}

// A part may have no position, and so may the whole.
#[test]
fn reordered_and_divided_books() {
    let mut random = Random::new(9);
    let mut empty = [0; 3];
    for _ in 0..400 {
        let book = good_book(&mut random);
        let (whole, lent) = figures(&book);
        assert_eq!(figures(&reordered(&book, &mut random)), (whole, lent.clone()));
        let parts = divided(&book, 0, &mut random);
        empty[parts.iter().filter(|part| part.positions.is_empty()).count()] += 1;
        let [(first, a), (second, b)] = parts.map(|part| figures(&part));
        let exposures = |lent: &Lent| lent.exposures[AROUND..][..book.vertices.len()].to_vec();
        let sums = exposures(&a).into_iter().zip(exposures(&b)).map(|(x, y)| x + y);
        assert!(sums.eq(exposures(&lent)));
        assert!(a.returns == lent.returns && b.returns == lent.returns);
        assert!(whole.euros <= first.euros + second.euros);
        for kind in [|f: &margin_unit::Figures| f.unscaled, |f: &margin_unit::Figures| f.scaled] {
            let [whole, first, second] = [&whole, &first, &second].map(kind);
            assert!(whole.tail <= first.tail + second.tail);
            assert!(whole.total <= first.total + second.total);
            assert!(whole.tail <= whole.undiversified);
        }
    }
    assert!(empty.iter().all(|&count| count > 0), "{empty:?}");
}

// Every position in the one part, in another order, and none in the other: the figures are those of the one, and the other's
// are 0.
#[test]
fn divided_into_all_and_none() {
    let mut random = Random::new(11);
    let nothing = margin_unit::Charge { tail: 0, undiversified: 0, add_on: 0, total: 0 };
    for _ in 0..200 {
        let book = held_book(&mut random);
        let (whole, lent) = figures(&book);
        let (none, left) = figures(&book.without_positions());
        assert_eq!(figures(&reordered(&book, &mut random)), (whole, lent.clone()));
        assert_eq!(none, margin_unit::Figures { k: whole.k, unscaled: nothing, scaled: nothing, euros: 0 });
        assert!(left.returns == lent.returns);
    }
}
