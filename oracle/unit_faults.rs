// The unit's damaged books: every refusal from 1 to 21 at several items, and every two of them in one book, of which the
// first by document 01's order counts. Each fault is put into the book of nine vertices, five bonds and five positions; those
// that are no position's are put into the same book without positions too.

use super::book::*;
use super::scenarios::*;
use super::valuing::*;

type Edit<T> = Box<dyn Fn(&mut T)>;

// What is edited: fields of the book, bytes of its sections, or the file.
enum Put {
    Fields(Edit<Book>),
    Sections(Edit<Sections>),
    File(Edit<Vec<u8>>),
}

struct Flaw {
    name: String,
    number: u32,
    item: usize,
    put: Put,
}

// A book with some faults; those of later places are put in first.
fn damaged(mut book: Book, flaws: &[&Flaw]) -> Vec<u8> {
    for flaw in flaws.iter().rev() {
        if let Put::Fields(edit) = &flaw.put {
            edit(&mut book);
        }
    }
    let mut sections = book.sections();
    for flaw in flaws.iter().rev() {
        if let Put::Sections(edit) = &flaw.put {
            edit(&mut sections);
        }
    }
    let mut file = join(&sections);
    for flaw in flaws.iter().rev() {
        if let Put::File(edit) = &flaw.put {
            edit(&mut file);
        }
    }
    file
}

#[derive(Default)]
struct Flaws(Vec<Flaw>);

impl Flaws {
    fn add(&mut self, number: u32, item: usize, name: impl Into<String>, put: Put) {
        self.0.push(Flaw { name: name.into(), number, item, put });
    }

    fn field(&mut self, number: u32, item: usize, name: &str, edit: impl Fn(&mut Book) + 'static) {
        self.add(number, item, name, Put::Fields(Box::new(edit)));
    }

    fn file(&mut self, number: u32, name: &str, edit: impl Fn(&mut Vec<u8>) + 'static) {
        self.add(number, 0, name, Put::File(Box::new(edit)));
    }

    // A section of another length.
    fn length(&mut self, number: u32, section: usize, length: usize) {
        let edit = move |s: &mut Sections| s[section].resize(length, 0);
        self.add(number, 0, format!("{length}-bytes"), Put::Sections(Box::new(edit)));
    }

    // The one of a number at its first item, and at its last.
    fn first(&self, number: u32) -> &Flaw {
        self.0.iter().filter(|flaw| flaw.number == number).min_by_key(|flaw| flaw.item).unwrap()
    }

    fn last(&self, number: u32) -> &Flaw {
        self.0.iter().filter(|flaw| flaw.number == number).max_by_key(|flaw| flaw.item).unwrap()
    }
}

// ---------------------------------------------------------------------------------------------------------------------
// One fault
// ---------------------------------------------------------------------------------------------------------------------

// Items of nine vertices, and of five bonds or positions: the first, the middle one, the last.
const NINE: [usize; 3] = [0, 4, 8];
const FIVE: [usize; 3] = [0, 2, 4];

// Adds to the number that stands at a place of the directory: pair i has its offset at 8 × i and its length after it.
fn shift(file: &mut [u8], at: usize, by: u32) {
    let shifted = u32_of(&file[at..]).wrapping_add(by);
    file[at..at + 4].copy_from_slice(&shifted.to_le_bytes());
}

const LESS: u32 = 0u32.wrapping_sub(1);

fn directory_flaws(flaws: &mut Flaws) {
    for length in [0, 1, 47] {
        flaws.file(1, &format!("{length}-bytes"), move |f| f.truncate(length));
    }
    flaws.file(2, "48-bytes", |f| f.truncate(48));
    flaws.file(2, "byte-more", |f| f.push(0));
    flaws.file(2, "byte-less", |f| f.truncate(f.len() - 1));
    for i in 0..6 {
        for (word, by) in [("early", LESS), ("late", 1)] {
            flaws.file(2, &format!("pair-{i}-starts-{word}"), move |f| shift(f, 8 * i, by));
        }
    }
    for (word, by) in [("early", LESS), ("late", 1), ("far", 1 << 31)] {
        flaws.file(2, &format!("ends-{word}"), move |f| shift(f, 44, by));
    }
    flaws.file(2, "pair-5-of-zeros", |f| f[40..48].fill(0));
    // Each next section starts where the last ended, to whoever adds in 32 bits.
    flaws.file(2, "wraps", |f| {
        let past = u32_of(&f[40..]) - 100;
        shift(f, 36, 0u32.wrapping_sub(past));
        shift(f, 40, 0u32.wrapping_sub(past));
        shift(f, 44, past);
        let (fifth, sixth) = (u32_of(&f[32..]).wrapping_add(u32_of(&f[36..])), u32_of(&f[40..]));
        assert_eq!((fifth, sixth + u32_of(&f[44..])), (sixth, f.len() as u32));
    });
    flaws.file(2, "pairs-swapped", |f| f[8..24].rotate_left(8));
}

fn parameter_flaws(flaws: &mut Flaws) {
    for length in [0, 15, 17, 32] {
        flaws.length(3, PARAMETERS, length);
    }
    for i in 0..6 {
        flaws.field(3, 0, &format!("zero-byte-{i}"), move |b| b.parameters.zeros[i] = 1 << i);
    }
    let mut range = |name: &str, edit: fn(&mut Parameters)| {
        flaws.field(4, 0, name, move |b| edit(&mut b.parameters));
    };
    range("lookback-0", |p| p.lookback = 0);
    range("lookback-1025", |p| (p.lookback, p.confidence) = (1_025, 9_999));
    range("holding-period-0", |p| p.holding_period = 0);
    range("holding-period-11", |p| p.holding_period = 11);
    range("confidence-4999", |p| p.confidence = 4_999);
    range("confidence-10000", |p| p.confidence = 10_000);
    range("confidence-65535", |p| p.confidence = 65_535);
    range("smoothing-0", |p| p.smoothing = 0);
    range("smoothing-1000", |p| p.smoothing = 1_000);
    range("tail-2", |p| p.tail = 2);
    range("decorrelation-101", |p| p.decorrelation = 101);
    // The prices then have another length too, which comes later.
    for (lookback, confidence) in [(34, 5_000), (1_000, 9_834), (1_024, 9_838), (1_024, 5_000)] {
        flaws.field(5, 0, &format!("{lookback}-at-{confidence}"), move |b| {
            (b.parameters.lookback, b.parameters.confidence) = (lookback, confidence);
        });
    }
}

fn vertex_flaws(flaws: &mut Flaws) {
    for length in [0, 3, 35, 37, 65 * 4] {
        flaws.length(6, VERTICES, length);
    }
    for v in NINE {
        let mut field = |name: &str, edit: fn(&mut Vertex)| {
            flaws.field(7, v, &format!("{name}-at-{v}"), move |b| edit(&mut b.vertices[v]));
        };
        field("curve-8", |x| x.curve = 8);
        field("zero-byte", |x| x.zero = 128);
        field("days-0", |x| x.days = 0);
        field("days-20001", |x| x.days = 20_001);
    }
    for v in [1, 2, 5, 8] {
        flaws.field(7, v, &format!("same-days-at-{v}"), move |b| b.vertices[v].days = b.vertices[v - 1].days);
        flaws.field(7, v, &format!("days-fall-at-{v}"), move |b| {
            b.vertices[v].days = b.vertices[v - 1].days - 1
        });
    }
    for v in [3, 4, 7] {
        flaws.field(7, v, &format!("curve-falls-at-{v}"), move |b| {
            b.vertices[v].curve = b.vertices[v - 1].curve
        });
    }
}

// Vertex v's prices are eleven entries.
fn price_flaws(flaws: &mut Flaws) {
    for length in [0, 4 * 98, 4 * 99 - 1, 4 * 99 + 1, 4 * 100] {
        flaws.length(8, PRICES, length);
    }
    for v in NINE {
        for (word, entry) in [("oldest", 0), ("newest", 10)] {
            for price in [0, 2_000_001] {
                flaws.field(9, v, &format!("{price}-{word}-at-{v}"), move |b| {
                    b.prices[11 * v + entry] = price
                });
            }
        }
    }
}

fn bond_flaws(flaws: &mut Flaws) {
    for length in [0, 15, 16 * 1_025, 79, 81] {
        flaws.length(10, BONDS, length);
    }
    for i in FIVE {
        let mut term = |number: u32, name: &str, edit: fn(&mut Bond)| {
            flaws.field(number, i, &format!("{name}-at-{i}"), move |b| edit(&mut b.bonds[i]));
        };
        term(11, "no-curve", |x| x.curve = 3);
        term(11, "zero-byte", |x| x.zeros[1] = 1);
        term(11, "price-0", |x| x.price = 0);
        term(11, "price-2000001", |x| x.price = 2_000_001);
        term(12, "first-late", |x| x.first += 1);
        term(12, "number-0", |x| x.number = 0);
        term(12, "number-121", |x| x.number = 121);
    }
}

fn flow_flaws(flaws: &mut Flaws) {
    for length in [0, 8 * 14, 8 * 15 - 1, 8 * 15 + 1, 8 * 16] {
        flaws.length(13, FLOWS, length);
    }
    for i in FIVE {
        let mut edit = |number: u32, name: &str, edit: fn(&mut Book, usize)| {
            flaws.field(number, i, &format!("{name}-at-{i}"), move |b| edit(b, i));
        };
        edit(14, "days-0", |b, i| flow(b, i, 0).days = 0);
        edit(14, "same-days", |b, i| flow(b, i, 2).days = flow(b, i, 1).days);
        edit(14, "past-own-curve", |b, i| {
            flow(b, i, 2).days = points_of(b, b.bonds[i].curve).last().unwrap().days as u16 + 1;
        });
        edit(14, "zero-bytes", |b, i| damage(b, 14, i));
        edit(15, "amount-0", |b, i| damage(b, 15, i));
        edit(15, "amount-10000001", |b, i| flow(b, i, 2).amount = MOST_AMOUNT + 1);
        edit(15, "amounts-total", |b, i| flow(b, i, 1).amount = MOST_AMOUNT);
        edit(16, "amounts-of-1", |b, i| damage(b, 16, i));
    }
    // No position holds it.
    for number in 14..=16 {
        flaws.field(number, 1, "unheld-bond", move |b| damage(b, number, 1));
    }
}

fn position_flaws(flaws: &mut Flaws) {
    for length in [1, 6, 11, 13, 59, 61] {
        flaws.length(17, POSITIONS, length);
    }
    for i in FIVE {
        for bond in [5, u32::MAX] {
            flaws.field(18, i, &format!("bond-{bond}-at-{i}"), move |b| b.positions[i].bond = bond);
        }
        for nominal in [MOST_NOMINAL + 1, -MOST_NOMINAL - 1, i64::MAX, i64::MIN] {
            let name = format!("nominal-{}-at-{i}", signed_name(nominal));
            flaws.field(19, i, &name, move |b| b.positions[i].nominal = nominal);
        }
    }
    flaws.field(20, 0, "ten-of-the-largest", |b| damage(b, 20, 0));
    flaws.field(20, 0, "long-and-short", |b| {
        for nominal in [MOST_NOMINAL, -MOST_NOMINAL] {
            b.positions.extend(vec![Position { bond: 4, nominal }; 5]);
        }
    });
}

fn scenario_flaws(flaws: &mut Flaws) {
    for v in 0..9 {
        for (kind, fault) in FAULTS {
            flaws.field(21, v, &format!("{kind}-at-{v}"), move |b| fault.put(b, v));
        }
    }
}

fn all_flaws() -> Flaws {
    let mut flaws = Flaws::default();
    directory_flaws(&mut flaws);
    parameter_flaws(&mut flaws);
    vertex_flaws(&mut flaws);
    price_flaws(&mut flaws);
    bond_flaws(&mut flaws);
    flow_flaws(&mut flaws);
    position_flaws(&mut flaws);
    scenario_flaws(&mut flaws);
    flaws
}

// ---------------------------------------------------------------------------------------------------------------------
// Cases
// ---------------------------------------------------------------------------------------------------------------------

// The numbers of items that are looked at together: of one item the lowest counts, of two the first item's.
const TOGETHER: [&[u32]; 3] = [&[11, 12], &[14, 15, 16], &[18, 19]];

fn together(first: u32, second: u32) -> bool {
    TOGETHER.iter().any(|numbers| numbers.contains(&first) && numbers.contains(&second))
}

fn both(cases: &mut Cases, first: &Flaw, second: &Flaw) {
    let at = |flaw: &Flaw| format!("{:02}-at-{}", flaw.number, flaw.item);
    let name = format!("{}-and-{}", at(first), at(second));
    cases.refused(&name, first.number, first.item, damaged(nine(), &[first, second]));
}

// No positions and a fault elsewhere, which is refused all the same: every one of the pairs, whose last says where an empty
// section lies, and the first and the last of each other number.
fn empty_cases(cases: &mut Cases, flaws: &Flaws) {
    let mut put = |flaw: &Flaw| {
        let name = format!("{:02}-no-position-{}", flaw.number, flaw.name);
        let bytes = damaged(nine().without_positions(), &[flaw]);
        cases.refused(&name, flaw.number, flaw.item, bytes);
    };
    put(flaws.last(1));
    flaws.0.iter().filter(|flaw| flaw.number == 2).for_each(&mut put);
    for number in (3..=16).chain([21]) {
        put(flaws.first(number));
        put(flaws.last(number));
    }
}

pub fn refused_cases(cases: &mut Cases) {
    let flaws = all_flaws();
    for flaw in &flaws.0 {
        let name = format!("{:02}-{}", flaw.number, flaw.name);
        cases.refused(&name, flaw.number, flaw.item, damaged(nine(), &[flaw]));
    }
    for first in 1..=21 {
        for second in first + 1..=21 {
            if together(first, second) {
                both(cases, flaws.first(first), flaws.first(second));
                both(cases, flaws.last(first), flaws.last(second));
                both(cases, flaws.first(second), flaws.last(first));
                both(cases, flaws.first(first), flaws.last(second));
            } else {
                both(cases, flaws.last(first), flaws.first(second));
            }
        }
    }
    for number in [7, 9, 11, 12, 14, 15, 16, 18, 19, 21] {
        both(cases, flaws.first(number), flaws.last(number));
    }
    empty_cases(cases, &flaws);
}
