// Books for the reading layer, good and damaged, and what must be printed of each for the word `inspect`.
//
// Written from document 01 alone: the builder and the checker of book.rs, and a printer. Every case names the refusal that
// it was made for, and the checker has to agree with it before anything is written.

use super::book::*;
use super::random::Random;
use super::store::{print_line, Layer, Store};

const SECTION_NAMES: [&str; 6] = ["parameters", "vertices", "prices", "bonds", "flows", "positions"];

impl Book {
    // A good book: prices and amounts by the seed, flows spread up to the last vertex of the bond's curve, and a position
    // for each bond. A bond is given by its curve and its number of flows.
    fn new(parameters: Parameters, vertices: &[(u8, u16)], bonds: &[(u8, u32)], seed: u64) -> Book {
        let mut random = Random::new(seed);
        let count = vertices.len() * parameters.history();
        let prices = (0..count).map(|_| random.between(900_000, 1_100_000) as u32).collect();
        let mut book = Book::market(parameters, vertices, prices);
        for &(curve, number) in bonds {
            book.add_bond(curve, number, &mut random);
        }
        for bond in 0..bonds.len() {
            let nominal = random.between(0, 2_000_000) as i64 - 1_000_000;
            book.positions.push(Position { bond: bond as u32, nominal });
        }
        book
    }

    fn add_bond(&mut self, curve: u8, number: u32, random: &mut Random) {
        let last = self.vertices.iter().filter(|v| v.curve == curve).map(|v| v.days).max().unwrap_or(1);
        let price = random.between(800_000, 1_200_000) as u32;
        let days = |j: u64| ((j + 1) * last as u64 / number as u64) as u16;
        let flow = |j| (days(j), random.between(1, 80_000) as u32);
        let flows: Vec<(u16, u32)> = (0..number as u64).map(flow).collect();
        self.push_bond(curve, price, &flows);
    }

    // The book after an edit of its directory; the sections' bytes stay where they are.
    fn with_pairs(&self, edit: impl FnOnce(&mut Pairs)) -> Vec<u8> {
        let sections = self.sections();
        let mut pairs = pairs_of(&sections);
        edit(&mut pairs);
        lay_out(&pairs, &sections)
    }
}

// ---------------------------------------------------------------------------------------------------------------------
// What `inspect` prints of a file
// ---------------------------------------------------------------------------------------------------------------------

// The program's buffer: a file that fills it is too long.
const BUFFER: usize = 65_536;

fn print_file(bytes: &[u8]) -> String {
    match read(bytes) {
        Err(refusal) => format!("refused {} {}\nstretch 0 0\n", refusal.number, refusal.item),
        Ok(book) => print_book(&book),
    }
}

fn print_book(book: &Book) -> String {
    let mut out = String::new();
    let p = &book.parameters;
    let mut fields = vec![p.lookback as u32, p.holding_period as u32, p.warm_up as u32];
    fields.extend([p.confidence as u32, p.smoothing as u32, p.tail as u32, p.decorrelation as u32]);
    print_line(&mut out, "parameters", &fields);
    print_line(&mut out, "tail", &[tail_count(p) as u32]);
    for (vertex, prices) in book.vertices.iter().zip(book.prices.chunks(p.history())) {
        print_line(&mut out, "vertex", &[vertex.curve as u32, vertex.days as u32]);
        print_line(&mut out, "prices", prices);
    }
    let mut rest = &book.flows[..];
    for bond in &book.bonds {
        print_line(&mut out, "bond", &[bond.curve as u32, bond.price, bond.first, bond.number]);
        let (own, later) = rest.split_at(bond.number as usize);
        rest = later;
        let fields = own.iter().flat_map(|f| [f.days as u32, f.zero as u32, f.amount]);
        print_line(&mut out, "flows", &fields.collect::<Vec<u32>>());
    }
    print_line(&mut out, "stretch", &[book.bonds.len() as u32, 0]);
    out
}

// ---------------------------------------------------------------------------------------------------------------------
// Cases
// ---------------------------------------------------------------------------------------------------------------------
// The same where the first item can't be meant, since order is the later item's.
const LATER_PLACES: [(&str, usize); 3] = [("second", 1), ("middle", 2), ("last", 4)];

// Five vertices, each on a curve of its own, and five bonds: the book that most damage is done to.
fn five() -> Book {
    five_with([2, 1, 3, 1, 4])
}

// The same with other numbers of flows.
fn five_with(numbers: [u32; 5]) -> Book {
    let vertices = [(0, 90), (1, 365), (3, 30), (5, 730), (7, 20_000)];
    let curves = [7, 0, 3, 1, 5];
    let bonds: Vec<(u8, u32)> = curves.into_iter().zip(numbers).collect();
    Book::new(Parameters::new(6, 2, 2, 9_000), &vertices, &bonds, 1)
}

// One vertex and one bond, with parameters of one's own.
fn one(parameters: Parameters) -> Book {
    Book::new(parameters, &[(0, 365)], &[(0, 2)], 2)
}

fn directory_cases(cases: &mut Cases) {
    let book = five();
    let bytes = book.bytes();
    for (name, length) in [("01-empty", 0), ("01-one-byte", 1), ("01-47-bytes", 47)] {
        cases.refused(name, 1, 0, bytes[..length].to_vec());
    }
    cases.refused("02-48-bytes", 2, 0, bytes[..48].to_vec());
    cases.refused("02-48-zeros", 2, 0, vec![0; 48]);
    cases.refused("02-first-early", 2, 0, book.with_pairs(|p| p[0] = (47, 17)));
    cases.refused("02-first-late", 2, 0, book.with_pairs(|p| p[0] = (49, 15)));
    for i in 1..6 {
        let name = SECTION_NAMES[i];
        cases.refused(&format!("02-gap-{name}"), 2, 0, book.with_pairs(|p| p[i - 1].1 -= 1));
        cases.refused(&format!("02-overlap-{name}"), 2, 0, book.with_pairs(|p| p[i - 1].1 += 1));
    }
    cases.refused("02-ends-early", 2, 0, book.with_pairs(|p| p[5].1 -= 1));
    cases.refused("02-ends-late", 2, 0, book.with_pairs(|p| p[5].1 += 1));
    cases.refused("02-byte-more", 2, 0, [&bytes[..], &[0]].concat());
    cases.refused("02-byte-less", 2, 0, bytes[..bytes.len() - 1].to_vec());
    cases.refused("02-no-positions", 2, 0, {
        let shorter = bytes.len() - book.sections()[POSITIONS].len();
        bytes[..shorter].to_vec()
    });
    directory_order_cases(cases);
}

// Sections that lie in another order, and ends that 32 bits can't hold.
fn directory_order_cases(cases: &mut Cases) {
    let book = five();
    cases.refused("02-pairs-swapped", 2, 0, book.with_pairs(|p| p.swap(VERTICES, PRICES)));
    let swapped = {
        let mut sections = book.sections();
        sections.swap(BONDS, FLOWS);
        let mut pairs = pairs_of(&sections);
        pairs.swap(BONDS, FLOWS);
        lay_out(&pairs, &sections)
    };
    cases.refused("02-sections-swapped", 2, 0, swapped);
    // The first section ends at 2^32 + 40, the second starts at 40: right to whoever adds in 32 bits.
    let wrapped = |p: &mut Pairs| {
        p[0].1 = 0u32.wrapping_sub(8);
        p[1].1 += p[1].0 - 40;
        p[1].0 = 40;
    };
    cases.refused("02-wraps-first", 2, 0, book.with_pairs(wrapped));
    let wrapped = |p: &mut Pairs| {
        p[4].1 = 0u32.wrapping_sub(p[4].0 - 100);
        p[5].1 += p[5].0 - 100;
        p[5].0 = 100;
    };
    cases.refused("02-wraps-fifth", 2, 0, book.with_pairs(wrapped));
    cases.refused("02-far", 2, 0, book.with_pairs(|p| p[5] = (u32::MAX, u32::MAX)));
}

fn parameter_cases(cases: &mut Cases) {
    let book = five();
    for length in [15, 17, 0, 32] {
        let name = format!("03-length-{length}");
        cases.refused(&name, 3, 0, book.with_sections(|s| s[PARAMETERS].resize(length, 0)));
    }
    for i in 0..6 {
        let name = format!("03-zero-byte-{i}");
        cases.refused(&name, 3, 0, book.with(|b| b.parameters.zeros[i] = 1 << i));
    }
    let good = Parameters::new(10, 3, 2, 9_000);
    let ranges: [(&str, Parameters); 14] = [
        ("lookback-0", Parameters { lookback: 0, ..good.clone() }),
        ("lookback-1025", Parameters { lookback: 1_025, confidence: 9_999, ..good.clone() }),
        ("lookback-4106", Parameters { lookback: 4_106, confidence: 9_999, ..good.clone() }),
        ("holding-0", Parameters { holding_period: 0, ..good.clone() }),
        ("holding-11", Parameters { holding_period: 11, ..good.clone() }),
        ("holding-255", Parameters { holding_period: 255, ..good.clone() }),
        ("confidence-4999", Parameters { confidence: 4_999, ..good.clone() }),
        ("confidence-10000", Parameters { confidence: 10_000, ..good.clone() }),
        ("confidence-65535", Parameters { confidence: 65_535, ..good.clone() }),
        ("smoothing-0", Parameters { smoothing: 0, ..good.clone() }),
        ("smoothing-1000", Parameters { smoothing: 1_000, ..good.clone() }),
        ("tail-2", Parameters { tail: 2, ..good.clone() }),
        ("decorrelation-101", Parameters { decorrelation: 101, ..good.clone() }),
        ("decorrelation-255", Parameters { decorrelation: 255, ..good.clone() }),
    ];
    for (name, parameters) in ranges {
        cases.refused(&format!("04-{name}"), 4, 0, one(parameters).bytes());
    }
}

// k: 01's examples, halves, and the bound of 16.
fn tail_cases(cases: &mut Cases) {
    let good = [
        (250, 9_900, 2),
        (251, 9_900, 3),
        (40, 9_900, 1),
        (1_000, 9_835, 16),
        (1, 9_999, 1),
        (1, 5_000, 1),
        (3, 5_000, 1),
        (5, 5_000, 2),
        (7, 7_857, 2),
        (33, 5_000, 16),
        (100, 9_849, 2),
        (1_024, 9_844, 16),
    ];
    for (lookback, confidence, k) in good {
        let parameters = Parameters::new(lookback, 1, 0, confidence);
        assert_eq!(tail_count(&parameters), k, "{lookback} at {confidence}");
        cases.good(&format!("tail-{lookback}-{confidence}"), one(parameters).bytes());
    }
    for (lookback, confidence, k) in [(1_000, 9_834, 17), (34, 5_000, 17), (1_024, 5_000, 512)] {
        let parameters = Parameters::new(lookback, 1, 0, confidence);
        assert_eq!(tail_count(&parameters), k, "{lookback} at {confidence}");
        cases.refused(&format!("05-{lookback}-{confidence}"), 5, 0, one(parameters).bytes());
    }
}

// Vertices of so many records, rising, on eight curves.
fn many_vertices(count: u16) -> Vec<(u8, u16)> {
    (0..count).map(|v| ((v / 9) as u8, 10 + v % 9 * 7)).collect()
}

fn vertex_cases(cases: &mut Cases) {
    let small = Parameters::new(3, 1, 0, 9_000);
    let full = Book::new(small.clone(), &many_vertices(64), &[(0, 1)], 3);
    let five = five();
    cases.refused("06-none", 6, 0, five.with(|b| (b.vertices, b.prices) = (vec![], vec![])));
    let over = Book::new(small, &many_vertices(65), &[(0, 1)], 3);
    cases.refused("06-65", 6, 0, over.bytes());
    cases.refused("06-64-and-byte", 6, 0, full.with_sections(|s| s[VERTICES].push(0)));
    cases.refused("06-byte-more", 6, 0, five.with_sections(|s| s[VERTICES].push(0)));
    cases.refused("06-byte-less", 6, 0, five.with_sections(|s| s[VERTICES].truncate(19)));
    cases.refused("06-3-bytes", 6, 0, five.with_sections(|s| s[VERTICES].truncate(3)));
    for (place, v) in PLACES {
        let mut field = |kind: &str, edit: fn(&mut Vertex)| {
            cases.refused(&format!("07-{kind}-{place}"), 7, v, five.with(|b| edit(&mut b.vertices[v])));
        };
        field("curve-8", |x| x.curve = 8);
        field("zero-byte", |x| x.zero = 1);
        field("days-0", |x| x.days = 0);
        field("days-20001", |x| x.days = 20_001);
    }
    cases.refused("07-curve-255", 7, 4, five.with(|b| b.vertices[4].curve = 255));
    cases.refused("07-days-65535", 7, 4, five.with(|b| b.vertices[4].days = 65_535));
    vertex_order_cases(cases);
}

fn vertex_order_cases(cases: &mut Cases) {
    let parameters = Parameters::new(3, 1, 0, 9_000);
    let one_curve = [(2, 10), (2, 20), (2, 30), (2, 40), (2, 50)];
    let five_curves = [(1, 10), (2, 20), (3, 30), (4, 40), (5, 50)];
    let along = Book::new(parameters.clone(), &one_curve, &[(2, 3)], 4);
    let across = Book::new(parameters, &five_curves, &[(5, 3)], 4);
    for (place, v) in LATER_PLACES {
        let equal = along.with(|b| b.vertices[v].days = b.vertices[v - 1].days);
        cases.refused(&format!("07-equal-{place}"), 7, v, equal);
        let falls = along.with(|b| b.vertices[v].days = b.vertices[v - 1].days - 1);
        cases.refused(&format!("07-days-fall-{place}"), 7, v, falls);
        let curve_falls = across.with(|b| b.vertices[v].curve = b.vertices[v - 1].curve - 1);
        cases.refused(&format!("07-curve-falls-{place}"), 7, v, curve_falls);
    }
    let order_then_field = across.with(|b| {
        b.vertices[1].curve = 0;
        b.vertices[2].days = 0;
    });
    cases.refused("07-order-then-field", 7, 1, order_then_field);
    let field_then_order = across.with(|b| {
        b.vertices[1].zero = 9;
        b.vertices[2].curve = 1;
    });
    cases.refused("07-field-then-order", 7, 1, field_then_order);
    let two = across.with(|b| {
        b.vertices[3].days = 20_001;
        b.vertices[2].zero = 1;
    });
    cases.refused("07-two", 7, 2, two);
}

fn price_cases(cases: &mut Cases) {
    let five = five();
    let history = five.parameters.history();
    let whole = five.sections()[PRICES].len();
    let lengths = [
        ("08-price-less", whole - 4),
        ("08-price-more", whole + 4),
        ("08-byte-less", whole - 1),
        ("08-byte-more", whole + 1),
        ("08-vertex-less", whole - 4 * history),
        ("08-none", 0),
    ];
    for (name, length) in lengths {
        cases.refused(name, 8, 0, five.with_sections(|s| s[PRICES].resize(length, 1)));
    }
    for (place, v) in PLACES {
        for (end, j) in [("oldest", 0), ("newest", history - 1)] {
            for price in [0, 2_000_001] {
                let name = format!("09-{price}-{end}-{place}");
                cases.refused(&name, 9, v, five.with(|b| b.prices[v * history + j] = price));
            }
        }
    }
    cases.refused("09-highest-u32", 9, 3, five.with(|b| b.prices[3 * history + 4] = u32::MAX));
    let two = five.with(|b| {
        b.prices[2 * history] = 0;
        b.prices[2 * history - 1] = 2_000_001;
    });
    cases.refused("09-two", 9, 1, two);
}

fn bond_cases(cases: &mut Cases) {
    let five = five();
    let whole = five.sections()[BONDS].len();
    let lengths = [
        ("10-byte-less", whole - 1),
        ("10-byte-more", whole + 1),
        ("10-half-more", whole + 8),
        ("10-15-bytes", 15),
    ];
    for (name, length) in lengths {
        cases.refused(name, 10, 0, five.with_sections(|s| s[BONDS].resize(length, 0)));
    }
    cases.refused("10-none", 10, 0, five.with(|b| (b.bonds, b.flows) = (vec![], vec![])));
    let over = Book::new(Parameters::new(2, 1, 0, 9_000), &[(0, 9)], &[(0, 1); 1_025], 5);
    cases.refused("10-1025", 10, 0, over.with(|b| b.positions.truncate(1)));
    for (place, i) in PLACES {
        let mut term = |kind: &str, edit: fn(&mut Bond)| {
            cases.refused(&format!("11-{kind}-{place}"), 11, i, five.with(|b| edit(&mut b.bonds[i])));
        };
        term("no-curve", |x| x.curve = 2);
        term("zero-byte-0", |x| x.zeros[0] = 1);
        term("zero-byte-1", |x| x.zeros[1] = 16);
        term("zero-byte-2", |x| x.zeros[2] = 255);
        term("price-0", |x| x.price = 0);
        term("price-2000001", |x| x.price = 2_000_001);
    }
    cases.refused("11-curve-past-last", 11, 1, five.with(|b| b.bonds[1].curve = 8));
    // The byte after the last vertex, a price's lowest, is the curve that no vertex has.
    let price_as_curve = five.with(|b| {
        b.bonds[1].curve = 2;
        b.prices[0] = 999_938;
    });
    cases.refused("11-price-as-curve", 11, 1, price_as_curve);
    cases.refused("11-highest-price", 11, 3, five.with(|b| b.bonds[3].price = u32::MAX));
    flow_number_cases(cases);
}

fn flow_number_cases(cases: &mut Cases) {
    let five = five();
    for (place, i) in PLACES {
        let late = five.with(|b| b.bonds[i].first += 1);
        cases.refused(&format!("12-first-late-{place}"), 12, i, late);
        if i > 0 {
            let early = five.with(|b| b.bonds[i].first -= 1);
            cases.refused(&format!("12-first-early-{place}"), 12, i, early);
        }
        for number in [0, 121] {
            let mut numbers = [2, 1, 3, 1, 4];
            numbers[i] = number;
            cases.refused(&format!("12-number-{number}-{place}"), 12, i, five_with(numbers).bytes());
        }
    }
    cases.refused("12-first-highest", 12, 2, five.with(|b| b.bonds[2].first = u32::MAX));
    cases.refused("12-number-highest", 12, 2, five.with(|b| b.bonds[2].number = u32::MAX));
    // The two first bonds' numbers are exchanged: every later first flow and the total still hold.
    let exchanged = five.with(|b| (b.bonds[0].number, b.bonds[1].number) = (1, 2));
    cases.refused("12-exchanged", 12, 1, exchanged);
    let whole = five.sections()[FLOWS].len();
    let lengths = [
        ("13-flow-less", whole - 8),
        ("13-flow-more", whole + 8),
        ("13-byte-less", whole - 1),
        ("13-byte-more", whole + 1),
        ("13-none", 0),
    ];
    for (name, length) in lengths {
        cases.refused(name, 13, 0, five.with_sections(|s| s[FLOWS].resize(length, 0)));
    }
}

// One fault for each of 3 to 13, which leaves all else of the book as it was.
fn damage(sections: &mut Sections, number: u32) {
    match number {
        3 => sections[PARAMETERS][15] = 1,
        4 => sections[PARAMETERS][6..8].copy_from_slice(&0u16.to_le_bytes()),
        5 => sections[PARAMETERS][4..6].copy_from_slice(&5_000u16.to_le_bytes()),
        6 => sections[VERTICES].push(0),
        7 => sections[VERTICES][1] = 1,
        8 => sections[PRICES].push(0),
        9 => sections[PRICES][..4].copy_from_slice(&0u32.to_le_bytes()),
        10 => sections[BONDS].push(0),
        11 => sections[BONDS][4..8].copy_from_slice(&0u32.to_le_bytes()),
        12 => sections[BONDS][8..12].copy_from_slice(&1u32.to_le_bytes()),
        13 => sections[FLOWS].push(0),
        _ => unreachable!(),
    }
}

// Books with several faults: the first by 01's order counts.
fn order_cases(cases: &mut Cases) {
    let bonds = [(0, 2), (1, 1), (0, 3)];
    let book = Book::new(Parameters::new(40, 1, 0, 9_000), &[(0, 90), (1, 365)], &bonds, 6);
    for number in 3..=13 {
        let alone = book.with_sections(|s| damage(s, number));
        assert_eq!(read(&alone).err(), Some(Refusal { number, item: 0 }), "{number} alone");
    }
    cases.refused("both-01-02", 1, 0, vec![0; 47]);
    let mut both = book.with_sections(|s| damage(s, 3));
    both.push(0);
    cases.refused("both-02-03", 2, 0, both);
    for number in 3..=12 {
        let both = book.with_sections(|s| (number..=number + 1).for_each(|n| damage(s, n)));
        cases.refused(&format!("both-{number:02}-{:02}", number + 1), number, 0, both);
    }
    for number in 3..=11 {
        let all = book.with_sections(|s| (number..=13).for_each(|n| damage(s, n)));
        cases.refused(&format!("all-from-{number:02}"), number, 0, all);
    }
    bond_order_cases(cases);
}

fn bond_order_cases(cases: &mut Cases) {
    let five = five();
    let both = |low: usize, low_number: u32, high: usize, high_number: u32| {
        five.with(|b| {
            for (i, number) in [(low, low_number), (high, high_number)] {
                match number {
                    11 => b.bonds[i].price = 0,
                    _ => b.bonds[i].first += 1,
                }
            }
        })
    };
    cases.refused("bonds-12-then-11", 12, 0, both(0, 12, 1, 11));
    cases.refused("bonds-11-then-12", 11, 0, both(0, 11, 1, 12));
    cases.refused("bonds-12-then-11-later", 12, 2, both(2, 12, 3, 11));
    cases.refused("bonds-11-then-12-later", 11, 2, both(2, 11, 3, 12));
    cases.refused("bonds-11-and-12-on-last", 11, 4, both(4, 11, 4, 12));
    cases.refused("bonds-two-11", 11, 1, both(1, 11, 3, 11));
    cases.refused("bonds-two-12", 12, 1, both(1, 12, 3, 12));
}

// Sections of length 0 pass the directory's check, and all but the positions, which aren't looked at, fail in their own place.
// The pair of an empty section still says where the last one ended.
fn empty_section_cases(cases: &mut Cases) {
    let five = five();
    for (i, number) in [(PARAMETERS, 3), (VERTICES, 6), (PRICES, 8), (BONDS, 10), (FLOWS, 13)] {
        let name = format!("empty-{}", SECTION_NAMES[i]);
        cases.refused(&name, number, 0, five.with_sections(|s| s[i].clear()));
    }
    let empty = five.without_positions();
    cases.good("empty-positions", empty.bytes());
    cases.refused("empty-all", 3, 0, join(&[vec![], vec![], vec![], vec![], vec![], vec![]]));
    let mut pair = |name: &str, edit: fn((u32, u32)) -> (u32, u32)| {
        let bytes = empty.with_pairs(|p| p[POSITIONS] = edit(p[POSITIONS]));
        cases.refused(&format!("02-empty-positions-{name}"), 2, 0, bytes);
    };
    pair("at-0", |_| (0, 0));
    pair("at-48", |_| (48, 0));
    pair("early", |(at, _)| (at - 1, 0));
    pair("early-to-the-end", |(at, _)| (at - 1, 1));
    pair("late", |(at, _)| (at + 1, 0));
    pair("late-to-the-end", |(at, _)| (at + 1, u32::MAX));
    pair("of-a-byte", |(at, _)| (at, 1));
    pair("of-a-record", |(at, _)| (at, 12));
    pair("far", |(at, _)| (at, u32::MAX));
}

// Every field at the lowest, and at the highest, that it may have.
fn boundary_cases(cases: &mut Cases) {
    let lowest = Parameters { smoothing: 1, tail: 0, decorrelation: 0, ..Parameters::new(1, 1, 0, 5_000) };
    let lowest = Book::new(lowest, &[(0, 1)], &[(0, 1)], 7).with(|b| {
        b.prices.fill(1);
        b.bonds[0].price = 1;
    });
    cases.good("lowest", lowest);
    let highest =
        Parameters { smoothing: 999, tail: 1, decorrelation: 100, ..Parameters::new(1_024, 10, 255, 9_999) };
    let highest = Book::new(highest, &[(7, 20_000)], &[(7, 120)], 8).with(|b| {
        b.prices.fill(2_000_000);
        b.bonds[0].price = 2_000_000;
    });
    cases.good("highest", highest);
    let small = Parameters::new(3, 1, 0, 9_000);
    cases.good("vertices-64", Book::new(small.clone(), &many_vertices(64), &[(0, 1)], 9).bytes());
    let bonds_1024 = Book::new(small.clone(), &[(4, 77)], &[(4, 1); 1_024], 10);
    cases.good("bonds-1024", bonds_1024.with(|b| b.positions.truncate(1)));
    let flows_120 = [(4, 1), (4, 120), (4, 2)];
    cases.good("flows-120", Book::new(small, &[(4, 10_000)], &flows_120, 11).bytes());
    cases.good("warm-up-255", one(Parameters::new(2, 1, 255, 9_000)).bytes());
    cases.good("holding-10", one(Parameters::new(2, 10, 0, 9_000)).bytes());
}

fn good_cases(cases: &mut Cases) {
    cases.good("printed", printed().bytes());
    let smallest = Book::new(Parameters::new(1, 1, 0, 9_999), &[(0, 1)], &[(0, 1)], 12);
    cases.good("smallest", smallest.bytes());
    cases.good("smallest-no-positions", smallest.with(|b| b.positions.clear()));
    cases.good("five", five().bytes());
    let parameters = Parameters::new(5, 2, 3, 9_000);
    let gaps = [(1, 30), (1, 365), (4, 7), (4, 8), (6, 20_000)];
    let bonds = [(6, 3), (1, 2), (4, 8), (6, 1)];
    cases.good("curve-gaps", Book::new(parameters.clone(), &gaps, &bonds, 13).bytes());
    let falling = [(0, 900), (1, 800), (2, 700), (3, 600), (4, 500), (5, 400), (6, 300), (7, 200)];
    let each: Vec<(u8, u32)> = (0..8).map(|curve| (curve, 9 - curve as u32)).collect();
    cases.good("days-fall-by-curve", Book::new(parameters.clone(), &falling, &each, 14).bytes());
    let mut random = Random::new(15);
    let many: Vec<(u8, u32)> = (0..60).map(|_| (0, random.between(1, 25) as u32)).collect();
    cases.good("many-bonds", Book::new(parameters.clone(), &[(0, 9_000)], &many, 15).bytes());
    let large = Book::new(Parameters::new(150, 10, 20, 9_500), &many_vertices(64), &[(3, 5), (7, 1)], 16);
    cases.good("large", large.bytes());
    // The bytes after the last bond would do as another: its first flow 1, its number of flows 1.
    let past = Book::new(parameters, &[(0, 9)], &[(0, 1), (0, 1)], 17);
    cases.good("past-last-bond", past.with(|b| b.flows[1] = Flow { days: 1, zero: 0, amount: 1 }));
    let five = five();
    cases.good("positions-odd", five.with_sections(|s| s[POSITIONS].truncate(7)));
    cases.good("positions-no-bond", five.with(|b| b.positions[0].bond = 99));
    let damaged_flows = five.with(|b| {
        b.flows[0] = Flow { days: 0, zero: 0, amount: 0 };
        b.flows[1] = Flow { days: 65_535, zero: 65_535, amount: u32::MAX };
        b.flows[4].days = b.flows[3].days;
        b.flows[5].zero = 256;
    });
    cases.good("flows-damaged", damaged_flows);
    for seed in 1..=8 {
        cases.good(&format!("random-{seed}"), random_book(&mut Random::new(100 + seed)).bytes());
    }
}

// A good book of any shape, up to some kilobytes.
fn random_book(random: &mut Random) -> Book {
    let mut parameters = Parameters::new(
        random.between(1, 30) as u16,
        random.between(1, 10) as u8,
        random.between(0, 20) as u8,
        random.between(5_000, 9_999) as u16,
    );
    parameters.smoothing = random.between(1, 999) as u16;
    parameters.tail = random.between(0, 1) as u8;
    parameters.decorrelation = random.between(0, 100) as u8;
    let mut vertices: Vec<(u8, u16)> = (0..random.between(1, 12))
        .map(|_| (random.between(0, 7) as u8, random.between(1, 20_000) as u16))
        .collect();
    vertices.sort();
    vertices.dedup();
    let bonds: Vec<(u8, u32)> = (0..random.between(1, 10))
        .map(|_| {
            let vertex = random.between(0, vertices.len() as u64 - 1) as usize;
            (vertices[vertex].0, random.between(1, 12) as u32)
        })
        .collect();
    Book::new(parameters, &vertices, &bonds, random.next())
}

// A random book with up to three damaged places: a byte, a field's small change, or a section's length.
fn damaged_book(random: &mut Random) -> Vec<u8> {
    let mut sections = random_book(random).sections();
    for _ in 0..random.between(0, 3) {
        let i = random.between(0, 5) as usize;
        damage_section(&mut sections[i], random);
    }
    let mut bytes = join(&sections);
    if random.between(0, 15) == 0 {
        let at = random.between(0, 47) as usize;
        bytes[at] ^= 1 << random.between(0, 7);
    }
    bytes
}

// Not books: a file that fills the buffer, and one that leaves a single byte of it.
fn long_cases(cases: &mut Cases) {
    cases.add("buffer-filled", vec![0; BUFFER]);
    cases.add("buffer-not-filled", vec![0; BUFFER - 1]);
}

fn all_cases(cases: &mut Cases) {
    good_cases(cases);
    boundary_cases(cases);
    tail_cases(cases);
    directory_cases(cases);
    parameter_cases(cases);
    vertex_cases(cases);
    price_cases(cases);
    bond_cases(cases);
    order_cases(cases);
    empty_section_cases(cases);
    long_cases(cases);
}

pub fn put(store: &mut Store) {
    let refusal = |bytes: &[u8]| read(bytes).err();
    let inspect = Layer { word: "inspect", ending: "book", longest: BUFFER - 1, refusal, print: print_file };
    store.put(inspect, all_cases, damaged_book);
}
