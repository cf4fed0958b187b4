// What the valuing layer's oracle shares with those above it: refusals 14 to 20, value, split and mapping, computed in 128
// bits, and books that have bonds and positions. Written from documents 01 and 02 alone.

use super::book::*;
use super::random::Random;
use super::store::{print_line, Layer};

// ---------------------------------------------------------------------------------------------------------------------
// Value, split, mapping
// ---------------------------------------------------------------------------------------------------------------------

pub const MILLION: i128 = 1_000_000;

// The nearest whole number to n / d, halves away from zero.
pub fn nearest(n: i128, d: i128) -> i128 {
    n.signum() * ((2 * n.abs() + d) / (2 * d))
}

// A vertex of one curve: its place among all vertices, its days, its newest price.
pub struct Point {
    pub vertex: usize,
    pub days: i128,
    pub price: i128,
}

pub fn points_of(book: &Book, curve: u8) -> Vec<Point> {
    let histories = book.prices.chunks(book.parameters.history());
    let all = book.vertices.iter().zip(histories).enumerate();
    all.filter(|(_, (vertex, _))| vertex.curve == curve)
        .map(|(v, (vertex, prices))| Point {
            vertex: v,
            days: vertex.days as i128,
            price: *prices.last().unwrap() as i128,
        })
        .collect()
}

// Where days lie on a curve: on a vertex's days, or before the first, they are that vertex's; else between two neighbours.
enum Place<'a> {
    At(&'a Point),
    Between(&'a Point, &'a Point),
}

fn place_of(points: &[Point], days: i128) -> Place<'_> {
    let next =
        points.iter().position(|point| days <= point.days).expect("14 lets no days past the last vertex");
    if next == 0 || points[next].days == days {
        Place::At(&points[next])
    } else {
        Place::Between(&points[next - 1], &points[next])
    }
}

pub fn price_for(points: &[Point], days: i128) -> i128 {
    match place_of(points, days) {
        Place::At(a) => a.price,
        Place::Between(a, b) => (a.price * (b.days - days) + b.price * (days - a.days)) / (b.days - a.days),
    }
}

fn worths_of(points: &[Point], flows: &[Flow]) -> Vec<i128> {
    let worth = |flow: &Flow| flow.amount as i128 * price_for(points, flow.days as i128) / MILLION;
    flows.iter().map(worth).collect()
}

fn value_of(bond: &Bond, nominal: i64) -> i128 {
    nearest(nominal as i128 * bond.price as i128, MILLION)
}

// A value's shares, one for each worth.
fn shares_of(value: i128, worths: &[i128]) -> Vec<i128> {
    let whole: i128 = worths.iter().sum();
    let mut before = 0;
    let mut shares = Vec::new();
    for worth in worths {
        let after = before + worth;
        shares.push(value.signum() * (value.abs() * after / whole - value.abs() * before / whole));
        before = after;
    }
    shares
}

fn map_share(exposures: &mut [i128], points: &[Point], days: i128, share: i128) {
    match place_of(points, days) {
        Place::At(a) => exposures[a.vertex] += share,
        Place::Between(a, b) => {
            let nearer = share.signum() * (share.abs() * (b.days - days) / (b.days - a.days));
            exposures[a.vertex] += nearer;
            exposures[b.vertex] += share - nearer;
        }
    }
}

pub fn flows_of<'a>(book: &'a Book, bond: &Bond) -> &'a [Flow] {
    &book.flows[bond.first as usize..][..bond.number as usize]
}

// The exposures of a book that passed.
pub fn exposures_of(book: &Book) -> Vec<i128> {
    let mut exposures = vec![0; book.vertices.len()];
    for position in &book.positions {
        let bond = &book.bonds[position.bond as usize];
        let (points, flows) = (points_of(book, bond.curve), flows_of(book, bond));
        let value = value_of(bond, position.nominal);
        let shares = shares_of(value, &worths_of(&points, flows));
        assert_eq!(shares.iter().sum::<i128>(), value, "the shares total the value");
        for (flow, share) in flows.iter().zip(shares) {
            map_share(&mut exposures, &points, flow.days as i128, share);
        }
    }
    exposures
}

// ---------------------------------------------------------------------------------------------------------------------
// Refusals 14 to 20, as 01 orders them; no position is no fault, by request W2
// ---------------------------------------------------------------------------------------------------------------------

pub const MOST_AMOUNT: u32 = 10_000_000;
pub const MOST_NOMINAL: i64 = 10_000_000_000;
const MOST_VALUES: i128 = 100_000_000_000;

// The whole of a book that 1 to 20 let pass, or its refusal.
pub fn check_values(bytes: &[u8]) -> Result<Book, Refusal> {
    let mut book = read(bytes)?;
    for (i, bond) in book.bonds.iter().enumerate() {
        check_flows(i, &points_of(&book, bond.curve), flows_of(&book, bond))?;
    }
    book.positions = read_positions(read_directory(bytes)?[POSITIONS], &book.bonds)?;
    Ok(book)
}

fn check_flows(bond: usize, points: &[Point], flows: &[Flow]) -> Result<(), Refusal> {
    let last = points.last().unwrap().days;
    let mut before = 0;
    for flow in flows {
        let days = flow.days as i128;
        if flow.zero != 0 || days <= before || days > last {
            return refuse(14, bond);
        }
        before = days;
    }
    let amounts: u64 = flows.iter().map(|flow| flow.amount as u64).sum();
    if flows.iter().any(|flow| !(1..=MOST_AMOUNT).contains(&flow.amount)) || amounts > MOST_AMOUNT as u64 {
        return refuse(15, bond);
    }
    if worths_of(points, flows).iter().sum::<i128>() == 0 {
        return refuse(16, bond);
    }
    Ok(())
}

fn read_positions(bytes: &[u8], bonds: &[Bond]) -> Result<Vec<Position>, Refusal> {
    if bytes.len() % 12 != 0 || bytes.len() / 12 > 4_096 {
        return refuse(17, 0);
    }
    let mut positions = Vec::new();
    let mut values = 0;
    for (i, record) in bytes.chunks(12).enumerate() {
        let bond = u32_of(record);
        let nominal = i64::from_le_bytes(record[4..].try_into().unwrap());
        if bond as usize >= bonds.len() {
            return refuse(18, i);
        }
        if !(-MOST_NOMINAL..=MOST_NOMINAL).contains(&nominal) {
            return refuse(19, i);
        }
        values += value_of(&bonds[bond as usize], nominal).abs();
        positions.push(Position { bond, nominal });
    }
    if values > MOST_VALUES {
        return refuse(20, 0);
    }
    Ok(positions)
}

// ---------------------------------------------------------------------------------------------------------------------
// What is printed of a file
// ---------------------------------------------------------------------------------------------------------------------

// The most bytes that the unit takes of a book.
pub const LONGEST: usize = 32_768;

// A layer over books that have to pass a check.
pub fn layer(
    word: &'static str,
    refusal: fn(&[u8]) -> Option<Refusal>,
    print: fn(&[u8]) -> String,
) -> Layer<Refusal> {
    Layer { word, ending: "book", longest: LONGEST, refusal, print }
}

// A refusal, or the lines of what came of the book.
pub fn print_checked<T>(checked: Result<T, Refusal>, print: impl FnOnce(&mut String, T)) -> String {
    let mut out = String::new();
    match checked {
        Err(refusal) => print_line(&mut out, "refused", &[refusal.number as usize, refusal.item]),
        Ok(checked) => print(&mut out, checked),
    }
    out
}

// ---------------------------------------------------------------------------------------------------------------------
// Books
// ---------------------------------------------------------------------------------------------------------------------

// A book written out: vertices by curve, days and newest price; bonds by curve, dirty price and flows (days, amount);
// positions by bond and nominal. Each vertex has two prices, and the older differs from the newest.
pub fn book(
    vertices: &[(u8, u16, u32)],
    bonds: &[(u8, u32, &[(u16, u32)])],
    positions: &[(u32, i64)],
) -> Book {
    let places: Vec<(u8, u16)> = vertices.iter().map(|&(curve, days, _)| (curve, days)).collect();
    let prices = vertices.iter().flat_map(|&(_, _, newest)| [newest / 2 + 1, newest]).collect();
    let mut book = Book::market(Parameters::new(1, 1, 0, 9_900), &places, prices);
    for &(curve, price, flows) in bonds {
        book.push_bond(curve, price, flows);
    }
    book.positions = positions.iter().map(|&(bond, nominal)| Position { bond, nominal }).collect();
    book
}

// The book that most damage is done to: four curves, each shorter than another; five bonds of three flows, the second one
// held by no position; five positions. All newest prices lie under 1,000,000, so an amount of 1 is worth 0.
pub fn five() -> Book {
    let vertices = [
        (0, 90, 990_000),
        (0, 180, 975_000),
        (0, 365, 950_000),
        (2, 30, 998_000),
        (5, 20, 999_000),
        (5, 200, 960_000),
        (5, 730, 900_000),
        (7, 10, 999_500),
        (7, 3_650, 700_000),
    ];
    let bonds: [(u8, u32, &[(u16, u32)]); 5] = [
        (0, 1_010_000, &[(60, 25_000), (120, 25_000), (365, 1_025_000)]),
        (7, 870_000, &[(365, 40_000), (730, 40_000), (3_650, 1_040_000)]),
        (2, 1_000_300, &[(7, 100_000), (21, 100_000), (30, 800_000)]),
        (0, 930_000, &[(90, 1_000), (91, 2_000), (364, 950_000)]),
        (5, 1_100_000, &[(20, 70_000), (199, 70_000), (730, 1_070_000)]),
    ];
    book(&vertices, &bonds, &[(3, 1_000_000), (0, -250_000), (4, 777_777), (2, -3), (0, 123_456)])
}

// The flow j of bond i in the book of five.
pub fn flow(book: &mut Book, i: usize, j: usize) -> &mut Flow {
    &mut book.flows[3 * i + j]
}

// A market of so many bonds, with three curves and five numbers of flows in turn: neighbours differ in both, and the first bond
// has 120 flows, the second 1.
pub fn uneven(bonds: usize) -> Book {
    let vertices = [
        (1, 60, 995_000),
        (1, 500, 957_000),
        (1, 2_400, 801_000),
        (2, 90, 991_000),
        (2, 1_800, 862_000),
        (6, 30, 998_000),
        (6, 300, 974_000),
        (6, 900, 921_000),
        (6, 1_500, 880_000),
    ];
    let mut book = book(&vertices, &[], &[]);
    for i in 0..bonds {
        let (curve, last) = [(1, 2_400), (2, 1_800), (6, 1_500)][i % 3];
        let count = [120, 1, 7, 45, 2][i % 5];
        let end = last - i % 200;
        let amount = |j: usize| 3_000 + 7 * ((i + j) % 500) + if j == count { 1_000_000 } else { 0 };
        let flow = |j: usize| ((end * j / count) as u16, amount(j) as u32);
        book.push_bond(curve, (900_000 + 97 * i) as u32, &(1..=count).map(flow).collect::<Vec<_>>());
    }
    book
}

// The book with a position in each of these bonds, in this order: nominals by chance, of both signs, so that none make up for
// others.
pub fn holding(book: &Book, bonds: impl IntoIterator<Item = usize>) -> Book {
    let mut random = Random::new(25);
    let position = |bond| Position { bond: bond as u32, nominal: random.size(20_000_000) };
    Book { positions: bonds.into_iter().map(position).collect(), ..book.clone() }
}

// One fault for each of 14 to 20, which leaves all else of the book of five as it was.
pub fn damage(book: &mut Book, number: u32, item: usize) {
    match number {
        14 => flow(book, item, 2).zero = 1,
        15 => flow(book, item, 1).amount = 0,
        16 => (0..3).for_each(|j| flow(book, item, j).amount = 1),
        17 => book.rest.push(0),
        18 => book.positions[item].bond = 5,
        19 => book.positions[item].nominal = -MOST_NOMINAL - 1,
        20 => (0..10).for_each(|_| book.positions.insert(1, Position { bond: 0, nominal: MOST_NOMINAL })),
        _ => unreachable!(),
    }
}

// ---------------------------------------------------------------------------------------------------------------------
// Books by chance
// ---------------------------------------------------------------------------------------------------------------------

// A number from 1 to the most, small ones as often as large ones.
pub fn any_size(random: &mut Random, most: u64) -> u64 {
    let bits = random.between(1, 64 - most.leading_zeros() as u64);
    random.between(1, (1u64 << bits).min(most))
}

// Different days up to the last, rising; half of them are a vertex's.
fn any_days(random: &mut Random, of_vertices: &[u16], count: u64) -> Vec<u16> {
    let last = *of_vertices.last().unwrap() as u64;
    let mut days: Vec<u16> = (0..count)
        .map(|_| match random.between(0, 1) {
            0 => of_vertices[random.between(0, of_vertices.len() as u64 - 1) as usize],
            _ => random.between(1, last) as u16,
        })
        .collect();
    days.sort();
    days.dedup();
    days
}

// Vertices of up to four curves.
pub fn any_vertices(random: &mut Random) -> Vec<(u8, u16)> {
    let curves = random.between(1, 3);
    let mut vertices: Vec<(u8, u16)> = (0..random.between(1, 8))
        .map(|_| (random.between(0, curves) as u8, any_size(random, 20_000) as u16))
        .collect();
    vertices.sort();
    vertices.dedup();
    vertices
}

// A market's bonds and positions.
pub fn add_holdings(book: &mut Book, random: &mut Random) {
    let vertices = book.vertices.clone();
    for _ in 0..random.between(1, 5) {
        let curve = vertices[random.between(0, vertices.len() as u64 - 1) as usize].curve;
        let own: Vec<u16> = vertices.iter().filter(|v| v.curve == curve).map(|v| v.days).collect();
        let count = random.between(1, 8);
        let days = any_days(random, &own, count);
        let most = MOST_AMOUNT as u64 / days.len() as u64;
        let flows: Vec<(u16, u32)> = days.into_iter().map(|d| (d, any_size(random, most) as u32)).collect();
        book.push_bond(curve, any_size(random, 2_000_000) as u32, &flows);
    }
    for _ in 0..random.between(1, 8) {
        let bond = random.between(0, book.bonds.len() as u64 - 1) as u32;
        let size = any_size(random, MOST_NOMINAL as u64) as i64;
        let nominal = size * (random.between(0, 2) as i64 - 1);
        book.positions.push(Position { bond, nominal });
    }
}

// A market's positions are many instead, which hold its bonds in no order.
pub fn crowd(book: &mut Book, random: &mut Random) {
    let last = book.bonds.len() as u64 - 1;
    book.positions.clear();
    for _ in 0..random.between(20, 300) {
        let (bond, size) = (random.between(0, last) as u32, any_size(random, 100_000_000) as i64);
        book.positions.push(Position { bond, nominal: size * random.any(&[-1, 1]) });
    }
}

// A book by chance loses its positions, one time in eight.
pub fn clear_at_times(book: &mut Book, random: &mut Random) {
    if random.between(0, 7) == 0 {
        book.positions.clear();
    }
}

// A fault, or a change that may be none, in a flow, a bond's flows, a position, or all positions. Where there is none, what
// would change one leaves the positions no whole number of records.
pub fn change_field(book: &mut Book, random: &mut Random) {
    let bond = book.bonds[random.between(0, book.bonds.len() as u64 - 1) as usize].clone();
    let own = bond.first as usize..(bond.first + bond.number) as usize;
    let j = random.between(own.start as u64, own.end as u64 - 1) as usize;
    let p = random.between(0, book.positions.len().max(1) as u64 - 1) as usize;
    let last = points_of(book, bond.curve).last().unwrap().days as u16;
    match random.between(0, 13) {
        0 => book.flows[j].days = 0,
        1 => book.flows[j].days = last + random.between(0, 1) as u16,
        2 => book.flows[j].days = random.between(1, last as u64) as u16,
        3 => book.flows[j].zero = 1 << random.between(0, 15),
        4 => book.flows[j].amount = random.between(0, 1) as u32,
        5 => book.flows[j].amount = MOST_AMOUNT + random.between(0, 1) as u32,
        6 => book.flows[own].iter_mut().for_each(|flow| flow.amount = 1),
        7 => book.prices.iter_mut().for_each(|price| *price = 1),
        8..=12 if book.positions.is_empty() => book.rest = vec![0; random.between(1, 11) as usize],
        8 => book.positions[p].bond = (book.bonds.len() as u64 - random.between(0, 1)) as u32,
        9 => book.positions[p].bond = random.next() as u32,
        10 => book.positions[p].nominal = MOST_NOMINAL + random.between(0, 1) as i64,
        11 => book.positions[p].nominal = -MOST_NOMINAL - random.between(0, 1) as i64,
        12 => book.positions[p].nominal = (random.next() << 11) as i64,
        _ => {
            let dearest = (0..book.bonds.len()).max_by_key(|&i| book.bonds[i].price).unwrap();
            let large = Position { bond: dearest as u32, nominal: MOST_NOMINAL };
            book.positions.extend(vec![large; random.between(1, 40) as usize]);
        }
    }
}

// A number as part of a name.
pub fn signed_name(n: i64) -> String {
    n.to_string().replace('-', "minus-")
}

// How a check ended, as the end of a name.
pub fn outcome<T>(checked: &Result<T, Refusal>) -> String {
    match checked {
        Ok(_) => "good".to_string(),
        Err(refusal) => format!("{:02}", refusal.number),
    }
}
