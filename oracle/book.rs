// What every maker of test books has: the book as document 01 lays it out, a reader that knows refusals 1 to 13, and a store
// of cases that are books. Written from document 01 alone.

use super::random::Random;
use super::store;

// ---------------------------------------------------------------------------------------------------------------------
// The book, as 01 lays it out
// ---------------------------------------------------------------------------------------------------------------------

#[derive(Clone)]
pub struct Parameters {
    pub lookback: u16,
    pub holding_period: u8,
    pub warm_up: u8,
    pub confidence: u16,
    pub smoothing: u16,
    pub tail: u8,
    pub decorrelation: u8,
    pub zeros: [u8; 6],
}

#[derive(Clone)]
pub struct Vertex {
    pub curve: u8,
    pub zero: u8,
    pub days: u16,
}

#[derive(Clone)]
pub struct Bond {
    pub curve: u8,
    pub zeros: [u8; 3],
    pub price: u32,
    pub first: u32,
    pub number: u32,
}

#[derive(Clone)]
pub struct Flow {
    pub days: u16,
    pub zero: u16,
    pub amount: u32,
}

#[derive(Clone)]
pub struct Position {
    pub bond: u32,
    pub nominal: i64,
}

// The prices stand vertex by vertex, oldest first. The rest is what stands after the last whole position: nothing in a good
// book.
#[derive(Clone)]
pub struct Book {
    pub parameters: Parameters,
    pub vertices: Vec<Vertex>,
    pub prices: Vec<u32>,
    pub bonds: Vec<Bond>,
    pub flows: Vec<Flow>,
    pub positions: Vec<Position>,
    pub rest: Vec<u8>,
}

pub type Sections = [Vec<u8>; 6];
pub type Pairs = [(u32, u32); 6];

pub const PARAMETERS: usize = 0;
pub const VERTICES: usize = 1;
pub const PRICES: usize = 2;
pub const BONDS: usize = 3;
pub const FLOWS: usize = 4;
pub const POSITIONS: usize = 5;

impl Parameters {
    pub fn new(lookback: u16, holding_period: u8, warm_up: u8, confidence: u16) -> Parameters {
        Parameters {
            lookback,
            holding_period,
            warm_up,
            confidence,
            smoothing: 940,
            tail: 1,
            decorrelation: 80,
            zeros: [0; 6],
        }
    }

    pub fn history(&self) -> usize {
        self.lookback as usize + self.holding_period as usize + self.warm_up as usize
    }

    pub fn bytes(&self) -> Vec<u8> {
        let mut out = Vec::new();
        out.extend(self.lookback.to_le_bytes());
        out.extend([self.holding_period, self.warm_up]);
        out.extend(self.confidence.to_le_bytes());
        out.extend(self.smoothing.to_le_bytes());
        out.extend([self.tail, self.decorrelation]);
        out.extend(self.zeros);
        out
    }
}

impl Vertex {
    pub fn bytes(&self) -> Vec<u8> {
        let [low, high] = self.days.to_le_bytes();
        vec![self.curve, self.zero, low, high]
    }
}

impl Bond {
    pub fn bytes(&self) -> Vec<u8> {
        let mut out = vec![self.curve];
        out.extend(self.zeros);
        out.extend(self.price.to_le_bytes());
        out.extend(self.first.to_le_bytes());
        out.extend(self.number.to_le_bytes());
        out
    }
}

impl Flow {
    pub fn bytes(&self) -> Vec<u8> {
        let mut out = Vec::new();
        out.extend(self.days.to_le_bytes());
        out.extend(self.zero.to_le_bytes());
        out.extend(self.amount.to_le_bytes());
        out
    }
}

impl Position {
    pub fn bytes(&self) -> Vec<u8> {
        let mut out = Vec::new();
        out.extend(self.bond.to_le_bytes());
        out.extend(self.nominal.to_le_bytes());
        out
    }
}

impl Book {
    // Parameters, vertices by curve and days, and prices; bonds and positions are still to come.
    pub fn market(parameters: Parameters, vertices: &[(u8, u16)], prices: Vec<u32>) -> Book {
        let vertex = |&(curve, days): &(u8, u16)| Vertex { curve, zero: 0, days };
        let vertices = vertices.iter().map(vertex).collect();
        let (bonds, flows, positions, rest) = (Vec::new(), Vec::new(), Vec::new(), Vec::new());
        Book { parameters, vertices, prices, bonds, flows, positions, rest }
    }

    // One more bond, by curve, dirty price and flows (days, amount).
    pub fn push_bond(&mut self, curve: u8, price: u32, flows: &[(u16, u32)]) {
        let (first, number) = (self.flows.len() as u32, flows.len() as u32);
        self.bonds.push(Bond { curve, zeros: [0; 3], price, first, number });
        self.flows.extend(flows.iter().map(|&(days, amount)| Flow { days, zero: 0, amount }));
    }

    pub fn sections(&self) -> Sections {
        [
            self.parameters.bytes(),
            self.vertices.iter().flat_map(|v| v.bytes()).collect(),
            self.prices.iter().flat_map(|p| p.to_le_bytes()).collect(),
            self.bonds.iter().flat_map(|b| b.bytes()).collect(),
            self.flows.iter().flat_map(|f| f.bytes()).collect(),
            self.positions.iter().flat_map(|p| p.bytes()).chain(self.rest.clone()).collect(),
        ]
    }

    pub fn bytes(&self) -> Vec<u8> {
        join(&self.sections())
    }

    // The same book before its first trade.
    pub fn without_positions(&self) -> Book {
        Book { positions: Vec::new(), ..self.clone() }
    }

    // The book after an edit of its fields.
    pub fn with(&self, edit: impl FnOnce(&mut Book)) -> Vec<u8> {
        let mut book = self.clone();
        edit(&mut book);
        book.bytes()
    }

    // The book after an edit of its sections' bytes; the directory follows.
    pub fn with_sections(&self, edit: impl FnOnce(&mut Sections)) -> Vec<u8> {
        let mut sections = self.sections();
        edit(&mut sections);
        join(&sections)
    }
}

// Where each section begins and how long it is, one after the other from byte 48 on.
pub fn pairs_of(sections: &Sections) -> Pairs {
    let mut at = 48;
    sections.each_ref().map(|section| {
        let pair = (at, section.len() as u32);
        at += section.len() as u32;
        pair
    })
}

pub fn lay_out(pairs: &Pairs, sections: &Sections) -> Vec<u8> {
    let mut out = Vec::new();
    for (offset, length) in pairs {
        out.extend(offset.to_le_bytes());
        out.extend(length.to_le_bytes());
    }
    for section in sections {
        out.extend(section);
    }
    out
}

pub fn join(sections: &Sections) -> Vec<u8> {
    lay_out(&pairs_of(sections), sections)
}

// ---------------------------------------------------------------------------------------------------------------------
// Refusals 1 to 13, as 01 orders them
// ---------------------------------------------------------------------------------------------------------------------

#[derive(Clone, Copy, PartialEq, Debug)]
pub struct Refusal {
    pub number: u32,
    pub item: usize,
}

pub fn refuse<T>(number: u32, item: usize) -> Result<T, Refusal> {
    Err(Refusal { number, item })
}

pub fn u16_of(bytes: &[u8]) -> u16 {
    u16::from_le_bytes(bytes[..2].try_into().unwrap())
}

pub fn u32_of(bytes: &[u8]) -> u32 {
    u32::from_le_bytes(bytes[..4].try_into().unwrap())
}

// The market of a book that 1 to 13 let pass, or its refusal. Positions are not looked at, and stay empty.
pub fn read(book: &[u8]) -> Result<Book, Refusal> {
    let sections = read_directory(book)?;
    let parameters = read_parameters(sections[PARAMETERS])?;
    let vertices = read_vertices(sections[VERTICES])?;
    let prices = read_prices(sections[PRICES], vertices.len(), parameters.history())?;
    let bonds = read_bonds(sections[BONDS], &vertices)?;
    let flows = read_flows(sections[FLOWS], &bonds)?;
    Ok(Book { parameters, vertices, prices, bonds, flows, positions: Vec::new(), rest: Vec::new() })
}

pub fn read_directory(book: &[u8]) -> Result<[&[u8]; 6], Refusal> {
    if book.len() < 48 {
        return refuse(1, 0);
    }
    let mut sections = [&book[..0]; 6];
    let mut expected: u64 = 48;
    for (pair, section) in book[..48].chunks(8).zip(&mut sections) {
        let (offset, length) = (u32_of(pair) as u64, u32_of(&pair[4..]) as u64);
        let end = offset + length;
        if offset != expected || end > book.len() as u64 {
            return refuse(2, 0);
        }
        *section = &book[offset as usize..end as usize];
        expected = end;
    }
    if expected != book.len() as u64 {
        return refuse(2, 0);
    }
    Ok(sections)
}

pub fn read_parameters(bytes: &[u8]) -> Result<Parameters, Refusal> {
    if bytes.len() != 16 || bytes[10..] != [0; 6] {
        return refuse(3, 0);
    }
    let p = Parameters {
        lookback: u16_of(bytes),
        holding_period: bytes[2],
        warm_up: bytes[3],
        confidence: u16_of(&bytes[4..]),
        smoothing: u16_of(&bytes[6..]),
        tail: bytes[8],
        decorrelation: bytes[9],
        zeros: [0; 6],
    };
    let good = (1..=1_024).contains(&p.lookback)
        && (1..=10).contains(&p.holding_period)
        && (5_000..=9_999).contains(&p.confidence)
        && (1..=999).contains(&p.smoothing)
        && p.tail <= 1
        && p.decorrelation <= 100;
    if !good {
        return refuse(4, 0);
    }
    if tail_count(&p) > 16 {
        return refuse(5, 0);
    }
    Ok(p)
}

// k: the nearest of LP × (10,000 − confidence) / 10,000, halves down, at least 1.
pub fn tail_count(p: &Parameters) -> u64 {
    let product = p.lookback as u64 * (10_000 - p.confidence as u64);
    let nearest = (2 * product + 9_999) / 20_000;
    nearest.max(1)
}

pub fn read_vertices(bytes: &[u8]) -> Result<Vec<Vertex>, Refusal> {
    if bytes.len() % 4 != 0 || !(1..=64).contains(&(bytes.len() / 4)) {
        return refuse(6, 0);
    }
    let mut vertices: Vec<Vertex> = Vec::new();
    for (v, record) in bytes.chunks(4).enumerate() {
        let vertex = Vertex { curve: record[0], zero: record[1], days: u16_of(&record[2..]) };
        let fields = vertex.curve <= 7 && vertex.zero == 0 && (1..=20_000).contains(&vertex.days);
        let order = match vertices.last() {
            Some(before) => (before.curve, before.days) < (vertex.curve, vertex.days),
            None => true,
        };
        if !fields || !order {
            return refuse(7, v);
        }
        vertices.push(vertex);
    }
    Ok(vertices)
}

pub fn read_prices(bytes: &[u8], vertices: usize, history: usize) -> Result<Vec<u32>, Refusal> {
    if bytes.len() != vertices * history * 4 {
        return refuse(8, 0);
    }
    let prices: Vec<u32> = bytes.chunks(4).map(u32_of).collect();
    for (v, own) in prices.chunks(history).enumerate() {
        if own.iter().any(|price| !(1..=2_000_000).contains(price)) {
            return refuse(9, v);
        }
    }
    Ok(prices)
}

pub fn read_bonds(bytes: &[u8], vertices: &[Vertex]) -> Result<Vec<Bond>, Refusal> {
    if bytes.len() % 16 != 0 || !(1..=1_024).contains(&(bytes.len() / 16)) {
        return refuse(10, 0);
    }
    let mut bonds = Vec::new();
    let mut flows_so_far = 0;
    for (i, record) in bytes.chunks(16).enumerate() {
        let bond = Bond {
            curve: record[0],
            zeros: [record[1], record[2], record[3]],
            price: u32_of(&record[4..]),
            first: u32_of(&record[8..]),
            number: u32_of(&record[12..]),
        };
        let curve_exists = vertices.iter().any(|v| v.curve == bond.curve);
        if !curve_exists || bond.zeros != [0; 3] || !(1..=2_000_000).contains(&bond.price) {
            return refuse(11, i);
        }
        if bond.first != flows_so_far || !(1..=120).contains(&bond.number) {
            return refuse(12, i);
        }
        flows_so_far += bond.number;
        bonds.push(bond);
    }
    Ok(bonds)
}

pub fn read_flows(bytes: &[u8], bonds: &[Bond]) -> Result<Vec<Flow>, Refusal> {
    let total: usize = bonds.iter().map(|bond| bond.number as usize).sum();
    if bytes.len() != 8 * total {
        return refuse(13, 0);
    }
    let flow = |record: &[u8]| Flow {
        days: u16_of(record),
        zero: u16_of(&record[2..]),
        amount: u32_of(&record[4..]),
    };
    Ok(bytes.chunks(8).map(flow).collect())
}

// ---------------------------------------------------------------------------------------------------------------------
// Cases
// ---------------------------------------------------------------------------------------------------------------------

// Cases that are books.
pub type Cases = store::Cases<Refusal>;

impl Cases {
    // A book that is refused with this number and item.
    pub fn refused(&mut self, name: &str, number: u32, item: usize, bytes: Vec<u8>) {
        self.meets(name, Some(Refusal { number, item }), bytes);
    }

    // A book that passes.
    pub fn good(&mut self, name: &str, bytes: Vec<u8>) {
        self.meets(name, None, bytes);
    }
}

// The place of an item in a name.
pub const PLACES: [(&str, usize); 3] = [("first", 0), ("middle", 2), ("last", 4)];

// 01's printed example.
pub fn printed() -> Book {
    let year = [1_000_000, 980_000, 999_600, 979_608, 979_608];
    let two_years = [1_000_000, 1_030_000, 1_030_000, 1_009_400, 1_009_400];
    let parameters = Parameters::new(4, 1, 0, 7_500);
    let mut book = Book::market(parameters, &[(0, 365), (0, 730)], [year, two_years].concat());
    book.push_bond(0, 1_000_000, &[(365, 50_000), (730, 1_050_000)]);
    book.positions.push(Position { bond: 0, nominal: 1_000_000 });
    book
}

// A byte of a section is changed, or its length.
pub fn damage_section(section: &mut Vec<u8>, random: &mut Random) {
    let length = section.len() as u64;
    let at = random.between(0, length.max(1) - 1) as usize;
    match random.between(0, 9) {
        0 => section.truncate(at),
        1 => section.push(random.next() as u8),
        2 => section.extend(vec![0; random.between(1, 16) as usize]),
        3..=5 if length > 0 => section[at] = random.next() as u8,
        _ if length > 0 => section[at] ^= 1 << random.between(0, 7),
        _ => {}
    }
}
