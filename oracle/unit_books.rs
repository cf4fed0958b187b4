// Books that run to a margin: with exposures of one's own, of any shape, reordered, divided, by chance, at times without
// positions or with many, damaged. For the cases of valuing and of the unit, the tests of the bindings and the benchmark.

use super::book::*;
use super::random::Random;
use super::scenarios::*;
use super::valuing::*;

// A book with these exposures: for each price path a vertex, a bond at par with one flow on it, and positions.
pub fn exposed(parameters: Parameters, paths: &[Vec<u32>], exposures: &[i64]) -> Book {
    assert_eq!(paths.len(), exposures.len());
    let mut book = one_curve(parameters, paths);
    for (v, &exposure) in exposures.iter().enumerate() {
        book.push_bond(0, 1_000_000, &[(30 * (v as u16 + 1), 1_000_000)]);
        hold(&mut book, v as u32, exposure);
    }
    book
}

// Positions of so much in all, each as large as it may be.
fn hold(book: &mut Book, bond: u32, mut nominal: i64) {
    loop {
        let part = nominal.clamp(-MOST_NOMINAL, MOST_NOMINAL);
        book.positions.push(Position { bond, nominal: part });
        nominal -= part;
        if nominal == 0 {
            return;
        }
    }
}

// ---------------------------------------------------------------------------------------------------------------------
// Books of a shape
// ---------------------------------------------------------------------------------------------------------------------

// Every bond has so many flows; prices move by up to so many millionths a day.
#[derive(Clone)]
pub struct Shape {
    pub parameters: Parameters,
    pub curves: usize,
    pub vertices: usize,
    pub bonds: usize,
    pub flows: usize,
    pub positions: usize,
    pub moves: u64,
}

impl Shape {
    // All of it by the seed. The values' sizes stay within their total.
    pub fn book(&self, seed: u64) -> Book {
        let mut random = Random::new(seed);
        let history = self.parameters.history();
        let prices = (0..self.vertices).flat_map(|_| walk(&mut random, self.moves, history)).collect();
        let mut book = Book::market(self.parameters.clone(), &self.places(), prices);
        for i in 0..self.bonds {
            let curve = (i % self.curves) as u8;
            let flows = self.flows_on(&book, curve, &mut random);
            book.push_bond(curve, random.between(800_000, 1_200_000) as u32, &flows);
        }
        let most = (80_000_000_000 / self.positions as u64).min(MOST_NOMINAL as u64);
        for _ in 0..self.positions {
            let bond = random.between(0, self.bonds as u64 - 1) as u32;
            book.positions.push(Position { bond, nominal: random.size(most) });
        }
        book
    }

    // The vertices of a curve lie evenly up to 7,200 days.
    fn places(&self) -> Vec<(u8, u16)> {
        let mut places: Vec<(u8, u16)> = Vec::new();
        for curve in 0..self.curves {
            let count = (curve + 1) * self.vertices / self.curves - places.len();
            places.extend((1..=count).map(|j| (curve as u8, (7_200 * j / count) as u16)));
        }
        places
    }

    // Flows spread up to the curve's last vertex: coupons, and the nominal with the last.
    fn flows_on(&self, book: &Book, curve: u8, random: &mut Random) -> Vec<(u16, u32)> {
        let last = book.vertices.iter().filter(|v| v.curve == curve).map(|v| v.days).max().unwrap();
        let end = random.between(self.flows as u64, last as u64);
        let days = |j: usize| (j as u64 * end / self.flows as u64) as u16;
        let coupon = random.between(1_000, 60_000) as u32;
        let amount = |j: usize| if j == self.flows { 1_000_000 + coupon } else { coupon };
        (1..=self.flows).map(|j| (days(j), amount(j))).collect()
    }
}

// ---------------------------------------------------------------------------------------------------------------------
// Reordered and divided
// ---------------------------------------------------------------------------------------------------------------------

// The same position records in another order.
pub fn reordered(book: &Book, random: &mut Random) -> Book {
    let mut other = book.clone();
    for i in (1..other.positions.len()).rev() {
        other.positions.swap(i, random.between(0, i as u64) as usize);
    }
    other
}

// A book whose positions hold its bonds in turn, and the same records backwards, by rising bond, by falling bond, and by chance.
pub fn orders(in_turn: &Book, random: &mut Random) -> [(&'static str, Book); 5] {
    let edited = |edit: fn(&mut Vec<Position>)| {
        let mut other = in_turn.clone();
        edit(&mut other.positions);
        other
    };
    [
        ("in-turn", in_turn.clone()),
        ("backwards", edited(|positions| positions.reverse())),
        ("rising", edited(|positions| positions.sort_by_key(|position| position.bond))),
        ("falling", edited(|positions| positions.sort_by_key(|position| std::cmp::Reverse(position.bond)))),
        ("by-chance", reordered(in_turn, random)),
    ]
}

// Two books that share out the positions, in any order; each has so many of them at least.
pub fn divided(book: &Book, least: usize, random: &mut Random) -> [Book; 2] {
    let mut first = reordered(book, random);
    let mut second = first.clone();
    let at = random.between(least as u64, (book.positions.len() - least) as u64) as usize;
    second.positions = first.positions.split_off(at);
    [first, second]
}

// ---------------------------------------------------------------------------------------------------------------------
// Books by chance
// ---------------------------------------------------------------------------------------------------------------------

fn any_book(random: &mut Random) -> Book {
    let most_lookback = random.any(&[3, 12, 12, 40]);
    let mut parameters = any_parameters(random, most_lookback);
    parameters.tail = random.between(0, 1) as u8;
    parameters.decorrelation = random.any(&[0, 80, 99, 100, 37, 62]);
    any_moves(random, parameters)
}

// One that passes 1 to 21, with positions.
pub fn held_book(random: &mut Random) -> Book {
    loop {
        let book = any_book(random);
        if check_returns(&book.bytes()).is_ok() {
            return book;
        }
    }
}

// One that passes 1 to 21, at times without positions.
pub fn good_book(random: &mut Random) -> Book {
    let mut book = held_book(random);
    clear_at_times(&mut book, random);
    book
}

// One that passes 1 to 21, with many positions.
pub fn crowded_book(random: &mut Random) -> Book {
    let mut book = held_book(random);
    crowd(&mut book, random);
    book
}

pub fn damaged_book(random: &mut Random) -> Vec<u8> {
    damaged(good_book(random), random)
}

// A good book with changes of a field or a price, of a section's bytes or length, of the directory, or of the file's length.
pub fn damaged(mut book: Book, random: &mut Random) -> Vec<u8> {
    let changes = random.any(&[1, 1, 2, 3]);
    for _ in 0..changes {
        match random.between(0, 3) {
            0 => change_field(&mut book, random),
            1 => change_prices(&mut book, random),
            _ => {}
        }
    }
    let mut sections = book.sections();
    if random.between(0, 2) == 0 {
        damage_section(&mut sections[random.between(0, 5) as usize], random);
    }
    let mut bytes = join(&sections);
    match random.between(0, 19) {
        0 => bytes[random.between(0, 47) as usize] ^= 1 << random.between(0, 7),
        1 => bytes.truncate(random.between(0, bytes.len() as u64 - 1) as usize),
        _ => {}
    }
    bytes
}
