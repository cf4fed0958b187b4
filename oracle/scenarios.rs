// What the scenarios layer's oracle shares with those above it: returns, variances, volatilities and scaled returns, refusal
// 21, computed in 128 bits, and prices that move. Written from document 01 alone.

use super::book::*;
use super::random::Random;
use super::valuing::*;

// ---------------------------------------------------------------------------------------------------------------------
// Returns, variances, volatilities, scaled returns
// ---------------------------------------------------------------------------------------------------------------------

// A vertex's returns, oldest first.
pub fn returns_of(prices: &[u32], holding_period: usize) -> Vec<i128> {
    let pairs = prices.iter().zip(&prices[holding_period..]);
    pairs
        .map(|(&earlier, &price)| nearest((price as i128 - earlier as i128) * MILLION, earlier as i128))
        .collect()
}

// A variance for each return; `round` gives the whole number for a quotient.
fn variances_by(round: fn(i128, i128) -> i128, returns: &[i128], smoothing: i128) -> Vec<i128> {
    let mut variances: Vec<i128> = Vec::new();
    for r in returns {
        let square = r * r * 10_000;
        variances.push(match variances.last() {
            None => square,
            Some(before) => round(smoothing * before + (1_000 - smoothing) * square, 1_000),
        });
    }
    variances
}

pub fn floor(n: i128, d: i128) -> i128 {
    n.div_euclid(d)
}

// The whole square root, rounded down: between two numbers that always have it between them.
pub fn whole_root(n: i128) -> i128 {
    let (mut low, mut high) = (0, 1 << 63);
    while high - low > 1 {
        let middle = (low + high) / 2;
        if middle * middle <= n {
            low = middle;
        } else {
            high = middle;
        }
    }
    assert!(low * low <= n && n < (low + 1) * (low + 1));
    low
}

pub fn scaled_return(own_return: i128, newest: i128, own: i128) -> i128 {
    match own {
        0 => 0,
        _ => nearest(own_return * (newest + own), 2 * own),
    }
}

// What a vertex's prices come to: all returns, warm-up first, and for each its variance, volatility and scaled return.
pub struct History {
    warm_up: usize,
    pub returns: Vec<i128>,
    pub variances: Vec<i128>,
    pub volatilities: Vec<i128>,
    pub scaled: Vec<i128>,
}

impl History {
    fn of(parameters: &Parameters, prices: &[u32]) -> History {
        History::by(floor, whole_root, parameters, prices)
    }

    // The same by another rounding of variances, or another root.
    pub fn by(
        round: fn(i128, i128) -> i128,
        root: fn(i128) -> i128,
        parameters: &Parameters,
        prices: &[u32],
    ) -> History {
        let returns = returns_of(prices, parameters.holding_period as usize);
        let variances = variances_by(round, &returns, parameters.smoothing as i128);
        let volatilities: Vec<i128> = variances.iter().map(|&variance| root(variance)).collect();
        let newest = *volatilities.last().unwrap();
        let scaled =
            returns.iter().zip(&volatilities).map(|(&r, &own)| scaled_return(r, newest, own)).collect();
        History { warm_up: parameters.warm_up as usize, returns, variances, volatilities, scaled }
    }

    // The scenarios are the last LP returns.
    pub fn unscaled_scenarios(&self) -> &[i128] {
        &self.returns[self.warm_up..]
    }

    pub fn scaled_scenarios(&self) -> &[i128] {
        &self.scaled[self.warm_up..]
    }

    pub fn newest(&self) -> i128 {
        *self.volatilities.last().unwrap()
    }

    // Whether a return of the warm-up, a scenario's return, a scaled scenario is out of range.
    pub fn faults(&self) -> [bool; 3] {
        [&self.returns[..self.warm_up], self.unscaled_scenarios(), self.scaled_scenarios()]
            .map(|returns| returns.iter().any(|r| !(-MILLION..=MILLION).contains(r)))
    }
}

pub fn histories_of(book: &Book) -> Vec<History> {
    let prices = book.prices.chunks(book.parameters.history());
    prices.map(|own| History::of(&book.parameters, own)).collect()
}

// The returns buffer: all unscaled by vertex, then scenario, and scaled likewise.
pub fn unscaled_of(histories: &[History]) -> Vec<i128> {
    histories.iter().flat_map(|history| history.unscaled_scenarios().to_vec()).collect()
}

pub fn scaled_of(histories: &[History]) -> Vec<i128> {
    histories.iter().flat_map(|history| history.scaled_scenarios().to_vec()).collect()
}

// ---------------------------------------------------------------------------------------------------------------------
// Refusal 21
// ---------------------------------------------------------------------------------------------------------------------

// A book that 1 to 21 let pass and what it comes to, a history a vertex; or its refusal.
pub fn check_returns(bytes: &[u8]) -> Result<(Book, Vec<History>), Refusal> {
    let book = check_values(bytes)?;
    let histories = histories_of(&book);
    match histories.iter().position(|history| history.faults().contains(&true)) {
        Some(vertex) => refuse(21, vertex),
        None => Ok((book, histories)),
    }
}

// ---------------------------------------------------------------------------------------------------------------------
// Prices and books
// ---------------------------------------------------------------------------------------------------------------------

pub const MOST: i64 = 1_000_000;

// Prices that have these returns, or near ones, from the first prices on.
pub fn prices_from(mut prices: Vec<u32>, returns: &[i64]) -> Vec<u32> {
    for (i, &r) in returns.iter().enumerate() {
        let earlier = prices[i] as i128;
        let price = earlier + nearest(earlier * r as i128, MILLION);
        prices.push(price.clamp(1, 2_000_000) as u32);
    }
    prices
}

// Prices by chance, each up to a size in millionths above or below the one before.
pub fn walk(random: &mut Random, size: u64, count: usize) -> Vec<u32> {
    let mut price = random.between(200_000, 1_500_000);
    (0..count)
        .map(|_| {
            price =
                (price * (1_000_000 + random.between(0, 2 * size) - size) / 1_000_000).clamp(1, 2_000_000);
            price as u32
        })
        .collect()
}

// A market on one curve, a vertex for each price path; bonds and positions are still to come.
pub fn one_curve(parameters: Parameters, paths: &[Vec<u32>]) -> Book {
    let vertices: Vec<(u8, u16)> = (1..=paths.len() as u16).map(|v| (0, 30 * v)).collect();
    assert!(paths.iter().all(|own| own.len() == parameters.history()));
    Book::market(parameters, &vertices, paths.concat())
}

// The book of five with a history: its nine vertices have LP 6, holding period 2, warm-up 3 and calm returns, and all newest
// prices lie under 1,000,000.
pub fn nine() -> Book {
    let mut book = five();
    book.parameters = Parameters { smoothing: 500, ..Parameters::new(6, 2, 3, 9_900) };
    book.prices = (0..9).flat_map(|v| prices_from(vec![900_000 - 40_000 * v, 905_000], &calm(v))).collect();
    book
}

fn calm(vertex: u32) -> Vec<i64> {
    (0..9).map(|j| ((7_919 * j + 104_729 * vertex) % 4_001) as i64 - 2_000).collect()
}

// What puts a vertex of the nine out of range, and that alone.
#[derive(Clone, Copy, Debug, PartialEq)]
pub enum Fault {
    WarmUp,
    Scenario,
    Scaled,
}

pub const FAULTS: [(&str, Fault); 3] =
    [("warm-up", Fault::WarmUp), ("scenario", Fault::Scenario), ("scaled", Fault::Scaled)];

impl Fault {
    pub fn put(self, book: &mut Book, vertex: usize) {
        let mut returns = calm(vertex as u32);
        match self {
            Fault::WarmUp => returns[1] = 1_500_000,
            Fault::Scenario => returns[4] = 1_200_000,
            Fault::Scaled => (returns[6], returns[8]) = (MOST, MOST),
        }
        let prices = prices_from(vec![100_000, 300_000], &returns);
        book.prices[11 * vertex..][..11].copy_from_slice(&prices);
        assert_eq!(histories_of(book)[vertex].faults(), self.kinds());
    }

    pub fn kinds(self) -> [bool; 3] {
        [Fault::WarmUp, Fault::Scenario, Fault::Scaled].map(|kind| kind == self)
    }
}

// ---------------------------------------------------------------------------------------------------------------------
// Books by chance
// ---------------------------------------------------------------------------------------------------------------------

pub fn any_parameters(random: &mut Random, most_lookback: u64) -> Parameters {
    let smoothing = [1, 999, 940, random.between(2, 998)][random.between(0, 3) as usize] as u16;
    let (lookback, holding_period) = (random.between(1, most_lookback) as u16, random.between(1, 10) as u8);
    let warm_up = random.between(0, 12) as u8;
    let confidence = random.between(5_000, 9_999) as u16;
    Parameters { smoothing, ..Parameters::new(lookback, holding_period, warm_up, confidence) }
}

// A book with these parameters, and prices that may move out of range.
pub fn any_moves(random: &mut Random, parameters: Parameters) -> Book {
    let vertices = any_vertices(random);
    let prices = vertices.iter().flat_map(|_| any_prices(random, parameters.history())).collect();
    let mut book = Book::market(parameters, &vertices, prices);
    add_holdings(&mut book, random);
    book
}

// A calm market at times moves at the end.
fn any_prices(random: &mut Random, count: usize) -> Vec<u32> {
    let size = random.any(&[30, 3_000, 50_000, 250_000]);
    let mut prices = walk(random, size, count);
    if random.between(0, 2) == 0 {
        let moved = random.between(1, count as u64) as usize;
        let size = random.between(1, 900_000);
        prices[moved..].iter_mut().for_each(|price| {
            let factor = 1_000_000 + size * random.between(0, 1) - size / 2;
            *price = (*price as u64 * factor / 1_000_000).clamp(1, 2_000_000) as u32;
        });
    }
    prices
}

// A change of a price, or of what prices mean: most of them put a return or a scaled scenario out of range.
pub fn change_prices(book: &mut Book, random: &mut Random) {
    let history = book.parameters.history();
    let start = history * random.between(0, book.vertices.len() as u64 - 1) as usize;
    let holding_period = book.parameters.holding_period as usize;
    let at = start + random.between(holding_period as u64, history as u64 - 1) as usize;
    let earlier = book.prices[at - holding_period];
    let own = &mut book.prices[start..start + history];
    match random.between(0, 11) {
        0 => book.prices[at] = (2 * earlier).min(2_000_000),
        1 => book.prices[at] = (2 * earlier + 1).min(2_000_000),
        2 => book.prices[at] = random.between(1, 2_000_000) as u32,
        3 => book.prices[at - holding_period] = 1 + random.between(0, 1) as u32,
        4 => own[history - 1] = (own[history - 1] * 2 - 1).min(2_000_000),
        5 => own[..holding_period].iter_mut().for_each(|price| *price = *price / 2 + 1),
        6 => own[holding_period..].iter_mut().for_each(|price| *price = 1),
        7 => {
            let (from, factor) =
                (random.between(0, history as u64) as usize, random.between(1_100, 2_500) as u32);
            own[from..].iter_mut().for_each(|price| *price = (*price / 1_000 * factor + 1).min(2_000_000));
        }
        8 => book.parameters.smoothing = random.between(0, 1_000) as u16,
        9 if book.parameters.warm_up > 0 => {
            book.parameters.warm_up -= 1;
            book.parameters.lookback += 1;
        }
        10 if book.parameters.lookback > 1 => {
            book.parameters.lookback -= 1;
            book.parameters.warm_up += 1;
        }
        _ if holding_period < 10 && book.parameters.lookback > 1 => {
            book.parameters.lookback -= 1;
            book.parameters.holding_period += 1;
        }
        _ => book.prices[at] = [0, 1, 2_000_000, 2_000_001][random.between(0, 3) as usize],
    }
}
