// The whole unit in plain Rust: refusals 1 to 24, the figures and the three buffers, in 64 bits where they fit. What the check
// computes is kept in vectors, and nothing is written to a lent buffer before every check has passed.

use crate::returns::*;
use std::ops::Range;

#[derive(Clone, Copy, Debug, PartialEq)]
pub struct Refusal {
    pub number: u32,
    pub item: usize,
}

// k; T, U, D and M unscaled, then scaled; euros.
pub type Figures = [u64; 10];

// `root` gives the whole root of a variance.
pub fn run(
    bytes: &[u8],
    exposures: &mut [i64],
    returns: &mut [i32],
    list: &mut [u16],
    root: impl Fn(u64) -> u64,
) -> Result<Figures, Refusal> {
    let book = Book::read(bytes)?;
    let scenarios = book.scenarios(&root)?;
    let k = book.parameters.tail_count;
    refuse_if(exposures.len() < book.vertices.len(), 22, 0)?;
    refuse_if(returns.len() < scenarios.len(), 23, 0)?;
    refuse_if(list.len() < 2 * k, 24, 0)?;
    let exposures = &mut exposures[..book.vertices.len()];
    book.fill_exposures(exposures);
    returns[..scenarios.len()].copy_from_slice(&scenarios);
    Ok(book.figures(exposures, &scenarios, &mut list[..2 * k]))
}

fn refuse_if(refused: bool, number: u32, item: usize) -> Result<(), Refusal> {
    match refused {
        true => Err(Refusal { number, item }),
        false => Ok(()),
    }
}

// ---------------------------------------------------------------------------------------------------------------------
// Reading: refusals 1 to 20
// ---------------------------------------------------------------------------------------------------------------------

struct Parameters {
    lookback: usize,
    holding_period: usize,
    warm_up: usize,
    smoothing: u64,
    double: bool,
    decorrelation: u64,
    tail_count: usize,
}

struct Vertex {
    curve: u8,
    days: u16,
    newest: u64,
}

struct Bond {
    curve: u8,
    price: u32,
    flows: Range<usize>,
    worth: u64,
}

// Where a flow lies on its curve, and what its bond's flows are worth up to it.
struct Flow {
    place: Place,
    worth: u64,
}

enum Place {
    At(usize),
    Between { after: usize, left: u64, gap: u64 },
}

struct Position {
    bond: usize,
    value: i64,
}

struct Book {
    parameters: Parameters,
    vertices: Vec<Vertex>,
    prices: Vec<u32>,
    bonds: Vec<Bond>,
    flows: Vec<Flow>,
    positions: Vec<Position>,
}

fn u16_of(bytes: &[u8]) -> u16 {
    u16::from_le_bytes(bytes[..2].try_into().unwrap())
}

fn u32_of(bytes: &[u8]) -> u32 {
    u32::from_le_bytes(bytes[..4].try_into().unwrap())
}

fn i64_of(bytes: &[u8]) -> i64 {
    i64::from_le_bytes(bytes[..8].try_into().unwrap())
}

impl Book {
    fn read(bytes: &[u8]) -> Result<Book, Refusal> {
        let [parameters, vertices, prices, bonds, flows, positions] = read_directory(bytes)?;
        let parameters = Parameters::read(parameters)?;
        let mut vertices = read_vertices(vertices)?;
        let prices = read_prices(prices, &mut vertices, parameters.history())?;
        let mut bonds = read_bonds(bonds, &vertices)?;
        let flows = read_flows(flows, &mut bonds, &vertices)?;
        let positions = read_positions(positions, &bonds)?;
        Ok(Book { parameters, vertices, prices, bonds, flows, positions })
    }
}

fn read_directory(bytes: &[u8]) -> Result<[&[u8]; 6], Refusal> {
    refuse_if(bytes.len() < 48, 1, 0)?;
    let mut sections = [&bytes[..0]; 6];
    let mut start = 48;
    for (section, pair) in sections.iter_mut().zip(bytes[..48].chunks_exact(8)) {
        let (offset, length) = (u32_of(pair) as usize, u32_of(&pair[4..]) as usize);
        refuse_if(offset != start || length > bytes.len() - start, 2, 0)?;
        *section = &bytes[start..start + length];
        start += length;
    }
    refuse_if(start != bytes.len(), 2, 0)?;
    Ok(sections)
}

impl Parameters {
    fn history(&self) -> usize {
        self.lookback + self.holding_period + self.warm_up
    }

    fn read(bytes: &[u8]) -> Result<Parameters, Refusal> {
        refuse_if(bytes.len() != 16 || bytes[10..] != [0; 6], 3, 0)?;
        let lookback = u16_of(bytes) as usize;
        let (holding_period, warm_up) = (bytes[2] as usize, bytes[3] as usize);
        let (confidence, smoothing) = (u16_of(&bytes[4..]) as usize, u16_of(&bytes[6..]) as u64);
        let (tail, decorrelation) = (bytes[8], bytes[9] as u64);
        let good = (1..=1_024).contains(&lookback)
            && (1..=10).contains(&holding_period)
            && (5_000..=9_999).contains(&confidence)
            && (1..=999).contains(&smoothing)
            && tail <= 1
            && decorrelation <= 100;
        refuse_if(!good, 4, 0)?;
        let tail_count = ((lookback * (10_000 - confidence) + 4_999) / 10_000).max(1);
        refuse_if(tail_count > 16, 5, 0)?;
        let double = tail == 1;
        Ok(Parameters { lookback, holding_period, warm_up, smoothing, double, decorrelation, tail_count })
    }
}

fn read_vertices(bytes: &[u8]) -> Result<Vec<Vertex>, Refusal> {
    refuse_if(bytes.len() % 4 != 0 || !(4..=4 * 64).contains(&bytes.len()), 6, 0)?;
    let mut vertices: Vec<Vertex> = Vec::with_capacity(bytes.len() / 4);
    for (v, record) in bytes.chunks_exact(4).enumerate() {
        let (curve, days) = (record[0], u16_of(&record[2..]));
        let fields = curve <= 7 && record[1] == 0 && (1..=20_000).contains(&days);
        let order = vertices.last().is_none_or(|last| (last.curve, last.days) < (curve, days));
        refuse_if(!fields || !order, 7, v)?;
        vertices.push(Vertex { curve, days, newest: 0 });
    }
    Ok(vertices)
}

fn read_prices(bytes: &[u8], vertices: &mut [Vertex], history: usize) -> Result<Vec<u32>, Refusal> {
    refuse_if(bytes.len() != 4 * history * vertices.len(), 8, 0)?;
    let prices: Vec<u32> = bytes.chunks_exact(4).map(u32_of).collect();
    for (v, (vertex, own)) in vertices.iter_mut().zip(prices.chunks_exact(history)).enumerate() {
        refuse_if(!own.iter().all(|price| (1..=2_000_000).contains(price)), 9, v)?;
        vertex.newest = own[history - 1] as u64;
    }
    Ok(prices)
}

fn read_bonds(bytes: &[u8], vertices: &[Vertex]) -> Result<Vec<Bond>, Refusal> {
    refuse_if(bytes.len() % 16 != 0 || !(16..=16 * 1_024).contains(&bytes.len()), 10, 0)?;
    let mut bonds: Vec<Bond> = Vec::with_capacity(bytes.len() / 16);
    let mut start = 0;
    for (i, record) in bytes.chunks_exact(16).enumerate() {
        let (curve, price) = (record[0], u32_of(&record[4..]));
        let (first, number) = (u32_of(&record[8..]) as usize, u32_of(&record[12..]) as usize);
        let known = vertices.iter().any(|vertex| vertex.curve == curve);
        refuse_if(!known || record[1..4] != [0; 3] || !(1..=2_000_000).contains(&price), 11, i)?;
        refuse_if(first != start || !(1..=120).contains(&number), 12, i)?;
        start += number;
        bonds.push(Bond { curve, price, flows: first..start, worth: 0 });
    }
    Ok(bonds)
}

fn read_flows(bytes: &[u8], bonds: &mut [Bond], vertices: &[Vertex]) -> Result<Vec<Flow>, Refusal> {
    let total = bonds.last().map_or(0, |bond| bond.flows.end);
    refuse_if(bytes.len() != 8 * total, 13, 0)?;
    let mut flows = Vec::with_capacity(total);
    for (i, bond) in bonds.iter_mut().enumerate() {
        let own = &bytes[8 * bond.flows.start..8 * bond.flows.end];
        let curve = curve_of(vertices, bond.curve);
        check_days(own, vertices[curve.end - 1].days, i)?;
        check_amounts(own, i)?;
        bond.worth = push_flows(&mut flows, own, vertices, curve);
        refuse_if(bond.worth == 0, 16, i)?;
    }
    Ok(flows)
}

// The vertices of a curve.
fn curve_of(vertices: &[Vertex], curve: u8) -> Range<usize> {
    let start = vertices.partition_point(|vertex| vertex.curve < curve);
    let end = vertices.partition_point(|vertex| vertex.curve <= curve);
    start..end
}

fn check_days(flows: &[u8], last: u16, bond: usize) -> Result<(), Refusal> {
    let mut before = 0;
    for flow in flows.chunks_exact(8) {
        let days = u16_of(flow);
        refuse_if(days <= before || days > last || u16_of(&flow[2..]) != 0, 14, bond)?;
        before = days;
    }
    Ok(())
}

fn check_amounts(flows: &[u8], bond: usize) -> Result<(), Refusal> {
    let mut total = 0;
    for flow in flows.chunks_exact(8) {
        let amount = u32_of(&flow[4..]) as u64;
        total += amount;
        refuse_if(amount == 0 || total > 10_000_000, 15, bond)?;
    }
    Ok(())
}

// The flows of one bond, and what they are worth in all.
fn push_flows(flows: &mut Vec<Flow>, own: &[u8], vertices: &[Vertex], curve: Range<usize>) -> u64 {
    let mut worth = 0;
    let mut after = curve.start;
    for flow in own.chunks_exact(8) {
        let (days, amount) = (u16_of(flow), u32_of(&flow[4..]) as u64);
        while vertices[after].days < days {
            after += 1;
        }
        let b = &vertices[after];
        let (place, price) = if b.days == days || after == curve.start {
            (Place::At(after), b.newest)
        } else {
            let a = &vertices[after - 1];
            let (left, gap) = ((b.days - days) as u64, (b.days - a.days) as u64);
            (Place::Between { after, left, gap }, (a.newest * left + b.newest * (gap - left)) / gap)
        };
        worth += amount * price / 1_000_000;
        flows.push(Flow { place, worth });
    }
    worth
}

fn read_positions(bytes: &[u8], bonds: &[Bond]) -> Result<Vec<Position>, Refusal> {
    refuse_if(bytes.len() % 12 != 0 || bytes.len() > 12 * 4_096, 17, 0)?;
    let mut positions = Vec::with_capacity(bytes.len() / 12);
    let mut total = 0;
    for (i, record) in bytes.chunks_exact(12).enumerate() {
        let (bond, nominal) = (u32_of(record) as usize, i64_of(&record[4..]));
        refuse_if(bond >= bonds.len(), 18, i)?;
        refuse_if(nominal.unsigned_abs() > 10_000_000_000, 19, i)?;
        let value = nearest(nominal * bonds[bond].price as i64, 1_000_000);
        total += value.unsigned_abs();
        positions.push(Position { bond, value });
    }
    refuse_if(total > 100_000_000_000, 20, 0)?;
    Ok(positions)
}

// ---------------------------------------------------------------------------------------------------------------------
// Exposures
// ---------------------------------------------------------------------------------------------------------------------

impl Book {
    fn fill_exposures(&self, exposures: &mut [i64]) {
        exposures.fill(0);
        for position in &self.positions {
            let bond = &self.bonds[position.bond];
            let (size, sign) = (position.value.unsigned_abs(), position.value.signum());
            let mut before = 0;
            for flow in &self.flows[bond.flows.clone()] {
                let until = size * flow.worth / bond.worth;
                let share = until - before;
                before = until;
                match flow.place {
                    Place::At(v) => exposures[v] += sign * share as i64,
                    Place::Between { after, left, gap } => {
                        let nearer = share * left / gap;
                        exposures[after - 1] += sign * nearer as i64;
                        exposures[after] += sign * (share - nearer) as i64;
                    }
                }
            }
        }
    }
}

// ---------------------------------------------------------------------------------------------------------------------
// Scenarios: refusal 21
// ---------------------------------------------------------------------------------------------------------------------

impl Book {
    // All unscaled returns by vertex, then scenario, and then the scaled ones.
    fn scenarios(&self, root: &impl Fn(u64) -> u64) -> Result<Vec<i32>, Refusal> {
        let lookback = self.parameters.lookback;
        let entries = self.vertices.len() * lookback;
        let mut returns = vec![0; 2 * entries];
        let (unscaled, scaled) = returns.split_at_mut(entries);
        let rows = unscaled.chunks_exact_mut(lookback).zip(scaled.chunks_exact_mut(lookback));
        let mut volatilities = vec![0; lookback];
        for (v, (prices, rows)) in self.prices.chunks_exact(self.parameters.history()).zip(rows).enumerate() {
            refuse_if(!self.fill_rows(prices, rows, &mut volatilities, root), 21, v)?;
        }
        Ok(returns)
    }

    // Whether all of a vertex's returns are in range.
    fn fill_rows(
        &self,
        prices: &[u32],
        (unscaled, scaled): (&mut [i32], &mut [i32]),
        volatilities: &mut [u64],
        root: &impl Fn(u64) -> u64,
    ) -> bool {
        let Parameters { holding_period, warm_up, smoothing, .. } = self.parameters;
        let mut variance = 0;
        for (j, (&earlier, &price)) in prices.iter().zip(&prices[holding_period..]).enumerate() {
            let r = nearest((price as i64 - earlier as i64) * 1_000_000, earlier as i64);
            if !in_range(r) {
                return false;
            }
            variance = next_variance(smoothing, j, variance, r);
            if j >= warm_up {
                unscaled[j - warm_up] = r as i32;
                volatilities[j - warm_up] = root(variance);
            }
        }
        let newest = volatilities[volatilities.len() - 1];
        for ((scaled, &r), &own) in scaled.iter_mut().zip(&*unscaled).zip(&*volatilities) {
            let r = scaled_return(r as i64, newest, own);
            if !in_range(r) {
                return false;
            }
            *scaled = r as i32;
        }
        true
    }
}

// ---------------------------------------------------------------------------------------------------------------------
// Tails, add-on, margin
// ---------------------------------------------------------------------------------------------------------------------

impl Book {
    fn figures(&self, exposures: &[i64], returns: &[i32], list: &mut [u16]) -> Figures {
        let k = self.parameters.tail_count;
        let (unscaled, scaled) = returns.split_at(returns.len() / 2);
        let (first, second) = list.split_at_mut(k);
        let [t, u, d, m] = self.charge(exposures, unscaled, first);
        let [scaled_t, scaled_u, scaled_d, scaled_m] = self.charge(exposures, scaled, second);
        let euros = m.max(scaled_m).div_ceil(k as u64 * 1_000_000);
        [k as u64, t, u, d, m, scaled_t, scaled_u, scaled_d, scaled_m, euros]
    }

    // T, U, D and M of one kind of returns; its listed scenarios go to the list.
    fn charge(&self, exposures: &[i64], returns: &[i32], list: &mut [u16]) -> [u64; 4] {
        let lookback = self.parameters.lookback;
        let mut pnls = vec![0; lookback];
        let mut losses = vec![0; lookback];
        let mut undiversified = 0;
        for (&exposure, row) in exposures.iter().zip(returns.chunks_exact(lookback)) {
            for ((pnl, loss), &r) in pnls.iter_mut().zip(&mut losses).zip(row) {
                let own = exposure * r as i64;
                *pnl += own;
                *loss = self.loss(own);
            }
            undiversified += largest(&mut losses, list.len());
        }
        let tail = self.listed(&pnls, list);
        let rest = (100 - self.parameters.decorrelation) as u128 * (undiversified - tail) as u128;
        let add_on = rest.div_ceil(100) as u64;
        [tail, undiversified, add_on, tail + add_on]
    }

    fn loss(&self, pnl: i64) -> u64 {
        match self.parameters.double {
            true => pnl.unsigned_abs(),
            false => (-pnl).max(0) as u64,
        }
    }

    // The scenarios of the largest losses, by falling loss, then rising number, and their total.
    fn listed(&self, pnls: &[i64], list: &mut [u16]) -> u64 {
        let mut ranked: Vec<(u64, u16)> = pnls.iter().zip(0..).map(|(&pnl, s)| (self.loss(pnl), s)).collect();
        let order = |a: &(u64, u16), b: &(u64, u16)| b.0.cmp(&a.0).then(a.1.cmp(&b.1));
        let (before, last, _) = ranked.select_nth_unstable_by(list.len() - 1, order);
        before.sort_unstable_by(order);
        let listed = before.iter().chain([&*last]);
        list.iter_mut().zip(listed.clone()).for_each(|(to, &(_, s))| *to = s);
        listed.map(|&(loss, _)| loss).sum()
    }
}

// The total of the k largest losses.
fn largest(losses: &mut [u64], k: usize) -> u64 {
    let (before, last, _) = losses.select_nth_unstable_by(k - 1, |a, b| b.cmp(a));
    before.iter().sum::<u64>() + *last
}
