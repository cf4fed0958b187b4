// What the tails layer's oracle shares with the unit's: losses, the ranking of scenarios, the tail sum and its list, computed
// in 128 bits. Written from document 01 alone.

#[derive(Clone, Copy, Debug, PartialEq)]
pub enum Tail {
    Single,
    Double,
}

pub const TAILS: [(&str, Tail); 2] = [("single", Tail::Single), ("double", Tail::Double)];

pub fn loss(tail: Tail, pnl: i128) -> i128 {
    match tail {
        Tail::Single => (-pnl).max(0),
        Tail::Double => pnl.abs(),
    }
}

// The P&L of every scenario: exposures, and returns of one kind, a row for each exposure.
pub fn pnls_of(exposures: &[i128], rows: &[&[i128]]) -> Vec<i128> {
    let pnl = |s: usize| exposures.iter().zip(rows).map(|(exposure, row)| exposure * row[s]).sum();
    (0..rows[0].len()).map(pnl).collect()
}

pub fn losses_of(tail: Tail, exposures: &[i128], rows: &[&[i128]]) -> Vec<i128> {
    pnls_of(exposures, rows).into_iter().map(|pnl| loss(tail, pnl)).collect()
}

// What each exposure alone would have as T.
pub fn tails_alone(tail: Tail, exposures: &[i128], rows: &[&[i128]], k: usize) -> Vec<i128> {
    let alone = |v: usize| tail_of(&losses_of(tail, &exposures[v..=v], &rows[v..=v]), k).0;
    (0..exposures.len()).map(alone).collect()
}

// All scenarios, set by falling loss, then rising number.
fn ranked(losses: &[i128]) -> Vec<usize> {
    let mut scenarios: Vec<usize> = (0..losses.len()).collect();
    scenarios.sort_by_key(|&s| (-losses[s], s));
    scenarios
}

// T and its list.
pub fn tail_of(losses: &[i128], k: usize) -> (i128, Vec<usize>) {
    let list = ranked(losses)[..k].to_vec();
    let total = list.iter().map(|&s| losses[s]).sum();
    (total, list)
}

// The most that a choice of k different scenarios totals.
pub fn most_of_choices(losses: &[i128], k: usize) -> i128 {
    let choices = (0..1u32 << losses.len()).filter(|choice| choice.count_ones() as usize == k);
    let total = |choice: u32| (0..losses.len()).filter(|s| choice >> s & 1 == 1).map(|s| losses[s]).sum();
    choices.map(total).max().unwrap()
}
