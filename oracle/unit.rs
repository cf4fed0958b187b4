// The whole unit, from a book's bytes and the lengths of the lent buffers to its refusal or to its figures and what the
// buffers hold, and the lines that the program prints. Computed in 128 bits, written from documents 01 and 02 alone.

use super::book::*;
use super::scenarios::*;
use super::store::print_line;
use super::tails::*;
use super::valuing::*;

// The entries of the lent buffers.
#[derive(Clone, Copy, Debug, PartialEq)]
pub struct Lengths {
    pub exposures: usize,
    pub returns: usize,
    pub list: usize,
}

// Lengths that suffice for every book.
pub const FULL: Lengths = Lengths { exposures: 64, returns: 2 * 64 * 1_024, list: 2 * 16 };

// T, U, D and M of one kind, and T's list.
#[derive(Clone, Debug, PartialEq)]
pub struct Charge {
    pub tail: i128,
    pub undiversified: i128,
    pub add_on: i128,
    pub total: i128,
    pub list: Vec<usize>,
}

// What an accepted book comes to. The returns are all unscaled by vertex, then scenario, and scaled likewise.
#[derive(Clone, Debug, PartialEq)]
pub struct Outcome {
    pub k: usize,
    pub unscaled: Charge,
    pub scaled: Charge,
    pub euros: i128,
    pub exposures: Vec<i128>,
    pub returns: Vec<i128>,
}

impl Outcome {
    // The scenario list, unscaled first.
    pub fn list(&self) -> Vec<usize> {
        [&self.unscaled.list[..], &self.scaled.list[..]].concat()
    }

    // The scenarios' returns, unscaled and scaled, a row for each vertex.
    pub fn rows(&self) -> [Vec<&[i128]>; 2] {
        let (unscaled, scaled) = self.returns.split_at(self.returns.len() / 2);
        [unscaled, scaled].map(|kind| kind.chunks(kind.len() / self.exposures.len()).collect())
    }

    // The entries that its buffers have to have.
    pub fn lengths(&self) -> Lengths {
        Lengths { exposures: self.exposures.len(), returns: self.returns.len(), list: self.list().len() }
    }
}

// n / d rounded up, of a number that is not negative.
pub fn ceiling(n: i128, d: i128) -> i128 {
    assert!(n >= 0);
    (n + d - 1) / d
}

pub fn tail_mode(parameters: &Parameters) -> Tail {
    TAILS[parameters.tail as usize].1
}

fn charge_of(parameters: &Parameters, exposures: &[i128], rows: &[&[i128]]) -> Charge {
    let (mode, k) = (tail_mode(parameters), tail_count(parameters) as usize);
    let (tail, list) = tail_of(&losses_of(mode, exposures, rows), k);
    let undiversified: i128 = tails_alone(mode, exposures, rows, k).iter().sum();
    let add_on = ceiling((100 - parameters.decorrelation as i128) * (undiversified - tail), 100);
    Charge { tail, undiversified, add_on, total: tail + add_on, list }
}

// Of a book that passed 1 to 21.
fn outcome_of(book: &Book, histories: &[History]) -> Outcome {
    let exposures = exposures_of(book);
    let charge = |rows: Vec<&[i128]>| charge_of(&book.parameters, &exposures, &rows);
    let unscaled = charge(histories.iter().map(History::unscaled_scenarios).collect());
    let scaled = charge(histories.iter().map(History::scaled_scenarios).collect());
    let k = tail_count(&book.parameters) as usize;
    let euros = ceiling(unscaled.total.max(scaled.total), k as i128 * MILLION);
    let returns = [unscaled_of(histories), scaled_of(histories)].concat();
    Outcome { k, unscaled, scaled, euros, exposures, returns }
}

// Refusals 1 to 24.
pub fn run(bytes: &[u8], lent: Lengths) -> Result<Outcome, Refusal> {
    let (book, histories) = check_returns(bytes)?;
    let outcome = outcome_of(&book, &histories);
    let needed = outcome.lengths();
    if lent.exposures < needed.exposures {
        return refuse(22, 0);
    }
    if lent.returns < needed.returns {
        return refuse(23, 0);
    }
    if lent.list < needed.list {
        return refuse(24, 0);
    }
    Ok(outcome)
}

// The lines that the program prints of a book that it takes whole.
pub fn print_file(bytes: &[u8]) -> String {
    print_checked(run(bytes, FULL), |out, outcome| {
        print_line(out, "tail", &[outcome.k]);
        print_charge(out, "unscaled", &outcome.unscaled);
        print_charge(out, "scaled", &outcome.scaled);
        print_line(out, "margin", &[outcome.euros]);
    })
}

fn print_charge(out: &mut String, word: &str, charge: &Charge) {
    let mut fields = vec![charge.tail, charge.undiversified, charge.add_on, charge.total];
    fields.extend(charge.list.iter().map(|&s| s as i128));
    print_line(out, word, &fields);
}
