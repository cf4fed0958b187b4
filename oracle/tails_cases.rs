// Series of losses and of P&Ls, good and bad, and what must be printed of each for the word `worst`.
//
// Computed by tails.rs, from document 01 alone. Where there are few scenarios, no choice of k of them may total more than T;
// that is tried before anything is written.
//
// A case is little-endian: u64 form, u64 tail (0 single, 1 double), u64 k, u64 m, then
//     form 0     m losses, u64; the tail does not count
//     form 1     m P&Ls, i64
//
// T and the listed scenarios are printed; or `bad`, where a bound does not hold: 1 ≤ k ≤ 16, k ≤ m, 1 ≤ m ≤ 1,024, losses and
// P&Ls up to 10^17 in size, the form, the tail, and the file's length.

use super::random::Random;
use super::store::{self, print_line, Layer, Store};
use super::tails::*;

const MOST_LOSS: i128 = 100_000_000_000_000_000;
const LONGEST: usize = 32_768;

// ---------------------------------------------------------------------------------------------------------------------
// Cases
// ---------------------------------------------------------------------------------------------------------------------

#[derive(Clone)]
enum Series {
    Losses(Vec<u64>),
    Pnls(Vec<i64>),
}

// A case as its file has it; the count is what the header says of the series.
#[derive(Clone)]
struct Case {
    form: u64,
    tail: u64,
    k: u64,
    scenarios: u64,
    series: Series,
}

impl Case {
    // A header that agrees with the series.
    fn new(tail: Tail, k: usize, series: Series) -> Case {
        let (form, scenarios) = match &series {
            Series::Losses(losses) => (0, losses.len()),
            Series::Pnls(pnls) => (1, pnls.len()),
        };
        Case { form, tail: tail as u64, k: k as u64, scenarios: scenarios as u64, series }
    }

    fn losses(k: usize, losses: &[u64]) -> Case {
        Case::new(Tail::Single, k, Series::Losses(losses.to_vec()))
    }

    fn pnls(tail: Tail, k: usize, pnls: &[i64]) -> Case {
        Case::new(tail, k, Series::Pnls(pnls.to_vec()))
    }

    fn bytes(&self) -> Vec<u8> {
        let mut out = Vec::new();
        for field in [self.form, self.tail, self.k, self.scenarios] {
            out.extend(field.to_le_bytes());
        }
        match &self.series {
            Series::Losses(losses) => out.extend(losses.iter().flat_map(|x| x.to_le_bytes())),
            Series::Pnls(pnls) => out.extend(pnls.iter().flat_map(|x| x.to_le_bytes())),
        }
        out
    }

    // The case after an edit.
    fn with(&self, edit: impl FnOnce(&mut Case)) -> Vec<u8> {
        let mut case = self.clone();
        edit(&mut case);
        case.bytes()
    }
}

// ---------------------------------------------------------------------------------------------------------------------
// What a file holds, and what `worst` prints of it
// ---------------------------------------------------------------------------------------------------------------------

// What a case comes to: T and its list.
struct Outcome {
    total: i128,
    list: Vec<usize>,
}

// The whole numbers that 8 bytes each hold, and the bytes after them; nothing where there are too few bytes.
fn take(bytes: &[u8], count: i128, of: fn(&[u8]) -> i128) -> Option<(Vec<i128>, &[u8])> {
    if 8 * count > bytes.len() as i128 {
        return None;
    }
    let (own, rest) = bytes.split_at(8 * count as usize);
    Some((own.chunks(8).map(of).collect(), rest))
}

fn unsigned(bytes: &[u8]) -> i128 {
    u64::from_le_bytes(bytes.try_into().unwrap()) as i128
}

fn signed(bytes: &[u8]) -> i128 {
    i64::from_le_bytes(bytes.try_into().unwrap()) as i128
}

// Nothing for a bad case.
fn read(bytes: &[u8]) -> Option<Outcome> {
    let (header, rest) = take(bytes, 4, unsigned)?;
    let [form, tail, k, scenarios] = header[..] else { unreachable!() };
    if form > 1 || tail > 1 || !(1..=16).contains(&k) || !(1..=1_024).contains(&scenarios) || k > scenarios {
        return None;
    }
    let (series, rest) = take(rest, scenarios, if form == 0 { unsigned } else { signed })?;
    if !rest.is_empty() || series.iter().any(|x| x.abs() > MOST_LOSS) {
        return None;
    }
    let own = |&x: &i128| if form == 0 { x } else { loss(TAILS[tail as usize].1, x) };
    let losses: Vec<i128> = series.iter().map(own).collect();
    let (total, list) = tail_of(&losses, k as usize);
    if losses.len() <= 12 {
        assert_eq!(total, most_of_choices(&losses, k as usize));
    }
    Some(Outcome { total, list })
}

fn print_file(bytes: &[u8]) -> String {
    let mut out = String::new();
    match read(bytes) {
        None => out.push_str("bad\n"),
        Some(outcome) => {
            let list = outcome.list.iter().map(|&s| s as i128);
            print_line(&mut out, "tail", &[outcome.total].into_iter().chain(list).collect::<Vec<_>>());
        }
    }
    out
}

// ---------------------------------------------------------------------------------------------------------------------
// The stored cases
// ---------------------------------------------------------------------------------------------------------------------

// Cases of series; a bad one has no other reason than that.
type Cases = store::Cases<Bad>;

#[derive(Debug, PartialEq)]
struct Bad;

fn bad_of(bytes: &[u8]) -> Option<Bad> {
    read(bytes).is_none().then_some(Bad)
}

impl Cases {
    fn good(&mut self, name: &str, case: Case) {
        self.meets(name, None, case.bytes());
    }

    // A good case whose T and list document 01 gives, or that can be told by head.
    fn known(&mut self, name: &str, case: Case, total: i128, list: &[usize]) {
        let outcome = read(&case.bytes()).expect(name);
        assert_eq!((outcome.total, &outcome.list[..]), (total, list), "{name}");
        self.good(name, case);
    }

    fn bad(&mut self, name: &str, bytes: Vec<u8>) {
        self.meets(&format!("bad-{name}"), Some(Bad), bytes);
    }
}

// ---------------------------------------------------------------------------------------------------------------------
// Losses
// ---------------------------------------------------------------------------------------------------------------------

fn tie_cases(cases: &mut Cases) {
    let mut known = |name: &str, losses: &[u64], total: i128, list: &[usize]| {
        cases.known(&format!("ties-{name}"), Case::losses(list.len(), losses), total, list);
    };
    known("within-the-list", &[5, 7, 7, 3], 19, &[1, 2, 0]);
    known("across-its-end", &[5, 9, 5, 5], 14, &[1, 0]);
    known("across-its-end-late-largest", &[5, 5, 5, 9], 14, &[3, 0]);
    known("within-and-across", &[4, 8, 4, 8, 4, 8], 28, &[1, 3, 5, 0]);
    known("of-the-largest", &[1, 6, 6, 6, 2], 12, &[1, 2]);
    known("of-two", &[3, 3], 3, &[0]);
    known("of-two-both", &[3, 3], 6, &[0, 1]);
    known("of-zeros", &[0, 0, 0], 0, &[0, 1]);
    known("of-zeros-after-a-loss", &[0, 0, 1, 0], 1, &[2, 0, 1]);
    known("then-one-more", &[2, 2, 2, 2, 3], 7, &[4, 0, 1]);
    known("replaced", &[2, 2, 3, 3], 6, &[2, 3]);
    known("replaced-in-turn", &[1, 1, 2, 2, 3, 3], 8, &[4, 5, 2]);
    known("falling-pairs", &[3, 3, 2, 2, 1, 1], 8, &[0, 1, 2]);
    // Blocks of equal losses, rising and falling, the list ending at each place of a block.
    for k in 1..=16 {
        let rising: Vec<u64> = (0..40).map(|s| 10 + s / 5).collect();
        let falling: Vec<u64> = rising.iter().rev().copied().collect();
        cases.good(&format!("ties-blocks-rising-k-{k}"), Case::losses(k, &rising));
        cases.good(&format!("ties-blocks-falling-k-{k}"), Case::losses(k, &falling));
        let alternating: Vec<u64> = (0..33).map(|s| s % 2).collect();
        cases.good(&format!("ties-alternating-k-{k}"), Case::losses(k, &alternating));
    }
}

// Series in an order, so many losses of them.
type Order = fn(u64, u64) -> u64;

const ORDERS: [(&str, Order); 12] = [
    ("rising", |s, _| 7 + 3 * s),
    ("falling", |s, m| 3 * (m - s)),
    ("equal", |_, _| 123_456_789),
    ("zero", |_, _| 0),
    ("up-then-down", |s, m| s.min(m - 1 - s)),
    ("down-then-up", |s, m| s.abs_diff(m / 2)),
    ("rising-last-16-zero", |s, m| if s + 16 < m { 1 + s } else { 0 }),
    ("rising-first-16-largest", |s, m| if s < 16 { 2 * m + s } else { s }),
    ("rising-every-16th-zero", |s, _| if s % 16 == 0 { 0 } else { s }),
    ("rising-every-4th-zero", |s, _| if s % 4 == 3 { 0 } else { s }),
    ("falling-every-16th-largest", |s, m| if s % 16 == 15 { 4 * m - s } else { m - s }),
    ("saw", |s, _| s % 17 * 1_000 + s / 17),
];

fn order_cases(cases: &mut Cases) {
    for (name, order) in ORDERS {
        let series = |m: u64| (0..m).map(|s| order(s, m)).collect::<Vec<u64>>();
        for k in [1, 3, 16] {
            cases.good(&format!("{name}-50-k-{k}"), Case::losses(k, &series(50)));
        }
        cases.good(&format!("{name}-1024-k-16"), Case::losses(16, &series(1_024)));
    }
    cases.good("rising-1024-k-1", Case::losses(1, &(0..1_024).collect::<Vec<_>>()));
    cases.good("falling-1024-k-4", Case::losses(4, &(0..1_024).rev().collect::<Vec<_>>()));
}

// Few scenarios, k as many as there are, and counts about a multiple of 16.
fn count_cases(cases: &mut Cases) {
    cases.known("one-scenario", Case::losses(1, &[77]), 77, &[0]);
    cases.known("one-scenario-zero", Case::losses(1, &[0]), 0, &[0]);
    let mut random = Random::new(5);
    for k in 2..=16 {
        let losses: Vec<u64> = (0..k as u64).map(|_| random.between(0, 2 * k as u64)).collect();
        cases.good(&format!("all-{k}-scenarios"), Case::losses(k, &losses));
    }
    for m in [15u64, 16, 17, 31, 32, 33, 47, 48, 49, 255, 256, 257] {
        let k = m.min(16) as usize;
        let losses: Vec<u64> = (0..m).map(|_| random.between(0, 1_000)).collect();
        cases.good(&format!("scenarios-{m}"), Case::losses(k, &losses));
        // The largest stand last.
        let mut late = losses.clone();
        let from = losses.len() - (k - 1);
        late[from..].iter_mut().zip(1..).for_each(|(x, i)| *x = 2_000 + i % 5);
        cases.good(&format!("scenarios-{m}-largest-last"), Case::losses(k, &late));
    }
}

// Where each of 16 residues has one loss at least as large as the k-th, and where it does not.
fn residue_cases(cases: &mut Cases) {
    let mut random = Random::new(6);
    let noise: Vec<u64> = (0..272).map(|_| random.between(0, 999)).collect();
    for residue in 0..16 {
        // All of the largest stand a multiple of 16 apart.
        let mut losses = noise.clone();
        losses.iter_mut().skip(residue).step_by(16).enumerate().for_each(|(i, x)| *x = 5_000 + i as u64 % 3);
        cases.good(&format!("largest-on-residue-{residue}"), Case::losses(16, &losses));
        // No large loss on a residue, and ties at the list's end everywhere else.
        let mut losses = vec![40; 64];
        losses.iter_mut().skip(residue).step_by(16).for_each(|x| *x = 0);
        losses[63 - residue] += 9;
        cases.good(&format!("nothing-on-residue-{residue}"), Case::losses(16, &losses));
    }
    for k in [1, 4, 15, 16] {
        // The k largest stand after many that equal the smallest of them.
        let mut losses = vec![500; 80];
        losses[80 - (k - 1)..].iter_mut().for_each(|x| *x = 501);
        cases.good(&format!("floor-met-by-all-k-{k}"), Case::losses(k, &losses));
        let mut losses = vec![499; 80];
        losses[48..64].iter_mut().for_each(|x| *x = 500);
        losses[1] = 501;
        cases.good(&format!("floor-met-by-16-k-{k}"), Case::losses(k, &losses));
    }
}

fn largest_cases(cases: &mut Cases) {
    let most = MOST_LOSS as u64;
    let first: Vec<usize> = (0..16).collect();
    cases.known("largest-alone", Case::losses(1, &[most]), MOST_LOSS, &[0]);
    cases.known("largest-16", Case::losses(16, &[most; 16]), 16 * MOST_LOSS, &first);
    cases.known("largest-1024", Case::losses(16, &[most; 1_024]), 16 * MOST_LOSS, &first);
    let mut losses = [most - 1; 40];
    losses[39] = most;
    cases.known("largest-last", Case::losses(2, &losses), 2 * MOST_LOSS - 1, &[39, 0]);
    let near: Vec<u64> = (0..64).map(|s| most - 37 * s % 64).collect();
    cases.good("largest-less-a-little", Case::losses(16, &near));
    // Differences that 32 bits, or a float's 53, would lose.
    let close: Vec<u64> = (0..48).map(|s| (s % 3 << 32) + s * 29 % 48).collect();
    cases.good("differ-past-32-bits", Case::losses(16, &close));
    let close: Vec<u64> = (0..48).map(|s| most - 48 + s * 31 % 48).collect();
    cases.good("differ-in-the-last-digit", Case::losses(16, &close));
    // The tail of a series of losses does not count.
    let mut double = Case::losses(2, &[5, 6, 7]);
    double.tail = 1;
    cases.known("losses-double", double, 13, &[2, 1]);
}

// ---------------------------------------------------------------------------------------------------------------------
// P&Ls
// ---------------------------------------------------------------------------------------------------------------------

fn pnl_cases(cases: &mut Cases) {
    let mut both = |name: &str, k: usize, pnls: &[i64]| {
        for (word, tail) in TAILS {
            cases.good(&format!("pnl-{name}-{word}"), Case::pnls(tail, k, pnls));
        }
    };
    both("gains-only", 3, &[4, 9, 9, 1, 30]);
    both("losses-only", 3, &[-4, -9, -9, -1, -30]);
    both("zero-only", 2, &[0; 5]);
    both("fewer-losses-than-k", 4, &[10, -3, 12, -1, 5, 6]);
    both("opposite-sizes", 3, &[-6, 6, -6, 6, 5]);
    both("opposite-sizes-gain-first", 3, &[6, -6, 6, -6, -5]);
    both("gain-of-the-largest-size", 2, &[-7, 8, -6, 0]);
    both("one-gain", 1, &[5]);
    both("one-loss", 1, &[-5]);
    both("one-off-zero", 2, &[1, -1, 0]);
    both(
        "many-gains-few-losses",
        16,
        &(0..60).map(|s| if s % 9 == 4 { -s } else { 100 + s }).collect::<Vec<_>>(),
    );
    let most = MOST_LOSS as i64;
    both("largest-loss", 1, &[-most, most]);
    both("largest-gain", 1, &[most, -most + 1]);
    both("largest-all", 16, &[[most, -most]; 10].concat());
    both("largest-losses", 16, &[-most; 20]);
    both("rising-1024", 16, &(0..1_024).map(|s| 1_000 * s - 400_000).collect::<Vec<_>>());
    let mut random = Random::new(8);
    for k in [1, 2, 5, 11, 16] {
        both(&format!("random-k-{k}"), k, &(0..70).map(|_| random.size(50)).collect::<Vec<_>>());
    }
    for (word, tail) in TAILS {
        let pnls = [-3, 8, -5, 0];
        let (total, list) = [(8, [2, 0]), (13, [1, 2])][tail as usize];
        cases.known(&format!("pnl-known-{word}"), Case::pnls(tail, 2, &pnls), total, &list);
    }
}

// ---------------------------------------------------------------------------------------------------------------------
// Bad cases
// ---------------------------------------------------------------------------------------------------------------------

fn header_cases(cases: &mut Cases) {
    let losses = Case::losses(2, &[5, 6, 7]);
    let pnls = Case::pnls(Tail::Double, 2, &[5, -6, 7]);
    cases.bad("empty", Vec::new());
    for length in [1, 8, 31, 32, 39] {
        cases.bad(&format!("first-{length}-bytes"), losses.bytes()[..length].to_vec());
    }
    for (name, case) in [("losses", &losses), ("pnls", &pnls)] {
        let count = |n: u64| if n == u64::MAX { "most".to_string() } else { n.to_string() };
        for form in [2, 3, 1 << 32, u64::MAX] {
            cases.bad(&format!("{name}-form-{}", count(form)), case.with(|c| c.form = form));
        }
        for tail in [2, 256, u64::MAX] {
            cases.bad(&format!("{name}-tail-{}", count(tail)), case.with(|c| c.tail = tail));
        }
        for k in [0, 4, 17, (1 << 32) + 1, u64::MAX] {
            cases.bad(&format!("{name}-k-{}", count(k)), case.with(|c| c.k = k));
        }
        // 2^61 more: times 8 it is the same in 64 bits.
        for m in [0, 2, 4, 1_025, (1 << 32) + 3, (1 << 61) + 3, u64::MAX] {
            cases.bad(&format!("{name}-scenarios-{}", count(m)), case.with(|c| c.scenarios = m));
        }
        let bytes = case.bytes();
        cases.bad(&format!("{name}-byte-less"), bytes[..bytes.len() - 1].to_vec());
        cases.bad(&format!("{name}-byte-more"), [bytes.clone(), vec![0]].concat());
        cases.bad(&format!("{name}-entry-less"), bytes[..bytes.len() - 8].to_vec());
        cases.bad(&format!("{name}-entry-more"), [bytes, vec![0; 8]].concat());
    }
    // As long as the header says, and past a count.
    cases.bad("k-17-of-20", Case::losses(17, &[3; 20]).bytes());
    cases.bad("k-16-of-15", Case::losses(16, &[3; 15]).bytes());
    cases.bad("pnls-k-3-of-2", Case::pnls(Tail::Single, 3, &[3; 2]).bytes());
    cases.bad("all-of-1025-losses", Case::losses(16, &[3; 1_025]).bytes());
    cases.bad("all-of-1025-pnls", Case::pnls(Tail::Single, 16, &[3; 1_025]).bytes());
    cases.bad("no-scenario", losses.with(|c| (c.scenarios, c.series) = (0, Series::Losses(Vec::new()))));
    // A loss past the range of P&Ls, read as one.
    cases.bad("losses-as-pnls", Case::losses(1, &[u64::MAX - MOST_LOSS as u64]).with(|c| c.form = 1));
    cases.good("losses-as-small-pnls", Case { form: 1, ..Case::losses(1, &[u64::MAX - 3]) });
}

fn bound_cases(cases: &mut Cases) {
    let most = MOST_LOSS as u64;
    for (place, at) in [("first", 0), ("middle", 2), ("last", 4)] {
        for (name, loss) in [("by-1", most + 1), ("half", 1 << 63), ("most", u64::MAX)] {
            let mut losses = [most; 5];
            losses[at] = loss;
            cases.bad(&format!("loss-over-{name}-{place}"), Case::losses(2, &losses).bytes());
        }
        let over = most as i64 + 1;
        for (name, pnl) in [("over", over), ("under", -over), ("least", i64::MIN), ("most", i64::MAX)] {
            let mut pnls = [most as i64, -(most as i64), 0, 1, 2];
            pnls[at] = pnl;
            cases.bad(&format!("pnl-{name}-{place}"), Case::pnls(Tail::Single, 2, &pnls).bytes());
        }
    }
    // The longest that is read, which is too long by its length alone, and one byte more.
    let long = Case::losses(16, &[1; 1_024]).bytes();
    let longest = [long.clone(), vec![0; LONGEST - long.len()]].concat();
    cases.bad("longest", longest.clone());
    cases.add("too-long-by-a-byte", [longest, vec![0]].concat());
}

// ---------------------------------------------------------------------------------------------------------------------
// Cases by chance
// ---------------------------------------------------------------------------------------------------------------------

// Few different sizes make ties; a size is at most this.
fn any_size(random: &mut Random, most: u64) -> u64 {
    let own = random.any(&[1, 3, 20, 1_000, 40_000, most]);
    random.between(0, own.min(most)).max(if random.between(0, 40) == 0 { most } else { 0 })
}

fn any_signed(random: &mut Random, most: u64) -> i64 {
    any_size(random, most) as i64 * random.any(&[1, -1, -1])
}

// Sorted, sorted back, in blocks, or left as they are.
fn set_in_order<T: Ord + Copy>(series: &mut [T], random: &mut Random) {
    match random.between(0, 7) {
        0 => series.sort(),
        1 => series.sort_by(|a, b| b.cmp(a)),
        2 => {
            series.sort();
            let at = random.between(0, series.len() as u64) as usize;
            series.rotate_left(at);
        }
        3 => {
            let step = random.between(1, 20) as usize;
            (0..series.len()).for_each(|i| series[i] = series[i - i % step]);
        }
        _ => {}
    }
}

fn any_case(random: &mut Random) -> Case {
    let most_scenarios = random.any(&[3, 16, 20, 40, 70, 70, 130]);
    let scenarios = random.between(1, most_scenarios) as usize;
    let most_k = if random.between(0, 3) == 0 { 16 } else { 6 };
    let k = random.between(1, most_k.min(scenarios as u64)) as usize;
    let tail = random.any(&TAILS).1;
    let size = random.any(&[1, 3, 20, 1_000, MOST_LOSS as u64]);
    match random.between(0, 1) {
        0 => {
            let mut losses: Vec<u64> = (0..scenarios).map(|_| any_size(random, size)).collect();
            set_in_order(&mut losses, random);
            Case::losses(k, &losses)
        }
        _ => {
            let mut pnls: Vec<i64> = (0..scenarios).map(|_| any_signed(random, size)).collect();
            set_in_order(&mut pnls, random);
            Case::pnls(tail, k, &pnls)
        }
    }
}

// A case with one change that may make it bad: a field of the header, a byte, a bit, the length.
fn damaged_case(random: &mut Random) -> Vec<u8> {
    let case = any_case(random);
    let mut bytes = case.bytes();
    let at = random.between(0, bytes.len() as u64 - 1) as usize;
    match random.between(0, 8) {
        0 => bytes.truncate(at),
        1 => bytes.extend(vec![0; random.between(1, 8) as usize]),
        2 => bytes[at] = random.next() as u8,
        3 => bytes[at] ^= 1 << random.between(0, 7),
        4 => bytes[at % 40.min(at + 1)] ^= 1 << random.between(0, 4),
        5 => bytes = case.with(|c| c.k = random.between(0, 18)),
        6 => bytes = case.with(|c| c.form = random.between(0, 2)),
        7 => bytes = case.with(|c| c.tail = random.between(0, 2)),
        _ => bytes = case.with(|c| c.scenarios = (c.scenarios + random.between(0, 2)).saturating_sub(1)),
    }
    bytes
}

fn random_cases(cases: &mut Cases) {
    let mut random = Random::new(11);
    for i in 1..=80 {
        cases.good(&format!("random-{i:02}"), any_case(&mut random));
    }
    for i in 1..=60 {
        cases.add(&format!("damaged-{i:02}"), damaged_case(&mut random));
    }
}

fn all_cases(cases: &mut Cases) {
    tie_cases(cases);
    count_cases(cases);
    order_cases(cases);
    residue_cases(cases);
    largest_cases(cases);
    pnl_cases(cases);
    header_cases(cases);
    bound_cases(cases);
    random_cases(cases);
}

// Three of four are good.
fn case_by_chance(random: &mut Random) -> Vec<u8> {
    match random.between(0, 3) {
        0 => damaged_case(random),
        _ => any_case(random).bytes(),
    }
}

pub fn put(store: &mut Store) {
    let worst = Layer { word: "worst", ending: "case", longest: LONGEST, refusal: bad_of, print: print_file };
    store.put(worst, all_cases, case_by_chance);
}
