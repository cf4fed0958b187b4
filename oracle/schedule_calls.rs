// What the C programs over a bond's terms have to come to.
//
//     schedule_calls calls    for bindings/c/flows_test.c, a line a call: the eight numbers that are handed over, the lent
//                             buffer's bytes, what the call gives, and the records that it writes, in hexadecimal
//     schedule_calls lines    for bindings/c/flows.c: its arguments, and then the lines that it prints, of many bonds

#[allow(dead_code)]
mod book;
mod random;
#[allow(dead_code)]
mod schedule;
mod schedule_terms;
#[allow(dead_code)]
mod store;
#[allow(dead_code)]
mod valuing;
use random::Random;
use schedule::{code_of, outcome, print_flows, Terms};
use schedule_terms::{any_call, examples, faults_alone, faults_in_pairs, rooms, Call, MOST_BYTES};

const BY_CHANCE: usize = 5_000;

// Every number of flows and every refusal has to be among them.
fn calls() -> Vec<Call> {
    let mut calls = Vec::new();
    for terms in examples() {
        calls.extend(rooms(&terms).map(|room| Call { terms, room }));
    }
    calls.extend([faults_alone(), faults_in_pairs()].concat().iter().map(|&(_, call)| call));
    let mut random = Random::new(11);
    calls.extend((0..BY_CHANCE).map(|_| any_call(&mut random)));
    let mut codes: Vec<u32> = calls.iter().map(|Call { terms, room }| code_of(&terms.flows(*room))).collect();
    codes.sort();
    codes.dedup();
    assert!(codes.into_iter().eq((1..=120).chain([25, 26, 27].map(|number| number * 65_536))));
    calls
}

fn call_line(Call { terms, room }: &Call) -> String {
    let Terms { evaluation, maturity, rate, frequency } = terms;
    let dates = format!("{} {}", evaluation.numbers(), maturity.numbers());
    format!("{dates} {rate} {frequency} {room} {}", outcome(&terms.flows(*room)))
}

// Of the faults not those of the buffer: the program's own is long enough.
fn print_lines() {
    let mut all = examples();
    all.extend(
        faults_alone().iter().map(|(_, call)| call.terms).filter(|terms| terms.flows(MOST_BYTES).is_err()),
    );
    for terms in all {
        let Terms { evaluation, maturity, rate, frequency } = terms;
        println!("{} {} {rate} {frequency}", evaluation.text(), maturity.text());
        print!("{}", print_flows(terms.flows(MOST_BYTES)));
    }
}

fn main() {
    match std::env::args().nth(1).as_deref() {
        Some("calls") => calls().iter().for_each(|call| println!("{}", call_line(call))),
        Some("lines") => print_lines(),
        _ => panic!("usage: schedule_calls calls | lines"),
    }
}
