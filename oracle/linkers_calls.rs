// What the C programs over an inflation bond's terms have to come to.
//
//     linkers_calls calls           for bindings/c/linkers_test.c, a line a call: the twelve numbers that are handed over, the
//                                   lent buffer's bytes, how many prices there are, the prices, what the call gives, and the
//                                   records that it writes, in hexadecimal
//     linkers_calls lines FOLDER    for bindings/c/linkers.c: its arguments, and then the lines that it prints, of many bonds;
//                                   it writes the files of prices that they name into the folder

#[allow(dead_code)]
mod book;
mod linkers;
#[allow(dead_code)]
mod linkers_terms;
mod random;
#[allow(dead_code)]
mod schedule;
#[allow(dead_code)]
mod schedule_terms;
#[allow(dead_code)]
mod store;
#[allow(dead_code)]
mod valuing;
use linkers::Linker;
use linkers_terms::{any_call, examples, faults_alone, faults_in_pairs, rooms, with_lists, Call};
use random::Random;
use schedule::{code_of, outcome, print_flows, Terms};
use schedule_terms::MOST_BYTES;
use std::path::Path;

const BY_CHANCE: usize = 5_000;

// Every number of flows and every refusal has to be among them.
fn calls() -> Vec<Call> {
    let mut calls = Vec::new();
    for linker in examples() {
        calls.extend(rooms(&linker).map(|room| Call { linker: linker.clone(), room }));
        calls.extend(with_lists(&linker).map(|linker| Call { linker, room: MOST_BYTES }));
    }
    calls.extend([faults_alone(), faults_in_pairs()].concat().into_iter().map(|(_, call)| call));
    let mut random = Random::new(12);
    calls.extend((0..BY_CHANCE).map(|_| any_call(&mut random)));
    let mut codes: Vec<u32> =
        calls.iter().map(|Call { linker, room }| code_of(&linker.flows(*room))).collect();
    codes.sort();
    codes.dedup();
    assert!(codes.into_iter().eq((1..=120).chain((25..=30).map(|number| number * 65_536))));
    calls
}

fn call_line(Call { linker, room }: &Call) -> String {
    let Linker { terms: Terms { evaluation, maturity, rate, frequency }, issue, btp_italia, prices } = linker;
    let dates = [evaluation, issue, maturity].map(|date| date.numbers()).join(" ");
    let all: String = prices.iter().map(|price| format!("{price} ")).collect();
    let outcome = outcome(&linker.flows(*room));
    format!("{dates} {rate} {frequency} {btp_italia} {room} {} {all}{outcome}", prices.len())
}

// Of the faults not those of the buffer: the program's own is long enough. Nor prices past those of the calendar's months, for
// which it has no room.
fn print_lines(folder: &Path) {
    let mut all = examples();
    all.extend(
        faults_alone()
            .into_iter()
            .map(|(_, call)| call.linker)
            .filter(|linker| linker.flows(MOST_BYTES).is_err()),
    );
    all.retain(|linker| linker.prices.len() <= 1_200);
    for (i, linker) in all.iter().enumerate() {
        let Linker { terms: Terms { evaluation, maturity, rate, frequency }, issue, btp_italia, prices } =
            linker;
        let file: String = prices.iter().map(|price| format!("{price}\n")).collect();
        let name = folder.join(format!("{i}.prices"));
        std::fs::write(&name, file).unwrap();
        let dates = [evaluation, issue, maturity].map(|date| date.text()).join(" ");
        let kind = if *btp_italia == 0 { "other" } else { "italia" };
        println!("{dates} {rate} {frequency} {kind} {}", name.display());
        print!("{}", print_flows(linker.flows(MOST_BYTES)));
    }
}

fn main() {
    let words: Vec<String> = std::env::args().skip(1).collect();
    match words.iter().map(|word| &word[..]).collect::<Vec<_>>()[..] {
        ["calls"] => calls().iter().for_each(|call| println!("{}", call_line(call))),
        ["lines", folder] => print_lines(Path::new(folder)),
        _ => panic!("usage: linkers_calls calls | lines FOLDER"),
    }
}
