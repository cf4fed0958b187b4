//! How much stack the library's functions take: each call is made on a painted stack, and what it wrote to is looked for. The
//! figures are printed with `--nocapture`; bindings/README.md has them.

use super::flows_tests::handed;
use super::linker_tests::handed_linker;
use super::oracle::book::{Book, Parameters};
use super::oracle::random::Random;
use super::oracle::schedule::code_of;
use super::oracle::unit_books::Shape;
use super::oracle::{linkers_terms, schedule_terms};
use super::{margin_unit, shape, Lent, FULL};
use std::arch::asm;
use std::fmt::Debug;

// ---------------------------------------------------------------------------------------------------------------------
// A painted stack
// ---------------------------------------------------------------------------------------------------------------------

const KIB: usize = 1_024;
const PAINTED: usize = 256 * KIB;

// Makes the call with these bytes as its stack, from their end down. They stand apart from the stack that it is made from: no
// frame of a caller's lies among them, however these functions are compiled.
fn call_on(stack: &mut [u8], mut call: &mut dyn FnMut()) {
    extern "C" fn enter(call: &mut &mut dyn FnMut()) {
        call()
    }
    let end = stack.as_mut_ptr_range().end;
    let top = end.wrapping_sub(end.addr() % 16);
    // SAFETY: the stack's pointer changes places with r12, which a function leaves as it was, and is put back after the call.
    // At the call it is a multiple of 16, as it has to be. `enter` lets no panic out. Nobody else has the bytes.
    unsafe {
        asm!(
            "xchg rsp, r12",
            "call {enter}",
            "mov rsp, r12",
            enter = sym enter,
            inout("r12") top => _,
            in("rdi") &mut call,
            clobber_abi("C"),
        );
    }
}

// The bytes of stack that a call takes, which has to give what is expected: from the top down to the lowest that it wrote to.
// One that it wrote as it was painted shows under the other paint.
fn stack_of<T: Debug + PartialEq>(expected: T, mut call: impl FnMut() -> T) -> usize {
    let taken = [0x55, 0xaa].map(|paint| {
        let (mut stack, mut given) = (vec![paint; PAINTED], None);
        call_on(&mut stack, &mut || given = Some(call()));
        assert_eq!(given.as_ref(), Some(&expected));
        PAINTED - stack.iter().take_while(|&&byte| byte == paint).count()
    });
    assert!(taken.iter().all(|taken| (1..PAINTED).contains(taken)), "{taken:?}");
    taken[0].max(taken[1])
}

// The most that calls of a function take. The frames that lead to it on the painted stack count too; the version's call shows
// how little they are.
fn at_most(limit: usize, function: &str, calls: impl IntoIterator<Item = usize>) {
    let most = calls.into_iter().max().unwrap();
    println!("{function}: {most} bytes of stack");
    assert!(most <= limit, "{function}: {most} bytes of stack, and at most {limit} are allowed");
}

// ---------------------------------------------------------------------------------------------------------------------
// Each function
// ---------------------------------------------------------------------------------------------------------------------

#[test]
fn stack_of_version() {
    at_most(KIB / 4, "margin_unit_version", [stack_of(margin_unit::VERSION, margin_unit::version)]);
}

// As many vertices, scenarios, bonds, flows and positions as there can be. Where prices move by so much, the check works out
// every return.
fn full_book(moves: u64, smoothing: u16, tail: u8) -> Book {
    let full = Shape { moves, bonds: 1_024, flows: 120, positions: 4_096, ..shape(1_024, 9_844, 8, 64) };
    let parameters = Parameters { warm_up: 255, smoothing, tail, ..full.parameters.clone() };
    Shape { parameters, ..full }.book(7)
}

// The book comes to what it comes to on the usual stack.
fn stack_of_run(book: &[u8]) -> usize {
    let (mut expected, mut lent) = (Lent::new(FULL), Lent::new(FULL));
    assert_eq!(expected.call(book), 0);
    let (exposures, returns, list, figures) = lent.entries();
    let taken = stack_of(0, || margin_unit::call(book, exposures, returns, list, figures));
    assert!(lent == expected, "figures or buffers differ");
    taken
}

#[test]
fn stack_of_runs() {
    let books = [full_book(9_000, 940, 0), full_book(90_000, 999, 1)];
    let books = books.iter().flat_map(|book| [book.bytes(), book.without_positions().bytes()]);
    at_most(40 * KIB, "margin_unit_run", books.map(|book| stack_of_run(&book)));
}

const TERMS: usize = 500;

#[test]
fn stack_of_flows() {
    let mut random = Random::new(61);
    let taken = (0..TERMS).map(|_| {
        let schedule_terms::Call { terms, room } = schedule_terms::any_call(&mut random);
        let ((evaluation, bond), mut buffer) = (handed(&terms), vec![0; room]);
        let code = code_of(&terms.flows(room));
        stack_of(code, || margin_unit::call_flows(evaluation, &bond, &mut buffer))
    });
    at_most(4 * KIB, "margin_unit_flows", taken);
}

#[test]
fn stack_of_linker_flows() {
    let mut random = Random::new(62);
    let taken = (0..TERMS).map(|_| {
        let linkers_terms::Call { linker, room } = linkers_terms::any_call(&mut random);
        let ((evaluation, bond), mut buffer) = (handed_linker(&linker), vec![0; room]);
        let margin_unit::Linker { terms, issue, btp_italia } = bond;
        let (italia, prices, code) = (btp_italia as u32, &linker.prices, code_of(&linker.flows(room)));
        stack_of(code, || {
            margin_unit::call_linker_flows(evaluation, issue, &terms, italia, prices, &mut buffer)
        })
    });
    at_most(6 * KIB, "margin_unit_linker_flows", taken);
}
