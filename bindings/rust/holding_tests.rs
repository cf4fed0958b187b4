//! Which bonds a book's positions hold, and in which order: whatever stands between two positions of a bond, and whether any
//! position holds a bond's neighbours, every exposure and every figure is the oracle's.

use super::oracle::book::{Book, Position};
use super::oracle::random::Random;
use super::oracle::unit_books::{crowded_book, damaged, orders};
use super::oracle::valuing::{holding, uneven};
use super::{accepted, ample, any_lengths, compare};

// As many bonds, and as many positions, as there can be.
const BONDS: usize = 1_024;
const POSITIONS: usize = 4_096;

fn exposures(book: &Book) -> Vec<i128> {
    accepted(&book.bytes(), ample(book)).exposures
}

// The book with some of its positions alone.
fn with_positions(book: &Book, positions: impl IntoIterator<Item = Position>) -> Book {
    Book { positions: positions.into_iter().collect(), ..book.clone() }
}

// Of three and of four bonds, every list of up to five positions.
#[test]
fn every_list_of_few() {
    for bonds in [3, 4] {
        let market = uneven(bonds);
        for count in 0..=5 {
            for list in 0..bonds.pow(count) {
                let held = (0..count).map(|p| list / bonds.pow(p) % bonds);
                exposures(&holding(&market, held));
            }
        }
    }
}

// Each of all bonds four times: the same in every order.
#[test]
fn each_bond_four_times() {
    let in_turn = holding(&uneven(BONDS), (0..POSITIONS).map(|p| p % BONDS));
    let expected = exposures(&in_turn);
    for (order, book) in orders(&in_turn, &mut Random::new(71)) {
        assert_eq!(exposures(&book), expected, "{order}");
    }
}

// No bond is held but one.
#[test]
fn every_position_of_one_bond() {
    let market = uneven(BONDS);
    for bond in [0, 1, 2, 127, 128, 255, 256, 511, 512, 1_022, 1_023] {
        assert!(exposures(&holding(&market, [bond; POSITIONS])).iter().any(|&exposure| exposure != 0));
    }
    exposures(&holding(&uneven(1), [0; POSITIONS]));
}

// One position has all of the nominal: the exposures are those of a book that has this one alone.
#[test]
fn one_position_of_many() {
    let market = holding(&uneven(5), (0..POSITIONS).map(|p| p % 5));
    for place in [0, 1, 254, 255, 256, 511, 512, 1_023, 1_024, 2_047, 2_048, 4_094, 4_095] {
        let mut one = market.clone();
        let kept = one.positions[place].clone();
        one.positions.iter_mut().for_each(|position| position.nominal = 0);
        one.positions[place] = kept.clone();
        let alone = exposures(&with_positions(&market, [kept]));
        assert!(alone.iter().any(|&exposure| exposure != 0));
        assert_eq!(exposures(&one), alone, "position {place}");
    }
}

// Two positions of a bond whose values cancel, wherever they stand: the exposures are those of the others.
#[test]
fn two_that_cancel() {
    let market = holding(&uneven(4), (0..12).map(|p| 3 * p % 4));
    for (p, q) in (0..12).flat_map(|q| (0..q).map(move |p| (p, q))) {
        let mut two = market.clone();
        let Position { bond, nominal } = two.positions[p];
        two.positions[q] = Position { bond, nominal: -nominal };
        let others = two.positions.iter().enumerate().filter(|(i, _)| ![p, q].contains(i));
        let others = with_positions(&market, others.map(|(_, position)| position.clone()));
        assert_eq!(exposures(&two), exposures(&others), "positions {p} and {q}");
    }
}

// Many positions of few bonds, in no order, and the same damaged.
#[test]
fn crowded_books() {
    let mut random = Random::new(72);
    let mut counts = [0; 25];
    for _ in 0..1_500 {
        let book = crowded_book(&mut random);
        exposures(&book);
        let refusal = compare(&damaged(book, &mut random), any_lengths(&mut random)).err();
        counts[refusal.map_or(0, |refusal| refusal.number as usize)] += 1;
    }
    assert!((17..=24).chain([0]).all(|number| counts[number] > 0), "{counts:?}");
}
