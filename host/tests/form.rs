//! The form test of the proved library against the independent one.

use host::answers::*;
use host::book::*;
use host::books::damaged::damaged;
use host::books::examples::doubling;
use host::books::random::Random;
use host::books::shapes::{any_book, large_book};
use host::books::small::all_books;
use host::calls::form::{given, FORM};
use host::ffi;
use host::ffi::lent::Edge;
use host::pair::Pair;
use host::worked;

/// The longest input that is tried.
const LONGEST: usize = 4096;

/// The worked books and damaged copies of the rinse book.
#[test]
fn worked_books() {
    worked::check_form(ffi::form::form);
}

/// All well-formed books of up to three nodes.
#[test]
fn every_small_book() {
    let mut pair = Pair::of(&FORM);
    for (count, kinds) in [(1, 1), (2, 1), (3, 1), (1, 2), (2, 2), (3, 2)] {
        all_books(count, kinds, &mut |book| {
            pair.compare(&given(&book.bytes()));
        });
    }
    assert!(pair.tally.total() > 4_000);
    pair.tally.expect(&[DONE], pair.tally.total());
}

/// Two nodes of all small types and fields, right or wrong.
#[test]
fn small_fields_in_two_nodes() {
    let mut pair = Pair::of(&FORM);
    let nodes: Vec<Node> = (0..8 * 3 * 3)
        .map(|n| node(n / 9, n / 3 % 3, n % 3))
        .collect();
    for kinds in [1, 2] {
        for start in 0..3 {
            for &first in &nodes {
                for &second in &nodes {
                    let nodes = vec![first, second];
                    let book = Book {
                        kinds,
                        start,
                        nodes,
                    };
                    pair.compare(&given(&book.bytes()));
                }
            }
        }
    }
    assert_eq!(pair.tally.total(), 2 * 3 * 72 * 72);
    pair.tally.expect(&[DONE], 200);
    pair.tally.expect(&[SETTINGS, NODE], 4_000);
}

/// Every length, with random contents and with those fixed by the length, at both edges.
#[test]
fn every_length() {
    let mut pair = Pair::of(&FORM);
    let mut random = Random::new(1);
    let long: Vec<u8> = (0..LONGEST).map(|_| random.below(3) as u8).collect();
    for length in 0..=LONGEST {
        let mut bytes = long[..length].to_vec();
        pair.compare(&given(&bytes));
        let nodes_length = (length.max(BOOK_NODES) - BOOK_NODES) as u16;
        let words = [2, 1, 14, 4, 2, 18, nodes_length, 3, 0];
        for (place, byte) in bytes.iter_mut().zip(bytes_of(&words)) {
            *place = byte;
        }
        let mut fails = bytes.clone();
        fails.iter_mut().skip(BOOK_NODES).for_each(|b| *b = 0);
        for edge in [Edge::Begin, Edge::End] {
            pair.compare_at(&given(&bytes), edge);
            pair.compare_at(&given(&fails), edge);
        }
    }
    pair.tally.expect(&[LENGTH], 5 * (LONGEST + 1 - MOST_NODES));
    pair.tally.expect(&[CONTENTS, NODE], 500);
    pair.tally.expect(&[DONE], MOST_NODES);
}

/// The last node of the largest book, against the table in each way.
#[test]
fn last_node_of_the_largest_book() {
    let mut pair = Pair::of(&FORM);
    let last = MOST_NODES as u16 - 1;
    for bad in [
        node(REF + 1, 0, 0),
        node(TOKEN, 1, 0),
        node(THEN, last, 0),
        node(EITHER, 0, last),
        node(TAGGED, 0, 0),
        node(REF, last + 1, 0),
    ] {
        let mut book = doubling();
        book.nodes[MOST_NODES - 1] = bad;
        pair.compare(&given(&book.bytes()));
    }
    pair.tally.expect(&[NODE], 6);
}

/// All values of each word of a small book, for a node of each type.
#[test]
fn every_value_of_each_word() {
    let mut pair = Pair::of(&FORM);
    for form in FAIL..=REF + 1 {
        let nodes = [
            (TOKEN, 1, 0),
            (EMPTY, 0, 0),
            (form, 0, u16::from(form == TAGGED)),
            (THEN, 0, 1),
        ];
        let book = Book::ending(2, &nodes).bytes();
        let words: Vec<usize> = if form == FAIL {
            (0..book.len() / 2).collect()
        } else {
            vec![15, 16, 17]
        };
        for word in words {
            let mut bytes = book.clone();
            for value in 0..=u16::MAX {
                bytes[2 * word..2 * word + 2].copy_from_slice(&value.to_le_bytes());
                pair.compare(&given(&bytes));
            }
        }
    }
    pair.tally.expect(&[DONE], 65_536);
    pair.tally.expect(&[CONTENTS], 7 * 65_535);
    pair.tally.expect(&[SETTINGS, NODE], 65_000);
}

/// Books of all shapes with none, one or two things damaged.
#[test]
fn random_books_and_damaged_ones() {
    let mut pair = Pair::of(&FORM);
    let mut random = Random::new(2);
    for round in 0..200_000 {
        let book = if round % 50 == 0 {
            large_book(&mut random)
        } else {
            any_book(&mut random)
        };
        let mut bytes = book.bytes();
        for _ in 0..random.below(3) {
            bytes = damaged(&mut random, &bytes);
        }
        let edge = random.pick(&[Edge::Begin, Edge::End]);
        pair.compare_at(&given(&bytes[..bytes.len().min(LONGEST)]), edge);
    }
    pair.tally
        .expect(&[DONE, LENGTH, CONTENTS, SETTINGS, NODE], 4_000);
}
