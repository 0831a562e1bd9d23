//! The compiler of the proved library against the independent one.

use host::answers::*;
use host::book::{Book, EITHER, MOST_NODES};
use host::books::damaged::damaged;
use host::books::random::Random;
use host::books::shapes::{any_book, large_book, likely_book};
use host::books::small::all_books;
use host::calls::compile::{given, COMPILE};
use host::compile::compile;
use host::ffi;
use host::ffi::lent::Edge;
use host::pair::Pair;
use host::worked;

/// The longest book that is tried.
const LONGEST_BOOK: usize = 4096;

/// The compiler under test, and how often it named each sort of conflict: both sides nullable, with and without kinds
/// that both begin with; one kind in both; several; one kind that should not follow; several.
struct Books {
    pair: Pair,
    conflicts: [usize; 6],
}

impl Books {
    /// Books of which none is compared yet.
    fn new() -> Books {
        Books {
            pair: Pair::of(&COMPILE),
            conflicts: [0; 6],
        }
    }

    /// Compares for a plan buffer of just the plan's size, and of another; counts what the book's conflict is.
    fn compare(&mut self, random: &mut Random, book: &Book) {
        let bytes = book.bytes();
        let compiled = compile(&bytes, &mut []);
        let size = compiled.size as usize;
        let longer = size + random.within(1, 100);
        let other = random.pick(&[0, size.saturating_sub(1), size / 2, longer]);
        let edge = random.pick(&[Edge::Begin, Edge::End]);
        self.pair.compare_at(&given(&bytes, other), edge);
        self.pair.compare_at(&given(&bytes, size), edge);
        if compiled.number == CONFLICT {
            let either = book.nodes[compiled.place as usize].form == EITHER;
            let sort = match (either, compiled.both, compiled.clash.count_ones()) {
                (true, 1, 1..) => 0,
                (true, 1, 0) => 1,
                (true, 0, 1) => 2,
                (true, 0, _) => 3,
                (_, _, 1) => 4,
                (_, _, _) => 5,
            };
            self.conflicts[sort] += 1;
        }
    }

    /// Fails unless each sort of conflict was met at least so often.
    fn expect_conflicts(&self, least: [usize; 6]) {
        let met = self.conflicts;
        let enough = met.iter().zip(least).all(|(&count, least)| count >= least);
        assert!(enough, "met {met:?}");
    }
}

/// The worked books.
#[test]
fn worked_books() {
    worked::check_compile(ffi::compile::compile);
}

/// All well-formed books of up to four nodes.
#[test]
fn every_small_book() {
    let mut books = Books::new();
    let mut random = Random::new(1);
    for (count, kinds) in [(1, 1), (2, 1), (3, 1), (1, 2), (2, 2), (3, 2), (4, 2)] {
        all_books(count, kinds, &mut |book| {
            books.compare(&mut random, book);
        });
    }
    assert!(books.pair.tally.total() > 2 * 180_000);
    let tally = &books.pair.tally;
    tally.expect(&[BARREN, CONFLICT, UNUSED], 7_000);
    tally.expect(&[DONE, PLAN_ROOM], 2_000);
    books.expect_conflicts([8, 1_000, 2_000, 4, 16, 0]);
}

/// Random well-formed books of all shapes.
#[test]
fn random_books() {
    let mut books = Books::new();
    let mut random = Random::new(2);
    for round in 0..120_000 {
        let book = if round % 2 == 0 {
            any_book(&mut random)
        } else {
            likely_book(&mut random)
        };
        books.compare(&mut random, &book);
    }
    books
        .pair
        .tally
        .expect(&[DONE, BARREN, CONFLICT, PLAN_ROOM, UNUSED], 10_000);
    books.expect_conflicts([300, 4_000, 10_000, 600, 5_000, 2_000]);
}

/// Books of up to 512 nodes and 64 kinds.
#[test]
fn large_books() {
    let mut books = Books::new();
    let mut random = Random::new(3);
    let mut full = 0;
    for _ in 0..1_500 {
        let book = large_book(&mut random);
        full += usize::from(book.nodes.len() == MOST_NODES);
        books.compare(&mut random, &book);
    }
    assert!(full > 300, "{full} books of {MOST_NODES} nodes");
    books
        .pair
        .tally
        .expect(&[DONE, BARREN, CONFLICT, PLAN_ROOM, UNUSED], 100);
}

/// Books with one or two things damaged.
#[test]
fn damaged_books() {
    let mut pair = Pair::of(&COMPILE);
    let mut random = Random::new(4);
    for _ in 0..120_000 {
        let mut bytes = likely_book(&mut random).bytes();
        for _ in 0..random.within(1, 2) {
            bytes = damaged(&mut random, &bytes);
        }
        bytes.truncate(LONGEST_BOOK);
        let edge = random.pick(&[Edge::Begin, Edge::End]);
        let room = random.below(400);
        pair.compare_at(&given(&bytes, room), edge);
    }
    pair.tally
        .expect(&[LENGTH, CONTENTS, SETTINGS, NODE], 3_000);
    pair.tally.expect(&[DONE, CONFLICT], 1_200);
    pair.tally.expect(&[UNUSED], 3_000);
    pair.tally.expect(&[PLAN_ROOM, BARREN], 350);
}
