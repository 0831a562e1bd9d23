//! Bytes given as a book: books of all shapes, damaged ones, spliced ones and bytes of no form.

use super::damaged::damaged;
use super::named::named_book;
use super::random::Random;
use super::shapes::{any_book, large_book, likely_book};
use crate::book::*;

/// The longest bytes of no form.
const LONGEST: usize = 4_200;

/// A well-formed book of any shape, mostly of few nodes.
pub fn good_book(random: &mut Random) -> Book {
    match random.below(80) {
        0 => large_book(random),
        1..=40 => likely_book(random),
        _ => any_book(random),
    }
}

/// A book right but for its size or settings: too many nodes or none, kinds or a start out of range.
pub fn beyond_limits(random: &mut Random) -> Book {
    let few = random.within(1, 3);
    let count = random.pick(&[few, few, 0, MOST_NODES, MOST_NODES + 1]);
    let kinds = random.pick(&[1, 0, MOST_KINDS, MOST_KINDS + 1]);
    let start = random.pick(&[0, count.saturating_sub(1), count]);
    let form = random.pick(&[EMPTY, FAIL]);
    Book {
        kinds: kinds as u16,
        start: start as u16,
        nodes: vec![node(form, 0, 0); count],
    }
}

/// Bytes given as a book.
pub fn any_bytes(random: &mut Random) -> Vec<u8> {
    match random.below(12) {
        0..=3 => good_book(random).bytes(),
        4..=6 => damaged_book(random),
        10 => named_book(random),
        11 => damaged_named_book(random),
        7 => loose_nodes(random).bytes(),
        8 if random.once_in(5) => beyond_limits(random).bytes(),
        8 => spliced(random),
        _ => formless(random),
    }
}

/// The bytes of a book with up to three things damaged.
fn damaged_book(random: &mut Random) -> Vec<u8> {
    let mut bytes = good_book(random).bytes();
    for _ in 0..random.within(1, 3) {
        bytes = damaged(random, &bytes);
    }
    bytes
}

/// The bytes of a book with names, with something damaged.
fn damaged_named_book(random: &mut Random) -> Vec<u8> {
    let bytes = named_book(random);
    damaged(random, &bytes)
}

/// A book with small numbers for all types and fields, right or wrong.
fn loose_nodes(random: &mut Random) -> Book {
    let count = random.within(1, 5);
    let small = |random: &mut Random| random.below(count + 1) as u16;
    let mut nodes = Vec::new();
    for _ in 0..count {
        let form = random.below(7) as u16;
        let left = if form < TOKEN { 0 } else { small(random) };
        let right = if matches!(form, EITHER..=TAGGED) {
            small(random)
        } else {
            0
        };
        nodes.push(node(form, left, right));
    }
    Book {
        kinds: random.within(1, 3) as u16,
        start: small(random),
        nodes,
    }
}

/// The beginning of one book and the end of another.
fn spliced(random: &mut Random) -> Vec<u8> {
    let (one, other) = (good_book(random).bytes(), good_book(random).bytes());
    let cut = random.below(one.len().min(other.len()) + 1);
    [&one[..cut], &other[cut..]].concat()
}

/// Bytes of no form, of small or of all values.
fn formless(random: &mut Random) -> Vec<u8> {
    let most = random.pick(&[3, 30, 300, LONGEST]);
    let length = random.below(most + 1);
    let values = random.pick(&[3, 7, 256]);
    (0..length).map(|_| random.below(values) as u8).collect()
}
