//! Inputs of the listing program.

use super::damaged::damaged;
use super::limits::long_run;
use super::loose::{any_bytes, good_book};
use super::random::Random;
use super::runs::{any_run, Heights};
use crate::book::LONGEST_BOOK;
use crate::listing::{input, MOST_EVENTS};

/// The events of a run of the rinse book that fills the program's room for records.
const FULL_TREE: usize = 2_049;

/// The events of a run of the nesting book that needs about all slots.
const FULL_SLOTS: usize = 1_022;

/// An input of any sort.
pub fn any_input(random: &mut Random) -> Vec<u8> {
    match random.below(16) {
        0..=5 => book_and_run(random),
        6..=8 => input(&any_bytes(random), &[0, 1, 2]),
        9 => long_input(random),
        10 => {
            let whole = book_and_run(random);
            cut(random, whole)
        }
        11 | 12 => {
            let whole = book_and_run(random);
            damaged(random, &whole)
        }
        13 => overfull(random),
        14 => other_length(random),
        _ => any_bytes(random),
    }
}

/// A good book with a run of it: lawful, nearly so, random or strange.
fn book_and_run(random: &mut Random) -> Vec<u8> {
    let book = good_book(random);
    let run = any_run(random, &book, &Heights::of(&book));
    input(&book.bytes(), &run)
}

/// A long or deep run, for which slots, room or events may not suffice.
fn long_input(random: &mut Random) -> Vec<u8> {
    let most = random.pick(&[MOST_EVENTS, FULL_TREE, FULL_SLOTS]);
    let (book, run) = long_run(random, most);
    input(&book.bytes(), &run)
}

/// The beginning of an input.
fn cut(random: &mut Random, mut whole: Vec<u8>) -> Vec<u8> {
    whole.truncate(random.below(whole.len() + 1));
    whole
}

/// An input with about as many events as are taken, or many more.
fn overfull(random: &mut Random) -> Vec<u8> {
    let book = any_bytes(random);
    let near = MOST_EVENTS - 2 + random.below(5);
    let events = random.pick(&[near, near, 2 * MOST_EVENTS, 100_000]);
    input(&book, &vec![random.below(2) as u8; events])
}

/// An input whose length is another than its book's.
fn other_length(random: &mut Random) -> Vec<u8> {
    let mut whole = book_and_run(random);
    let near = (LONGEST_BOOK - 2 + random.below(5)) as u16;
    let small = random.below(whole.len()) as u16;
    let any = random.word();
    let length = random.pick(&[near, small, any]);
    whole[..2].copy_from_slice(&length.to_le_bytes());
    if random.once_in(2) {
        whole.resize(LONGEST_BOOK + random.below(9), 0);
    }
    whole
}
