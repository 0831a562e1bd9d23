//! Trees of books, and records that are nearly one.

use super::examples::{nesting, rinse};
use super::loose::good_book;
use super::random::Random;
use super::runs::{lawful_run, Heights};
use crate::answers::{DONE, EMPTY_RECORD, PLAN_ROOM};
use crate::book::*;
use crate::compile::{compile, plan_of};
use crate::read::read;
use crate::unread::MOST_EVENTS;

/// Slots and room for the trees of short runs.
const SLOTS: usize = 6_000;
const ROOM: usize = 300_000;

/// The deepest nest of a random tree.
const MOST_NESTED: usize = 600;

/// After this many books one of the examples is taken.
const TRIES: usize = 20;

/// A book that passes.
pub fn passing_book(random: &mut Random) -> Book {
    let mut books = (0..TRIES).map(|_| good_book(random));
    let passes = |book: &Book| compile(&book.bytes(), &mut []).number == PLAN_ROOM;
    let found = books.find(passes);
    found.unwrap_or_else(|| random.pick(&[rinse, nesting])())
}

/// The records of a lawful run of a book that passes, those that a reading writes.
pub fn tree_of(book: &Book, run: &[u8]) -> Option<Vec<u16>> {
    let mut tree = vec![0; ROOM];
    let reading = read(&plan_of(book), run, &mut [0; SLOTS], &mut tree);
    tree.truncate(reading.records as usize);
    (reading.number == DONE).then_some(tree)
}

/// A book that passes, with a tree of it.
pub fn book_and_tree(random: &mut Random) -> (Book, Vec<u16>) {
    loop {
        let book = passing_book(random);
        let run = lawful_run(random, &book, &Heights::of(&book));
        if let Some(tree) = tree_of(&book, &run) {
            return (book, tree);
        }
    }
}

/// The tree of a rinse run of so many events, at least two.
pub fn rinse_tree(events: usize) -> Vec<u16> {
    let mut tree = vec![8, 0, 7];
    for turn in 2..events {
        if turn > 2 {
            tree.push(4);
        }
        tree.extend([6, 5, 1]);
    }
    tree.push(EMPTY_RECORD + if events > 2 { 4 } else { 6 });
    tree.push(2);
    tree
}

/// The tree of so many nested pairs, at least one.
pub fn nested_tree(pairs: usize) -> Vec<u16> {
    let mut tree = vec![6, 4, 0, 3];
    for _ in 1..pairs {
        tree.extend([2, 6, 4, 0, 3]);
    }
    tree.push(EMPTY_RECORD + 2);
    tree.extend(vec![1; pairs]);
    tree
}

/// A book with a tree of about as many events as a run has at most, or of pairs nested deep.
pub fn long_tree(random: &mut Random) -> (Book, Vec<u16>) {
    if random.once_in(2) {
        (rinse(), rinse_tree(MOST_EVENTS - 3 + random.below(7)))
    } else {
        (nesting(), nested_tree(random.within(1, MOST_NESTED)))
    }
}

/// A tree with a few things changed.
pub fn damaged_tree(random: &mut Random, book: &Book, tree: &[u16]) -> Vec<u16> {
    let mut tree = tree.to_vec();
    for _ in 0..random.within(1, 2) {
        damage(random, book, &mut tree);
    }
    tree
}

/// Changes one thing of a tree: a record more, less, twice or another, an empty record for a whole one and the other way
/// round, its end cut off or gone on with.
fn damage(random: &mut Random, book: &Book, tree: &mut Vec<u16>) {
    let at = random.below(tree.len() + 1);
    let any = any_record(random, book);
    match random.below(8) {
        0 => tree.insert(at, any),
        1 => tree.truncate(at),
        2 => tree.push(any),
        _ if at == tree.len() => tree.push(any),
        3 => {
            tree.remove(at);
        }
        4 => tree[at] = any,
        5 => tree.insert(at, tree[at]),
        6 => tree[at] ^= EMPTY_RECORD,
        _ => tree[at] = tree[at].wrapping_add(1),
    }
}

/// A record of any node, now and then of none.
fn any_record(random: &mut Random, book: &Book) -> u16 {
    let own = random.below(book.nodes.len()) as u16;
    let none = book.nodes.len() as u16;
    let any = random.word();
    random.pick(&[
        own,
        own,
        own,
        own + EMPTY_RECORD,
        own + EMPTY_RECORD,
        none,
        any,
    ])
}

/// Records that are a tree of no book in particular.
pub fn any_records(random: &mut Random, book: &Book) -> Vec<u16> {
    let length = random.below(8);
    (0..length).map(|_| any_record(random, book)).collect()
}

#[cfg(test)]
mod tests {
    use super::*;
    use crate::books::limits::{nested_run, rinse_run};

    /// The trees made here are those that reading the runs gives.
    #[test]
    fn long_trees_are_read() {
        for events in [2, 3, 4, 50] {
            let tree = tree_of(&rinse(), &rinse_run(events));
            assert_eq!(tree, Some(rinse_tree(events)));
        }
        for pairs in [1, 2, 30] {
            let tree = tree_of(&nesting(), &nested_run(pairs));
            assert_eq!(tree, Some(nested_tree(pairs)));
        }
    }
}
