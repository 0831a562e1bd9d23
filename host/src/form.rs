//! The form of a book, numbers 1 to 4 and 19.

use crate::answers::{Formed, CONTENTS, DONE, LENGTH, NAMES, NODE, SETTINGS};
use crate::book::*;
use crate::names::names;

/// The bytes of the shortest book with names: a node, and a name of one byte.
pub const SHORTEST_NAMED: usize = NAMED_NODES + NODE_BYTES + 2;

/// Judges the form of a book.
pub fn form(book: &[u8]) -> Formed {
    if !length_good(book) {
        return formed(LENGTH, 0);
    }
    if !contents_good(book) {
        return formed(CONTENTS, 0);
    }
    let value = Book::of_bytes(book);
    if !settings_proper(&value) {
        return formed(SETTINGS, 0);
    }
    if let Some(own) = improper(&value) {
        return formed(NODE, own);
    }
    if is_named(book) {
        if let Err(bad) = names(names_section(book), usize::from(value.kinds)) {
            return formed(NAMES, bad);
        }
    }
    formed(DONE, 0)
}

/// Whether a book has a length of its form.
pub fn length_good(book: &[u8]) -> bool {
    if is_named(book) {
        (SHORTEST_NAMED..=LONGEST_BOOK).contains(&book.len())
    } else {
        node_count(book.len()).is_some()
    }
}

/// Whether a book of good length has the contents of its form.
fn contents_good(book: &[u8]) -> bool {
    if is_named(book) {
        (1..=MOST_NODES).any(|count| named_contents(book, count))
    } else {
        let count = (book.len() - BOOK_NODES) / NODE_BYTES;
        words_of(&book[..BOOK_SETTINGS]) == [2, 1, 14, 4, 2, 18, (NODE_BYTES * count) as u16]
    }
}

/// Whether a book has the contents of three sections with so many nodes, and names to its end.
fn named_contents(book: &[u8], count: usize) -> bool {
    let names_at = NAMED_NODES + NODE_BYTES * count;
    let Some(names_length) = book.len().checked_sub(names_at) else {
        return false;
    };
    let nodes_length = (NODE_BYTES * count) as u16;
    let entry = [3, names_at as u16, names_length as u16];
    words_of(&book[..NAMED_SETTINGS]) == [&[3, 1, 20, 4, 2, 24, nodes_length][..], &entry].concat()
}

/// An answer of the form test.
fn formed(number: u32, place: usize) -> Formed {
    let place = place as u32;
    Formed { number, place }
}

/// The number of nodes of a book of this length.
fn node_count(length: usize) -> Option<usize> {
    (1..=MOST_NODES).find(|count| BOOK_NODES + NODE_BYTES * count == length)
}

/// Whether the number of kinds and the start are in range.
pub fn settings_proper(book: &Book) -> bool {
    let kinds = usize::from(book.kinds);
    (1..=MOST_KINDS).contains(&kinds) && usize::from(book.start) < book.nodes.len()
}

/// The first node with a type or a field against the table.
pub fn improper(book: &Book) -> Option<usize> {
    (0..book.nodes.len()).find(|&own| !proper(book, own))
}

/// Whether a node's type and fields are by the table.
fn proper(book: &Book, own: usize) -> bool {
    let Node { form, left, right } = book.nodes[own];
    let lower = |other: u16| usize::from(other) < own;
    match form {
        FAIL | EMPTY => left == 0 && right == 0,
        TOKEN => left < book.kinds && right == 0,
        EITHER | THEN => lower(left) && lower(right),
        TAGGED => lower(left) && right != 0,
        REF => usize::from(left) < book.nodes.len() && right == 0,
        _ => false,
    }
}
