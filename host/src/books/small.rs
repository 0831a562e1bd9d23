//! All small books.

use crate::book::*;

/// All well-formed books of this many nodes and kinds, labels all 1, in turn handed to `visit`.
pub fn all_books(count: usize, kinds: u16, visit: &mut dyn FnMut(&Book)) {
    let mut book = Book {
        kinds,
        start: 0,
        nodes: Vec::new(),
    };
    extend(&mut book, count, visit);
}

/// Adds every possible next node in turn until there are `count`.
fn extend(book: &mut Book, count: usize, visit: &mut dyn FnMut(&Book)) {
    if book.nodes.len() == count {
        for start in 0..count as u16 {
            book.start = start;
            visit(book);
        }
        return;
    }
    for node in possible(book.nodes.len() as u16, count as u16, book.kinds) {
        book.nodes.push(node);
        extend(book, count, visit);
        book.nodes.pop();
    }
}

/// The nodes that the table allows at this number.
fn possible(own: u16, count: u16, kinds: u16) -> Vec<Node> {
    let mut nodes = vec![node(FAIL, 0, 0), node(EMPTY, 0, 0)];
    nodes.extend((0..kinds).map(|kind| node(TOKEN, kind, 0)));
    nodes.extend((0..count).map(|to| node(REF, to, 0)));
    for left in 0..own {
        nodes.push(node(TAGGED, left, 1));
        for right in 0..own {
            nodes.push(node(EITHER, left, right));
            nodes.push(node(THEN, left, right));
        }
    }
    nodes
}
