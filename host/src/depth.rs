//! The greatest number of parts ever held, numbers 30 to 32: the heaviest way down from the start. From a then to its
//! left weighs one, its right being held; every other step weighs nothing. Ways go only where runs go: to nodes that
//! take an event in some run, and past nodes that produce some run.

use crate::answers::*;
use crate::book::*;
use crate::compile::compile;

/// The slots that a controller may have.
const SLOT_COUNTS: std::ops::RangeInclusive<u32> = 1..=64;

/// The greatest number of parts that readings by a book ever hold at once.
pub fn greatest(book: &[u8]) -> Depth {
    let compiled = compile(book, &mut []);
    if compiled.number != PLAN_ROOM {
        return depth(compiled.number, compiled.place, 0);
    }
    match heaviest(&Book::of_bytes(book)) {
        Some(weight) => depth(DONE, 0, weight.max(1)),
        None => depth(UNBOUNDED, 0, 0),
    }
}

/// Whether a controller of so many slots takes a book.
pub fn profile(book: &[u8], slots: u32) -> Depth {
    if !SLOT_COUNTS.contains(&slots) {
        return depth(SLOTS, 0, 0);
    }
    match greatest(book) {
        deeper if deeper.number == DONE && deeper.held > slots => depth(DEEPER, deeper.held, 0),
        other => other,
    }
}

/// An answer.
fn depth(number: u32, place: u32, held: u32) -> Depth {
    Depth {
        number,
        place,
        held,
    }
}

/// The weight of the heaviest way from the start, 0 where there is none; nothing where ways weigh as much as one likes.
/// Ways without a circle have fewer steps than there are nodes, so a round that finds a heavier one after as many
/// rounds goes round a circle that weighs something.
fn heaviest(book: &Book) -> Option<u32> {
    let produces = least(book, produces_by);
    let takes = least(book, |node, known| takes_by(node, known, &produces));
    let mut reached: Vec<Option<u32>> = vec![None; book.nodes.len()];
    if takes[usize::from(book.start)] {
        reached[usize::from(book.start)] = Some(0);
    }
    for _ in 0..=book.nodes.len() {
        let before = reached.clone();
        for (own, node) in book.nodes.iter().enumerate() {
            let Some(weight) = reached[own] else { continue };
            for (side, more) in steps(node, &produces) {
                if takes[side] {
                    reached[side] = reached[side].max(Some(weight + more));
                }
            }
        }
        if reached == before {
            return Some(reached.into_iter().flatten().max().unwrap_or(0));
        }
    }
    None
}

/// The steps down from a node, each with its weight.
fn steps(node: &Node, produces: &[bool]) -> Vec<(usize, u32)> {
    let (left, right) = (usize::from(node.left), usize::from(node.right));
    match node.form {
        EITHER => vec![(left, 0), (right, 0)],
        THEN => {
            let held = produces[right].then_some((left, 1));
            let passed = produces[left].then_some((right, 0));
            held.into_iter().chain(passed).collect()
        }
        TAGGED | REF => vec![(left, 0)],
        _ => vec![],
    }
}

/// What holds of nodes by a rule that looks at what is known so far.
fn least(book: &Book, rule: impl Fn(&Node, &[bool]) -> bool) -> Vec<bool> {
    let mut known = vec![false; book.nodes.len()];
    loop {
        let next: Vec<bool> = book.nodes.iter().map(|node| rule(node, &known)).collect();
        if next == known {
            return known;
        }
        known = next;
    }
}

/// Whether a node produces some run.
fn produces_by(node: &Node, known: &[bool]) -> bool {
    let (left, right) = (usize::from(node.left), usize::from(node.right));
    match node.form {
        EMPTY | TOKEN => true,
        EITHER => known[left] || known[right],
        THEN => known[left] && known[right],
        TAGGED | REF => known[left],
        _ => false,
    }
}

/// Whether a node produces some run with an event.
fn takes_by(node: &Node, known: &[bool], produces: &[bool]) -> bool {
    let (left, right) = (usize::from(node.left), usize::from(node.right));
    match node.form {
        TOKEN => true,
        EITHER => known[left] || known[right],
        THEN => known[left] && produces[right] || produces[left] && known[right],
        TAGGED | REF => known[left],
        _ => false,
    }
}
