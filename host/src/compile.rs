//! The compiler, numbers 0 to 7 and 22: the rules of figure 5 as least fixpoints over plain sets.

use crate::answers::*;
use crate::book::*;
use crate::form::form;

/// A set of kinds: which of them are in it.
type Kinds = [bool; MOST_KINDS];

/// The set with no kind.
const NO_KIND: Kinds = [false; MOST_KINDS];

/// What the rules say of each node.
struct Facts {
    productive: Vec<bool>,
    nullable: Vec<bool>,
    first: Vec<Kinds>,
    snf: Vec<Kinds>,
}

/// Compiles a book into the plan buffer.
pub fn compile(book: &[u8], plan: &mut [u8]) -> Compiled {
    plan.fill(0);
    let formed = form(book);
    if formed.number != DONE {
        return compiled(formed.number, formed.place, 0);
    }
    let book = Book::of_bytes(book);
    if let Some(place) = reachable(&book).iter().position(|&reached| !reached) {
        return compiled(UNUSED, place as u32, 0);
    }
    let facts = facts(&book);
    if !facts.productive[usize::from(book.start)] {
        return compiled(BARREN, u32::from(book.start), 0);
    }
    for (own, node) in book.nodes.iter().enumerate() {
        let (both, clash) = clash(node, &facts);
        if both || clash != 0 {
            return Compiled {
                both: both.into(),
                clash,
                ..compiled(CONFLICT, own as u32, 0)
            };
        }
    }
    let bytes = plan_by(&book, &facts);
    if plan.len() < bytes.len() {
        return compiled(PLAN_ROOM, 0, bytes.len() as u32);
    }
    plan[..bytes.len()].copy_from_slice(&bytes);
    compiled(DONE, 0, bytes.len() as u32)
}

/// The plan of a well-formed book, whether it passes or not.
pub fn plan_of(book: &Book) -> Vec<u8> {
    plan_by(book, &facts(book))
}

/// An answer of the compiler that tells of no conflict.
fn compiled(number: u32, place: u32, size: u32) -> Compiled {
    Compiled {
        number,
        place,
        size,
        both: 0,
        clash: 0,
    }
}

/// The least facts that the rules give.
fn facts(book: &Book) -> Facts {
    let productive = least(book, false, productive_by);
    let nullable = least(book, false, nullable_by);
    let first = least(book, NO_KIND, |node, first| {
        first_by(node, first, &productive, &nullable)
    });
    let snf = least(book, NO_KIND, |node, snf| {
        snf_by(node, snf, &productive, &nullable, &first)
    });
    Facts {
        productive,
        nullable,
        first,
        snf,
    }
}

/// The least fact of each node under a rule that looks at what is known so far.
fn least<T: Copy + PartialEq>(book: &Book, none: T, rule: impl Fn(&Node, &[T]) -> T) -> Vec<T> {
    let mut known = vec![none; book.nodes.len()];
    loop {
        let next: Vec<T> = book.nodes.iter().map(|node| rule(node, &known)).collect();
        if next == known {
            return known;
        }
        known = next;
    }
}

/// Whether a node is productive, from what is known so far.
fn productive_by(node: &Node, known: &[bool]) -> bool {
    match node.form {
        EMPTY | TOKEN => true,
        EITHER => of(known, node.left) || of(known, node.right),
        THEN => of(known, node.left) && of(known, node.right),
        TAGGED | REF => of(known, node.left),
        _ => false,
    }
}

/// Whether a node is nullable, from what is known so far.
fn nullable_by(node: &Node, known: &[bool]) -> bool {
    match node.form {
        EMPTY => true,
        EITHER => of(known, node.left) || of(known, node.right),
        THEN => of(known, node.left) && of(known, node.right),
        TAGGED | REF => of(known, node.left),
        _ => false,
    }
}

/// The FIRST set of a node, from what is known so far.
fn first_by(node: &Node, first: &[Kinds], productive: &[bool], nullable: &[bool]) -> Kinds {
    match node.form {
        TOKEN => {
            let mut kinds = NO_KIND;
            kinds[usize::from(node.left)] = true;
            kinds
        }
        EITHER => joined(of(first, node.left), of(first, node.right)),
        THEN => joined(
            given(of(productive, node.right), of(first, node.left)),
            given(of(nullable, node.left), of(first, node.right)),
        ),
        TAGGED | REF => of(first, node.left),
        _ => NO_KIND,
    }
}

/// The should-not-follow set of a node, from what is known so far.
fn snf_by(
    node: &Node,
    snf: &[Kinds],
    productive: &[bool],
    nullable: &[bool],
    first: &[Kinds],
) -> Kinds {
    let (left, right) = (node.left, node.right);
    match node.form {
        EITHER => joined(
            joined(of(snf, left), of(snf, right)),
            joined(
                given(of(nullable, right), of(first, left)),
                given(of(nullable, left), of(first, right)),
            ),
        ),
        THEN => joined(
            given(of(nullable, right), of(snf, left)),
            given(of(productive, left), of(snf, right)),
        ),
        TAGGED | REF => of(snf, left),
        _ => NO_KIND,
    }
}

/// What is known of a node.
fn of<T: Copy>(known: &[T], number: u16) -> T {
    known[usize::from(number)]
}

/// The kinds in either set.
fn joined(one: Kinds, other: Kinds) -> Kinds {
    std::array::from_fn(|kind| one[kind] || other[kind])
}

/// The set where the condition holds, else no kind.
fn given(holds: bool, kinds: Kinds) -> Kinds {
    if holds {
        kinds
    } else {
        NO_KIND
    }
}

/// Which nodes are reachable.
fn reachable(book: &Book) -> Vec<bool> {
    let mut reached = vec![false; book.nodes.len()];
    let mut due = vec![book.start];
    while let Some(own) = due.pop() {
        if std::mem::replace(&mut reached[usize::from(own)], true) {
            continue;
        }
        let node = book.nodes[usize::from(own)];
        match node.form {
            EITHER | THEN => due.extend([node.left, node.right]),
            TAGGED | REF => due.push(node.left),
            _ => (),
        }
    }
    reached
}

/// What clashes at a node: whether both sides are nullable, and the kinds shared.
fn clash(node: &Node, facts: &Facts) -> (bool, u64) {
    let (left, right) = (node.left, node.right);
    match node.form {
        EITHER => (
            of(&facts.nullable, left) && of(&facts.nullable, right),
            shared(of(&facts.first, left), of(&facts.first, right)),
        ),
        THEN => (false, shared(of(&facts.snf, left), of(&facts.first, right))),
        _ => (false, 0),
    }
}

/// The kinds in both sets, as a sum of 2 to the power of each.
fn shared(one: Kinds, other: Kinds) -> u64 {
    let both = (0..MOST_KINDS).filter(|&kind| one[kind] && other[kind]);
    both.map(|kind| 1 << kind).sum()
}

/// The plan's bytes, with the rows by these facts.
fn plan_by(book: &Book, facts: &Facts) -> Vec<u8> {
    let mut rows = Vec::new();
    for own in 0..book.nodes.len() {
        rows.extend((0..usize::from(book.kinds)).map(|kind| cell(book, facts, own, kind)));
        rows.push(u8::from(facts.nullable[own]));
    }
    book.plan_due(&rows, &dues(book))
}

/// What is due for each node: the least length of a run that it derives, at most 65,535, which is also for none.
pub fn dues(book: &Book) -> Vec<u16> {
    let lengths = least(book, None, length_by);
    let held = |length: Option<u64>| length.unwrap_or(u64::MAX).min(u16::MAX.into()) as u16;
    lengths.into_iter().map(held).collect()
}

/// The least length of a run that a node derives, from those known so far.
fn length_by(node: &Node, known: &[Option<u64>]) -> Option<u64> {
    match node.form {
        EMPTY => Some(0),
        TOKEN => Some(1),
        EITHER => {
            let sides = [of(known, node.left), of(known, node.right)];
            sides.into_iter().flatten().min()
        }
        THEN => {
            let (left, right) = (of(known, node.left)?, of(known, node.right)?);
            Some(left.saturating_add(right))
        }
        TAGGED | REF => of(known, node.left),
        _ => None,
    }
}

/// The cell of a node for a kind.
fn cell(book: &Book, facts: &Facts, own: usize, kind: usize) -> u8 {
    if !facts.first[own][kind] {
        return 0;
    }
    let node = book.nodes[own];
    let left_begins = || of(&facts.first, node.left)[kind];
    match node.form {
        TOKEN => 1,
        EITHER if left_begins() => 2,
        EITHER => 5,
        THEN if of(&facts.nullable, node.left) && !left_begins() => 4,
        THEN => 3,
        _ => 2,
    }
}
