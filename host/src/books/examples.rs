//! Books that the tests know by name: those of the worked examples, and some that come to the limits.

use crate::book::*;

/// The rinse book.
pub fn rinse() -> Book {
    Book::ending(
        3,
        &[
            (TOKEN, 0, 0),
            (TOKEN, 1, 0),
            (TOKEN, 2, 0),
            (EMPTY, 0, 0),
            (REF, 6, 0),
            (THEN, 1, 4),
            (EITHER, 5, 3),
            (THEN, 6, 2),
            (THEN, 0, 7),
        ],
    )
}

/// Empty, then nodes "then" of the node before twice, 512 in all.
pub fn doubling() -> Book {
    let mut nodes = vec![(EMPTY, 0, 0)];
    nodes.extend((1..MOST_NODES as u16).map(|own| (THEN, own - 1, own - 1)));
    Book::ending(1, &nodes)
}

/// Two tokens of one kind, and an either of them.
pub fn shared_kind() -> Book {
    Book::ending(1, &[(TOKEN, 0, 0), (TOKEN, 0, 0), (EITHER, 0, 1)])
}

/// Left recursion that can never produce anything, beside a token.
pub fn harmless_recursion() -> Book {
    Book::ending(
        1,
        &[
            (REF, 4, 0),
            (FAIL, 0, 0),
            (THEN, 0, 1),
            (TOKEN, 0, 0),
            (EITHER, 2, 3),
        ],
    )
}

/// The first conflict book with start 0.
pub fn shared_kind_aside() -> Book {
    Book {
        start: 0,
        ..shared_kind()
    }
}

/// A start that derives nothing, between a fail and a token that it does not reach.
pub fn unused_and_barren() -> Book {
    Book {
        start: 1,
        ..Book::ending(1, &[(FAIL, 0, 0), (FAIL, 0, 0), (TOKEN, 0, 0)])
    }
}

/// The first conflict book with a fail behind its start.
pub fn unused_beside_conflict() -> Book {
    let mut book = shared_kind();
    book.nodes.push(node(FAIL, 0, 0));
    book
}

/// A start that reaches the other nodes by a ref upward.
pub fn reached_upward() -> Book {
    Book {
        start: 0,
        ..Book::ending(1, &[(REF, 2, 0), (TOKEN, 0, 0), (TAGGED, 1, 9)])
    }
}

/// Two events in stage 7, the second in stage 9 within it, and a third outside.
pub fn stages() -> Book {
    Book::ending(
        2,
        &[
            (TOKEN, 0, 0),
            (TOKEN, 1, 0),
            (TAGGED, 1, 9),
            (THEN, 0, 2),
            (TAGGED, 3, 7),
            (THEN, 4, 0),
        ],
    )
}

/// A single node.
pub fn lone(form: u16) -> Book {
    Book::ending(1, &[(form, 0, 0)])
}

/// Two empties, and an either of them.
pub fn both_nullable() -> Book {
    Book::ending(1, &[(EMPTY, 0, 0), (EMPTY, 0, 0), (EITHER, 0, 1)])
}

/// A token that may be left out, and the same token after it.
pub fn not_after() -> Book {
    let nodes = [(TOKEN, 0, 0), (EMPTY, 0, 0), (EITHER, 0, 1), (THEN, 2, 0)];
    Book::ending(1, &nodes)
}

/// Two sides that begin with the same two kinds.
pub fn shared_kinds() -> Book {
    Book::ending(
        2,
        &[(TOKEN, 0, 0), (TOKEN, 1, 0), (EITHER, 0, 1), (EITHER, 2, 2)],
    )
}

/// Two sides that can take nothing and begin with the same kind.
pub fn both_ways() -> Book {
    Book::ending(
        1,
        &[(EMPTY, 0, 0), (TOKEN, 0, 0), (EITHER, 0, 1), (EITHER, 2, 2)],
    )
}

/// Either of two tokens that may be left out, and either of them after it.
pub fn not_after_kinds() -> Book {
    let nodes = [
        (TOKEN, 0, 0),
        (TOKEN, 2, 0),
        (EITHER, 0, 1),
        (EMPTY, 0, 0),
        (EITHER, 2, 3),
        (THEN, 4, 2),
    ];
    Book::ending(3, &nodes)
}

/// Left recursion that conflicts.
pub fn left_recursion() -> Book {
    let nodes = [
        (REF, 4, 0),
        (TOKEN, 0, 0),
        (THEN, 0, 1),
        (TOKEN, 1, 0),
        (EITHER, 2, 3),
    ];
    Book::ending(2, &nodes)
}

/// A book of nested pairs of events 0 and 1.
pub fn nesting() -> Book {
    let nodes = [
        (TOKEN, 0, 0),
        (TOKEN, 1, 0),
        (REF, 6, 0),
        (THEN, 2, 1),
        (THEN, 0, 3),
        (EMPTY, 0, 0),
        (EITHER, 4, 5),
    ];
    Book::ending(2, &nodes)
}

/// A process done any number of times: steps in turn, each one event and any number of another; tagged nodes above it
/// make up this many in all.
pub fn process(steps: u16, count: u16) -> Book {
    let mut nodes = Vec::new();
    let star = |nodes: &mut Vec<(u16, u16, u16)>, part: u16| {
        let at = nodes.len() as u16;
        nodes.extend([(EMPTY, 0, 0), (REF, at + 3, 0)]);
        nodes.extend([(THEN, part, at + 1), (EITHER, at + 2, at)]);
        at + 3
    };
    let mut whole = 0;
    for step in (0..steps).rev() {
        let at = nodes.len() as u16;
        let kinds = [2 * step % 64, (2 * step + 1) % 64];
        nodes.extend(kinds.map(|kind| (TOKEN, kind, 0)));
        let more = star(&mut nodes, at + 1);
        nodes.push((THEN, at, more));
        if step + 1 < steps {
            nodes.push((THEN, more + 1, whole));
        }
        whole = nodes.len() as u16 - 1;
    }
    star(&mut nodes, whole);
    while nodes.len() < usize::from(count) {
        let own = nodes.len() as u16;
        nodes.push((TAGGED, own - 1, own));
    }
    Book::ending((2 * steps).min(64), &nodes)
}

/// A book of 512 nodes, any number of events 0, where each event visits nearly all nodes; `skipping` where each visit
/// also skips an empty part.
pub fn winding(skipping: bool) -> Book {
    let mut nodes = vec![(EMPTY, 0, 0), (TOKEN, 0, 0)];
    for own in 2..509 {
        nodes.push(if skipping {
            (THEN, 0, own - 1)
        } else {
            (TAGGED, own - 1, own)
        });
    }
    nodes.extend([(REF, 511, 0), (THEN, 508, 509), (EITHER, 510, 0)]);
    Book::ending(1, &nodes)
}
