//! From a tree to its run: a list of what is due, the last first, against which the records are held one by one.

use crate::answers::*;
use crate::book::*;
use crate::compile::compile;
use crate::moves::refused;

/// The most events of a run.
pub const MOST_EVENTS: usize = 65_535;

/// What the derivations of each node can come to.
struct Powers {
    /// A run with no event.
    none: Vec<bool>,
    /// A run with events.
    some: Vec<bool>,
}

/// What is due next in a tree.
#[derive(Clone, Copy)]
enum Due {
    /// The part of a node, with events or as an empty record.
    Any(u16),
    /// The part of a node, with events.
    Some(u16),
    /// The part of one of two nodes, with events.
    One(u16, u16),
    /// The parts of two nodes, with events in one of them at least.
    Two(u16, u16),
}

/// Writes the run of a tree.
pub fn unread(book: &[u8], tree: &[u16], run: &mut [u8]) -> Written {
    run.fill(0);
    let judged = compile(book, &mut []);
    if judged.number != PLAN_ROOM {
        return refused(judged.number, judged.place as usize);
    }
    match run_of(&Book::of_bytes(book), tree) {
        Err(place) => refused(TREE, place),
        Ok(events) if events.len() > MOST_EVENTS => refused(RUN_LONG, 0),
        Ok(events) if events.len() > run.len() => refused(RUN_ROOM, 0),
        Ok(events) => {
            run[..events.len()].copy_from_slice(&events);
            Written {
                number: DONE,
                size: events.len() as u32,
                place: 0,
            }
        }
    }
}

/// The run of a tree of a book that passes, or the place of the first record at which no tree begins so, or the count of
/// records where more is due.
pub fn run_of(book: &Book, tree: &[u16]) -> Result<Vec<u8>, usize> {
    let powers = Powers::of(book);
    let mut due = vec![Due::Any(book.start)];
    let mut run = Vec::new();
    for (place, &record) in tree.iter().enumerate() {
        let Some(next) = due.pop() else {
            return Err(place);
        };
        let own = record % EMPTY_RECORD;
        if record >= EMPTY_RECORD {
            match next {
                Due::Any(part) if own == part && powers.none(part) => (),
                Due::Two(left, right) if own == left && powers.none(left) && powers.some(right) => {
                    due.push(Due::Some(right));
                }
                _ => return Err(place),
            }
            continue;
        }
        match next {
            Due::Any(part) | Due::Some(part) if own == part && powers.some(part) => (),
            Due::One(left, right) if (own == left || own == right) && powers.some(own) => (),
            Due::Two(left, right) if own == left && powers.some(left) && powers.any(right) => {
                due.push(Due::Any(right));
            }
            _ => return Err(place),
        }
        let node = book.nodes[usize::from(own)];
        match node.form {
            TOKEN => run.push(node.left as u8),
            EITHER => due.push(Due::One(node.left, node.right)),
            THEN => due.push(Due::Two(node.left, node.right)),
            _ => due.push(Due::Some(node.left)),
        }
    }
    if due.is_empty() {
        Ok(run)
    } else {
        Err(tree.len())
    }
}

impl Powers {
    /// What the nodes of a book can come to, by finite derivations.
    fn of(book: &Book) -> Powers {
        let none = vec![false; book.nodes.len()];
        let some = none.clone();
        let mut powers = Powers { none, some };
        loop {
            let nodes = book.nodes.iter();
            let none: Vec<bool> = nodes.map(|node| powers.without(node)).collect();
            let nodes = book.nodes.iter();
            let some: Vec<bool> = nodes.map(|node| powers.with(node)).collect();
            if none == powers.none && some == powers.some {
                return powers;
            }
            powers = Powers { none, some };
        }
    }

    /// Whether a node derives the empty run, by what is known so far.
    fn without(&self, node: &Node) -> bool {
        match node.form {
            EMPTY => true,
            EITHER => self.none(node.left) || self.none(node.right),
            THEN => self.none(node.left) && self.none(node.right),
            TAGGED | REF => self.none(node.left),
            _ => false,
        }
    }

    /// Whether a node derives a run with events, by what is known so far.
    fn with(&self, node: &Node) -> bool {
        let (left, right) = (node.left, node.right);
        match node.form {
            TOKEN => true,
            EITHER => self.some(left) || self.some(right),
            THEN => {
                let one = self.some(left) && self.any(right);
                one || self.any(left) && self.some(right)
            }
            TAGGED | REF => self.some(left),
            _ => false,
        }
    }

    /// Whether a node derives the empty run.
    fn none(&self, own: u16) -> bool {
        self.none[usize::from(own)]
    }

    /// Whether a node derives a run with events.
    fn some(&self, own: u16) -> bool {
        self.some[usize::from(own)]
    }

    /// Whether a node derives a run.
    fn any(&self, own: u16) -> bool {
        self.none(own) || self.some(own)
    }
}
