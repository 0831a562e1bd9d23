//! Runs to read: lawful, nearly lawful, random, and with kinds that the book does not have.

use super::random::Random;
use crate::book::*;

/// After this many steps a random derivation is brought to its end the shortest way.
const FREE_STEPS: usize = 60;

/// After this many steps a random derivation is given up.
const MOST_STEPS: usize = 5_000;

/// The height of the lowest derivation of each node, none where there is none.
pub struct Heights(Vec<Option<usize>>);

impl Heights {
    /// The heights of a book's nodes.
    pub fn of(book: &Book) -> Heights {
        let mut heights: Vec<Option<usize>> = vec![None; book.nodes.len()];
        for height in 0..=book.nodes.len() {
            let lower = heights.clone();
            for (own, node) in book.nodes.iter().enumerate() {
                if lower[own].is_none() && derives(node, &lower) {
                    heights[own] = Some(height);
                }
            }
        }
        Heights(heights)
    }

    /// The height of a node, beyond all others where it derives nothing.
    fn height(&self, own: u16) -> usize {
        self.0[usize::from(own)].unwrap_or(usize::MAX)
    }
}

/// Whether a node derives something, if those with a height do.
fn derives(node: &Node, heights: &[Option<usize>]) -> bool {
    let does = |own: u16| heights[usize::from(own)].is_some();
    match node.form {
        FAIL => false,
        EMPTY | TOKEN => true,
        EITHER => does(node.left) || does(node.right),
        THEN => does(node.left) && does(node.right),
        _ => does(node.left),
    }
}

/// A run of the book: lawful, nearly so, random or strange.
pub fn any_run(random: &mut Random, book: &Book, heights: &Heights) -> Vec<u8> {
    let mut run = lawful_run(random, book, heights);
    match random.below(8) {
        0..=2 => (),
        3..=5 => spoil(random, book, &mut run),
        6 => run = random_run(random, book),
        _ => {
            spoil(random, book, &mut run);
            let at = random.below(run.len() + 1);
            let strange = random.pick(&[book.kinds as u8, 64, 255]);
            run.insert(at, strange);
        }
    }
    run
}

/// A run that the start derives, or the beginning of one where that is long.
pub fn lawful_run(random: &mut Random, book: &Book, heights: &Heights) -> Vec<u8> {
    let mut run = Vec::new();
    if heights.height(book.start) == usize::MAX {
        return random_run(random, book);
    }
    let mut due = vec![book.start];
    for step in 0..MOST_STEPS {
        let Some(own) = due.pop() else { break };
        let node = book.nodes[usize::from(own)];
        match node.form {
            TOKEN => run.push(node.left as u8),
            EITHER => due.push(side(random, &node, heights, step > FREE_STEPS)),
            THEN => due.extend([node.right, node.left]),
            TAGGED | REF => due.push(node.left),
            _ => (),
        }
    }
    run
}

/// A side of an either that derives something; the lower one where the end is near.
fn side(random: &mut Random, node: &Node, heights: &Heights, ending: bool) -> u16 {
    let (left, right) = (heights.height(node.left), heights.height(node.right));
    let lower = if left <= right { node.left } else { node.right };
    if ending || left == usize::MAX || right == usize::MAX {
        lower
    } else {
        random.pick(&[node.left, node.right])
    }
}

/// A run of random kinds of the book.
pub fn random_run(random: &mut Random, book: &Book) -> Vec<u8> {
    let length = random.below(10);
    (0..length).map(|_| kind(random, book)).collect()
}

/// Changes one thing: an event more, less or another, or the end cut off.
fn spoil(random: &mut Random, book: &Book, run: &mut Vec<u8>) {
    let at = random.below(run.len() + 1);
    match random.below(4) {
        0 => run.insert(at, kind(random, book)),
        1 => run.truncate(at),
        2 if at < run.len() => {
            run.remove(at);
        }
        _ if at < run.len() => run[at] = kind(random, book),
        _ => run.push(kind(random, book)),
    }
}

/// A random kind of the book.
fn kind(random: &mut Random, book: &Book) -> u8 {
    random.below(usize::from(book.kinds)) as u8
}
