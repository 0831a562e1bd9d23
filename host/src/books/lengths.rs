//! Books whose shortest run has a length chosen beforehand.

use super::random::Random;
use crate::book::*;

/// Nodes in the making.
struct Nodes(Vec<(u16, u16, u16)>);

impl Nodes {
    /// Adds a node and gives its number.
    fn add(&mut self, form: u16, left: u16, right: u16) -> u16 {
        self.0.push((form, left, right));
        self.0.len() as u16 - 1
    }

    /// Adds so many events of a kind, at least one: doublings, and those of them that the number has, in turn.
    fn times(&mut self, kind: u16, count: u128) -> u16 {
        let mut doubled = self.add(TOKEN, kind, 0);
        let mut whole = None;
        for bit in 0..=count.ilog2() {
            if bit > 0 {
                doubled = self.add(THEN, doubled, doubled);
            }
            if count >> bit & 1 == 1 {
                whole = Some(match whole {
                    None => doubled,
                    Some(rest) => self.add(THEN, doubled, rest),
                });
            }
        }
        whole.expect("at least one event")
    }
}

/// A choice between runs of these lengths, at least one each: the one at place k is so many events of kind k.
pub fn of_length(lengths: &[u128]) -> Book {
    let mut nodes = Nodes(Vec::new());
    let mut choice = None;
    for (kind, &length) in lengths.iter().enumerate() {
        let run = nodes.times(kind as u16, length);
        choice = Some(match choice {
            None => run,
            Some(others) => nodes.add(EITHER, others, run),
        });
    }
    Book::ending(lengths.len() as u16, &nodes.0)
}

/// A token doubled so often.
pub fn power(doublings: usize) -> Book {
    let mut nodes = vec![(TOKEN, 0, 0)];
    nodes.extend((1..=doublings as u16).map(|own| (THEN, own - 1, own - 1)));
    Book::ending(1, &nodes)
}

/// A book with a choice between up to three lengths, near each other and near the most events of a run or the width of
/// a number, and the shortest of them.
pub fn any_length_book(random: &mut Random) -> (Book, u128) {
    let small = random.within(1, 70_000) as u128;
    let near = random.pick(&[
        65_536,
        65_536,
        65_536,
        131_072,
        1 << 32,
        1 << 64,
        1 << 80,
        small,
    ]);
    let count = random.within(1, 3);
    let lengths: Vec<u128> = (0..count)
        .map(|_| (near + random.below(4) as u128).saturating_sub(2).max(1))
        .collect();
    let shortest = *lengths.iter().min().expect("one at least");
    (of_length(&lengths), shortest)
}
