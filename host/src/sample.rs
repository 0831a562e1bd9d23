//! A sample run of a book, numbers 24 and 25: for each node the best run that it is known to derive, written out whole,
//! is made better until nothing is.

use crate::answers::*;
use crate::book::*;
use crate::compile::compile;
use std::cmp::Ordering;

/// The most events of a run that is written.
pub const LONGEST_RUN: usize = 65_535;

/// Writes the best lawful run of a book: a shortest one, and of those the lowest at the first difference.
pub fn sample(book: &[u8], run: &mut [u8]) -> Written {
    run.fill(0);
    let judged = compile(book, &mut []);
    if judged.number != PLAN_ROOM {
        return written(judged.number, 0, judged.place);
    }
    let Some(best) = best_run(&Book::of_bytes(book)) else {
        return written(RUN_LONG, 0, 0);
    };
    if run.len() < best.len() {
        return written(RUN_ROOM, 0, 0);
    }
    run[..best.len()].copy_from_slice(&best);
    written(DONE, best.len() as u32, 0)
}

/// An answer.
fn written(number: u32, size: u32, place: u32) -> Written {
    Written {
        number,
        size,
        place: place.into(),
    }
}

/// The best run that a book's start derives, if that has no more events than can be written.
pub fn best_run(book: &Book) -> Option<Vec<u8>> {
    let count = book.nodes.len();
    let mut best: Vec<Option<Vec<u8>>> = vec![None; count];
    // nodes whose sides got better since they were last looked at
    let mut due = vec![true; count];
    while let Some(own) = due.iter().position(|&is| is) {
        due[own] = false;
        if let Some(found) = found_at(&book.nodes[own], &best) {
            if best[own].as_ref().is_none_or(|old| better(&found, old)) {
                best[own] = Some(found);
                for (above, node) in book.nodes.iter().enumerate() {
                    due[above] |= has_side(node, own as u16);
                }
            }
        }
    }
    best[usize::from(book.start)].take()
}

/// Whether a run comes before another: shorter, or as long and lower at the first difference.
pub fn better(run: &[u8], other: &[u8]) -> bool {
    run.len().cmp(&other.len()).then_with(|| run.cmp(other)) == Ordering::Less
}

/// Whether a node has this side.
fn has_side(node: &Node, side: u16) -> bool {
    match node.form {
        EITHER | THEN => node.left == side || node.right == side,
        TAGGED | REF => node.left == side,
        _ => false,
    }
}

/// The best run that a node derives by the best known runs of its sides, if it has no more events than can be written.
fn found_at(node: &Node, best: &[Option<Vec<u8>>]) -> Option<Vec<u8>> {
    let of = |side: u16| best[usize::from(side)].as_ref();
    match node.form {
        EMPTY => Some(Vec::new()),
        TOKEN => Some(vec![node.left as u8]),
        EITHER => match (of(node.left), of(node.right)) {
            (Some(left), Some(right)) if better(right, left) => Some(right.clone()),
            (left, right) => left.or(right).cloned(),
        },
        THEN => {
            let (left, right) = (of(node.left)?, of(node.right)?);
            let fits = left.len() + right.len() <= LONGEST_RUN;
            fits.then(|| [&left[..], right].concat())
        }
        TAGGED | REF => of(node.left).cloned(),
        _ => None,
    }
}

#[cfg(test)]
mod tests {
    use super::*;
    use crate::books::examples::*;
    use crate::books::lengths::{any_length_book, of_length, power};
    use crate::books::random::Random;
    use crate::books::shapes::little_book;
    use crate::books::small::all_books;
    use crate::meaning::all_runs;
    use crate::recognise::{Meaning, Table};

    /// The number, size and place of a sample in so much room, and the bytes left.
    fn sampled(book: &Book, room: usize) -> ([u64; 3], Vec<u8>) {
        let mut run = vec![0xA5; room];
        let answer = sample(&book.bytes(), &mut run);
        let Written {
            number,
            size,
            place,
        } = answer;
        ([number.into(), size.into(), place], run)
    }

    /// The worked books.
    #[test]
    fn worked() {
        assert_eq!(sampled(&rinse(), 3), ([0, 2, 0], vec![0, 2, 0]));
        assert_eq!(sampled(&rinse(), 2), ([0, 2, 0], vec![0, 2]));
        assert_eq!(sampled(&rinse(), 1), ([25, 0, 0], vec![0]));
        assert_eq!(sampled(&lone(EMPTY), 0), ([0, 0, 0], vec![]));
        assert_eq!(sampled(&lone(EMPTY), 2), ([0, 0, 0], vec![0, 0]));
        assert_eq!(sampled(&lone(FAIL), 2), ([5, 0, 0], vec![0, 0]));
        assert_eq!(sampled(&doubling(), 1), ([0, 0, 0], vec![0]));
        assert_eq!(sampled(&nesting(), 1), ([0, 0, 0], vec![0]));
        assert_eq!(sampled(&shared_kind(), 1), ([6, 0, 2], vec![0]));
        assert_eq!(sampled(&shared_kind_aside(), 1), ([22, 0, 1], vec![0]));
        assert_eq!(sampled(&harmless_recursion(), 1), ([0, 1, 0], vec![0]));
    }

    /// Of two as short the lower at the first difference, not at the last; shorter goes before lower.
    #[test]
    fn which_is_better() {
        assert!(better(&[0, 2], &[1, 0]) && !better(&[1, 0], &[0, 2]));
        assert!(better(&[1], &[0, 0]) && !better(&[0, 0], &[1]));
        assert!(better(&[], &[0]) && !better(&[0], &[0]));
    }

    /// Lengths about the most that can be written, and about the widths of numbers.
    #[test]
    fn lengths() {
        for length in [1, 2, 3, 1_000, 65_534, 65_535] {
            let (answer, run) = sampled(&of_length(&[length]), 65_536);
            assert_eq!(answer, [0, length as u64, 0]);
            assert!(run.iter().all(|&byte| byte == 0));
        }
        let (two_32, two_64) = (1 << 32, 1 << 64);
        for length in [65_536, 65_537, two_32, two_32 + 3, two_64, two_64 + 3] {
            assert_eq!(sampled(&of_length(&[length]), 65_536).0, [24, 0, 0]);
        }
        assert_eq!(sampled(&power(511), 65_536).0, [24, 0, 0]);
    }

    /// The best run of a book by derivations alone, of those of at most so many events.
    fn by_derivations(book: &Book, runs: &[Vec<u8>]) -> Option<Vec<u8>> {
        let lawful = |run: &&Vec<u8>| matches!(Table::of(book, run).meaning(), Meaning::Lawful(_));
        runs.iter().find(lawful).cloned()
    }

    /// Checks the best run of a book against these runs, the best first, which are all of at most so many events.
    fn check(book: &Book, runs: &[Vec<u8>], most: usize) -> bool {
        let wanted = by_derivations(book, runs);
        let found = best_run(book).filter(|run| run.len() <= most);
        assert_eq!(found, wanted, "of {book:?}");
        found.is_some()
    }

    /// All small books, whether they pass or not: the first lawful of all runs, the best first.
    #[test]
    fn small_books_by_derivations() {
        let mut found = 0;
        for (count, kinds) in [(1, 1), (2, 1), (3, 1), (1, 2), (2, 2), (3, 2)] {
            let runs = all_runs(kinds as u8, 4);
            all_books(count, kinds, &mut |book| {
                found += usize::from(check(book, &runs, 4));
            });
        }
        assert!(found > 1_000);
    }

    /// Random books, whether they pass or not.
    #[test]
    fn random_books_by_derivations() {
        let mut random = Random::new(1);
        let mut lengths = [0; 5];
        for _ in 0..3_000 {
            let book = little_book(&mut random);
            let runs = all_runs(book.kinds as u8, 4);
            if check(&book, &runs, 4) {
                lengths[best_run(&book).expect("one").len()] += 1;
            }
        }
        assert!(lengths.iter().all(|&count| count > 20), "{lengths:?}");
    }

    /// Books of great lengths are good, and their shortest run has the length that they were made for.
    #[test]
    fn books_of_lengths() {
        let mut random = Random::new(2);
        let mut long = 0;
        for _ in 0..2_000 {
            let (book, length) = any_length_book(&mut random);
            let ([number, size, place], _) = sampled(&book, LONGEST_RUN);
            assert_eq!(place, 0, "of {book:?}");
            if length > LONGEST_RUN as u128 {
                long += 1;
                assert_eq!((number, size), (24, 0), "of {book:?}");
            } else {
                assert_eq!((number, size as u128), (0, length), "of {book:?}");
            }
        }
        assert!((300..1_700).contains(&long), "{long}");
    }
}
