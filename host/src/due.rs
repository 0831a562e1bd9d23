//! Plans of four sections: the least number of events that each node takes.

use crate::book::*;
use crate::compile::plan_of;

/// Where the settings stand in a plan of four sections.
pub const DUE_SETTINGS: usize = 26;

/// Where the nodes begin in a plan of four sections.
pub const DUE_NODES: usize = 30;

/// The number at which a least length is held.
pub const MOST_DUE: u16 = 65_535;

/// The least length of a run that each node derives, held at 65,535 where it is that or more or there is none: by
/// derivations of every height up to the number of nodes.
pub fn least_lengths(book: &Book) -> Vec<u16> {
    let mut least: Vec<Option<u64>> = vec![None; book.nodes.len()];
    for _ in 0..=book.nodes.len() {
        let lower = least.clone();
        let of = |side: u16| lower[usize::from(side)];
        for (own, node) in book.nodes.iter().enumerate() {
            least[own] = match node.form {
                EMPTY => Some(0),
                TOKEN => Some(1),
                EITHER => of(node.left).into_iter().chain(of(node.right)).min(),
                THEN => of(node.left)
                    .zip(of(node.right))
                    .map(|(left, right)| left.saturating_add(right)),
                TAGGED | REF => of(node.left),
                _ => None,
            };
        }
    }
    let held = |length: &Option<u64>| length.map_or(MOST_DUE, |n| n.min(MOST_DUE.into()) as u16);
    least.iter().map(held).collect()
}

/// The bytes of a plan of a book with these rows and these least lengths.
pub fn four_sections(book: &Book, rows: &[u8], due: &[u16]) -> Vec<u8> {
    let nodes_length = NODE_BYTES * book.nodes.len();
    let rows_at = DUE_NODES + nodes_length;
    let contents = [
        [1, DUE_SETTINGS, 4],
        [2, DUE_NODES, nodes_length],
        [3, rows_at, rows.len()],
        [4, rows_at + rows.len(), 2 * due.len()],
    ];
    let mut words = vec![4];
    words.extend(contents.concat().into_iter().map(|word| word as u16));
    words.extend([book.kinds, book.start]);
    for node in &book.nodes {
        words.extend([node.form, node.left, node.right]);
    }
    [bytes_of(&words), rows.to_vec(), bytes_of(due)].concat()
}

/// The rows of the plan of a well-formed book, whatever sections stand around them.
pub fn rows_of(book: &Book) -> Vec<u8> {
    let plan = plan_of(book);
    let nodes_at = if plan[0] == 4 { DUE_NODES } else { PLAN_NODES };
    let rows_at = nodes_at + NODE_BYTES * book.nodes.len();
    plan[rows_at..][..book.nodes.len() * (usize::from(book.kinds) + 1)].to_vec()
}

/// The plan of four sections of a well-formed book, whether it passes or not.
pub fn due_plan(book: &Book) -> Vec<u8> {
    four_sections(book, &rows_of(book), &least_lengths(book))
}

#[cfg(test)]
mod tests {
    use super::*;
    use crate::books::examples::{doubling, lone, rinse};
    use crate::books::small::all_books;
    use crate::meaning::all_runs;
    use crate::recognise::{Meaning, Table};

    /// The rinse book's numbers, and the size of its plan.
    #[test]
    fn rinse_numbers() {
        assert_eq!(least_lengths(&rinse()), [1, 1, 1, 0, 0, 1, 0, 1, 2]);
        let plan = due_plan(&rinse());
        assert_eq!(plan.len(), 138);
        assert_eq!(plan[..8], [4, 0, 1, 0, 26, 0, 4, 0]);
        assert_eq!(plan[20..26], [4, 0, 120, 0, 18, 0]);
    }

    /// Numbers are held at 65,535, also where nothing is derived.
    #[test]
    fn held_numbers() {
        assert_eq!(least_lengths(&lone(FAIL)), [65_535]);
        assert_eq!(least_lengths(&lone(REF)), [65_535]);
        assert_eq!(least_lengths(&doubling()), [0; 512]);
        let mut book = doubling();
        book.nodes[0] = node(TOKEN, 0, 0);
        let least = least_lengths(&book);
        assert_eq!(least[..4], [1, 2, 4, 8]);
        assert_eq!(least[15..], [[32_768].as_slice(), &[65_535; 496]].concat());
    }

    /// The start's number is the least length of a lawful run, by derivations.
    #[test]
    fn least_by_derivations() {
        let most = 3;
        for (count, kinds) in [(1, 1), (2, 1), (3, 1), (2, 2)] {
            let runs = all_runs(kinds as u8, most);
            all_books(count, kinds, &mut |book| {
                let lawful =
                    |run: &&Vec<u8>| matches!(Table::of(book, run).meaning(), Meaning::Lawful(_));
                let due = usize::from(least_lengths(book)[usize::from(book.start)]);
                match runs.iter().find(lawful) {
                    Some(run) => assert_eq!(due, run.len(), "of {book:?}"),
                    None => assert!(due > most, "of {book:?}"),
                }
            });
        }
    }
}
