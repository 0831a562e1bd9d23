//! Plans that no compiler wrote.

use super::damaged::damaged;
use super::random::Random;
use crate::book::*;
use crate::compile::plan_of;
use crate::read::{cells_of, GO_LEFT};

/// A plan of a well-formed book, its own or forged in one of many ways.
pub fn any_plan(random: &mut Random, book: &Book) -> Vec<u8> {
    let mut plan = plan_of(book);
    match random.below(12) {
        0 | 1 => (),
        2 | 3 => legal_cells(random, book, &mut plan, 1, 4),
        4 => legal_cells(random, book, &mut plan, 1, 100),
        5 | 6 => legal_cells(random, book, &mut plan, 8, 4),
        7 => flipped_marks(random, book, &mut plan),
        8 => illegal_cell(random, book, &mut plan),
        9 => misfit(random, book, &mut plan),
        10 => any_dues(random, book, &mut plan),
        _ => plan = damaged(random, &plan),
    }
    plan
}

/// A legal plan with long walks: each kind cell is a random one that is not 0, where there is one.
pub fn restless_plan(random: &mut Random, book: &Book) -> Vec<u8> {
    let mut plan = plan_of(book);
    legal_cells(random, book, &mut plan, 1, 1_000);
    plan
}

/// A plan of refs, each to the next, up to a last node of this type and cell, which leads back.
pub fn circle(count: u16, start: u16, last: u16, cell: u8) -> Vec<u8> {
    let mut nodes: Vec<_> = (1..count).map(|to| (REF, to, 0)).collect();
    nodes.push((last, 0, 0));
    let book = Book {
        start,
        ..Book::ending(1, &nodes)
    };
    let mut rows = [GO_LEFT, 0].repeat(nodes.len());
    rows[2 * nodes.len() - 2] = cell;
    book.plan(&rows)
}

/// Any circle of few nodes.
pub fn any_circle(random: &mut Random) -> Vec<u8> {
    let count = random.within(2, 6);
    let any = random.below(count);
    let start = random.pick(&[0, any, count - 1]);
    let last = random.pick(&[FAIL, TOKEN, REF, THEN]);
    let cell = random.pick(cells_of(last));
    circle(count as u16, start as u16, last, cell)
}

/// Sets about one in `one_in` kind cells to a legal one, which is 0 about once in `zero_in`.
fn legal_cells(random: &mut Random, book: &Book, plan: &mut [u8], one_in: usize, zero_in: usize) {
    let kinds = usize::from(book.kinds);
    for (node, row) in book.nodes.iter().zip(rows(book, plan)) {
        for cell in &mut row[..kinds] {
            if random.once_in(one_in) {
                let legal = cells_of(node.form);
                let walks = if legal.len() > 1 { &legal[1..] } else { legal };
                *cell = if random.once_in(zero_in) {
                    0
                } else {
                    random.pick(walks)
                };
            }
        }
    }
}

/// Turns some of the nullable marks round.
fn flipped_marks(random: &mut Random, book: &Book, plan: &mut [u8]) {
    let kinds = usize::from(book.kinds);
    for row in rows(book, plan) {
        if random.once_in(3) {
            row[kinds] = 1 - row[kinds];
        }
    }
}

/// Sets a cell to any byte, mostly to one that some other cell has.
fn illegal_cell(random: &mut Random, book: &Book, plan: &mut [u8]) {
    for _ in 0..random.within(1, 2) {
        let at = rows_at(book) + random.below(dues_at(book) - rows_at(book));
        plan[at] = if random.once_in(8) {
            random.word() as u8
        } else {
            random.below(7) as u8
        };
    }
}

/// Writes the contents and the kinds as another number of nodes or kinds would have them.
fn misfit(random: &mut Random, book: &Book, plan: &mut [u8]) {
    let change = |random: &mut Random, number: usize| (number + random.below(3)).max(2) - 1;
    let count = change(random, book.nodes.len());
    let kinds = change(random, usize::from(book.kinds));
    let nodes = NODE_BYTES * count;
    for (at, word) in [
        (12, nodes),
        (16, PLAN_NODES + nodes),
        (18, count * (kinds + 1)),
        (22, PLAN_NODES + nodes + count * (kinds + 1)),
        (24, DUE_BYTES * count),
    ] {
        plan[at..at + 2].copy_from_slice(&(word as u16).to_le_bytes());
    }
    if random.once_in(2) {
        plan[PLAN_SETTINGS..PLAN_SETTINGS + 2].copy_from_slice(&(kinds as u16).to_le_bytes());
    }
}

/// Where the rows begin in the plan of a book.
fn rows_at(book: &Book) -> usize {
    PLAN_NODES + NODE_BYTES * book.nodes.len()
}

/// Where what is due begins in the plan of a book.
fn dues_at(book: &Book) -> usize {
    rows_at(book) + book.nodes.len() * (usize::from(book.kinds) + 1)
}

/// Writes any numbers as due.
fn any_dues(random: &mut Random, book: &Book, plan: &mut [u8]) {
    for byte in &mut plan[dues_at(book)..] {
        *byte = random.word() as u8;
    }
}

/// The rows of a plan of the book.
fn rows<'a>(book: &Book, plan: &'a mut [u8]) -> impl Iterator<Item = &'a mut [u8]> {
    plan[rows_at(book)..dues_at(book)].chunks_exact_mut(usize::from(book.kinds) + 1)
}
