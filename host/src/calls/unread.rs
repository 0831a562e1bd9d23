//! The run of a tree.

use super::lender::Part;
use super::moves::{written_fields, WRITTEN_FIELDS};
use super::sorts::{BOOK, RUN_BUFFER, TREE_RECORDS};
use super::{Answer, Argument, Call, Left, Made};
use crate::answers::*;
use crate::book::Book;
use crate::books::examples::rinse;
use crate::books::loose::any_bytes;
use crate::books::random::Random;
use crate::books::trees::{any_records, book_and_tree, damaged_tree, long_tree};
use crate::ffi;
use crate::unread::{self, run_of};

/// The row of writing a tree's run.
pub static UNREAD: Call = Call {
    name: "unread",
    takes: &[&BOOK, &TREE_RECORDS, &RUN_BUFFER],
    fields: WRITTEN_FIELDS,
    answers: &[
        (DONE, 10_000),
        (LENGTH, 1_000),
        (CONTENTS, 1_000),
        (SETTINGS, 200),
        (NODE, 1_000),
        (BARREN, 200),
        (CONFLICT, 500),
        (NAMES, 200),
        (UNUSED, 500),
        (TREE, 20_000),
        (RUN_LONG, 40),
        (RUN_ROOM, 5_000),
    ],
    share: 60,
    done: DONE,
    wanted: |arguments| {
        let mut run = vec![0xA5; arguments[2].room()];
        let written = unread::unread(arguments[0].bytes(), arguments[1].words(), &mut run);
        Answer::new(written_fields(written), vec![Left::Bytes(run)])
    },
    made: Made::Archive(raw),
    example: || given(&rinse().bytes(), &[8, 0, 7, 6, 5, 1, 32_772, 2], 3),
    any,
};

/// The arguments of writing a tree's run: a book, records, and the length of the run's buffer.
pub fn given(book: &[u8], tree: &[u16], room: usize) -> Vec<Argument> {
    vec![
        Argument::Given(book.to_vec()),
        Argument::Words(tree.to_vec()),
        Argument::Room(room),
    ]
}

/// The call on parts of memory.
unsafe fn raw(parts: &[Part]) -> Vec<u64> {
    let [book, tree, run] = parts else {
        panic!("three parts")
    };
    written_fields(ffi::unread::drumbook_unread(
        book.at,
        book.len,
        tree.at.cast(),
        tree.len,
        run.at,
        run.len,
    ))
}

/// A tree of a book that passes, damaged or not, or any records of any book, and room about the size of the run.
fn any(random: &mut Random) -> Vec<Argument> {
    let (book, tree) = match random.below(400) {
        0..=3 => long_tree(random),
        _ => book_and_tree(random),
    };
    let records = match random.below(4) {
        0 | 1 => tree,
        2 => damaged_tree(random, &book, &tree),
        _ if random.once_in(3) => any_records(random, &book),
        _ => damaged_tree(random, &book, &tree),
    };
    let size = run_of(&book, &records).map_or(3, |run| run.len());
    let other = random.below(size + 10);
    let room = random.pick(&[size, size, size + 1, size.saturating_sub(1), 0, other]);
    let bytes = if random.once_in(5) {
        any_bytes(random)
    } else {
        any_form(random, &book)
    };
    given(&bytes, &records, room)
}

/// The bytes of a book, now and then with names.
fn any_form(random: &mut Random, book: &Book) -> Vec<u8> {
    if random.once_in(3) {
        let names: Vec<Vec<u8>> = (0..book.kinds).map(|kind| vec![33 + kind as u8]).collect();
        book.named_bytes(&names)
    } else {
        book.bytes()
    }
}
