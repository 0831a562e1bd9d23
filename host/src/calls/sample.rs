//! A sample run of a book.

use super::lender::Part;
use super::moves::{written_fields, WRITTEN_FIELDS};
use super::sorts::{BOOK, RUN_BUFFER};
use super::{Answer, Argument, Call, Left, Made};
use crate::answers::*;
use crate::book::Book;
use crate::books::damaged::damaged;
use crate::books::examples::rinse;
use crate::books::lengths::any_length_book;
use crate::books::loose::any_bytes;
use crate::books::random::Random;
use crate::books::shapes::likely_book;
use crate::ffi;
use crate::form::form;
use crate::sample::{self, best_run};

/// The sample's row.
pub static SAMPLE: Call = Call {
    name: "sample",
    takes: &[&BOOK, &RUN_BUFFER],
    fields: WRITTEN_FIELDS,
    answers: &[
        (DONE, 15_000),
        (LENGTH, 5_000),
        (CONTENTS, 3_000),
        (SETTINGS, 700),
        (NODE, 2_000),
        (BARREN, 1_500),
        (CONFLICT, 4_000),
        (NAMES, 800),
        (UNUSED, 4_000),
        (RUN_LONG, 700),
        (RUN_ROOM, 5_000),
    ],
    share: 40,
    done: DONE,
    wanted,
    made: Made::Archive(raw),
    example: || given(&rinse().bytes(), 2),
    any,
};

/// The arguments of a sample: a book, and the length of the run's buffer.
pub fn given(book: &[u8], room: usize) -> Vec<Argument> {
    vec![Argument::Given(book.to_vec()), Argument::Room(room)]
}

/// What the sample must answer and leave behind.
fn wanted(arguments: &[Argument]) -> Answer {
    let mut run = vec![0xA5; arguments[1].room()];
    let written = sample::sample(arguments[0].bytes(), &mut run);
    Answer::new(written_fields(written), vec![Left::Bytes(run)])
}

/// The call on parts of memory.
unsafe fn raw(parts: &[Part]) -> Vec<u64> {
    let [book, run] = parts else {
        panic!("two parts")
    };
    written_fields(ffi::sample::drumbook_sample(
        book.at, book.len, run.at, run.len,
    ))
}

/// A book of any sort, and room about the size of its best run.
fn any(random: &mut Random) -> Vec<Argument> {
    let book = match random.below(50) {
        0 => any_length_book(random).0.bytes(),
        1 => {
            let bytes = any_length_book(random).0.bytes();
            damaged(random, &bytes)
        }
        2..=24 => likely_book(random).bytes(),
        _ => any_bytes(random),
    };
    let size = match form(&book).number {
        DONE => best_run(&Book::of_bytes(&book)).map_or(0, |run| run.len()),
        _ => 0,
    };
    let other = random.below(size + 20);
    let room = random.pick(&[size, size, size + 1, size.saturating_sub(1), 0, other]);
    given(&book, room)
}
