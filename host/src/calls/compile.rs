//! The compiler.

use super::lender::Part;
use super::sorts::{BOOK, PLAN_BUFFER};
use super::{Answer, Argument, Call, Left, Made};
use crate::answers::*;
use crate::book::*;
use crate::books::examples::rinse;
use crate::books::loose::any_bytes;
use crate::books::random::Random;
use crate::compile::{self, plan_of};
use crate::ffi;

/// The compiler's row.
pub static COMPILE: Call = Call {
    name: "compile",
    takes: &[&BOOK, &PLAN_BUFFER],
    fields: &["number", "place", "size", "both", "clash"],
    answers: &[
        (DONE, 7_000),
        (LENGTH, 10_000),
        (CONTENTS, 8_000),
        (SETTINGS, 2_000),
        (NODE, 6_000),
        (BARREN, 2_500),
        (CONFLICT, 6_000),
        (PLAN_ROOM, 5_000),
        (NAMES, 2_000),
        (UNUSED, 5_000),
    ],
    share: 140,
    done: DONE,
    wanted,
    made: Made::Archive(raw),
    example: || given(&rinse().bytes(), plan_of(&rinse()).len()),
    any,
};

/// The arguments of a compilation: a book, and the length of the plan buffer.
pub fn given(book: &[u8], room: usize) -> Vec<Argument> {
    vec![Argument::Given(book.to_vec()), Argument::Room(room)]
}

/// What the compiler must answer and leave behind.
fn wanted(arguments: &[Argument]) -> Answer {
    let mut plan = vec![0xA5; arguments[1].room()];
    let compiled = compile::compile(arguments[0].bytes(), &mut plan);
    Answer::new(fields(compiled), vec![Left::Bytes(plan)])
}

/// The call on parts of memory.
unsafe fn raw(parts: &[Part]) -> Vec<u64> {
    let [book, plan] = parts else {
        panic!("two parts")
    };
    fields(ffi::compile::drumbook_compile(
        book.at, book.len, plan.at, plan.len,
    ))
}

/// The values of an answer's fields.
fn fields(compiled: Compiled) -> Vec<u64> {
    let Compiled {
        number,
        place,
        size,
        both,
        clash,
    } = compiled;
    vec![number.into(), place.into(), size.into(), both.into(), clash]
}

/// A book of any sort, and room about the plan's size.
fn any(random: &mut Random) -> Vec<Argument> {
    let book = any_bytes(random);
    let size = plan_size(&book);
    let other = random.below(size + 100);
    let room = random.pick(&[size, size, size + 1, size.saturating_sub(1), 0, other]);
    given(&book, room)
}

/// The size of the plan of these bytes, if they are a book; at most what is lent.
fn plan_size(book: &[u8]) -> usize {
    let (settings, nodes) = if is_named(book) && book.len() > NAMED_NODES {
        (NAMED_SETTINGS, named_count(book))
    } else {
        (
            BOOK_SETTINGS,
            book.len().saturating_sub(BOOK_NODES) / NODE_BYTES,
        )
    };
    let kinds = book.get(settings).map_or(0, |&low| usize::from(low));
    let size = PLAN_NODES + nodes * (NODE_BYTES + kinds + 1 + DUE_BYTES);
    size.min(PLAN_BUFFER.most - 100)
}
