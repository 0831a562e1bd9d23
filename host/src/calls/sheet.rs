//! Books made of sheets, and the places of their nodes.

use super::lender::Part;
use super::moves::{written_fields, WRITTEN_FIELDS};
use super::sorts::{NODE_NUMBER, OUT, SHEET_TEXT};
use super::{Answer, Argument, Call, Left, Made};
use crate::answers::*;
use crate::book::LONGEST_BOOK;
use crate::books::random::Random;
use crate::books::sheets::any_sheet;
use crate::ffi;
use crate::sheet;

/// The drum's process.
pub const WASH: &[u8] = b"wash = fill rinse* tip ;\n";

/// The row of making a book.
pub static MAKE: Call = Call {
    name: "sheet",
    takes: &[&SHEET_TEXT, &OUT],
    fields: WRITTEN_FIELDS,
    answers: &[
        (DONE, 20_000),
        (OUT_ROOM, 10_000),
        (SHEET, 20_000),
        (TWICE, 1_000),
        (BIG, 1_500),
        (KINDLESS, 1_500),
    ],
    share: 60,
    done: DONE,
    wanted: |arguments| {
        let mut book = vec![0xA5; arguments[1].room()];
        let written = sheet::sheet(arguments[0].bytes(), &mut book);
        Answer::new(written_fields(written), vec![Left::Bytes(book)])
    },
    made: Made::Archive(raw),
    example: || given(WASH, 100),
    any,
};

/// The row of a node's place.
pub static PLACE: Call = Call {
    name: "sheet-place",
    takes: &[&SHEET_TEXT, &NODE_NUMBER],
    fields: WRITTEN_FIELDS,
    answers: &[
        (DONE, 20_000),
        (NODE, 5_000),
        (SHEET, 20_000),
        (TWICE, 1_000),
        (BIG, 1_500),
        (KINDLESS, 1_500),
    ],
    share: 30,
    done: DONE,
    wanted: |arguments| {
        let written = sheet::sheet_place(arguments[0].bytes(), arguments[1].number());
        Answer::new(written_fields(written), vec![])
    },
    made: Made::Archive(raw_place),
    example: || given_place(WASH, 4),
    any: any_place,
};

/// The arguments of making a book: a sheet, and the length of the book's buffer.
pub fn given(text: &[u8], room: usize) -> Vec<Argument> {
    vec![Argument::Given(text.to_vec()), Argument::Room(room)]
}

/// The arguments of a node's place: a sheet and a node.
pub fn given_place(text: &[u8], node: u32) -> Vec<Argument> {
    vec![Argument::Given(text.to_vec()), Argument::Number(node)]
}

/// The call on parts of memory.
unsafe fn raw(parts: &[Part]) -> Vec<u64> {
    let [text, book] = parts else {
        panic!("two parts")
    };
    written_fields(ffi::sheet::drumbook_sheet(
        text.at, text.len, book.at, book.len,
    ))
}

/// The call for a place.
unsafe fn raw_place(parts: &[Part]) -> Vec<u64> {
    let [text, node] = parts else {
        panic!("two parts")
    };
    written_fields(ffi::sheet::drumbook_sheet_place(
        text.at,
        text.len,
        node.len as u32,
    ))
}

/// A sheet of any sort, and room about the book's size.
fn any(random: &mut Random) -> Vec<Argument> {
    let text = any_sheet(random);
    let size = sheet::sheet(&text, &mut [0; LONGEST_BOOK]).size as usize;
    let other = random.below(size + 100);
    let room = random.pick(&[size, size, size + 1, size.saturating_sub(1), 0, other]);
    given(&text, room)
}

/// A sheet of any sort, and a node about those that its book has.
fn any_place(random: &mut Random) -> Vec<Argument> {
    let text = any_sheet(random);
    let nodes = sheet::made(&text).map_or(1, |made| made.nodes.len()) as u32;
    let below = random.below(nodes as usize) as u32;
    let any = random.bits() as u32;
    let node = random.pick(&[below, below, below, below, nodes - 1, nodes, any]);
    given_place(&text, node)
}
