//! The moves between the two forms of a book.

use super::lender::Part;
use super::sorts::{BOOK, HOUSE, OUT};
use super::{Answer, Argument, Call, Left, Made};
use crate::answers::*;
use crate::book::LONGEST_BOOK;
use crate::books::examples::rinse;
use crate::books::loose::{any_bytes, good_book};
use crate::books::named::{any_house, any_names, book_of_the_house, named_book};
use crate::books::random::Random;
use crate::ffi;
use crate::moves;
use crate::names::{bytes_of_names, HOUSE_NAMES};

/// What a move takes.
const TAKES: &[&super::sorts::Sort] = &[&BOOK, &HOUSE, &OUT];

/// The fields of a call that writes bytes.
pub const WRITTEN_FIELDS: &[&str] = &["number", "size", "place"];

/// The row of the move forward.
pub static FORWARD: Call = Call {
    name: "forward",
    takes: TAKES,
    fields: WRITTEN_FIELDS,
    answers: &[
        (DONE, 10_000),
        (LENGTH, 4_000),
        (CONTENTS, 4_000),
        (SETTINGS, 300),
        (NODE, 1_500),
        (NAMES, 4_000),
        (OUT_ROOM, 4_000),
    ],
    share: 30,
    done: DONE,
    wanted: |arguments| wanted(moves::forward, arguments),
    made: Made::Archive(|parts| unsafe { raw(ffi::moves::drumbook_forward, parts) }),
    example: || given(&rinse().bytes(), &plain_house(), 200),
    any: any_forward,
};

/// The row of the move back.
pub static BACK: Call = Call {
    name: "back",
    takes: TAKES,
    fields: WRITTEN_FIELDS,
    answers: &[
        (DONE, 8_000),
        (LENGTH, 2_000),
        (CONTENTS, 4_000),
        (SETTINGS, 10),
        (NODE, 250),
        (NAMES, 4_000),
        (KEPT, 4_000),
        (OUT_ROOM, 4_000),
    ],
    share: 30,
    done: DONE,
    wanted: |arguments| wanted(moves::back, arguments),
    made: Made::Archive(|parts| unsafe { raw(ffi::moves::drumbook_back, parts) }),
    example: || {
        let book = rinse();
        let names = plain_names();
        given(&book.named_bytes(&names[..3]), &plain_house(), 100)
    },
    any: any_back,
};

/// The names `a0` to `a63`.
pub fn plain_names() -> Vec<Vec<u8>> {
    let name = |number: usize| format!("a{number}").into_bytes();
    (0..HOUSE_NAMES).map(name).collect()
}

/// The house list of those names.
pub fn plain_house() -> Vec<u8> {
    bytes_of_names(&plain_names())
}

/// The arguments of a move: a book, a house list, and the length of the buffer.
pub fn given(book: &[u8], house: &[u8], room: usize) -> Vec<Argument> {
    vec![
        Argument::Given(book.to_vec()),
        Argument::Given(house.to_vec()),
        Argument::Room(room),
    ]
}

/// What a move must answer and leave behind.
fn wanted(move_book: fn(&[u8], &[u8], &mut [u8]) -> Written, arguments: &[Argument]) -> Answer {
    let mut out = vec![0xA5; arguments[2].room()];
    let written = move_book(arguments[0].bytes(), arguments[1].bytes(), &mut out);
    Answer::new(written_fields(written), vec![Left::Bytes(out)])
}

/// A move of the archive as C has it.
type Move = unsafe extern "C" fn(*const u8, usize, *const u8, usize, *mut u8, usize) -> Written;

/// The call on parts of memory.
unsafe fn raw(move_book: Move, parts: &[Part]) -> Vec<u64> {
    let [book, house, out] = parts else {
        panic!("three parts")
    };
    written_fields(move_book(
        book.at, book.len, house.at, house.len, out.at, out.len,
    ))
}

/// The values of an answer's fields.
pub fn written_fields(written: Written) -> Vec<u64> {
    let Written {
        number,
        size,
        place,
    } = written;
    vec![number.into(), size.into(), place]
}

/// A book of any sort with a house list, and room about the size.
fn any_forward(random: &mut Random) -> Vec<Argument> {
    let book = if random.once_in(2) {
        good_book(random).bytes()
    } else {
        any_book_bytes(random)
    };
    let house = any_house(random);
    let room = any_room(random, moves::forward, &book, &house);
    given(&book, &house, room)
}

/// A book with names, mostly those of the house, with a house list, and room about the size.
fn any_back(random: &mut Random) -> Vec<Argument> {
    let (book, mut house) = if random.once_in(3) {
        (any_book_bytes(random), any_house(random))
    } else {
        let book = good_book(random);
        book_of_the_house(random, &book)
    };
    if random.once_in(8) {
        house = any_house(random);
    }
    let room = any_room(random, moves::back, &book, &house);
    given(&book, &house, room)
}

/// Bytes given as a book, of either form.
fn any_book_bytes(random: &mut Random) -> Vec<u8> {
    if random.once_in(2) {
        named_book(random)
    } else {
        any_bytes(random)
    }
}

/// Room about the size that a move takes.
fn any_room(
    random: &mut Random,
    move_book: fn(&[u8], &[u8], &mut [u8]) -> Written,
    book: &[u8],
    house: &[u8],
) -> usize {
    let size = move_book(book, house, &mut [0; LONGEST_BOOK]).size as usize;
    let other = random.below(size + 100);
    random.pick(&[size, size, size + 1, size.saturating_sub(1), 0, other])
}

/// Names for a book's kinds.
pub fn names_for(random: &mut Random, kinds: u16) -> Vec<Vec<u8>> {
    any_names(random, usize::from(kinds))
}
