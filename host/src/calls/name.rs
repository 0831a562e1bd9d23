//! The look-up of a kind's name.

use super::lender::Part;
use super::moves::{plain_house, plain_names};
use super::sorts::{BOOK, HOUSE, KIND};
use super::{Answer, Argument, Call, Made};
use crate::answers;
use crate::book::{Book, MOST_KINDS};
use crate::books::examples::rinse;
use crate::books::loose::{any_bytes, good_book};
use crate::books::named::{any_house, named_book};
use crate::books::random::Random;
use crate::ffi;
use crate::form::form;
use crate::moves;

/// The name is nowhere, in the book, in the house list.
pub const NOWHERE: u32 = 0;
pub const IN_THE_BOOK: u32 = 1;
pub const IN_THE_HOUSE: u32 = 2;

/// The look-up's row.
pub static NAME: Call = Call {
    name: "name",
    takes: &[&BOOK, &HOUSE, &KIND],
    fields: &["from", "offset", "size"],
    answers: &[
        (NOWHERE, 10_000),
        (IN_THE_BOOK, 10_000),
        (IN_THE_HOUSE, 10_000),
    ],
    share: 30,
    done: IN_THE_BOOK,
    wanted: |arguments| {
        let [book, house, kind] = arguments else {
            panic!("three arguments")
        };
        Answer::new(
            fields(moves::name(book.bytes(), house.bytes(), kind.number())),
            vec![],
        )
    },
    made: Made::Archive(raw),
    example: || given(&rinse().named_bytes(&plain_names()[..3]), &plain_house(), 2),
    any,
};

/// The arguments of a look-up: a book, a house list and a kind.
pub fn given(book: &[u8], house: &[u8], kind: u32) -> Vec<Argument> {
    vec![
        Argument::Given(book.to_vec()),
        Argument::Given(house.to_vec()),
        Argument::Number(kind),
    ]
}

/// The call on parts of memory.
unsafe fn raw(parts: &[Part]) -> Vec<u64> {
    let [book, house, kind] = parts else {
        panic!("three parts")
    };
    let kind = kind.len as u32;
    fields(ffi::moves::drumbook_name(
        book.at, book.len, house.at, house.len, kind,
    ))
}

/// The values of an answer's fields.
fn fields(part: answers::Part) -> Vec<u64> {
    [part.from, part.offset, part.size].map(u64::from).to_vec()
}

/// A book of either form with a house list, and a kind about those that it has.
fn any(random: &mut Random) -> Vec<Argument> {
    let book = match random.below(5) {
        0 | 1 => named_book(random),
        2 | 3 => good_book(random).bytes(),
        _ => any_bytes(random),
    };
    let kinds = match form(&book).number {
        answers::DONE => usize::from(Book::of_bytes(&book).kinds),
        _ => MOST_KINDS,
    };
    let below = random.below(kinds) as u32;
    let any = random.bits() as u32;
    let kind = random.pick(&[
        below,
        below,
        below,
        below,
        kinds as u32 - 1,
        kinds as u32,
        any,
    ]);
    given(&book, &any_house(random), kind)
}
