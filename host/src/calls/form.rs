//! The form test.

use super::lender::Part;
use super::sorts::BOOK;
use super::{Answer, Argument, Call, Made};
use crate::answers::*;
use crate::books::examples::rinse;
use crate::books::loose::any_bytes;
use crate::ffi;
use crate::form;

/// The form test's row.
pub static FORM: Call = Call {
    name: "form",
    takes: &[&BOOK],
    fields: &["number", "place"],
    answers: &[
        (DONE, 20_000),
        (LENGTH, 10_000),
        (CONTENTS, 8_000),
        (SETTINGS, 2_000),
        (NODE, 6_000),
        (NAMES, 2_000),
    ],
    share: 80,
    done: DONE,
    wanted: |arguments| Answer::new(fields(form::form(arguments[0].bytes())), vec![]),
    made: Made::Archive(raw),
    example: || given(&rinse().bytes()),
    any: |random| given(&any_bytes(random)),
};

/// The arguments of a form test.
pub fn given(book: &[u8]) -> Vec<Argument> {
    vec![Argument::Given(book.to_vec())]
}

/// The call on parts of memory.
unsafe fn raw(parts: &[Part]) -> Vec<u64> {
    let [book] = parts else { panic!("one part") };
    fields(ffi::form::drumbook_form(book.at, book.len))
}

/// The values of an answer's fields.
fn fields(formed: Formed) -> Vec<u64> {
    vec![formed.number.into(), formed.place.into()]
}
