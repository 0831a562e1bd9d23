//! The parts that a book's readings hold, and a controller's slots.

use super::lender::Part;
use super::sorts::{BOOK, SLOT_COUNT};
use super::{Answer, Argument, Call, Made};
use crate::answers::*;
use crate::books::examples::rinse;
use crate::books::loose::any_bytes;
use crate::books::random::Random;
use crate::books::shapes::likely_book;
use crate::depth;
use crate::ffi;

const FIELDS: &[&str] = &["number", "place", "held"];

/// The row of the greatest number of parts held.
pub static GREATEST: Call = Call {
    name: "greatest",
    takes: &[&BOOK],
    fields: FIELDS,
    answers: &[
        (DONE, 20_000),
        (LENGTH, 4_000),
        (CONTENTS, 3_000),
        (SETTINGS, 800),
        (NODE, 2_000),
        (BARREN, 1_000),
        (CONFLICT, 5_000),
        (NAMES, 800),
        (UNUSED, 2_000),
        (UNBOUNDED, 1_500),
    ],
    share: 40,
    done: DONE,
    wanted: |arguments| Answer::new(fields(depth::greatest(arguments[0].bytes())), vec![]),
    made: Made::Archive(raw),
    example: || vec![Argument::Given(rinse().bytes())],
    any: |random| vec![Argument::Given(any(random))],
};

/// The row of a controller's slots.
pub static PROFILE: Call = Call {
    name: "profile",
    takes: &[&BOOK, &SLOT_COUNT],
    fields: FIELDS,
    answers: &[
        (DONE, 8_000),
        (LENGTH, 2_000),
        (CONTENTS, 2_000),
        (SETTINGS, 500),
        (NODE, 1_000),
        (BARREN, 500),
        (CONFLICT, 2_500),
        (NAMES, 500),
        (UNUSED, 1_000),
        (UNBOUNDED, 800),
        (DEEPER, 2_000),
        (SLOTS, 10_000),
    ],
    share: 40,
    done: DONE,
    wanted: |arguments| {
        let depth = depth::profile(arguments[0].bytes(), arguments[1].number());
        Answer::new(fields(depth), vec![])
    },
    made: Made::Archive(raw_profile),
    example: || given(&rinse().bytes(), 2),
    any: any_profile,
};

/// The arguments of a profile: a book and slots.
pub fn given(book: &[u8], slots: u32) -> Vec<Argument> {
    vec![Argument::Given(book.to_vec()), Argument::Number(slots)]
}

/// The call on parts of memory.
unsafe fn raw(parts: &[Part]) -> Vec<u64> {
    let [book] = parts else { panic!("one part") };
    fields(ffi::depth::drumbook_greatest(book.at, book.len))
}

/// The call for a controller.
unsafe fn raw_profile(parts: &[Part]) -> Vec<u64> {
    let [book, slots] = parts else {
        panic!("two parts")
    };
    fields(ffi::depth::drumbook_profile(
        book.at,
        book.len,
        slots.len as u32,
    ))
}

/// The values of an answer's fields.
fn fields(depth: Depth) -> Vec<u64> {
    let Depth {
        number,
        place,
        held,
    } = depth;
    vec![number.into(), place.into(), held.into()]
}

/// A book of any sort, or one that is likely to pass.
fn any(random: &mut Random) -> Vec<u8> {
    if random.once_in(2) {
        likely_book(random).bytes()
    } else {
        any_bytes(random)
    }
}

/// Such a book, and slots about as many as it needs, or any.
fn any_profile(random: &mut Random) -> Vec<Argument> {
    let book = any(random);
    let held = depth::greatest(&book).held.max(1);
    let fewer = 1 + random.below(held as usize) as u32 * (held - 1) / held;
    let other = random.below(70) as u32;
    let any = random.bits() as u32;
    let slots = random.pick(&[
        held,
        held,
        fewer,
        fewer,
        fewer,
        held + 1,
        0,
        64,
        65,
        other,
        any,
    ]);
    given(&book, slots)
}
