//! The listing program.

use super::sorts::INPUT;
use super::{Answer, Argument, Call, Left, Made};
use crate::answers::*;
use crate::books::examples::rinse;
use crate::books::inputs::any_input;
use crate::listing;
use crate::program::{Printed, Program};

/// The listing program's row; it is slow to start, so the fuzzer seldom does.
pub static LISTING: Call = Call {
    name: "listing",
    takes: &[&INPUT],
    fields: &["number", "status"],
    answers: &[
        (DONE, 6_000),
        (LENGTH, 6_000),
        (CONTENTS, 3_000),
        (SETTINGS, 400),
        (NODE, 3_000),
        (BARREN, 3_000),
        (CONFLICT, 5_000),
        (DEEP, 600),
        (UNKNOWN, 1_500),
        (UNEXPECTED, 7_000),
        (END, 1_000),
        (NO_ROOM, 100),
        (NAMES, 300),
        (UNUSED, 3_000),
        (INPUT_TOO_LONG, 3_000),
        (INPUT_TOO_SHORT, 4_000),
    ],
    share: 5,
    done: DONE,
    wanted: |arguments| {
        answer(Printed {
            output: listing::listing(arguments[0].bytes()).into_bytes(),
            status: Some(0),
        })
    },
    made: Made::Program(|arguments, lending| {
        answer(Program::under_test().run(arguments[0].bytes(), lending.delivery))
    }),
    example: || given(&listing::input(&rinse().bytes(), &[0, 1, 2])),
    any: |random| given(&any_input(random)),
};

/// The arguments of the program: its input.
pub fn given(input: &[u8]) -> Vec<Argument> {
    vec![Argument::Given(input.to_vec())]
}

/// What was printed, as an answer; a signal counts as a status beyond all others.
fn answer(printed: Printed) -> Answer {
    let status = printed.status.map_or(u64::MAX, |status| status as u64);
    let number = printed.number().into();
    Answer::new(vec![number, status], vec![Left::Bytes(printed.output)])
}
