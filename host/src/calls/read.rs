//! The reader.

use super::lender::Part;
use super::sorts::{PLAN, RUN, SLOTS, TREE_BUFFER};
use super::{Answer, Argument, Call, Left, Made};
use crate::answers::*;
use crate::books::damaged::damaged;
use crate::books::examples::rinse;
use crate::books::forged::{any_circle, any_plan, restless_plan};
use crate::books::limits::long_run;
use crate::books::loose::{any_bytes, beyond_limits, good_book};
use crate::books::random::Random;
use crate::books::runs::{any_run, Heights};
use crate::books::shapes::with_stages;
use crate::compile::plan_of;
use crate::ffi;
use crate::read;

/// The reader's row.
pub static READ: Call = Call {
    name: "read",
    takes: &[&PLAN, &RUN, &SLOTS, &TREE_BUFFER],
    fields: &["number", "place", "records", "label", "expected"],
    answers: &[
        (DONE, 7_000),
        (PLAN_FORM, 10_000),
        (CELL, 2_500),
        (LONG, 60),
        (DEEP, 3_000),
        (UNKNOWN, 2_500),
        (UNEXPECTED, 12_000),
        (END, 3_000),
        (RUNAWAY, 1_500),
        (NO_ROOM, 3_000),
    ],
    share: 175,
    done: DONE,
    wanted,
    made: Made::Archive(raw),
    example: || given(&plan_of(&rinse()), &[0, 1, 2], 2, 8),
    any,
};

/// The arguments of a reading: a plan, a run, how many slots, and room for how many records.
pub fn given(plan: &[u8], run: &[u8], slots: usize, room: usize) -> Vec<Argument> {
    vec![
        Argument::Given(plan.to_vec()),
        Argument::Given(run.to_vec()),
        Argument::Room(slots),
        Argument::Room(room),
    ]
}

/// What the reader must answer and leave behind.
fn wanted(arguments: &[Argument]) -> Answer {
    let [plan, run, slots, room] = arguments else {
        panic!("four arguments")
    };
    let mut held = vec![0xA5A5_A5A5; slots.room()];
    let mut tree = vec![0xA5A5; room.room()];
    let reading = read::read(plan.bytes(), run.bytes(), &mut held, &mut tree);
    Answer::new(fields(reading), vec![Left::Slots(held), Left::Words(tree)])
}

/// The call on parts of memory.
unsafe fn raw(parts: &[Part]) -> Vec<u64> {
    let [plan, run, held, tree] = parts else {
        panic!("four parts")
    };
    fields(ffi::read::drumbook_read(
        plan.at,
        plan.len,
        run.at,
        run.len,
        held.at.cast(),
        held.len,
        tree.at.cast(),
        tree.len,
    ))
}

/// The values of an answer's fields.
fn fields(reading: Reading) -> Vec<u64> {
    let Reading {
        number,
        place,
        records,
        label,
        expected,
    } = reading;
    vec![
        number.into(),
        place.into(),
        records.into(),
        label.into(),
        expected,
    ]
}

/// A plan, a run for it, and buffers about the size that it needs.
fn any(random: &mut Random) -> Vec<Argument> {
    let (plan, run) = match random.below(100) {
        0 => {
            let (book, run) = long_run(random, read::MOST_EVENTS);
            (plan_of(&book), run)
        }
        1..=4 => (any_circle(random), vec![0; random.below(3)]),
        _ => any_plan_and_run(random),
    };
    let (slots, room) = any_buffers(random, &plan, &run);
    given(&plan, &run, slots, room)
}

/// A plan, compiled, forged, bit-flipped or of no form, and a run for it.
fn any_plan_and_run(random: &mut Random) -> (Vec<u8>, Vec<u8>) {
    let mut book = good_book(random);
    if random.once_in(3) {
        book = with_stages(random, &book);
    }
    let mut plan = match random.below(10) {
        0..=2 => plan_of(&book),
        3..=6 => any_plan(random, &book),
        7 | 8 => restless_plan(random, &book),
        _ if random.once_in(2) => plan_beyond_limits(random),
        _ => any_bytes(random),
    };
    if random.once_in(6) {
        plan = damaged(random, &plan);
    }
    let run = any_run(random, &book, &Heights::of(&book));
    (plan, run)
}

/// A plan right but for its size or settings, of nodes that take no event.
fn plan_beyond_limits(random: &mut Random) -> Vec<u8> {
    let book = beyond_limits(random);
    book.plan(&vec![0; book.nodes.len() * (usize::from(book.kinds) + 1)])
}

/// A number of slots, and room about the size of the tree.
fn any_buffers(random: &mut Random, plan: &[u8], run: &[u8]) -> (usize, usize) {
    let few = random.below(6);
    let slots = random.pick(&[few, few, 40, 512, run.len() + 1]);
    let records = read::read(plan, run, &mut vec![0; slots], &mut []).records as usize;
    let more = records + random.below(40);
    let room = random.pick(&[records, records, records.saturating_sub(1), more, few]);
    (slots, room)
}
