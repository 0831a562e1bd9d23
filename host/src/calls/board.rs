//! The drum board.

use super::lender::Part;
use super::sorts::{DRUMS, DRUM_NUMBER, KIND, PLAN};
use super::{Answer, Argument, Call, Left, Made};
use crate::answers::*;
use crate::board::{self, Drum, Reading, MOST_DRUMS};
use crate::book::Book;
use crate::books::drums::{any_drums, any_due_plan};
use crate::books::examples::{nesting, rinse};
use crate::books::loose::good_book;
use crate::books::random::Random;
use crate::due::due_plan;
use crate::ffi;

/// The fields of an answer.
const FIELDS: &[&str] = &["number", "place", "records", "label", "expected"];

/// The row of opening a drum.
pub static OPEN: Call = Call {
    name: "open",
    takes: &[&PLAN, &DRUMS, &DRUM_NUMBER],
    fields: FIELDS,
    answers: &[
        (DONE, 40_000),
        (PLAN_FORM, 2_500),
        (CELL, 1_500),
        (NO_DRUM, 10_000),
    ],
    share: 20,
    done: DONE,
    wanted: |arguments| {
        wanted(arguments, |plan, drums, drum, _| {
            board::open(plan, drums, drum)
        })
    },
    made: Made::Archive(|parts| unsafe {
        let ([plan, drums, drum], _) = taken_apart(parts);
        let at = drums.at.cast();
        fields(ffi::board::drumbook_open(
            plan.at,
            plan.len,
            at,
            drums.len,
            drum.len as u32,
        ))
    }),
    example: || given(&due_plan(&rinse()), &example(), 1, None),
    any: |random| any(random, false),
};

/// The row of giving a drum an event.
pub static EVENT: Call = Call {
    name: "event",
    takes: &[&PLAN, &DRUMS, &DRUM_NUMBER, &KIND],
    fields: FIELDS,
    answers: &[
        (DONE, 8_000),
        (PLAN_FORM, 2_500),
        (CELL, 1_500),
        (LONG, 400),
        (DEEP, 300),
        (UNKNOWN, 2_000),
        (UNEXPECTED, 5_000),
        (RUNAWAY, 200),
        (NO_DRUM, 10_000),
        (IDLE, 8_000),
        (STALE, 3_000),
    ],
    share: 80,
    done: DONE,
    wanted: |arguments| wanted(arguments, board::event),
    made: Made::Archive(|parts| unsafe {
        let ([plan, drums, drum], kind) = taken_apart(parts);
        let (drum, kind) = (drum.len as u32, kind.expect("a kind").len as u8);
        let at = drums.at.cast();
        fields(ffi::board::drumbook_event(
            plan.at, plan.len, at, drums.len, drum, kind,
        ))
    }),
    example: || given(&due_plan(&rinse()), &example(), 1, Some(1)),
    any: |random| any(random, true),
};

/// The row of closing a drum.
pub static CLOSE: Call = Call {
    name: "close",
    takes: &[&PLAN, &DRUMS, &DRUM_NUMBER],
    fields: FIELDS,
    answers: &[
        (DONE, 5_000),
        (PLAN_FORM, 2_500),
        (CELL, 1_500),
        (END, 8_000),
        (NO_DRUM, 10_000),
        (IDLE, 8_000),
        (STALE, 3_000),
    ],
    share: 40,
    done: DONE,
    wanted: |arguments| {
        wanted(arguments, |plan, drums, drum, _| {
            board::close(plan, drums, drum)
        })
    },
    made: Made::Archive(|parts| unsafe {
        let ([plan, drums, drum], _) = taken_apart(parts);
        let at = drums.at.cast();
        fields(ffi::board::drumbook_close(
            plan.at,
            plan.len,
            at,
            drums.len,
            drum.len as u32,
        ))
    }),
    example: || {
        let mut drums = example();
        board::event(&due_plan(&rinse()), &mut drums, 1, 2);
        given(&due_plan(&rinse()), &drums, 1, None)
    },
    any: |random| any(random, false),
};

/// Two drums under the rinse plan, of which the second has taken fill.
fn example() -> Vec<Drum> {
    let mut drums = vec![Drum::IDLE; 2];
    board::open(&due_plan(&rinse()), &mut drums, 1);
    board::event(&due_plan(&rinse()), &mut drums, 1, 0);
    drums
}

/// The arguments of a call: a plan, a list of drums, a drum's number, and for an event its kind.
pub fn given(plan: &[u8], drums: &[Drum], drum: u32, kind: Option<u8>) -> Vec<Argument> {
    let mut arguments = vec![
        Argument::Given(plan.to_vec()),
        Argument::Drums(drums.to_vec()),
        Argument::Number(drum),
    ];
    arguments.extend(kind.map(|kind| Argument::Number(kind.into())));
    arguments
}

/// What a call must answer and leave behind.
fn wanted(arguments: &[Argument], call: fn(&[u8], &mut [Drum], u32, u8) -> Reading) -> Answer {
    let mut drums = arguments[1].drums().to_vec();
    let kind = arguments.get(3).map_or(0, Argument::number) as u8;
    let reading = call(
        arguments[0].bytes(),
        &mut drums,
        arguments[2].number(),
        kind,
    );
    Answer::new(fields(reading), vec![Left::Drums(drums)])
}

/// The parts of a call: plan, drums and number, and perhaps a kind.
fn taken_apart(parts: &[Part]) -> ([Part; 3], Option<Part>) {
    let first = parts[..3].try_into().expect("three parts");
    (first, parts.get(3).copied())
}

/// The values of an answer's fields.
fn fields(reading: Reading) -> Vec<u64> {
    let Reading {
        number,
        place,
        records,
        label,
        expected,
    } = reading;
    let narrow = [number, place, records, label].map(u64::from);
    [&narrow[..], &[expected]].concat()
}

/// A plan, a list of drums that stand anyhow under it, a drum, mostly one that is open, and for an event its kind.
fn any(random: &mut Random, with_kind: bool) -> Vec<Argument> {
    let book = match random.below(6) {
        0 => nesting(),
        _ => good_book(random),
    };
    let plan = any_due_plan(random, &book);
    let drums = any_drums(random, &book, &plan);
    let plan = match random.below(12) {
        0 => any_due_plan(random, &book),
        1 => {
            let other = good_book(random);
            any_due_plan(random, &other)
        }
        _ => plan,
    };
    let kind = with_kind.then(|| any_kind(random, &book));
    given(&plan, &drums, any_number(random, &drums), kind)
}

/// A drum's number: mostly of one that is open, or any of the list, at its end, or beyond.
fn any_number(random: &mut Random, drums: &[Drum]) -> u32 {
    let open: Vec<u32> = (0..drums.len() as u32)
        .filter(|&number| number < MOST_DRUMS && drums[number as usize] != Drum::IDLE)
        .collect();
    let count = drums.len() as u32;
    let any = random.bits() as u32;
    match random.below(8) {
        0 => random.pick(&[count, count.saturating_sub(1), 31, 32, 33, any, u32::MAX]),
        1 => random.below(drums.len() + 2) as u32,
        _ if open.is_empty() => random.below(drums.len() + 1) as u32,
        _ => random.pick(&open),
    }
}

/// A kind of a book, now and then one that it does not have.
fn any_kind(random: &mut Random, book: &Book) -> u8 {
    let below = random.below(usize::from(book.kinds)) as u8;
    match random.below(12) {
        0 => random.pick(&[book.kinds as u8, 64, 255]),
        _ => below,
    }
}
