//! More slots, more tree room and more events: what a reading on a bigger board comes to, by the request's own words and by no reader.

use host::answers::*;
use host::book::Book;
use host::books::forged::{any_plan, restless_plan};
use host::books::random::Random;
use host::books::runs::{any_run, random_run, Heights};
use host::books::shapes::{any_book, likely_book};
use host::compile::plan_of;
use host::ffi::read::read;
use host::read::MOST_EVENTS;

/// A reading: its answer, and what it leaves of slots and tree.
#[derive(Clone, Debug, PartialEq)]
struct Left {
    answer: Reading,
    held: Vec<u32>,
    tree: Vec<u16>,
}

/// What the library answers and leaves, of buffers that are not zero before.
fn reading(plan: &[u8], run: &[u8], slots: usize, room: usize) -> Left {
    let mut left = Left {
        answer: Reading {
            number: 0,
            place: 0,
            records: 0,
            label: 0,
            expected: 0,
        },
        held: vec![7; slots],
        tree: vec![7; room],
    };
    left.answer = read(plan, run, &mut left.held, &mut left.tree);
    left
}

/// What the request says of a reading on a bigger board, of a run with these events after it: the answer it must give, if it says one.
fn wanted(
    before: &Left,
    events: usize,
    more_slots: bool,
    room: usize,
    longer: usize,
) -> Option<Left> {
    let mut left = before.clone();
    left.tree.resize(room, 0);
    let answer = &mut left.answer;
    match answer.number {
        DEEP if more_slots => return None,
        UNKNOWN | UNEXPECTED | RUNAWAY | DEEP | PLAN_FORM | CELL => {}
        _ if longer > 0 => return None,
        NO_ROOM if answer.records as usize <= room => {
            answer.number = DONE;
            answer.place = events as u32;
        }
        _ => {}
    }
    Some(left)
}

/// Reads again on bigger boards, and compares; counts what was compared by the answer before.
fn compare(tally: &mut Tally, random: &mut Random, plan: &[u8], run: &[u8]) {
    let slots = random.below(6);
    let room = random.below(40);
    let before = reading(plan, run, slots, room);
    let slots_more = random.pick(&[0, 0, 1, 3, 60]);
    let room_more = room + random.pick(&[0, 1, 7, 300]);
    let after: Vec<u8> = (0..random.pick(&[0, 0, 1, 5]))
        .map(|_| random.below(70) as u8)
        .collect();
    let longer = [run, &after].concat();
    if longer.len() > MOST_EVENTS {
        return;
    }
    let Some(mut wanted) = wanted(&before, run.len(), slots_more > 0, room_more, after.len())
    else {
        return;
    };
    wanted.held.resize(slots + slots_more, 0);
    let given = reading(plan, &longer, slots + slots_more, room_more);
    let was_full = before.answer.number == NO_ROOM && given.answer.number == DONE;
    if was_full {
        // the tree that had no room: as many records as were counted, then zeros; the records are those of one more reading
        let again = reading(plan, run, slots, before.answer.records as usize);
        assert_eq!(again.answer, given.answer);
        wanted.tree = again.tree;
        wanted.tree.resize(room_more, 0);
    }
    assert_eq!(
        given, wanted,
        "{plan:?} {run:?} {after:?}, {slots} and {slots_more} slots, room {room} and {room_more}"
    );
    tally.count(before.answer.number);
}

/// A plan, compiled or forged, and a run for it.
fn case(random: &mut Random, round: usize) -> (Vec<u8>, Vec<u8>) {
    let book: Book = if round % 2 == 0 {
        likely_book(random)
    } else {
        any_book(random)
    };
    let plan = match round % 4 {
        0 | 2 => plan_of(&book),
        1 => any_plan(random, &book),
        _ => restless_plan(random, &book),
    };
    let run = if round % 3 == 0 {
        random_run(random, &book)
    } else {
        any_run(random, &book, &Heights::of(&book))
    };
    (plan, run)
}

/// Compiled and forged plans, with lawful, spoilt and strange runs.
#[test]
fn bigger_boards() {
    let mut tally = Tally::default();
    let mut random = Random::new(12);
    for round in 0..300_000 {
        let (plan, run) = case(&mut random, round);
        compare(&mut tally, &mut random, &plan, &run);
    }
    assert!(tally.total() > 100_000);
    tally.expect(
        &[
            DONE, PLAN_FORM, CELL, DEEP, UNKNOWN, UNEXPECTED, END, NO_ROOM,
        ],
        2_000,
    );
    tally.expect(&[RUNAWAY], 500);
}
