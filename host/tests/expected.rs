//! What was expected: the kinds that a refusal tells, by the request's own words and by no reader.

use host::answers::*;
use host::book::*;
use host::books::examples::rinse;
use host::books::forged::{any_plan, restless_plan};
use host::books::random::Random;
use host::books::runs::{any_run, random_run, Heights};
use host::books::shapes::{any_book, likely_book};
use host::calls::read::{given, READ};
use host::compile::plan_of;
use host::ffi::read::read;
use host::pair::Pair;
use host::read::written_over;

/// What the library answers to a run with so many slots and no tree.
fn answer(plan: &[u8], run: &[u8], slots: usize) -> Reading {
    read(plan, run, &mut vec![7; slots], &mut [])
}

/// The rinse book after fill, rinse: rinse and tip are both lawful; and at every other place of its shortest run.
#[test]
fn rinse_book() {
    let plan = plan_of(&rinse());
    let (fill, rinses, tip) = (1, 2, 4);
    for (run, expected) in [
        (&[] as &[u8], fill),
        (&[0], rinses | tip),
        (&[0, 1], rinses | tip),
        (&[0, 1, 1], rinses | tip),
    ] {
        assert_eq!(
            answer(&plan, run, 2).expected,
            expected,
            "at the end of {run:?}"
        );
        for refused in [0, 3, 255] {
            let longer = [run, &[refused]].concat();
            if refused != 0 || !run.is_empty() {
                assert_eq!(
                    answer(&plan, &longer, 2).expected,
                    expected,
                    "in {longer:?}"
                );
            }
        }
    }
    assert_eq!(answer(&plan, &[0, 2, 1], 2).expected, 0);
}

/// A run refused at an event tells what it tells at its end when it is cut before that event: on compiled and forged plans, also where a walk
/// has held parts in the place of those taken off. The independent reader says the same.
#[test]
fn as_at_the_end_before() {
    let mut pair = Pair::of(&READ);
    let mut random = Random::new(21);
    let (mut ended, mut over) = (0, 0);
    for round in 0..400_000 {
        let book: Book = if round % 2 == 0 {
            likely_book(&mut random)
        } else {
            any_book(&mut random)
        };
        let plan = match round % 4 {
            0 => plan_of(&book),
            3 => restless_plan(&mut random, &book),
            _ => any_plan(&mut random, &book),
        };
        let run = if round % 3 == 0 {
            random_run(&mut random, &book)
        } else {
            any_run(&mut random, &book, &Heights::of(&book))
        };
        let slots = random.pick(&[2, 5, 40]);
        let room = random.pick(&[0, 500]);
        pair.compare(&given(&plan, &run, slots, room));
        let refused = answer(&plan, &run, slots);
        if !matches!(refused.number, UNKNOWN | UNEXPECTED) {
            continue;
        }
        let before = answer(&plan, &run[..refused.place as usize], slots);
        if before.number == END {
            ended += 1;
            over += usize::from(written_over(&plan, &run, slots));
            assert_eq!(refused.expected, before.expected, "{plan:?} {run:?}");
        }
    }
    assert!(pair.tally.total() > 100_000);
    let met = [
        DONE, PLAN_FORM, CELL, DEEP, UNKNOWN, UNEXPECTED, END, RUNAWAY, NO_ROOM,
    ];
    pair.tally.expect(&met, 500);
    assert!(
        ended > 50_000,
        "{ended} runs refused where the run before ended too early"
    );
    assert!(
        over > 1_000,
        "{over} of them in a walk that had held parts over others"
    );
}

/// A zero in a walk that has held parts in the slots of three others, two of them passed: all three are told.
#[test]
fn three_parts_written_over() {
    let book = Book::ending(
        4,
        &[
            (TOKEN, 0, 0),
            (TOKEN, 1, 0),
            (TOKEN, 2, 0),
            (EMPTY, 0, 0),
            (TOKEN, 3, 0),
            (EITHER, 1, 3),
            (EITHER, 2, 3),
            (THEN, 4, 4),
            (THEN, 7, 4),
            (THEN, 8, 4),
            (THEN, 0, 6),
            (THEN, 10, 5),
            (THEN, 11, 9),
        ],
    );
    let mut plan = plan_of(&book);
    let zero = PLAN_NODES + NODE_BYTES * book.nodes.len() + 5 * 4 + 3;
    assert_eq!(plan[zero], 1, "node 4 takes kind 3");
    plan[zero] = 0;
    let run = [0, 3];
    assert!(written_over(&plan, &run, 3));
    let refused = answer(&plan, &run, 3);
    assert_eq!((refused.number, refused.place), (UNEXPECTED, 1));
    assert_eq!(refused.expected, 1 << 1 | 1 << 2 | 1 << 3);
}
