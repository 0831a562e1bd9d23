//! Stages: the label that a refusal tells, by the request's own words and by no reader.

use host::answers::*;
use host::book::*;
use host::books::examples::stages;
use host::books::forged::{any_plan, restless_plan};
use host::books::random::Random;
use host::books::runs::{any_run, random_run, Heights};
use host::books::shapes::{any_book, likely_book, with_stages};
use host::calls::read::{given, READ};
use host::compile::plan_of;
use host::ffi::read::read;
use host::pair::Pair;

/// What the library answers to a run, and the tree, with so many slots and so much room.
fn answer(plan: &[u8], run: &[u8], slots: usize, room: usize) -> (Reading, Vec<u16>) {
    let mut held = vec![u32::MAX; slots];
    let mut tree = vec![7; room];
    let reading = read(plan, run, &mut held, &mut tree);
    assert!(held.iter().all(|&slot| slot == 0), "slots are left");
    (reading, tree)
}

/// The plan with each tagged node made a ref, and so with no label at all.
fn untagged(plan: &[u8]) -> Vec<u8> {
    let mut plan = plan.to_vec();
    let rows = usize::from(u16::from_le_bytes([plan[16], plan[17]]));
    for node in plan[PLAN_NODES..rows].chunks_exact_mut(NODE_BYTES) {
        if node[0] == TAGGED as u8 {
            node.copy_from_slice(&[REF as u8, 0, node[2], node[3], 0, 0]);
        }
    }
    plan
}

/// The stages of a book, nested and one after the other: a part's own tag does not count for itself, an outer label
/// counts where no tag is passed, and a walk begins in the stage of its part.
#[test]
fn nested_stages() {
    // 0 to 3 tokens; 4 then 1 2 in stage 5; 6 either of 5 and 3; 7 then 6 0 in stage 8; 9 then 0 8
    let book = Book::ending(
        4,
        &[
            (TOKEN, 0, 0),
            (TOKEN, 1, 0),
            (TOKEN, 2, 0),
            (TOKEN, 3, 0),
            (THEN, 1, 2),
            (TAGGED, 4, 50),
            (EITHER, 5, 3),
            (THEN, 6, 0),
            (TAGGED, 7, 80),
            (THEN, 0, 8),
        ],
    );
    let plan = plan_of(&book);
    for (run, label) in [
        (&[] as &[u8], 0),     // the start is outside all stages
        (&[0], 0),             // node 8 is held, and its own tag does not count for itself
        (&[0, 1], 50),         // node 2 is held in stage 50, within 80
        (&[0, 1, 2], 80),      // node 0 is held in stage 80
        (&[0, 3], 80),         // the same by the other side of the either, where no tag is passed
        (&[0, 1, 2, 0, 1], 0), // nothing is held
    ] {
        let (ended, _) = answer(&plan, run, 3, 20);
        assert_eq!(ended.label, label, "at the end of {run:?}");
        let longer = [run, &[9]].concat();
        let (unknown, _) = answer(&plan, &longer, 3, 20);
        if unknown.number == UNKNOWN {
            assert_eq!(unknown.label, label, "in {longer:?}");
        }
    }
    assert_eq!(answer(&plan, &[0, 1, 2, 0], 3, 20).0.number, DONE);
    assert_eq!(
        answer(&plan, &[0, 1, 2], 1, 20).0.label,
        0,
        "DEEP tells no stage"
    );
}

/// The worked stages, with the largest label.
#[test]
fn largest_label() {
    let mut book = stages();
    book.nodes[4].right = 65_535;
    let (ended, _) = answer(&plan_of(&book), &[0], 2, 0);
    assert_eq!(
        (ended.number, ended.label, ended.expected),
        (END, 65_535, 2)
    );
}

/// Compiled and forged plans against the independent reader; and, by no reader, with all tags made refs the answer is
/// the same but for the label, which is then 0: trees, places and counts stay.
#[test]
fn stages_leave_the_rest() {
    let mut pair = Pair::of(&READ);
    let mut random = Random::new(8);
    let mut labelled = Tally::default();
    for round in 0..300_000 {
        let book = if round % 2 == 0 {
            likely_book(&mut random)
        } else {
            any_book(&mut random)
        };
        let book = with_stages(&mut random, &book);
        let plan = match round % 4 {
            0 | 2 => plan_of(&book),
            1 => any_plan(&mut random, &book),
            _ => restless_plan(&mut random, &book),
        };
        let run = if round % 3 == 0 {
            random_run(&mut random, &book)
        } else {
            any_run(&mut random, &book, &Heights::of(&book))
        };
        let slots = random.pick(&[1, 2, 5, 40]);
        let room = random.pick(&[0, 500]);
        pair.compare(&given(&plan, &run, slots, room));
        let (reading, tree) = answer(&plan, &run, slots, room);
        if matches!(reading.number, PLAN_FORM | CELL) {
            assert_eq!(reading.label, 0);
            continue;
        }
        if reading.label != 0 {
            labelled.count(reading.number);
        }
        let bare = answer(&untagged(&plan), &run, slots, room);
        assert_eq!(
            (
                Reading {
                    label: 0,
                    ..reading
                },
                tree
            ),
            bare,
            "{plan:?} {run:?}"
        );
    }
    assert!(pair.tally.total() > 100_000);
    let met = [
        DONE, PLAN_FORM, CELL, DEEP, UNKNOWN, UNEXPECTED, END, RUNAWAY, NO_ROOM,
    ];
    pair.tally.expect(&met, 500);
    labelled.expect(&[UNKNOWN, UNEXPECTED, END], 1_000);
}
