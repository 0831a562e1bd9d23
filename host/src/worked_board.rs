//! The worked drums: calls of the board by hand, each checked against any implementation.

use crate::answers::*;
use crate::board::{Drum, Reading};
use crate::book::*;
use crate::books::examples::rinse;
use crate::due::due_plan;

/// A call of the board.
#[derive(Clone, Copy, Debug, PartialEq, Eq)]
pub enum Asked {
    Open,
    Event(u8),
    Close,
}
use Asked::{Close, Event, Open};

/// A board: what it answers to a call on a drum by a plan.
pub type Ask = fn(&[u8], &mut [Drum], u32, Asked) -> Reading;

/// An answer in short: number, place, records, label, expected.
pub fn told(reading: Reading) -> (u32, u32, u32, u32, u64) {
    let Reading {
        number,
        place,
        records,
        label,
        expected,
    } = reading;
    (number, place, records, label, expected)
}

/// A drum's run on the rinse plan, by hand.
pub fn worked_drum(ask: Ask) {
    let plan = due_plan(&rinse());
    assert_eq!(plan.len(), 138);
    let mut drums = [Drum::IDLE; 2];
    let mut ask = |asked| (told(ask(&plan, &mut drums, 1, asked)), drums[1], drums[0]);
    let drum = |slots: &[u32], events, records, due| {
        let mut drum = Drum::IDLE;
        drum.slots[..slots.len()].copy_from_slice(slots);
        drum.held = slots.len() as u32;
        (drum.events, drum.records, drum.due) = (events, records, due);
        drum
    };
    let idle = Drum::IDLE;
    let cases = [
        (Event(0), (IDLE, 0, 0, 0, 0), idle),
        (Close, (IDLE, 0, 0, 0, 0), idle),
        (Open, (DONE, 0, 0, 0, 0), drum(&[8], 0, 0, 2)),
        (Event(0), (DONE, 1, 2, 0, 0), drum(&[7], 1, 2, 1)),
        (Event(1), (DONE, 2, 6, 0, 0), drum(&[2, 4], 2, 6, 1)),
        (Event(1), (DONE, 3, 10, 0, 0), drum(&[2, 4], 3, 10, 1)),
        (Event(2), (DONE, 4, 12, 0, 0), drum(&[], 4, 12, 0)),
        (Close, (DONE, 4, 12, 0, 0), idle),
        (Open, (DONE, 0, 0, 0, 0), drum(&[8], 0, 0, 2)),
        (Event(0), (DONE, 1, 2, 0, 0), drum(&[7], 1, 2, 1)),
        (Open, (DONE, 0, 0, 0, 0), drum(&[8], 0, 0, 2)),
        (Event(1), (UNEXPECTED, 0, 0, 0, 1), idle),
        (Open, (DONE, 0, 0, 0, 0), drum(&[8], 0, 0, 2)),
        (Event(0), (DONE, 1, 2, 0, 0), drum(&[7], 1, 2, 1)),
        (Event(3), (UNKNOWN, 1, 0, 0, 6), idle),
        (Open, (DONE, 0, 0, 0, 0), drum(&[8], 0, 0, 2)),
        (Event(0), (DONE, 1, 2, 0, 0), drum(&[7], 1, 2, 1)),
        (Event(1), (DONE, 2, 6, 0, 0), drum(&[2, 4], 2, 6, 1)),
        (Close, (END, 2, 0, 0, 6), idle),
    ];
    for (step, (asked, answer, left)) in cases.into_iter().enumerate() {
        assert_eq!(ask(asked), (answer, left, idle), "step {step}");
    }
}

/// Stages by hand: fill, then in stage 7 two rinses, the second in stage 9 within it, then a tip outside.
pub fn worked_stages(ask: Ask) {
    let nodes = [
        (TOKEN, 0, 0),
        (TOKEN, 1, 0),
        (TAGGED, 1, 9),
        (THEN, 1, 2),
        (TAGGED, 3, 7),
        (TOKEN, 2, 0),
        (THEN, 4, 5),
        (THEN, 0, 6),
    ];
    let plan = due_plan(&Book::ending(3, &nodes));
    let slots = |events: &[u8]| {
        let mut drums = [Drum::IDLE];
        ask(&plan, &mut drums, 0, Open);
        for &kind in events {
            assert_eq!(ask(&plan, &mut drums, 0, Event(kind)).number, DONE);
        }
        let drum = drums[0];
        let end = told(ask(&plan, &mut drums, 0, Close));
        (drum.slots[..drum.held as usize].to_vec(), drum.due, end)
    };
    assert_eq!(slots(&[]), (vec![7], 4, (END, 0, 0, 0, 1)));
    assert_eq!(slots(&[0]), (vec![6], 3, (END, 1, 0, 0, 2)));
    // node 5 is held outside every stage, node 2 within stage 7; its own tag does not count for itself
    assert_eq!(slots(&[0, 1]), (vec![5, 7 << 16 | 2], 2, (END, 2, 0, 7, 2)));
    assert_eq!(slots(&[0, 1, 1]), (vec![5], 1, (END, 3, 0, 0, 4)));
    assert_eq!(slots(&[0, 1, 1, 2]), (vec![], 0, (DONE, 4, 9, 0, 0)));
}
