//! Every size: books and plans of every number of nodes and kinds, runs, slots and trees of every length.

use host::answers::*;
use host::book::*;
use host::books::examples::{nesting, process, rinse};
use host::books::limits::{nested_run, process_run, rinse_run};
use host::calls::read::{given, READ};
use host::compile::plan_of;
use host::ffi::compile::compile;
use host::ffi::form::form;
use host::ffi::read::read;
use host::pair::Pair;
use host::read::MOST_EVENTS;

/// A book of this many nodes and kinds that takes one event, of the last kind, below tagged nodes.
fn tagged(count: usize, kinds: usize) -> Book {
    let mut nodes = vec![(TOKEN, kinds as u16 - 1, 0)];
    nodes.extend((1..count as u16).map(|own| (TAGGED, own - 1, own)));
    Book::ending(kinds as u16, &nodes)
}

/// The plan of that book: a token's cell, then cells that go left.
fn tagged_plan(count: usize, kinds: usize) -> Vec<u8> {
    let mut rows = vec![0; count * (kinds + 1)];
    for (own, row) in rows.chunks_exact_mut(kinds + 1).enumerate() {
        row[kinds - 1] = if own == 0 { 1 } else { 2 };
    }
    tagged(count, kinds).plan_due(&rows, &vec![1; count])
}

/// Checks the form test and the compiler on a book with this plan, in just its room and in one byte less.
fn check_compiled(book: &[u8], plan: &[u8]) {
    let size = plan.len() as u32;
    let formed = form(book);
    assert_eq!(
        (formed.number, formed.place),
        (DONE, 0),
        "{} bytes",
        book.len()
    );
    let mut room = vec![0xA5; plan.len()];
    for (number, length) in [(DONE, plan.len()), (PLAN_ROOM, plan.len() - 1)] {
        let compiled = compile(book, &mut room[..length]);
        let wanted = Compiled {
            number,
            place: 0,
            size,
            both: 0,
            clash: 0,
        };
        assert_eq!(compiled, wanted, "{} bytes", book.len());
        match number {
            DONE => assert!(room == plan, "the plan of {} bytes", book.len()),
            _ => assert!(room[..length].iter().all(|&byte| byte == 0)),
        }
    }
}

/// Checks the reader on the plan of a tagged book, and on that plan with a byte less and a byte more.
fn check_read(plan: &[u8], count: usize, kinds: usize) {
    let (run, mut held, mut tree) = ([kinds as u8 - 1], [0xA5A5], vec![0xA5A5; count]);
    let reading = read(plan, &run, &mut held, &mut tree);
    let answer = (reading.number, reading.place, reading.records as usize);
    assert_eq!(answer, (DONE, 1, count), "{count} nodes, {kinds} kinds");
    assert!(tree.iter().rev().copied().eq(0..count as u16));
    let mut longer = plan.to_vec();
    longer.push(0);
    for other in [&plan[..plan.len() - 1], &longer] {
        let number = read(other, &run, &mut held, &mut tree).number;
        assert_eq!(number, PLAN_FORM, "{count} nodes, {kinds} kinds");
    }
}

/// Every number of nodes and kinds.
#[test]
fn every_number_of_nodes_and_kinds() {
    for count in 1..=MOST_NODES {
        for kinds in 1..=MOST_KINDS {
            let plan = tagged_plan(count, kinds);
            check_compiled(&tagged(count, kinds).bytes(), &plan);
            check_read(&plan, count, kinds);
        }
    }
}

/// Runs of every length up to some thousands, and of many more.
#[test]
fn every_length_of_a_run() {
    let mut pair = Pair::of(&READ);
    let plan = plan_of(&rinse());
    for events in (2..3_000).chain((3_000..MOST_EVENTS).step_by(613)) {
        pair.compare(&given(&plan, &rinse_run(events), 2, 4 * events - 4));
    }
    pair.tally.expect(&[DONE], 3_000);
}

/// Slots of every number about the depth of a run.
#[test]
fn every_number_of_slots() {
    let mut pair = Pair::of(&READ);
    let (plan, run) = (plan_of(&nesting()), nested_run(700));
    for slots in 0..1_000 {
        pair.compare(&given(&plan, &run, slots, 6_000));
    }
    pair.tally.expect(&[DONE, DEEP], 290);
}

/// Trees of every length about the records of a run.
#[test]
fn every_length_of_a_tree() {
    let mut pair = Pair::of(&READ);
    let (plan, run) = (plan_of(&rinse()), rinse_run(300));
    for room in 0..2_000 {
        pair.compare(&given(&plan, &run, 2, room));
    }
    pair.tally.expect(&[DONE, NO_ROOM], 800);
}

/// What a book, its plan and its longest run take, as docs/MEMORY.md has it: bytes of both, slots, events, records.
#[test]
fn figures_of_the_memory_table() {
    let wash = |steps: u16, count| {
        (
            process(steps, count),
            process_run(steps.into(), MOST_EVENTS),
        )
    };
    let rows = [
        (wash(63, 512), [3_090, 37_406, 3, 65_394, 240_475]),
        (wash(7, 64), [402, 1_502, 3, 65_520, 246_485]),
        (
            (rinse(), rinse_run(MOST_EVENTS)),
            [72, 138, 2, 65_535, 4 * 65_535 - 4],
        ),
    ];
    for ((book, run), [bytes, size, slots, events, records]) in rows {
        let plan = plan_of(&book);
        assert_eq!(
            [book.bytes().len(), plan.len(), run.len()],
            [bytes, size, events]
        );
        let number = |slots| read(&plan, &run, &mut vec![0; slots], &mut []).number;
        assert_eq!(
            [number(slots - 1), number(slots)],
            [DEEP, NO_ROOM],
            "{slots} slots"
        );
        let reading = read(&plan, &run, &mut vec![0; slots], &mut vec![0; records]);
        assert_eq!([reading.number, reading.records], [DONE, records as u32]);
    }
}
