//! The reader of the proved library against the independent one.

use host::answers::*;
use host::book::*;
use host::books::examples::{nesting, rinse, winding};
use host::books::forged::{any_plan, circle, restless_plan};
use host::books::limits::rinse_run;
use host::books::random::Random;
use host::books::runs::{any_run, lawful_run, Heights};
use host::books::shapes::{any_book, large_book, likely_book};
use host::calls::read::{given, READ};
use host::compile::{compile, plan_of};
use host::ffi;
use host::ffi::lent::Edge;
use host::pair::Pair;
use host::read::{cells_of, read, MOST_EVENTS};
use host::worked;

/// The answers that a reader can give.
const READ_AS: [u32; 10] = [
    DONE, PLAN_FORM, CELL, LONG, DEEP, UNKNOWN, UNEXPECTED, END, RUNAWAY, NO_ROOM,
];

/// Compares for some numbers of slots, and for rooms about the size of the tree.
fn compare_rooms(pair: &mut Pair, random: &mut Random, plan: &[u8], run: &[u8]) {
    let few = random.below(5);
    let slots = random.pick(&[few, few, 40, 500]);
    let records = read(plan, run, &mut vec![0; slots], &mut []).records as usize;
    let more = records + random.within(1, 9);
    let room = random.pick(&[0, records, records.saturating_sub(1), records, more]);
    let edge = random.pick(&[Edge::Begin, Edge::End]);
    pair.compare_at(&given(plan, run, slots, room), edge);
}

/// The plan of a book, if it passes.
fn passed_plan(book: &Book) -> Option<Vec<u8>> {
    let mut plan = plan_of(book);
    (compile(&book.bytes(), &mut plan).number == DONE).then_some(plan)
}

/// The worked runs.
#[test]
fn worked_runs() {
    worked::check_read(compile, ffi::read::read);
}

/// Plans of books that pass, with lawful, spoilt and strange runs.
#[test]
fn compiled_plans() {
    let mut pair = Pair::of(&READ);
    let mut random = Random::new(1);
    for _ in 0..80_000 {
        let book = likely_book(&mut random);
        let Some(plan) = passed_plan(&book) else {
            continue;
        };
        let heights = Heights::of(&book);
        for _ in 0..3 {
            let run = any_run(&mut random, &book, &heights);
            compare_rooms(&mut pair, &mut random, &plan, &run);
        }
    }
    assert!(pair.tally.total() > 100_000);
    pair.tally.expect(&[DONE, UNEXPECTED], 10_000);
    pair.tally.expect(&[DEEP, UNKNOWN, END, NO_ROOM], 5_000);
}

/// Plans forged in all ways, now and then with a run that is too long.
#[test]
fn forged_plans() {
    let mut pair = Pair::of(&READ);
    let mut random = Random::new(2);
    for round in 0..150_000 {
        let book = any_book(&mut random);
        let plan = if round % 4 == 0 {
            restless_plan(&mut random, &book)
        } else {
            any_plan(&mut random, &book)
        };
        let mut run = any_run(&mut random, &book, &Heights::of(&book));
        if round % 50 == 0 {
            run.resize(MOST_EVENTS + random.within(1, 3), 0);
        }
        compare_rooms(&mut pair, &mut random, &plan, &run);
    }
    pair.tally.expect(&READ_AS, 2_000);
}

/// Plans at the limits of nodes, kinds and start, and beyond them.
#[test]
fn plans_beyond_limits() {
    let mut pair = Pair::of(&READ);
    for count in [0, 1, MOST_NODES, MOST_NODES + 1] {
        for kinds in [0, 1, MOST_KINDS, MOST_KINDS + 1] {
            for start in [0, count.saturating_sub(1), count] {
                let book = Book {
                    kinds: kinds as u16,
                    start: start as u16,
                    nodes: vec![node(EMPTY, 0, 0); count],
                };
                let mut rows = vec![0; count * (kinds + 1)];
                let last_cells = rows.iter_mut().skip(kinds).step_by(kinds + 1);
                last_cells.for_each(|cell| *cell = 1);
                pair.compare(&given(&book.plan(&rows), &[], 1, 1));
            }
        }
    }
    pair.tally.expect(&[DONE], 8);
    pair.tally.expect(&[PLAN_FORM], 30);
}

/// The last cells of the largest plan, each against its node's type.
#[test]
fn last_cells_of_the_largest_plan() {
    let mut pair = Pair::of(&READ);
    let book = Book {
        kinds: MOST_KINDS as u16,
        start: 0,
        nodes: vec![node(EMPTY, 0, 0); MOST_NODES],
    };
    let cells = MOST_NODES * (MOST_KINDS + 1);
    for place in [32_767, 32_768, cells - 2, cells - 1] {
        let mut rows = vec![0; cells];
        rows[place] = 2;
        pair.compare(&given(&book.plan(&rows), &[], 1, 1));
    }
    pair.tally.expect(&[CELL], 4);
}

/// Plans of up to 512 nodes and 64 kinds.
#[test]
fn large_plans() {
    let mut pair = Pair::of(&READ);
    let mut random = Random::new(3);
    for round in 0..2_000 {
        let book = large_book(&mut random);
        let plan = if round % 4 == 0 {
            any_plan(&mut random, &book)
        } else {
            plan_of(&book)
        };
        let heights = Heights::of(&book);
        for _ in 0..3 {
            let run = any_run(&mut random, &book, &heights);
            compare_rooms(&mut pair, &mut random, &plan, &run);
        }
    }
    let common = [DONE, PLAN_FORM, CELL, DEEP, UNKNOWN, UNEXPECTED, END];
    pair.tally.expect(&common, 50);
}

/// Lawful runs with every number of slots from none to enough.
#[test]
fn every_number_of_slots() {
    let mut pair = Pair::of(&READ);
    let mut random = Random::new(4);
    let mut rounds = 0;
    while rounds < 5_000 {
        let book = likely_book(&mut random);
        let Some(plan) = passed_plan(&book) else {
            continue;
        };
        rounds += 1;
        let run = lawful_run(&mut random, &book, &Heights::of(&book));
        for slots in 0.. {
            let answer = read(&plan, &run, &mut vec![0; slots], &mut []);
            let records = answer.records as usize;
            pair.compare(&given(&plan, &run, slots, records));
            if answer.number != DEEP {
                break;
            }
        }
    }
    pair.tally.expect(&[DONE, DEEP], 5_000);
}

/// Walks that end, or go on, at the last visit that is allowed.
#[test]
fn walks_of_as_many_visits_as_nodes() {
    let mut pair = Pair::of(&READ);
    for count in 2..=40 {
        for last in [FAIL, TOKEN, REF, THEN] {
            for &cell in cells_of(last) {
                for start in [0, count - 1] {
                    let plan = circle(count, start, last, cell);
                    for slots in 0..3 {
                        for run in [&[] as &[u8], &[0], &[0, 0]] {
                            pair.compare(&given(&plan, run, slots, 50));
                            pair.compare_at(&given(&plan, run, slots, 2), Edge::Begin);
                        }
                    }
                }
            }
        }
    }
    let met = [DONE, DEEP, UNEXPECTED, END, RUNAWAY];
    pair.tally.expect(&met, 30);
}

/// The rinse book with runs about the limit of events.
#[test]
fn longest_runs() {
    let mut pair = Pair::of(&READ);
    let rinse = plan_of(&rinse());
    for length in [65_533, 65_534, 65_535, 65_536, 65_537] {
        let mut run = rinse_run(length);
        let records = 4 * length - 4;
        for (slots, room) in [
            (2, 400_000),
            (1, 10),
            (0, 10),
            (500, records),
            (2, records - 1),
        ] {
            pair.compare(&given(&rinse, &run, slots, room));
        }
        run[length - 1] = 1;
        pair.compare_at(&given(&rinse, &run, 2, 300_000), Edge::Begin);
        run[length - 1] = 0;
        pair.compare_at(&given(&rinse, &run, 2, 300_000), Edge::Begin);
        run[length - 1] = 3;
        pair.compare_at(&given(&rinse, &run, 2, 300_000), Edge::Begin);
    }
    pair.tally.expect(&[DONE, LONG], 5);
    pair.tally
        .expect(&[DEEP, UNKNOWN, UNEXPECTED, END, NO_ROOM], 3);
}

/// Nesting up to all events, with slots about the depth.
#[test]
fn deepest_runs() {
    let mut pair = Pair::of(&READ);
    let plan = plan_of(&nesting());
    for opened in [32_766, 32_767, 65_535] {
        let mut run = vec![0; opened];
        run.resize(65_534.max(opened), 1);
        for slots in [opened - 1, opened, opened + 1, 65_536, 70_000] {
            pair.compare(&given(&plan, &run, slots, 400_000));
        }
    }
    pair.tally.expect(&[DONE, DEEP, END], 2);
}

/// The longest run with nearly all nodes visited at each event.
#[test]
fn greatest_trees() {
    let mut pair = Pair::of(&READ);
    let run = vec![0; MOST_EVENTS];
    let (visits, skips) = (plan_of(&winding(false)), plan_of(&winding(true)));
    let visited = 511 * MOST_EVENTS;
    pair.compare(&given(&visits, &run, 2, visited));
    pair.compare_at(&given(&visits, &run, 2, visited - 1), Edge::Begin);
    pair.compare(&given(&skips, &run, 2, 1_000));
    pair.tally.expect(&[DONE], 1);
    pair.tally.expect(&[NO_ROOM], 2);
}
