//! The drum board of the proved library: against the independent board, and by the promises made of it.

use host::answers::*;
use host::board::{whole, Drum, Reading, DRUM_SLOTS, MOST_DRUMS, MOST_EVENTS, MOST_RECORDS};
use host::book::*;
use host::books::drums::{any_due, any_due_plan, forge, good_due_plan};
use host::books::examples::{doubling, nesting, process, rinse};
use host::books::limits::{nested_run, rinse_run};
use host::books::loose::good_book;
use host::books::random::Random;
use host::books::runs::{any_run, lawful_run, Heights};
use host::books::shapes::{large_book, likely_book, little_book};
use host::calls::board::{given, CLOSE, EVENT, OPEN};
use host::calls::Left;
use host::compile::compile;
use host::due::{due_plan, four_sections, least_lengths, rows_of};
use host::ffi;
use host::ffi::lent::Edge;
use host::ffi::vast::Vast;
use host::meaning::all_runs;
use host::pair::Pair;
use host::pending::check_held;
use host::recognise::{Meaning, Table};
use host::worked_board::Asked::{self, Close, Event, Open};
use host::worked_board::{told, worked_drum, worked_stages};

/// Makes a call of the proved library.
fn ask(plan: &[u8], drums: &mut [Drum], drum: u32, asked: Asked) -> Reading {
    match asked {
        Open => ffi::board::open(plan, drums, drum),
        Event(kind) => ffi::board::event(plan, drums, drum, kind),
        Close => ffi::board::close(plan, drums, drum),
    }
}

/// The three calls beside the independent ones, and the drums as they stand.
struct Beside {
    open: Pair,
    event: Pair,
    close: Pair,
    drums: Vec<Drum>,
}

impl Beside {
    /// So many idle drums.
    fn of(count: usize) -> Beside {
        Beside {
            open: Pair::of(&OPEN),
            event: Pair::of(&EVENT),
            close: Pair::of(&CLOSE),
            drums: vec![Drum::IDLE; count],
        }
    }

    /// Makes a call of both boards; the number answered.
    fn ask(&mut self, plan: &[u8], drum: u32, asked: Asked, edge: Edge) -> u32 {
        let (pair, kind) = match asked {
            Open => (&mut self.open, None),
            Event(kind) => (&mut self.event, Some(kind)),
            Close => (&mut self.close, None),
        };
        let answer = pair.compare_at(&given(plan, &self.drums, drum, kind), edge);
        let [Left::Drums(left)] = &answer.left[..] else {
            panic!("one list of drums")
        };
        self.drums.clone_from(left);
        answer.number()
    }

    /// How many calls were made.
    fn total(&self) -> usize {
        [&self.open, &self.event, &self.close]
            .map(|pair| pair.tally.total())
            .iter()
            .sum()
    }
}

/// The worked drums.
#[test]
fn worked_drums() {
    worked_drum(ask);
    worked_stages(ask);
}

/// On compiled plans the held parts and their stages are those still due by derivations.
#[test]
fn held_by_derivations() {
    check_held(ask, 1, 3_000);
}

/// The order of the refusals: each call that could have several has the first.
#[test]
fn order_of_refusals() {
    let plan = due_plan(&rinse());
    let (mut bad_form, mut bad_cell) = (plan.clone(), plan.clone());
    bad_form[0] = 3;
    bad_cell[30 + 6 * 9] = 9;
    let stale = Drum {
        events: 65_536,
        ..Drum::IDLE
    };
    let last = Drum {
        events: 65_535,
        ..Drum::IDLE
    };
    let deep = Drum {
        held: 65,
        ..Drum::IDLE
    };
    let mut beside = Beside::of(0);
    let mut number = |plan: &[u8], drum: Drum, at: u32, asked: Asked| {
        beside.drums = vec![drum; 33];
        beside.ask(plan, at, asked, Edge::End)
    };
    for asked in [Open, Event(9), Close] {
        for at in [0, 31, 32, 33, 255, 256, 1 << 16, 1 << 31, u32::MAX] {
            for drum in [Drum::IDLE, stale, last, deep] {
                assert_eq!(number(&bad_form, drum, at, asked), PLAN_FORM);
                assert_eq!(number(&bad_cell, drum, at, asked), CELL);
                if at >= MOST_DRUMS {
                    assert_eq!(number(&plan, drum, at, asked), NO_DRUM);
                }
            }
        }
    }
    for asked in [Event(0), Event(9), Close] {
        assert_eq!(number(&plan, Drum::IDLE, 5, asked), IDLE);
        assert_eq!(number(&plan, stale, 5, asked), STALE);
        assert_eq!(number(&plan, deep, 5, asked), STALE);
    }
    assert_eq!(number(&plan, last, 5, Event(9)), LONG);
    assert_eq!(number(&plan, last, 5, Event(0)), LONG);
    assert_eq!(number(&plan, last, 5, Close), DONE);
    for drum in [stale, last, deep, Drum::IDLE] {
        assert_eq!(number(&plan, drum, 5, Open), DONE);
    }
}

/// Every claim of a drum about its limit, one at a time; only what the count of held parts claims is looked at.
#[test]
fn claims_about_the_limits() {
    let plan = due_plan(&rinse());
    let base = Drum {
        held: 1,
        ..Drum::IDLE
    };
    let mut beside = Beside::of(1);
    let mut number = |drum: Drum, asked: Asked| {
        beside.drums[0] = drum;
        beside.ask(&plan, 0, asked, Edge::Begin)
    };
    for asked in [Event(0), Close] {
        for (value, stale) in [
            (MOST_EVENTS, false),
            (MOST_EVENTS + 1, true),
            (u32::MAX, true),
        ] {
            let drum = Drum {
                events: value,
                ..base
            };
            assert_eq!(number(drum, asked) == STALE, stale, "{value} events");
        }
        for (value, stale) in [
            (MOST_RECORDS, false),
            (MOST_RECORDS + 1, true),
            (u32::MAX, true),
        ] {
            let drum = Drum {
                records: value,
                ..base
            };
            assert_eq!(number(drum, asked) == STALE, stale, "{value} records");
        }
        for (held, stale) in [
            (0, false),
            (64, false),
            (65, true),
            (256, true),
            (1 << 31, true),
        ] {
            let drum = Drum {
                held,
                due: 1,
                ..base
            };
            assert_eq!(number(drum, asked) == STALE, stale, "{held} held");
        }
        for (node, stale) in [(8, false), (9, true), (65_535, true)] {
            for label in [0, 1, 65_535] {
                for at in [0, 1, 63] {
                    let mut drum = Drum { held: 64, ..base };
                    drum.slots[at] = label << 16 | node;
                    assert_eq!(number(drum, asked) == STALE, stale, "node {node}");
                    drum.held = at as u32;
                    assert!(number(drum, asked) != STALE, "a slot that is not claimed");
                }
            }
        }
        let any = Drum {
            due: u32::MAX,
            ..base
        };
        assert!(number(any, asked) != STALE);
    }
    let full = Drum {
        records: MOST_RECORDS,
        ..base
    };
    assert_eq!(number(full, Event(0)), DONE);
    assert_eq!(beside.ask(&plan, 0, Event(2), Edge::End), STALE);
    assert_eq!(beside.ask(&plan, 0, Close, Edge::End), STALE);
    assert_eq!(beside.ask(&plan, 0, Open, Edge::End), DONE);
}

/// Calls on up to 40 drums in turn, drums forged and plans changed between them.
#[test]
fn interleaved_calls() {
    let mut random = Random::new(1);
    let mut beside = Beside::of(0);
    for _ in 0..500 {
        let deep = random.once_in(6);
        let book = if deep {
            nesting()
        } else {
            good_book(&mut random)
        };
        let heights = Heights::of(&book);
        let mut plan = any_due_plan(&mut random, &book);
        let mut count = random.pick(&[1, 3, 31, 32, 33, 40]);
        if deep {
            plan = due_plan(&book);
            count = random.within(1, 2);
        }
        beside.drums = vec![Drum::IDLE; count];
        let mut due: Vec<Vec<u8>> = vec![Vec::new(); count];
        for _ in 0..300 {
            let drum = any_number(&mut random, count);
            let asked = match due.get_mut(drum as usize) {
                Some(run) => {
                    let idle = beside.drums[drum as usize] == Drum::IDLE;
                    any_asked(&mut random, &book, &heights, run, (idle, deep))
                }
                None => random.pick(&[Open, Event(0), Close]),
            };
            let edge = random.pick(&[Edge::Begin, Edge::End]);
            beside.ask(&plan, drum, asked, edge);
            if random.once_in(if deep { 400 } else { 40 }) {
                let at = random.below(count);
                forge(&mut random, &book, &mut beside.drums[at]);
            }
            if random.once_in(120) {
                let other = if random.once_in(3) {
                    good_book(&mut random)
                } else {
                    book.clone()
                };
                plan = any_due_plan(&mut random, &other);
            }
        }
    }
    assert!(beside.total() >= 150_000);
    let first = [DONE, PLAN_FORM, CELL, NO_DRUM];
    let later = [IDLE, STALE];
    beside.open.tally.expect(&first, 500);
    beside.event.tally.expect(&first, 2_000);
    beside.event.tally.expect(&later, 1_000);
    beside.event.tally.expect(&[UNKNOWN, UNEXPECTED], 1_000);
    beside.event.tally.expect(&[LONG, DEEP, RUNAWAY], 50);
    beside.close.tally.expect(&first, 500);
    beside.close.tally.expect(&[STALE], 200);
    beside.close.tally.expect(&[IDLE], 30);
    beside.close.tally.expect(&[END], 500);
}

/// A drum's number: mostly of the list and below 32.
fn any_number(random: &mut Random, count: usize) -> u32 {
    let any = random.bits() as u32;
    match random.below(20) {
        0 => random.pick(&[count as u32, 31, 32, 33, 39, 40, any]),
        _ => random.below(count) as u32,
    }
}

/// What is asked next of a drum with this run due, its next event last: mostly that event, or an opening where the drum
/// is idle.
fn any_asked(
    random: &mut Random,
    book: &Book,
    heights: &Heights,
    run: &mut Vec<u8>,
    (idle, deep): (bool, bool),
) -> Asked {
    if run.is_empty() || idle && !random.once_in(6) {
        let closes = !idle && !random.once_in(4);
        *run = if deep {
            nested_run(random.within(60, 80))
        } else {
            any_run(random, book, heights)
        };
        run.reverse();
        return if closes { Close } else { Open };
    }
    match random.below(if deep { 1_000 } else { 60 }) {
        0 => Open,
        1 => Close,
        2 => Event(random.below(70) as u8),
        _ => Event(run.pop().expect("an event is due")),
    }
}

/// Random single calls, lent between closed pages: drums that stand anyhow.
#[test]
fn random_calls() {
    for (number, call) in [&OPEN, &EVENT, &CLOSE].into_iter().enumerate() {
        let mut pair = Pair::of(call);
        let mut random = Random::new(number as u64);
        for _ in 0..50_000 {
            pair.compare(&(call.any)(&mut random));
        }
        for &(number, least) in call.answers {
            pair.tally.expect(&[number], least as usize / 2);
        }
    }
}

/// A call on one drum leaves the others, and refusals 8, 9, 17, 18 and 33 leave all; what a drum answers and how it
/// then stands are what they would be had only its own calls been made; STALE never comes from a zero board.
#[test]
fn drums_do_not_meet() {
    let mut random = Random::new(2);
    let (mut calls, mut told_stages) = (0, 0);
    for _ in 0..250 {
        let deep = random.once_in(8);
        let book = if deep {
            nesting()
        } else {
            likely_book(&mut random)
        };
        let heights = Heights::of(&book);
        let plan = good_due_plan(&mut random, &book);
        let count = random.within(1, 40);
        let mut drums = vec![Drum::IDLE; count];
        let mut due: Vec<Vec<u8>> = vec![Vec::new(); count];
        let mut log = Vec::new();
        for _ in 0..400 {
            let drum = any_number(&mut random, count);
            let asked = match due.get_mut(drum as usize) {
                Some(run) => {
                    let idle = drums[drum as usize] == Drum::IDLE;
                    any_asked(&mut random, &book, &heights, run, (idle, deep))
                }
                None => Open,
            };
            let before = drums.clone();
            let reading = ask(&plan, &mut drums, drum, asked);
            assert!(reading.number != STALE, "a drum of {plan:?}");
            let keeps = matches!(reading.number, PLAN_FORM | CELL | NO_DRUM | IDLE | STALE);
            for (at, (was, is)) in before.iter().zip(&drums).enumerate() {
                if keeps || at != drum as usize {
                    assert_eq!(was, is, "drum {at} at a call on {drum}");
                }
            }
            told_stages += usize::from(reading.label != 0);
            log.push((drum, asked, reading, drums.get(drum as usize).copied()));
        }
        calls += log.len();
        for alone in 0..=count as u32 {
            let mut drums = vec![Drum::IDLE; count];
            for (drum, asked, reading, left) in log.iter().filter(|call| call.0 == alone) {
                assert_eq!(ask(&plan, &mut drums, *drum, *asked), *reading);
                assert_eq!(drums.get(*drum as usize).copied(), *left);
            }
        }
    }
    assert!(
        calls >= 100_000 && told_stages >= 50,
        "{calls}, {told_stages}"
    );
}

/// A drum's run from its opening to its closing or its refusal, with every answer.
fn run_of_a_drum(plan: &[u8], run: &[u8]) -> (Vec<(Reading, Drum)>, Reading) {
    let mut drums = [Drum::filled(7)];
    let opened = ask(plan, &mut drums, 0, Open);
    let mut taken = vec![(opened, drums[0])];
    for &kind in run {
        let reading = ask(plan, &mut drums, 0, Event(kind));
        if reading.number != DONE {
            assert_eq!(drums[0], Drum::IDLE, "a refused event");
            return (taken, reading);
        }
        taken.push((reading, drums[0]));
    }
    let closed = ask(plan, &mut drums, 0, Close);
    assert_eq!(drums[0], Drum::IDLE, "a closed drum");
    (taken, closed)
}

/// Checks that a drum answers as whole readings do, and how it stands in between.
fn check_as_read(plan: &[u8], run: &[u8]) -> u32 {
    let (taken, last) = run_of_a_drum(plan, run);
    assert_eq!(last, whole(plan, run), "run {run:?} of {plan:?}");
    for (events, (reading, drum)) in taken.iter().enumerate() {
        assert_eq!(told(*reading), (DONE, events as u32, drum.records, 0, 0));
        assert_eq!(drum.events, events as u32);
        assert!(drum.slots[drum.held as usize..]
            .iter()
            .all(|&slot| slot == 0));
    }
    let refused = taken.len() <= run.len() && last.number != LONG;
    if refused {
        assert_eq!(last.place as usize, taken.len() - 1);
        let upto = &run[..taken.len()];
        assert_eq!(last, whole(plan, upto), "run {run:?} of {plan:?}");
    }
    last.number
}

/// Open, events and close answer as a whole reading with 64 slots and room enough; a refused event as a reading of the
/// events up to it.
#[test]
fn drums_answer_as_readings() {
    let mut random = Random::new(3);
    let mut tally = Tally::default();
    for round in 0..25_000 {
        let book = match round % 50 {
            0 => large_book(&mut random),
            _ => good_book(&mut random),
        };
        let plan = good_due_plan(&mut random, &book);
        let run = any_run(&mut random, &book, &Heights::of(&book));
        tally.count(check_as_read(&plan, &run));
    }
    tally.expect(&[DONE, UNKNOWN, UNEXPECTED, END], 1_000);
    tally.expect(&[RUNAWAY], 300);
    for pairs in 60..70 {
        let mut run = nested_run(pairs);
        let number = check_as_read(&due_plan(&nesting()), &run);
        assert_eq!(
            number,
            if pairs <= 64 { DONE } else { DEEP },
            "{pairs} pairs"
        );
        run.pop();
        let number = check_as_read(&due_plan(&nesting()), &run);
        assert_eq!(
            number,
            if pairs <= 64 { END } else { DEEP },
            "{pairs} pairs"
        );
    }
}

/// Runs about the most events; the event too many is LONG, of whatever kind, and leaves the drum idle.
#[test]
fn longest_drums() {
    let plan = due_plan(&rinse());
    for (length, number) in [(65_534, DONE), (65_535, DONE), (65_536, LONG)] {
        let mut run = rinse_run(length);
        assert_eq!(check_as_read(&plan, &run), number, "{length} events");
        for kind in [0, 3, 255] {
            run[length - 1] = kind;
            let number = check_as_read(&plan, &run);
            let strange = if kind == 0 { UNEXPECTED } else { UNKNOWN };
            let wanted = if length > 65_535 { LONG } else { strange };
            assert_eq!(number, wanted, "{length} events, the last {kind}");
        }
    }
}

/// Plans alike but for the fourth section give the same answers, and drums that differ in the events due alone, which
/// are the sum of what is written, cut.
#[test]
fn due_events_change_no_answer() {
    let mut random = Random::new(4);
    let mut cut = 0;
    for _ in 0..8_000 {
        let book = likely_book(&mut random);
        let rows = rows_of(&book);
        let one = four_sections(&book, &rows, &least_lengths(&book));
        let mut due = least_lengths(&book);
        any_due(&mut random, &mut due);
        let other = four_sections(&book, &rows, &due);
        let run = any_run(&mut random, &book, &Heights::of(&book));
        let (by_one, last) = run_of_a_drum(&one, &run);
        let (by_other, last_by_other) = run_of_a_drum(&other, &run);
        assert_eq!(last, last_by_other);
        assert_eq!(by_one.len(), by_other.len());
        for ((reading, drum), (other_reading, other_drum)) in by_one.iter().zip(&by_other) {
            assert_eq!(reading, other_reading);
            assert_eq!(
                Drum { due: 0, ..*drum },
                Drum {
                    due: 0,
                    ..*other_drum
                }
            );
            let held = &drum.slots[..drum.held as usize];
            let sum: u64 = held
                .iter()
                .map(|slot| u64::from(due[*slot as usize % 65_536]))
                .sum();
            assert_eq!(u64::from(other_drum.due), sum.min(65_535));
            cut += usize::from(sum > 65_535);
        }
    }
    assert!(cut > 300, "{cut}");
}

/// The plan of a book, if it passes.
fn passed_plan(book: &Book) -> Option<Vec<u8>> {
    (compile(&book.bytes(), &mut []).number == PLAN_ROOM).then(|| due_plan(book))
}

/// The events due on a compiled plan are the least number that makes the drum's run lawful, by derivations.
#[test]
fn due_events_are_the_least() {
    let mut random = Random::new(5);
    let mut seen = [0; 5];
    let mut passed = 0;
    while passed < 700 {
        let book = little_book(&mut random);
        let Some(plan) = passed_plan(&book) else {
            continue;
        };
        passed += 1;
        let most = if book.kinds > 2 { 3 } else { 4 };
        let ends = all_runs(book.kinds as u8, most);
        let mut run = lawful_run(&mut random, &book, &Heights::of(&book));
        run.truncate(random.below(5));
        let (taken, _) = run_of_a_drum(&plan, &run);
        assert_eq!(taken.len(), run.len() + 1, "a lawful beginning is taken");
        let lawful = |end: &&Vec<u8>| {
            let whole = [&run[..], &end[..]].concat();
            matches!(Table::of(&book, &whole).meaning(), Meaning::Lawful(_))
        };
        let due = taken[run.len()].1.due as usize;
        match ends.iter().find(lawful) {
            Some(end) => assert_eq!(due, end.len(), "after {run:?} of {book:?}"),
            None => assert!(due > most, "after {run:?} of {book:?}"),
        }
        seen[due.min(4)] += 1;
    }
    assert!(seen.iter().all(|&times| times >= 10), "{seen:?}");
}

/// A book of one run of so many events, at least one.
fn of_length(length: u32) -> Book {
    let mut nodes = vec![(TOKEN, 0, 0)];
    let (mut doubled, mut whole) = (0, (length % 2 == 1).then_some(0));
    for bit in 1..=length.ilog2() {
        nodes.push((THEN, doubled, doubled));
        doubled = nodes.len() as u16 - 1;
        if length >> bit & 1 == 1 {
            whole = Some(match whole {
                None => doubled,
                Some(rest) => {
                    nodes.push((THEN, doubled, rest));
                    nodes.len() as u16 - 1
                }
            });
        }
    }
    Book::ending(1, &nodes)
}

/// The events due of a long run fall one by one, and are cut where there are more than can be written.
#[test]
fn due_events_of_long_runs() {
    for length in [
        1, 2, 3, 1_000, 65_534, 65_535, 65_536, 65_537, 70_000, 131_071,
    ] {
        let plan = due_plan(&of_length(length));
        let mut drums = [Drum::IDLE];
        ask(&plan, &mut drums, 0, Open);
        assert_eq!(drums[0].due, length.min(65_535), "{length} at the opening");
        for event in 1..=length.min(65_535) {
            let reading = ask(&plan, &mut drums, 0, Event(0));
            assert_eq!(reading.number, DONE, "event {event} of {length}");
            let left = (length - event).min(65_535);
            assert_eq!(drums[0].due, left, "event {event} of {length}");
        }
        let last = ask(&plan, &mut drums, 0, Close);
        let wanted = if length <= 65_535 { DONE } else { END };
        assert_eq!(last.number, wanted, "{length}");
    }
}

/// Plans of every number of nodes and kinds about the limits, and the largest.
#[test]
fn plans_about_the_limits() {
    let mut beside = Beside::of(2);
    for count in [1, 2, MOST_NODES - 1, MOST_NODES, MOST_NODES + 1] {
        for kinds in [1, 2, MOST_KINDS - 1, MOST_KINDS, MOST_KINDS + 1] {
            for start in [0, count - 1, count] {
                let book = Book {
                    kinds: kinds as u16,
                    start: start as u16,
                    nodes: vec![node(EMPTY, 0, 0); count],
                };
                let rows: Vec<u8> = [vec![0; kinds], vec![1]].concat().repeat(count);
                let plan = four_sections(&book, &rows, &vec![0; count]);
                let good = count <= MOST_NODES && kinds <= MOST_KINDS && start < count;
                let wanted = if good { DONE } else { PLAN_FORM };
                assert_eq!(beside.ask(&plan, 1, Open, Edge::End), wanted);
                beside.ask(&plan, 1, Event(kinds as u8 - 1), Edge::Begin);
                beside.ask(&plan, 1, Close, Edge::End);
                for cut in [1, 2, 3] {
                    let short = &plan[..plan.len() - cut];
                    assert_eq!(beside.ask(short, 1, Open, Edge::End), PLAN_FORM);
                }
                let long = [&plan[..], &[0]].concat();
                assert_eq!(beside.ask(&long, 1, Open, Edge::End), PLAN_FORM);
            }
        }
    }
    let largest = due_plan(&process(63, 512));
    assert_eq!(largest.len(), 37_406);
    beside.ask(&largest, 0, Open, Edge::End);
    for kind in [0, 1, 1, 2, 4] {
        assert_eq!(beside.ask(&largest, 0, Event(kind), Edge::End), DONE);
    }
    beside.ask(&largest, 0, Close, Edge::End);
    beside.ask(&due_plan(&doubling()), 0, Open, Edge::End);
    assert_eq!(
        beside.ask(&due_plan(&doubling()), 0, Close, Edge::End),
        DONE
    );
}

/// Each byte of the rinse plan changed in turn, and each word of its fourth section, which a reader takes as it is.
#[test]
fn every_byte_of_a_plan() {
    let mut beside = Beside::of(1);
    let plan = due_plan(&rinse());
    let due_at = plan.len() - 2 * 9;
    for at in 0..plan.len() {
        for change in [1, 2, 3, 4, 7, 128, 255] {
            let mut changed = plan.clone();
            changed[at] ^= change;
            let number = beside.ask(&changed, 0, Open, Edge::End);
            if at >= due_at {
                assert_eq!(number, DONE, "byte {at}");
            }
            for asked in [Event(0), Event(1), Event(2), Close] {
                beside.ask(&changed, 0, asked, Edge::Begin);
            }
            beside.ask(&plan, 0, Close, Edge::End);
        }
    }
    beside.open.tally.expect(&[DONE, PLAN_FORM, CELL], 60);
}

/// Lists of lengths that few bits do not tell from a short one: the drum is on the list.
#[test]
fn lists_longer_than_memory() {
    const BITS: u32 = 32;
    let size = std::mem::size_of::<Drum>();
    assert_eq!(size, 4 * (DRUM_SLOTS + 4));
    let vast = Vast::sparse(((1 << BITS) + 40) * size);
    let plan = due_plan(&rinse());
    let (plan_at, plan_len) = (plan.as_ptr(), plan.len());
    for bits in 6..=BITS {
        for more in [0, 3] {
            let len = (1 << bits) + more;
            let (at, numbers) = (vast.at().cast(), [0, 5, 31, 32, 1 << 16]);
            for drum in numbers {
                // SAFETY: the list is memory that is open for as many drums as its length says.
                let numbers = unsafe {
                    [
                        ffi::board::drumbook_open(plan_at, plan_len, at, len, drum).number,
                        ffi::board::drumbook_event(plan_at, plan_len, at, len, drum, 0).number,
                        ffi::board::drumbook_close(plan_at, plan_len, at, len, drum).number,
                    ]
                };
                let wanted = if drum < MOST_DRUMS {
                    [DONE, DONE, END]
                } else {
                    [NO_DRUM; 3]
                };
                assert_eq!(numbers, wanted, "drum {drum} of {len}");
            }
        }
    }
}
