//! The runs of trees, against an independent reading of the documents, and there and back.

use host::answers::*;
use host::book::*;
use host::books::examples::{doubling, harmless_recursion, nesting, rinse};
use host::books::limits::{nested_run, rinse_run};
use host::books::random::Random;
use host::books::runs::{lawful_run, Heights};
use host::books::trees::*;
use host::calls::unread::{given, UNREAD};
use host::compile::plan_of;
use host::ffi::read::read;
use host::ffi::unread::unread;
use host::pair::Pair;
use host::unread::{run_of, MOST_EVENTS};

/// An empty record.
const E: u16 = EMPTY_RECORD;

/// Room for short runs.
const ROOM: usize = 100;

/// What records of a book come to: the number, the size and the place.
fn answer(pair: &mut Pair, book: &Book, tree: &[u16], room: usize) -> (u32, u64, u64) {
    let answer = pair.compare(&given(&book.bytes(), tree, room));
    (answer.number(), answer.fields[1], answer.fields[2])
}

/// Trees of the rinse book and records that are none, with the places counted by hand.
#[test]
fn worked_trees() {
    let mut pair = Pair::of(&UNREAD);
    let whole = [8, 0, 7, 6, 5, 1, E + 4, 2];
    for (tree, number, place) in [
        (&whole[..], DONE, 0),
        (&[8, 0, 7, E + 6, 2], DONE, 0),
        (&[], TREE, 0),
        (&whole[..7], TREE, 7),
        (&[8, 0, 7, 6, 5, 1, E + 4, 2, 2], TREE, 8),
        (&[8, 0, 7, 6, 5, 1, 4, E + 6, 2], TREE, 7),
        (&[8, 0, 7, 6, E + 3, 2], TREE, 4),
        (&[8, 0, 7, 6, 3, 2], TREE, 4),
        (&[8, 0, 7, E + 6, E + 2], TREE, 4),
        (&[E + 8], TREE, 0),
        (&[0], TREE, 0),
        (&[9], TREE, 0),
        (&[65_535], TREE, 0),
        (&[8, 0, 7, 6, 5, 1, E + 6, 2], TREE, 6),
    ] {
        let size = if number == DONE {
            run_of(&rinse(), tree).unwrap().len()
        } else {
            0
        };
        let told = answer(&mut pair, &rinse(), tree, ROOM);
        assert_eq!(told, (number, size as u64, place), "{tree:?}");
    }
    let room = |pair: &mut Pair, room| answer(pair, &rinse(), &whole, room).0;
    assert_eq!([2, 3].map(|size| room(&mut pair, size)), [RUN_ROOM, DONE]);
    assert_eq!(answer(&mut pair, &doubling(), &[E + 511], 0), (DONE, 0, 0));
    assert_eq!(answer(&mut pair, &doubling(), &[511], 0), (TREE, 0, 0));
    let fail = harmless_recursion();
    assert_eq!(answer(&mut pair, &fail, &[4, 3], 1), (DONE, 1, 0));
    assert_eq!(answer(&mut pair, &fail, &[4, 2], 1), (TREE, 0, 1));
}

/// A then may not have two empty records: the place is that of the second, or of the first where the right takes no event.
#[test]
fn two_empty_records() {
    let mut pair = Pair::of(&UNREAD);
    let maybe = |nodes: &mut Vec<(u16, u16, u16)>, kind: u16| {
        let at = nodes.len() as u16;
        nodes.extend([(TOKEN, kind, 0), (EMPTY, 0, 0), (EITHER, at, at + 1)]);
        at + 2
    };
    let mut nodes = Vec::new();
    let (left, right) = (maybe(&mut nodes, 0), maybe(&mut nodes, 1));
    nodes.push((THEN, left, right));
    let book = Book::ending(2, &nodes);
    for (tree, number, place) in [
        (&[E + 6][..], DONE, 0),
        (&[6, 2, 0, E + 5], DONE, 0),
        (&[6, E + 2, 5, 3], DONE, 0),
        (&[6, E + 2, E + 5], TREE, 2),
        (&[6, 2, 0, 5, 3], DONE, 0),
        (&[6, E + 2, 5, 4], TREE, 3),
    ] {
        assert_eq!(answer(&mut pair, &book, tree, 2).0, number, "{tree:?}");
        assert_eq!(answer(&mut pair, &book, tree, 2).2, place, "{tree:?}");
    }
    let nodes = [
        (EMPTY, 0, 0),
        (TOKEN, 0, 0),
        (EITHER, 0, 1),
        (EMPTY, 0, 0),
        (THEN, 2, 3),
    ];
    let book = Book::ending(1, &nodes);
    assert_eq!(
        answer(&mut pair, &book, &[4, E + 2, E + 3], 1),
        (TREE, 0, 1)
    );
}

/// All records of a few nodes: exactly those are trees that reading some run gives, and a place is exact.
#[test]
fn every_short_tree() {
    let mut pair = Pair::of(&UNREAD);
    let nodes = [
        (TOKEN, 0, 0),
        (EMPTY, 0, 0),
        (EITHER, 0, 1),
        (TOKEN, 1, 0),
        (THEN, 2, 3),
    ];
    let book = Book::ending(2, &nodes);
    let trees = [vec![4, 2, 0, 3], vec![4, E + 2, 3]];
    let alphabet: Vec<u16> = (0..=5).flat_map(|own| [own, E + own]).collect();
    let mut lists = vec![Vec::new()];
    for _ in 0..5 {
        for list in &lists {
            let (number, _, place) = answer(&mut pair, &book, list, 2);
            let agree = |tree: &Vec<u16>| tree.iter().zip(list).take_while(|(a, b)| a == b).count();
            let furthest = trees.iter().map(agree).max().unwrap() as u64;
            assert_eq!(number == DONE, trees.contains(list), "{list:?}");
            assert!(
                number == DONE || (number, place) == (TREE, furthest),
                "{list:?}"
            );
        }
        let longer = |list: &Vec<u16>| -> Vec<Vec<u16>> {
            let on = |&record: &u16| [&list[..], &[record]].concat();
            alphabet.iter().map(on).collect()
        };
        lists = lists.iter().flat_map(longer).collect();
    }
    pair.tally.expect(&[TREE], 20_000);
    pair.tally.expect(&[DONE], 2);
}

/// Random trees, whole and damaged, of random books, and room about the size of the run.
#[test]
fn random_trees() {
    let mut pair = Pair::of(&UNREAD);
    let mut random = Random::new(1);
    for _ in 0..120_000 {
        pair.compare(&(UNREAD.any)(&mut random));
    }
    for &(number, least) in UNREAD.answers {
        pair.tally.expect(&[number], least as usize);
    }
}

/// A tree that is read gives its run back, and a run that is written its tree.
#[test]
fn there_and_back() {
    let mut random = Random::new(2);
    let (mut back, mut there) = (0, 0);
    for _ in 0..20_000 {
        let book = passing_book(&mut random);
        let run = lawful_run(&mut random, &book, &Heights::of(&book));
        let plan = plan_of(&book);
        let (mut held, mut tree) = (vec![0; 6_000], vec![0; 300_000]);
        let reading = read(&plan, &run, &mut held, &mut tree);
        if reading.number == DONE {
            let mut written = vec![0xA5; run.len() + 1];
            let answer = unread(
                &book.bytes(),
                &tree[..reading.records as usize],
                &mut written,
            );
            assert_eq!((answer.number, answer.size as usize), (DONE, run.len()));
            assert_eq!(written[..run.len()], run);
            back += 1;
            let damaged = damaged_tree(&mut random, &book, &tree[..reading.records as usize]);
            let mut written = vec![0; damaged.len()];
            let answer = unread(&book.bytes(), &damaged, &mut written);
            if answer.number == DONE {
                let run = &written[..answer.size as usize];
                let reading = read(&plan, run, &mut held, &mut tree);
                assert_eq!(
                    (reading.number, reading.records as usize),
                    (DONE, damaged.len())
                );
                assert_eq!(tree[..damaged.len()], damaged);
                there += 1;
            }
        }
    }
    assert!(back > 5_000 && there > 100, "{back} {there}");
}

/// As many events as a run may have, and one more; all places of a deep tree's end.
#[test]
fn long_and_deep_trees() {
    let mut pair = Pair::of(&UNREAD);
    for (events, number) in [(MOST_EVENTS, DONE), (MOST_EVENTS + 1, RUN_LONG)] {
        let tree = rinse_tree(events);
        assert_eq!(answer(&mut pair, &rinse(), &tree, 70_000).0, number);
        assert_eq!(
            answer(&mut pair, &rinse(), &tree, MOST_EVENTS - 1).0,
            if number == DONE { RUN_ROOM } else { RUN_LONG }
        );
        let cut = &tree[..tree.len() - 1];
        assert_eq!(
            answer(&mut pair, &rinse(), cut, 0),
            (TREE, 0, cut.len() as u64)
        );
    }
    for pairs in [63, 64, 65, 66, 127, 128, 129, 130, 200, 2_000] {
        let tree = nested_tree(pairs);
        assert_eq!(
            answer(&mut pair, &nesting(), &tree, 2 * pairs),
            (DONE, 2 * pairs as u64, 0)
        );
        let mut more = tree.clone();
        more.push(1);
        assert_eq!(
            answer(&mut pair, &nesting(), &more, 0),
            (TREE, 0, tree.len() as u64)
        );
        let cut = &tree[..tree.len() - 1];
        assert_eq!(
            answer(&mut pair, &nesting(), cut, 0),
            (TREE, 0, cut.len() as u64)
        );
    }
    let mut run = vec![0; MOST_EVENTS];
    let written = unread(&rinse().bytes(), &rinse_tree(MOST_EVENTS), &mut run);
    assert_eq!((written.number, &run), (DONE, &rinse_run(MOST_EVENTS)));
    let written = unread(&nesting().bytes(), &nested_tree(500), &mut run);
    assert_eq!(
        (written.number, &run[..1_000]),
        (DONE, &nested_run(500)[..])
    );
}
