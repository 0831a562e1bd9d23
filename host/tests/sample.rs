//! Sample runs of the proved library against the independent way, and against the runs that derivations give.

use host::answers::*;
use host::book::*;
use host::books::examples::*;
use host::books::lengths::{any_length_book, of_length, power};
use host::books::loose::good_book;
use host::books::named::any_names;
use host::books::random::Random;
use host::books::shapes::{large_book, likely_book, little_book};
use host::books::small::all_books;
use host::calls::sample::{given, SAMPLE};
use host::calls::{Answer, Left};
use host::ffi::lent::Edge;
use host::meaning::all_runs;
use host::pair::Pair;
use host::recognise::{Meaning, Table};
use host::sample::{better, LONGEST_RUN};

/// The run that an answer of done leaves, without the zeros after it.
fn run_of(answer: &Answer) -> &[u8] {
    let [Left::Bytes(bytes)] = &answer.left[..] else {
        panic!("one buffer of bytes")
    };
    let (run, rest) = bytes.split_at(answer.fields[1] as usize);
    assert!(rest.iter().all(|&byte| byte == 0));
    run
}

/// Compares in the room of the answer, in one byte less and more, and in none; how many events the run has.
fn compare_rooms(pair: &mut Pair, book: &[u8]) -> usize {
    let answer = pair.compare(&given(book, LONGEST_RUN + 1));
    let size = answer.fields[1] as usize;
    let numbers = [size, size.saturating_sub(1), size + 1, 0].map(|room| {
        let answer = pair.compare_at(&given(book, room), Edge::Begin);
        (room, answer.number())
    });
    if answer.number() == DONE {
        for (room, number) in numbers {
            let wanted = if room < size { RUN_ROOM } else { DONE };
            assert_eq!(number, wanted, "room {room} for {size}");
        }
    }
    size
}

/// The worked books, by hand.
#[test]
fn worked_samples() {
    let mut pair = Pair::of(&SAMPLE);
    let cases: [(Book, &[u8]); 7] = [
        (rinse(), &[0, 2]),
        (harmless_recursion(), &[0]),
        (lone(EMPTY), &[]),
        (doubling(), &[]),
        (nesting(), &[]),
        (reached_upward(), &[0]),
        (of_length(&[3, 2, 2]), &[1, 1]),
    ];
    for (book, run) in cases {
        let answer = pair.compare(&given(&book.bytes(), 5));
        assert_eq!((answer.number(), run_of(&answer)), (DONE, run), "{book:?}");
        compare_rooms(&mut pair, &book.bytes());
    }
    for (book, number, place) in [
        (shared_kind(), CONFLICT, 2),
        (shared_kind_aside(), UNUSED, 1),
        (lone(FAIL), BARREN, 0),
    ] {
        let answer = pair.compare(&given(&book.bytes(), 5));
        assert_eq!(answer.fields, [u64::from(number), 0, place], "{book:?}");
    }
}

/// Shortest runs of every length about the most that can be written, and about the widths of numbers.
#[test]
fn lengths_about_the_limits() {
    let mut pair = Pair::of(&SAMPLE);
    for length in (1..200).chain(65_500..=65_535) {
        let size = compare_rooms(&mut pair, &of_length(&[length]).bytes());
        assert_eq!(size as u128, length);
    }
    let wide = [16, 17, 24, 31, 32, 33, 48, 63, 64, 65, 100, 126];
    let about = wide
        .iter()
        .flat_map(|&bits| (0..4).map(move |more| (1 << bits) + more));
    for length in about {
        let answer = pair.compare(&given(&of_length(&[length]).bytes(), LONGEST_RUN + 1));
        assert_eq!(answer.fields, [u64::from(RUN_LONG), 0, 0], "{length}");
        pair.compare(&given(&of_length(&[length]).bytes(), 0));
    }
    for doublings in 1..MOST_NODES {
        let answer = pair.compare(&given(&power(doublings).bytes(), LONGEST_RUN));
        let wanted = if doublings < 16 { DONE } else { RUN_LONG };
        assert_eq!(answer.number(), wanted, "{doublings} doublings");
    }
}

/// A choice between two lengths about the most that can be written: the shorter, and of equal ones the lower kind.
#[test]
fn choices_about_the_limit() {
    let mut pair = Pair::of(&SAMPLE);
    let lengths = [
        1,
        2,
        65_534,
        65_535,
        65_536,
        65_537,
        131_071,
        1 << 32,
        1 << 64,
    ];
    for one in lengths {
        for other in lengths {
            for book in [of_length(&[one, other]), of_length(&[one, other, one])] {
                let answer = pair.compare(&given(&book.bytes(), LONGEST_RUN));
                let least = one.min(other);
                if least > LONGEST_RUN as u128 {
                    assert_eq!(answer.number(), RUN_LONG, "{one} and {other}");
                } else {
                    let run = run_of(&answer);
                    let kind = u8::from(other < one);
                    assert_eq!(run.len() as u128, least, "{one} and {other}");
                    assert!(run.iter().all(|&event| event == kind));
                }
            }
        }
    }
}

/// The first difference decides, where later ones would say otherwise, and on whichever side of an either a run stands.
#[test]
fn first_difference() {
    let mut pair = Pair::of(&SAMPLE);
    for [one, other] in [[[0, 3], [1, 2]], [[1, 2], [0, 3]], [[2, 0], [1, 3]]] {
        let nodes = [
            (TOKEN, one[0], 0),
            (TOKEN, one[1], 0),
            (THEN, 0, 1),
            (TOKEN, other[0], 0),
            (TOKEN, other[1], 0),
            (THEN, 3, 4),
            (EITHER, 2, 5),
        ];
        let answer = pair.compare(&given(&Book::ending(4, &nodes).bytes(), 9));
        let lower = one.min(other).map(|kind| kind as u8);
        assert_eq!(run_of(&answer), lower);
    }
}

/// Checks a book that passes against all runs, the best first, up to a length.
fn check(pair: &mut Pair, book: &Book, runs: &[Vec<u8>], most: usize) {
    let answer = pair.compare(&given(&book.bytes(), 600));
    if !matches!(answer.number(), DONE | RUN_ROOM | RUN_LONG) {
        return;
    }
    let lawful = |run: &&Vec<u8>| matches!(Table::of(book, run).meaning(), Meaning::Lawful(_));
    match runs.iter().find(lawful) {
        Some(best) => assert_eq!(run_of(&answer), best, "of {book:?}"),
        None => assert!(answer.number() != DONE || run_of(&answer).len() > most),
    }
}

/// All books of up to three nodes that pass: the first lawful of all runs, the best first.
#[test]
fn small_books_by_derivations() {
    let mut pair = Pair::of(&SAMPLE);
    for (count, kinds) in [(1, 1), (2, 1), (3, 1), (1, 2), (2, 2), (3, 2)] {
        let runs = all_runs(kinds as u8, 4);
        assert!(runs.windows(2).all(|pair| better(&pair[0], &pair[1])));
        all_books(count, kinds, &mut |book| check(&mut pair, book, &runs, 4));
    }
    pair.tally.expect(&[DONE, BARREN, CONFLICT, UNUSED], 100);
}

/// Random books that pass: the first lawful of all runs, the best first.
#[test]
fn random_books_by_derivations() {
    let mut pair = Pair::of(&SAMPLE);
    let mut random = Random::new(1);
    for _ in 0..6_000 {
        let book = little_book(&mut random);
        check(&mut pair, &book, &all_runs(book.kinds as u8, 4), 4);
    }
    pair.tally.expect(&[DONE], 1_500);
}

/// The sample of a book that passes is lawful by derivations, also where it is long.
#[test]
fn samples_are_lawful() {
    let mut pair = Pair::of(&SAMPLE);
    let mut random = Random::new(2);
    let mut longest = 0;
    for _ in 0..3_000 {
        let book = likely_book(&mut random);
        let answer = pair.compare(&given(&book.bytes(), 40));
        if answer.number() == DONE {
            let run = run_of(&answer);
            let meaning = Table::of(&book, run).meaning();
            assert!(matches!(meaning, Meaning::Lawful(_)), "{run:?} of {book:?}");
            longest = longest.max(run.len());
        }
    }
    assert!(longest >= 6, "{longest}");
    pair.tally.expect(&[DONE], 1_000);
}

/// Names do not change a sample.
#[test]
fn samples_of_named_books() {
    let mut pair = Pair::of(&SAMPLE);
    let mut random = Random::new(3);
    for _ in 0..5_000 {
        let book = good_book(&mut random);
        let names = any_names(&mut random, usize::from(book.kinds));
        let room = random.below(6);
        let named = pair.compare(&given(&book.named_bytes(&names), room));
        let plain = pair.compare(&given(&book.bytes(), room));
        assert!(named == plain, "of {book:?}");
    }
    pair.tally.expect(&[DONE, RUN_ROOM], 300);
}

/// Books of up to 512 nodes and 64 kinds.
#[test]
fn large_books() {
    let mut pair = Pair::of(&SAMPLE);
    let mut random = Random::new(4);
    for _ in 0..1_500 {
        compare_rooms(&mut pair, &large_book(&mut random).bytes());
    }
    for steps in [1, 20, 63] {
        compare_rooms(&mut pair, &process(steps, 512).bytes());
    }
    pair.tally.expect(&[DONE], 1_000);
}

/// Random and damaged books, and room about the size, now and then with a choice between great lengths.
#[test]
fn random_samples() {
    let mut pair = Pair::of(&SAMPLE);
    let mut random = Random::new(5);
    for _ in 0..110_000 {
        pair.compare(&(SAMPLE.any)(&mut random));
    }
    for &(number, least) in SAMPLE.answers {
        pair.tally.expect(&[number], least as usize);
    }
    for _ in 0..2_000 {
        let (book, length) = any_length_book(&mut random);
        let answer = pair.compare(&given(&book.bytes(), LONGEST_RUN));
        let long = length > LONGEST_RUN as u128;
        assert_eq!(answer.number(), if long { RUN_LONG } else { DONE });
    }
    pair.tally.expect(&[RUN_LONG], 1_000);
}
