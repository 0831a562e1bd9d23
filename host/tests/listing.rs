//! The listing program against the independent rendering of what it must print.

use host::answers::*;
use host::book::{node, Book, EITHER, LONGEST_BOOK, LONGEST_PLAIN, TAGGED, TOKEN};
use host::books::examples::{nesting, rinse};
use host::books::inputs::any_input;
use host::books::limits::{nested_run, rinse_run};
use host::books::random::Random;
use host::listing::{input, listing, MOST_EVENTS, TOO_LONG, TOO_SHORT};
use host::program::{Delivery, Program};
use host::worked;

/// The three ways in which an input is delivered.
const DELIVERIES: [Delivery; 3] = [Delivery::Whole, Delivery::Pieces(1), Delivery::Bytes];

/// The program, and how often it gave each answer.
struct Pair {
    program: Program,
    tally: Tally,
}

impl Pair {
    /// A pair that has compared nothing yet.
    fn new() -> Pair {
        Pair {
            program: Program::under_test(),
            tally: Tally::default(),
        }
    }

    /// Compares what the program prints for an input with the rendering.
    fn compare(&mut self, input: &[u8], delivery: Delivery) {
        self.expect(input, delivery, &listing(input));
    }

    /// Checks that the program prints these lines for an input, and exits with status 0.
    fn expect(&mut self, input: &[u8], delivery: Delivery, lines: &str) {
        let printed = self.program.run(input, delivery);
        let text = String::from_utf8_lossy(&printed.output);
        assert_eq!(text, lines, "of {input:?}, delivered {delivery:?}");
        assert_eq!(printed.status, Some(0), "the exit status of {input:?}");
        self.tally.count(printed.number());
    }

    /// The same, for each way to deliver the input.
    fn expect_always(&mut self, input: &[u8], lines: &str) {
        for delivery in DELIVERIES {
            self.expect(input, delivery, lines);
        }
    }
}

/// The rinse book as an input, with these events.
fn rinse_input(run: &[u8]) -> Vec<u8> {
    input(&rinse().bytes(), run)
}

/// This length, and so many bytes after it.
fn with_length(length: usize, rest: usize) -> Vec<u8> {
    let mut input = (length as u16).to_le_bytes().to_vec();
    input.resize(2 + rest, 0);
    input
}

/// The worked books and runs, in each way to deliver them.
#[test]
fn worked_listings() {
    let program = Program::under_test();
    for delivery in DELIVERIES {
        worked::check_listing(|input| {
            let printed = program.run(input, delivery);
            assert_eq!(printed.status, Some(0), "the exit status of {input:?}");
            printed.output
        });
    }
}

/// Inputs that end within the length or the book, at every place.
#[test]
fn inputs_that_are_too_short() {
    let mut pair = Pair::new();
    let whole = rinse_input(&[]);
    for end in 0..whole.len() {
        pair.expect(&whole[..end], Delivery::Whole, TOO_SHORT);
        pair.expect(&whole[..end], Delivery::Bytes, TOO_SHORT);
    }
    pair.expect_always(&whole, "refused 14 0 1\n");
    for byte in [1, 24, 255] {
        pair.expect(&[byte], Delivery::Whole, TOO_SHORT);
    }
    for rest in [0, 1, LONGEST_BOOK - 1] {
        pair.expect_always(&with_length(LONGEST_BOOK, rest), TOO_SHORT);
    }
}

/// Books and runs at the most that is taken, and above it.
#[test]
fn inputs_that_are_too_long() {
    let mut pair = Pair::new();
    for length in [LONGEST_BOOK + 1, LONGEST_BOOK + 2, 8_192, 32_768, 65_535] {
        for rest in [0, 1, length - 1, length, length + 1] {
            pair.expect(&with_length(length, rest), Delivery::Whole, TOO_LONG);
        }
        pair.expect_always(&with_length(length, 0), TOO_LONG);
    }
    for (length, refusal) in [
        (0, "refused 1 0 0\n"),
        (LONGEST_PLAIN, "refused 2 0 0\n"),
        (LONGEST_BOOK, "refused 1 0 0\n"),
    ] {
        pair.expect_always(&with_length(length, length), refusal);
        pair.expect_always(&with_length(length, length + MOST_EVENTS), refusal);
        pair.expect_always(&with_length(length, length + MOST_EVENTS + 1), TOO_LONG);
    }
    pair.expect_always(
        &rinse_input(&rinse_run(MOST_EVENTS)),
        "refused 16 0 16380\n",
    );
    pair.expect_always(&rinse_input(&rinse_run(MOST_EVENTS + 1)), TOO_LONG);
    for events in [2 * MOST_EVENTS, 65_536, 1_000_000] {
        let much = rinse_input(&vec![0; events]);
        pair.expect(&much, Delivery::Whole, TOO_LONG);
        pair.expect(&much, Delivery::Pieces(2), TOO_LONG);
    }
}

/// Books and runs of lengths that few bits do not tell from those of the rinse book and of a lawful run.
#[test]
fn lengths_of_few_bits() {
    let mut pair = Pair::new();
    let book = rinse().bytes();
    for bits in 7..16 {
        let mut longer = book.clone();
        longer.resize(book.len() + (1 << bits), 0);
        pair.compare(&input(&longer, &[0, 1, 2]), Delivery::Whole);
    }
    for bits in 2..21 {
        let mut run = vec![0, 1, 2];
        run.resize(3 + (1 << bits), 0);
        pair.compare(&input(&book, &run), Delivery::Whole);
    }
    pair.tally.expect(&[LENGTH, UNEXPECTED, INPUT_TOO_LONG], 1);
}

/// Lawful runs of many lengths, and so outputs of many lengths.
#[test]
fn outputs_of_many_lengths() {
    let mut pair = Pair::new();
    for events in (2..2_100).step_by(3) {
        pair.compare(&rinse_input(&rinse_run(events)), Delivery::Whole);
    }
    pair.tally.expect(&[DONE], 680);
    pair.tally.expect(&[NO_ROOM], 10);
}

/// The greatest set of kinds, and the greatest kind alone.
#[test]
fn greatest_sets() {
    let mut pair = Pair::new();
    let mut nodes: Vec<_> = (0..64).map(|kind| (TOKEN, kind, 0)).collect();
    nodes.extend((64..127).map(|own| (EITHER, own - 1, own - 64)));
    let all = Book::ending(64, &nodes);
    pair.expect_always(
        &input(&all.bytes(), &[]),
        "refused 14 0 18446744073709551615\n",
    );
    let last = Book::ending(64, &[(TOKEN, 63, 0)]);
    pair.expect_always(
        &input(&last.bytes(), &[]),
        "refused 14 0 9223372036854775808\n",
    );
}

/// Trees and nesting at the room and the slots that the program has, and above them.
#[test]
fn room_and_slots() {
    let mut pair = Pair::new();
    let full = rinse_input(&rinse_run(2_049));
    assert!(listing(&full).starts_with("accept 2049 8192\n"));
    pair.compare(&full, Delivery::Whole);
    pair.expect(
        &rinse_input(&rinse_run(2_050)),
        Delivery::Whole,
        "refused 16 0 8196\n",
    );
    let mut odd = rinse();
    odd.nodes.push(node(TAGGED, odd.start, 1));
    odd.start += 1;
    pair.expect(
        &input(&odd.bytes(), &rinse_run(2_049)),
        Delivery::Whole,
        "refused 16 0 8193\n",
    );
    let nested = |pairs| input(&nesting().bytes(), &nested_run(pairs));
    for pairs in 505..520 {
        pair.compare(&nested(pairs), Delivery::Whole);
    }
    pair.tally.expect(&[DONE, DEEP], 5);
}

/// Random inputs of all sorts, each delivered in one of the ways.
#[test]
fn random_inputs() {
    let mut pair = Pair::new();
    let mut random = Random::new(1);
    for _ in 0..5_000 {
        let input = any_input(&mut random);
        let delivery = Delivery::any(&mut random);
        pair.compare(&input, delivery);
    }
    let often = [
        DONE, LENGTH, CONTENTS, NODE, BARREN, CONFLICT, UNUSED, UNKNOWN, UNEXPECTED, END,
    ];
    pair.tally.expect(&often, 100);
    pair.tally.expect(&[INPUT_TOO_LONG, INPUT_TOO_SHORT], 200);
    pair.tally.expect(&[SETTINGS, DEEP, NO_ROOM], 15);
}
