//! Names for the kinds: their form, the moves between the two forms of a book, and the look-up, against independent
//! implementations.

use host::answers::*;
use host::book::*;
use host::books::examples::rinse;
use host::books::loose::good_book;
use host::books::named::{any_names, named_book};
use host::books::random::Random;
use host::calls::moves::{given, plain_names, BACK, FORWARD};
use host::calls::name::{IN_THE_BOOK, IN_THE_HOUSE, NAME, NOWHERE};
use host::calls::{compile, form, name, Argument, Left};
use host::names::{bytes_of_names, HOUSE_NAMES, LONGEST_NAME};
use host::pair::Pair;

/// The rinse book's names.
const RINSE_NAMES: [&[u8]; 3] = [b"fill", b"rinse", b"tip"];

/// The bytes that a call left in its buffer.
fn left(answer: &host::calls::Answer) -> &[u8] {
    match &answer.left[0] {
        Left::Bytes(bytes) => bytes,
        _ => panic!("words where bytes are due"),
    }
}

/// The rinse book with names, byte by byte.
#[test]
fn rinse_with_names() {
    let bytes = rinse().named_bytes(&RINSE_NAMES);
    let head = [
        3, 0, 1, 0, 20, 0, 4, 0, 2, 0, 24, 0, 54, 0, 3, 0, 78, 0, 15, 0, 3, 0, 8, 0,
    ];
    assert_eq!(bytes[..24], head);
    assert_eq!(&bytes[78..], b"\x04fill\x05rinse\x03tip");
    let mut pair = Pair::of(&form::FORM);
    pair.compare(&form::given(&bytes));
    pair.tally.expect(&[DONE], 1);
    let mut pair = Pair::of(&NAME);
    for (kind, (offset, size)) in [(79, 4), (84, 5), (90, 3)].into_iter().enumerate() {
        let answer = pair.compare(&name::given(&bytes, &[], kind as u32));
        assert_eq!(answer.fields, [1, offset, size]);
    }
    assert_eq!(pair.compare(&name::given(&bytes, &[], 3)).fields, [0, 0, 0]);
}

/// All values of each byte of a small book with names.
#[test]
fn every_value_of_each_byte() {
    let mut pair = Pair::of(&form::FORM);
    let book = Book::ending(3, &[(TOKEN, 2, 0), (EMPTY, 0, 0), (THEN, 0, 1)]);
    let bytes = book.named_bytes(&[&b"ab"[..], b"a", b"abc"]);
    for at in 0..bytes.len() {
        let mut damaged = bytes.clone();
        for value in 0..=255 {
            damaged[at] = value;
            pair.compare(&form::given(&damaged));
        }
    }
    pair.tally.expect(&[DONE], 500);
    pair.tally.expect(&[CONTENTS], 18 * 255);
    pair.tally.expect(&[NAMES], 1_500);
    pair.tally.expect(&[LENGTH, SETTINGS, NODE], 200);
}

/// Every length of a book with names, and of a names' section, with the contents that they fix.
#[test]
fn every_length() {
    let mut pair = Pair::of(&form::FORM);
    for count in [1, 2, 511, 512] {
        let nodes = vec![node(EMPTY, 0, 0); count];
        for kinds in [1, 2, 63, 64] {
            let start = 0;
            let book = Book {
                kinds,
                start,
                nodes: nodes.clone(),
            };
            let names = bytes_of_names(&plain_names()[..usize::from(kinds)]);
            for length in 0..=MOST_KINDS * (1 + LONGEST_NAME) + 2 {
                let mut section = names.clone();
                section.resize(length, b'x');
                pair.compare(&form::given(&book.three_sections(&section)));
            }
        }
    }
    pair.tally.expect(&[DONE], 16);
    pair.tally.expect(&[NAMES], 15_000);
    pair.tally.expect(&[LENGTH], 6);
}

/// Names of every length at every place of a list, and each pair of equal ones.
#[test]
fn names_of_every_length() {
    let mut pair = Pair::of(&FORWARD);
    let book = Book::ending(64, &[(TOKEN, 63, 0)]).bytes();
    for at in 0..HOUSE_NAMES {
        for length in 0..=255 {
            let mut names = plain_names();
            names[at] = vec![b'z'; length];
            pair.compare(&given(&book, &bytes_of_names(&names), 600));
        }
        for other in 0..HOUSE_NAMES {
            let mut names = plain_names();
            names[at] = names[other].clone();
            pair.compare(&given(&book, &bytes_of_names(&names), 600));
        }
    }
    pair.tally.expect(&[DONE], 64 * 17);
    pair.tally.expect(&[NAMES], 64 * (239 + 63));
}

/// Random moves of either sort, good and damaged books and lists, and room about the size.
#[test]
fn random_moves() {
    for (number, call) in [&FORWARD, &BACK].into_iter().enumerate() {
        let mut pair = Pair::of(call);
        let mut random = Random::new(number as u64);
        for _ in 0..60_000 {
            pair.compare(&(call.any)(&mut random));
        }
        for &(number, least) in call.answers {
            pair.tally.expect(&[number], least as usize / 2);
        }
    }
}

/// Random look-ups.
#[test]
fn random_names() {
    let mut pair = Pair::of(&NAME);
    let mut random = Random::new(3);
    for _ in 0..100_000 {
        pair.compare(&(NAME.any)(&mut random));
    }
    pair.tally
        .expect(&[NOWHERE, IN_THE_BOOK, IN_THE_HOUSE], 10_000);
}

/// Forward then back gives the same bytes, and back then forward too.
#[test]
fn round_trips() {
    let (mut there, mut again) = (Pair::of(&FORWARD), Pair::of(&BACK));
    let mut random = Random::new(4);
    for _ in 0..10_000 {
        let book = good_book(&mut random);
        let house = bytes_of_names(&any_names(&mut random, HOUSE_NAMES));
        let moved = there.compare(&given(&book.bytes(), &house, LONGEST_BOOK));
        let named = left(&moved)[..moved.fields[1] as usize].to_vec();
        let moved = again.compare(&given(&named, &house, LONGEST_BOOK));
        assert_eq!(left(&moved)[..moved.fields[1] as usize], book.bytes());
        let moved = there.compare(&given(&book.bytes(), &house, named.len()));
        assert_eq!(left(&moved), named);
    }
    there.tally.expect(&[DONE], 20_000);
    again.tally.expect(&[DONE], 10_000);
}

/// A book with names has the plan of the same book without them.
#[test]
fn plans_of_named_books() {
    let mut pair = Pair::of(&compile::COMPILE);
    let mut random = Random::new(5);
    for _ in 0..20_000 {
        let book = good_book(&mut random);
        let names = any_names(&mut random, usize::from(book.kinds));
        let room =
            30 + book.nodes.len() * (NODE_BYTES + usize::from(book.kinds) + 3) - random.below(2);
        let named = pair.compare(&compile::given(&book.named_bytes(&names), room));
        let plain = pair.compare(&compile::given(&book.bytes(), room));
        assert!(named == plain, "of {book:?}");
    }
    pair.tally.expect(&[DONE, CONFLICT, PLAN_ROOM], 2_000);
    for _ in 0..40_000 {
        let book = named_book(&mut random);
        pair.compare(&vec![Argument::Given(book), Argument::Room(600)]);
    }
    pair.tally.expect(&[NAMES], 5_000);
}
