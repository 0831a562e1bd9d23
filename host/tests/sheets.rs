//! Books made of sheets, against an independent reading of the documents.

use host::answers::*;
use host::book::*;
use host::books::random::Random;
use host::books::sheets::{any_sheet, good_sheet};
use host::calls::lender::Lending;
use host::calls::sheet::{given, given_place, MAKE, PLACE};
use host::calls::{compile, Answer, Left};
use host::ffi::lent::Edge;
use host::pair::Pair;
use host::sheet::{goes_wrong, made, rules};

/// Room for every book.
const ROOM: usize = LONGEST_BOOK;

/// The sheets of up to three bytes after `a=`, of all bytes that a sheet has and some that it has not.
const ALPHABET: &[u8] = b"ab;=|()* \n-";

/// What a sheet comes to: the number and the place.
fn answer(pair: &mut Pair, text: &[u8]) -> (u32, u64) {
    let answer = pair.compare(&given(text, ROOM));
    (answer.number(), answer.fields[2])
}

/// The document's own example, byte by byte.
#[test]
fn worked_sheet() {
    let mut pair = Pair::of(&MAKE);
    let answer = pair.compare(&given(b"r = a b* ;", ROOM));
    let book = Book::ending(
        2,
        &[
            (TOKEN, 0, 0),
            (TOKEN, 1, 0),
            (REF, 5, 0),
            (THEN, 1, 2),
            (EMPTY, 0, 0),
            (EITHER, 3, 4),
            (THEN, 0, 5),
        ],
    );
    let bytes = book.named_bytes(&[b"a", b"b"]);
    let Left::Bytes(left) = &answer.left[0] else {
        panic!("bytes are left")
    };
    assert_eq!(answer.fields, [0, bytes.len() as u64, 0]);
    assert_eq!(left[..bytes.len()], bytes);
}

/// Places of refusals, counted by hand.
#[test]
fn worked_refusals() {
    let mut pair = Pair::of(&MAKE);
    let long = b"abcdefghijklmnopq = a ;";
    let nested = |depth: usize| {
        [
            b"a=".to_vec(),
            vec![b'('; depth],
            b"b".to_vec(),
            vec![b')'; depth],
            b";".to_vec(),
        ]
        .concat()
    };
    for (text, number, place) in [
        (&b""[..], SHEET, 0),
        (b"   \n ", SHEET, 5),
        (b"empty = a ;", SHEET, 5),
        (b"empty", SHEET, 5),
        (b"emptyx = a ;", DONE, 0),
        (long, SHEET, 16),
        (b"a = abcdefghijklmnopq ;", SHEET, 20),
        (b"a = b** ;", SHEET, 6),
        (b"a = b * * ;", SHEET, 8),
        (b"a = | b ;", SHEET, 4),
        (b"a = b | ;", SHEET, 8),
        (b"a = () ;", SHEET, 5),
        (b"a = b ) ;", SHEET, 6),
        (b"a = ( b ;", SHEET, 8),
        (b"a = b", SHEET, 5),
        (b"a b = c ;", SHEET, 2),
        (b"a = b ; c", SHEET, 9),
        (b"a = b ;\x00", SHEET, 7),
        (b"a = b\t;", SHEET, 5),
        (b"a = b\r\n;", SHEET, 5),
        (b"a = \xc3\xa9 ;", SHEET, 4),
        (b"A = b ;", SHEET, 0),
        (b"a = b ; c = d ; a = e ;", TWICE, 16),
        (b"a = a ;", KINDLESS, 0),
        (b"a = empty ;", KINDLESS, 0),
        (&nested(32), DONE, 0),
        (&nested(33), SHEET, 34),
    ] {
        assert_eq!(
            answer(&mut pair, text),
            (number, place as u64),
            "{:?}",
            String::from_utf8_lossy(text)
        );
    }
}

/// All texts of a few bytes: where one goes wrong nothing that begins so is a sheet, and what is before it can be
/// completed.
#[test]
fn every_short_text() {
    let mut pair = Pair::of(&MAKE);
    let mut texts = vec![b"a=".to_vec()];
    for _ in 0..4 {
        let longer = |text: &Vec<u8>| {
            ALPHABET
                .iter()
                .map(|&byte| [&text[..], &[byte]].concat())
                .collect::<Vec<_>>()
        };
        texts = texts.iter().flat_map(longer).collect();
        for text in &texts {
            let place = answer(&mut pair, text);
            if place.0 == SHEET {
                let begun = &text[..place.1 as usize];
                assert!(
                    completions().any(|end| rules(&[begun, end].concat()).is_some()),
                    "{text:?}"
                );
                if begun.len() < text.len() {
                    let with = &text[..begun.len() + 1];
                    assert!(
                        !completions().any(|end| rules(&[with, end].concat()).is_some()),
                        "{text:?}"
                    );
                }
            }
        }
    }
    pair.tally.expect(&[SHEET], 10_000);
    pair.tally.expect(&[DONE], 50);
}

/// Ends that complete what a few bytes begin, if anything does.
fn completions() -> impl Iterator<Item = &'static [u8]> {
    let ends: [&[u8]; 12] = [
        b"", b";", b"b;", b");", b"b);", b"));", b"b));", b")));", b"b)));", b"b))));", b"=b;",
        b"x=b;",
    ];
    ends.into_iter()
}

/// Random sheets, good and damaged, and room about the size.
#[test]
fn random_sheets() {
    let mut pair = Pair::of(&MAKE);
    let mut random = Random::new(1);
    for _ in 0..120_000 {
        pair.compare(&(MAKE.any)(&mut random));
    }
    for &(number, least) in MAKE.answers {
        pair.tally.expect(&[number], least as usize);
    }
}

/// Random nodes of random sheets.
#[test]
fn random_places() {
    let mut pair = Pair::of(&PLACE);
    let mut random = Random::new(2);
    for _ in 0..100_000 {
        pair.compare(&(PLACE.any)(&mut random));
    }
    for &(number, least) in PLACE.answers {
        pair.tally.expect(&[number], least as usize);
    }
}

/// The places of the nodes of a worked sheet: words, `empty`, choice, further factor and star.
#[test]
fn worked_places() {
    let mut pair = Pair::of(&PLACE);
    let text = b"r = a | empty ( b c )* ;";
    let places = [4, 8, 16, 18, 18, 21, 21, 21, 21, 14, 6];
    for (node, place) in places.into_iter().enumerate() {
        let answer = pair.compare(&given_place(text, node as u32));
        assert_eq!(answer.fields, [0, 0, place], "node {node}");
    }
    let answer = pair.compare(&given_place(text, places.len() as u32));
    assert_eq!(answer.fields, [NODE.into(), 0, places.len() as u64]);
}

/// What is made of a sheet is a book that the compiler judges, and its names are good.
#[test]
fn books_of_sheets_are_well_formed() {
    let mut pair = Pair::of(&compile::COMPILE);
    let mut random = Random::new(3);
    for _ in 0..20_000 {
        let text = good_sheet(&mut random);
        let Ok(made) = made(&text) else { continue };
        let bytes = made.book().named_bytes(&made.kinds);
        let answer = pair.compare(&compile::given(&bytes, LONGEST_PLAN));
        assert!(![LENGTH, CONTENTS, SETTINGS, NODE, NAMES].contains(&answer.number()));
    }
    pair.tally.expect(&[DONE], 1_000);
}

/// A megabyte of blanks, of letters, of rules, of open parentheses; bytes of every value.
#[test]
fn odd_texts() {
    let mut pair = Pair::of(&MAKE);
    for byte in 0..=255 {
        pair.compare(&given(&[byte], 0));
        pair.compare(&given(&[b"a = ".as_slice(), &[byte]].concat(), 0));
        pair.compare(&given(&[b"a = b ;".as_slice(), &[byte]].concat(), ROOM));
    }
    let mega = 1 << 20;
    for byte in [b' ', b'\n', b'a', b'(', 0, 255] {
        pair.compare(&given(&vec![byte; mega], ROOM));
    }
    let mut blanks = b"a = b ;".to_vec();
    blanks.resize(mega, b' ');
    assert_eq!(answer(&mut pair, &blanks), (DONE, 0));
    blanks[mega - 1] = b'*';
    assert_eq!(answer(&mut pair, &blanks), (SHEET, mega as u64 - 1));
    let long = [b"a = b".as_slice(), &b" | b".repeat(mega / 4), b" ;"].concat();
    assert_eq!(goes_wrong(&long), long.len());
    let refused = Answer::new(vec![BIG.into(), 0, 0], vec![Left::Bytes(vec![0; ROOM])]);
    pair.expect(&given(&long, ROOM), Lending::at(Edge::End), &refused);
}

/// Any bytes at all.
#[test]
fn any_texts() {
    let mut pair = Pair::of(&MAKE);
    let mut random = Random::new(4);
    for _ in 0..20_000 {
        pair.compare(&given(&any_sheet(&mut random), ROOM));
        let length = random.below(30);
        let text: Vec<u8> = (0..length).map(|_| random.word() as u8).collect();
        pair.compare(&given(&text, 0));
    }
}
