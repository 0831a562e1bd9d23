//! The worked examples of document 01, each checked against any implementation of a call.

use crate::answers::*;
use crate::book::*;
use crate::books::examples::*;
use crate::listing::input;
use crate::recognise::{Meaning, Table};

/// The first 18 bytes of the rinse book.
const RINSE_HEAD: [u8; BOOK_NODES] = [
    0x02, 0x00, 0x01, 0x00, 0x0E, 0x00, 0x04, 0x00, 0x02, 0x00, 0x12, 0x00, 0x36, 0x00, 0x03, 0x00,
    0x08, 0x00,
];

/// The rows of the rinse book's plan.
const RINSE_ROWS: [[u8; 4]; 9] = [
    [1, 0, 0, 0],
    [0, 1, 0, 0],
    [0, 0, 1, 0],
    [0, 0, 0, 1],
    [0, 2, 0, 1],
    [0, 3, 0, 0],
    [0, 2, 0, 1],
    [0, 3, 4, 0],
    [3, 0, 0, 0],
];

/// What is due in the rinse book's plan.
const RINSE_DUES: [u16; 9] = [1, 1, 1, 0, 0, 1, 0, 1, 2];

/// Each worked book with the compiler's answer in ample room: number, place, size, flag and set of a conflict.
fn compile_cases() -> Vec<(Book, [u32; 5])> {
    vec![
        (rinse(), [DONE, 0, 138, 0, 0]),
        (shared_kind(), [CONFLICT, 2, 0, 0, 1]),
        (both_nullable(), [CONFLICT, 2, 0, 1, 0]),
        (not_after(), [CONFLICT, 3, 0, 0, 1]),
        (left_recursion(), [CONFLICT, 4, 0, 0, 2]),
        (shared_kinds(), [CONFLICT, 3, 0, 0, 3]),
        (both_ways(), [CONFLICT, 3, 0, 1, 1]),
        (not_after_kinds(), [CONFLICT, 5, 0, 0, 5]),
        (harmless_recursion(), [DONE, 0, 80, 0, 0]),
        (lone(FAIL), [BARREN, 0, 0, 0, 0]),
        (lone(REF), [BARREN, 0, 0, 0, 0]),
        (lone(EMPTY), [DONE, 0, 40, 0, 0]),
        (doubling(), [DONE, 0, 5_150, 0, 0]),
        (shared_kind_aside(), [UNUSED, 1, 0, 0, 0]),
        (unused_and_barren(), [UNUSED, 0, 0, 0, 0]),
        (unused_beside_conflict(), [UNUSED, 3, 0, 0, 0]),
        (reached_upward(), [DONE, 0, 60, 0, 0]),
    ]
}

/// The bytes of the rinse book's plan.
fn rinse_plan() -> Vec<u8> {
    let contents = [4, 1, 26, 4, 2, 30, 54, 3, 84, 36, 4, 120, 18];
    let mut plan = bytes_of(&contents);
    plan.extend(&rinse().bytes()[BOOK_SETTINGS..]);
    plan.extend(RINSE_ROWS.concat());
    plan.extend(bytes_of(&RINSE_DUES));
    plan
}

/// Checks an implementation of the compiler.
pub fn check_compile(compile: impl Fn(&[u8], &mut [u8]) -> Compiled) {
    for (book, [number, place, size, both, clash]) in compile_cases() {
        let answer = Compiled {
            number,
            place,
            size,
            both,
            clash: clash.into(),
        };
        let mut plan = vec![0xA5; 6_000];
        assert_eq!(compile(&book.bytes(), &mut plan), answer, "of {book:?}");
        assert!(plan[size as usize..].iter().all(|&byte| byte == 0));
        if number == DONE {
            check_plan_room(&book, size, &compile);
        }
    }
    let mut plan = vec![0xA5; 138];
    compile(&rinse().bytes(), &mut plan);
    assert_eq!(plan, rinse_plan());
}

/// Checks that a plan of this size needs just its room.
fn check_plan_room(book: &Book, size: u32, compile: impl Fn(&[u8], &mut [u8]) -> Compiled) {
    for (length, number) in [(size, DONE), (size - 1, PLAN_ROOM), (0, PLAN_ROOM)] {
        let mut plan = vec![0xA5; length as usize];
        let answer = compile(&book.bytes(), &mut plan);
        assert_eq!((answer.number, answer.place), (number, 0), "of {book:?}");
        assert_eq!(answer.size, size, "of {book:?}");
        assert_eq!((answer.both, answer.clash), (0, 0), "of {book:?}");
        let written = plan.iter().any(|&byte| byte != 0);
        assert_eq!(written, number == DONE, "of {book:?}");
    }
}

/// A run read by the plan of a worked book with so many slots and so much room.
struct ReadCase {
    book: Book,
    run: &'static [u8],
    slots: usize,
    room: usize,
    /// Number, place, records.
    answer: [u32; 3],
    label: u32,
    expected: u64,
    tree: &'static [u16],
}

/// A run read with just the room that its tree needs.
fn accepted(book: Book, run: &'static [u8], slots: usize, tree: &'static [u16]) -> ReadCase {
    let records = tree.len();
    ReadCase {
        book,
        run,
        slots,
        room: records,
        answer: [DONE, run.len() as u32, records as u32],
        label: 0,
        expected: 0,
        tree,
    }
}

/// A run of the rinse book that is refused in ample room.
fn refused(run: &'static [u8], slots: usize, number: u32, place: u32, expected: u64) -> ReadCase {
    ReadCase {
        book: rinse(),
        run,
        slots,
        room: 20,
        answer: [number, place, 0],
        label: 0,
        expected,
        tree: &[],
    }
}

/// What an empty record has beside its node number.
const E: u16 = EMPTY_RECORD;

/// The worked runs.
fn read_cases() -> Vec<ReadCase> {
    vec![
        accepted(rinse(), &[0, 1, 2], 2, &[8, 0, 7, 6, 5, 1, E + 4, 2]),
        accepted(rinse(), &[0, 2], 2, &[8, 0, 7, E + 6, 2]),
        refused(&[0, 1, 2], 1, DEEP, 1, 0),
        refused(&[0, 1, 2], 0, DEEP, 0, 0),
        refused(&[], 0, DEEP, 0, 0),
        ReadCase {
            room: 7,
            answer: [NO_ROOM, 0, 8],
            ..refused(&[0, 1, 2], 2, NO_ROOM, 0, 0)
        },
        refused(&[0, 0], 2, UNEXPECTED, 1, 6),
        refused(&[], 2, END, 0, 1),
        refused(&[0, 1, 1], 2, END, 3, 6),
        refused(&[0, 2, 1], 2, UNEXPECTED, 2, 0),
        refused(&[0, 3], 2, UNKNOWN, 1, 6),
        accepted(harmless_recursion(), &[0], 1, &[4, 3]),
        accepted(lone(EMPTY), &[], 1, &[E]),
        ReadCase {
            book: lone(EMPTY),
            ..refused(&[0], 1, UNEXPECTED, 0, 0)
        },
        accepted(doubling(), &[], 1, &[E + 511]),
        accepted(reached_upward(), &[0], 1, &[0, 2, 1]),
        ReadCase {
            book: stages(),
            ..refused(&[], 2, END, 0, 1)
        },
        ReadCase {
            book: stages(),
            label: 7,
            ..refused(&[0], 2, END, 1, 2)
        },
        ReadCase {
            book: stages(),
            label: 7,
            ..refused(&[0, 0], 2, UNEXPECTED, 1, 2)
        },
        ReadCase {
            book: stages(),
            label: 7,
            ..refused(&[0, 9], 2, UNKNOWN, 1, 2)
        },
        ReadCase {
            book: stages(),
            ..refused(&[0, 1], 2, END, 2, 1)
        },
        accepted(stages(), &[0, 1, 0], 2, &[5, 4, 3, 0, 2, 1, 0]),
    ]
}

/// Checks an implementation of the reader on plans by an implementation of the compiler.
pub fn check_read(
    compile: impl Fn(&[u8], &mut [u8]) -> Compiled,
    read: impl Fn(&[u8], &[u8], &mut [u32], &mut [u16]) -> Reading,
) {
    for case in read_cases() {
        let mut plan = vec![0; 6_000];
        let size = compile(&case.book.bytes(), &mut plan).size;
        plan.truncate(size as usize);
        let mut held = vec![0xA5A5_A5A5; case.slots];
        let mut tree = vec![0xA5A5; case.room];
        let reading = read(&plan, case.run, &mut held, &mut tree);
        let answer = [reading.number, reading.place, reading.records];
        assert_eq!(answer, case.answer, "run {:?} of {:?}", case.run, case.book);
        assert_eq!(reading.expected, case.expected, "run {:?}", case.run);
        assert_eq!(reading.label, case.label, "run {:?}", case.run);
        let mut wanted = case.tree.to_vec();
        wanted.resize(case.room, 0);
        assert_eq!(tree, wanted, "run {:?} of {:?}", case.run, case.book);
        assert_eq!(held, vec![0; case.slots], "run {:?}", case.run);
    }
}

/// Worked books and runs with what the listing program prints.
fn listing_cases() -> Vec<(Book, &'static [u8], &'static str)> {
    vec![
        (rinse(), &[0, 1, 2], "accept 3 8\n8\n0\n7\n6\n5\n1\n-4\n2\n"),
        (rinse(), &[0, 2], "accept 2 5\n8\n0\n7\n-6\n2\n"),
        (rinse(), &[0, 0], "refused 13 1 6\n"),
        (rinse(), &[], "refused 14 0 1\n"),
        (rinse(), &[0, 1, 1], "refused 14 3 6\n"),
        (rinse(), &[0, 2, 1], "refused 13 2 0\n"),
        (rinse(), &[0, 3], "refused 12 1 6\n"),
        (shared_kind(), &[0], "refused 6 2 1 0\n"),
        (both_nullable(), &[], "refused 6 2 0 1\n"),
        (not_after(), &[0], "refused 6 3 1 0\n"),
        (left_recursion(), &[1, 0], "refused 6 4 2 0\n"),
        (both_ways(), &[], "refused 6 3 1 1\n"),
        (not_after_kinds(), &[0], "refused 6 5 5 0\n"),
        (harmless_recursion(), &[0], "accept 1 2\n4\n3\n"),
        (lone(FAIL), &[], "refused 5 0 0\n"),
        (lone(FAIL), &[0], "refused 5 0 0\n"),
        (lone(EMPTY), &[], "accept 0 1\n-0\n"),
        (lone(EMPTY), &[0], "refused 13 0 0\n"),
        (doubling(), &[], "accept 0 1\n-511\n"),
        (shared_kind_aside(), &[0], "refused 22 1 0\n"),
        (unused_and_barren(), &[], "refused 22 0 0\n"),
        (reached_upward(), &[0], "accept 1 3\n0\n2\n1\n"),
    ]
}

/// Checks a listing program.
pub fn check_listing(listing: impl Fn(&[u8]) -> Vec<u8>) {
    for (book, run, lines) in listing_cases() {
        let printed = listing(&input(&book.bytes(), run));
        let printed = String::from_utf8_lossy(&printed);
        assert_eq!(printed, lines, "run {run:?} of {book:?}");
    }
}

/// Checks what the worked runs mean by derivations.
pub fn check_recognise() {
    for case in read_cases() {
        let table = Table::of(&case.book, case.run);
        let place = case.answer[1] as usize;
        let meaning = match case.answer[0] {
            DONE => Meaning::Lawful(case.tree.to_vec()),
            UNEXPECTED => Meaning::Unexpected(place),
            UNKNOWN => Meaning::Unknown(place),
            END => Meaning::Unfinished,
            _ => continue,
        };
        assert_eq!(table.meaning(), meaning, "run {:?}", case.run);
    }
}

/// Checks an implementation of the form test.
pub fn check_form(form: impl Fn(&[u8]) -> Formed) {
    assert_eq!(rinse().bytes()[..BOOK_NODES], RINSE_HEAD);
    for (book, _) in compile_cases() {
        let answer = form(&book.bytes());
        assert_eq!((answer.number, answer.place), (DONE, 0), "of {book:?}");
    }
    let rinse = rinse().bytes();
    let changed = |at: usize, to: u8| {
        let mut bytes = rinse.clone();
        bytes[at] = to;
        bytes
    };
    let cases = [
        (rinse[..71].to_vec(), LENGTH, 0),
        (rinse[..18].to_vec(), LENGTH, 0),
        (Vec::new(), LENGTH, 0),
        (rinse[..66].to_vec(), CONTENTS, 0),
        (changed(0, 3), CONTENTS, 0),
        (changed(12, 0x30), CONTENTS, 0),
        (changed(14, 0), SETTINGS, 0),
        (changed(14, 65), SETTINGS, 0),
        (changed(16, 9), SETTINGS, 0),
        (changed(14, 1), NODE, 1),
        (changed(18, 7), NODE, 0),
        (changed(44, 9), NODE, 4),
        (changed(62, 7), NODE, 7),
        (changed(68, 8), NODE, 8),
    ];
    for (bytes, number, place) in cases {
        let answer = form(&bytes);
        assert_eq!(
            (answer.number, answer.place),
            (number, place),
            "of {bytes:?}"
        );
    }
}
