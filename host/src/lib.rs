//! Independent implementations of document 01, and what the tests of the proved library share.

pub mod answers;
pub mod board;
pub mod book;
pub mod books;
pub mod calls;
pub mod compile;
pub mod depth;
pub mod due;
pub mod ffi;
pub mod form;
pub mod fuzz;
pub mod listing;
pub mod meaning;
pub mod moves;
pub mod names;
pub mod pair;
pub mod pending;
pub mod program;
pub mod read;
pub mod recognise;
pub mod sample;
pub mod sheet;
pub mod shown;
pub mod smaller;
pub mod unread;
pub mod worked;
pub mod worked_board;

#[cfg(test)]
mod tests {
    use super::*;
    use answers::*;
    use book::{node, Book, EITHER, EMPTY, THEN, TOKEN};
    use compile::compile;
    use form::form;
    use meaning::{all_runs, Check};
    use read::read;
    use recognise::Table;

    /// The header has the numbers of the answers, and the limits.
    #[test]
    fn header_numbers() {
        let header = include_str!("../../include/drumbook.h");
        let named = |name: &str| -> u32 {
            let (_, rest) = header
                .split_once(&format!("DRUMBOOK_{name} = "))
                .expect(name);
            let end = rest.find(|c: char| !c.is_ascii_digit()).expect(name);
            rest[..end].parse().expect(name)
        };
        let names =
            "DONE LENGTH CONTENTS SETTINGS NODE BARREN CONFLICT PLAN_ROOM PLAN_FORM CELL LONG \
                     DEEP UNKNOWN UNEXPECTED END RUNAWAY NO_ROOM";
        for (number, name) in names.split(' ').enumerate() {
            assert_eq!(named(name), number as u32, "{name}");
        }
        let later = [
            ("NO_DRUM", NO_DRUM),
            ("IDLE", IDLE),
            ("STALE", STALE),
            ("NAMES", NAMES),
            ("KEPT", KEPT),
            ("OUT_ROOM", OUT_ROOM),
            ("UNUSED", UNUSED),
            ("TREE", TREE),
            ("RUN_LONG", RUN_LONG),
            ("RUN_ROOM", RUN_ROOM),
            ("SHEET", SHEET),
            ("TWICE", TWICE),
            ("BIG", BIG),
            ("KINDLESS", KINDLESS),
            ("UNBOUNDED", UNBOUNDED),
            ("DEEPER", DEEPER),
            ("SLOTS", SLOTS),
        ];
        for (name, number) in later {
            assert_eq!(named(name), number, "{name}");
        }
        assert_eq!(named("HOUSE_NAMES"), names::HOUSE_NAMES as u32);
        assert_eq!(named("DRUMS"), board::MOST_DRUMS);
        assert_eq!(named("DRUM_SLOTS"), board::DRUM_SLOTS as u32);
        assert_eq!(named("EMPTY_RECORD"), u32::from(EMPTY_RECORD));
        assert_eq!(named("LARGEST_BOOK"), book::LONGEST_BOOK as u32);
        assert_eq!(named("LARGEST_PLAN"), book::LONGEST_PLAN as u32);
    }

    /// Every call answers its example with done, and says each number once.
    #[test]
    fn calls_of_the_table() {
        for call in calls::CALLS {
            let arguments = (call.example)();
            assert_eq!(arguments.len(), call.takes.len(), "{}", call.name);
            let answer = (call.wanted)(&arguments);
            assert_eq!(answer.number(), call.done, "{}", call.name);
            assert_eq!(answer.fields.len(), call.fields.len(), "{}", call.name);
            let numbers: Vec<u32> = call.answers.iter().map(|answer| answer.0).collect();
            let grow = numbers.windows(2).all(|pair| pair[0] < pair[1]);
            assert!(grow && numbers.iter().all(|&number| number < ANSWERS as u32));
        }
    }

    /// The large shapes keep to the form of a book.
    #[test]
    fn large_books_are_well_formed() {
        let mut random = books::random::Random::new(1);
        for _ in 0..20_000 {
            let book = books::shapes::large_book(&mut random);
            assert_eq!(form(&book.bytes()).number, DONE, "of {book:?}");
        }
    }

    /// The worked books and damaged copies of the rinse book.
    #[test]
    fn worked_forms() {
        worked::check_form(form);
    }

    /// The worked books.
    #[test]
    fn worked_plans() {
        worked::check_compile(compile);
    }

    /// The worked runs, read.
    #[test]
    fn worked_readings() {
        worked::check_read(compile, read);
    }

    /// The worked listings.
    #[test]
    fn worked_listings() {
        worked::check_listing(|input| listing::listing(input).into_bytes());
    }

    /// The worked runs, by derivations.
    #[test]
    fn worked_meanings() {
        worked::check_recognise();
    }

    /// A run that is derived in two ways, for each rule of a conflict.
    #[test]
    fn two_derivations() {
        let nodes = [
            vec![node(EMPTY, 0, 0), node(EMPTY, 0, 0), node(EITHER, 0, 1)],
            vec![node(TOKEN, 0, 0), node(TOKEN, 0, 0), node(EITHER, 0, 1)],
            vec![
                node(TOKEN, 0, 0),
                node(EMPTY, 0, 0),
                node(EITHER, 0, 1),
                node(THEN, 2, 2),
            ],
        ];
        for (nodes, run) in nodes.into_iter().zip([&[][..], &[0], &[0]]) {
            let start = nodes.len() as u16 - 1;
            let book = Book {
                kinds: 1,
                start,
                nodes,
            };
            assert!(!Table::of(&book, run).only_derivation(), "of {book:?}");
            let compiled = compile(&book.bytes(), &mut [0; 64]);
            assert_eq!((compiled.number, compiled.place), (CONFLICT, start.into()));
        }
    }

    /// All books of up to three nodes: compiler and reader against derivations.
    #[test]
    fn small_books_by_derivations() {
        let mut check = Check::of(compile, read);
        for (count, kinds) in [(1, 1), (2, 1), (3, 1), (1, 2), (2, 2), (3, 2)] {
            check.small_books(count, kinds, &all_runs(kinds as u8 + 1, 4));
        }
        check
            .compiled
            .expect(&[DONE, BARREN, CONFLICT, UNUSED], 100);
        check.read_as.expect(&[DONE, UNKNOWN, UNEXPECTED, END], 200);
    }

    /// Random books that pass: compiler and reader against derivations.
    #[test]
    fn random_books_by_derivations() {
        let mut check = Check::of(compile, read);
        check.random_books(1, 5_000);
        check
            .compiled
            .expect(&[DONE, BARREN, CONFLICT, UNUSED], 500);
        check
            .read_as
            .expect(&[DONE, UNKNOWN, UNEXPECTED, END], 5_000);
    }
}
