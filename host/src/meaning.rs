//! A compiler and a reader checked against what runs mean by derivations.

use crate::answers::*;
use crate::book::Book;
use crate::books::random::Random;
use crate::books::runs::{any_run, Heights};
use crate::books::shapes::{little_book, without_unused};
use crate::books::small::all_books;
use crate::calls::{Compile, Read};
use crate::recognise::{Meaning, Table};

/// Room for the plan of a small book.
const PLAN_BYTES: usize = 2_048;

/// Slots enough for the short runs of a small book.
const SLOTS: usize = 512;

/// Room enough for the trees of those runs.
const ROOM: usize = 4_096;

/// The longest run that is tried on random books.
const LONGEST: usize = 9;

/// A compiler and a reader under check, and how often they gave each answer.
pub struct Check {
    compile: Compile,
    read: Read,
    pub compiled: Tally,
    pub read_as: Tally,
}

impl Check {
    /// A check of this compiler and reader.
    pub fn of(compile: Compile, read: Read) -> Check {
        Check {
            compile,
            read,
            compiled: Tally::default(),
            read_as: Tally::default(),
        }
    }

    /// Checks all books of so many nodes and kinds on these runs.
    pub fn small_books(&mut self, count: usize, kinds: u16, runs: &[Vec<u8>]) {
        all_books(count, kinds, &mut |book| {
            if let Some(plan) = self.plan(book) {
                for run in runs {
                    self.run(book, &plan, run);
                }
            }
        });
    }

    /// Checks random books until so many passed, on all short runs and some longer ones.
    pub fn random_books(&mut self, seed: u64, passes: usize) {
        let mut random = Random::new(seed);
        let mut passed = 0;
        while passed < passes {
            let book = little_book(&mut random);
            let Some(plan) = self.plan(&book) else {
                continue;
            };
            passed += 1;
            for run in all_runs(book.kinds as u8, 3) {
                self.run(&book, &plan, &run);
            }
            let heights = Heights::of(&book);
            for _ in 0..12 {
                let mut run = any_run(&mut random, &book, &heights);
                run.truncate(LONGEST);
                self.run(&book, &plan, &run);
            }
        }
    }

    /// The plan of a book that passes; a book has an unused node just when it is another without it, and of the others a
    /// book is barren just when its start derives nothing.
    fn plan(&mut self, book: &Book) -> Option<Vec<u8>> {
        let mut plan = vec![0; PLAN_BYTES];
        let answer = (self.compile)(&book.bytes(), &mut plan);
        self.compiled.count(answer.number);
        let unused = without_unused(book) != *book;
        assert_eq!(answer.number == UNUSED, unused, "of {book:?}");
        if !unused {
            let derives = Table::of(book, &[]).begins_lawful();
            assert_eq!(answer.number == BARREN, !derives, "of {book:?}");
        }
        plan.truncate(answer.size as usize);
        (answer.number == DONE).then_some(plan)
    }

    /// Checks what is read of a run.
    fn run(&mut self, book: &Book, plan: &[u8], run: &[u8]) {
        let mut tree = vec![0; ROOM];
        let reading = (self.read)(plan, run, &mut [0; SLOTS], &mut tree);
        self.read_as.count(reading.number);
        let table = Table::of(book, run);
        let place = reading.place as usize;
        tree.truncate(reading.records as usize);
        let read_as = match reading.number {
            DONE => Meaning::Lawful(tree),
            UNEXPECTED => Meaning::Unexpected(place),
            UNKNOWN => Meaning::Unknown(place),
            END => Meaning::Unfinished,
            other => panic!("answer {other} to run {run:?} of {book:?}"),
        };
        assert_eq!(read_as, table.meaning(), "of run {run:?} of {book:?}");
        if reading.number == DONE {
            assert_eq!(place, run.len());
            assert!(table.only_derivation(), "of run {run:?} of {book:?}");
        } else {
            check_expected(book, &run[..place], reading.expected);
        }
    }
}

/// Checks that a kind is expected just when it goes on to a lawful run.
fn check_expected(book: &Book, begun: &[u8], expected: u64) {
    for kind in 0..64 {
        let goes_on = kind < book.kinds as u8 && {
            let mut longer = begun.to_vec();
            longer.push(kind);
            Table::of(book, &longer).begins_lawful()
        };
        assert_eq!(
            expected >> kind & 1 == 1,
            goes_on,
            "kind {kind} after {begun:?} of {book:?}"
        );
    }
}

/// All runs of kinds below `kinds` up to a length.
pub fn all_runs(kinds: u8, longest: usize) -> Vec<Vec<u8>> {
    let mut runs = vec![Vec::new()];
    let mut at = 0;
    while at < runs.len() && runs[at].len() < longest {
        for kind in 0..kinds {
            let mut run = runs[at].clone();
            run.push(kind);
            runs.push(run);
        }
        at += 1;
    }
    runs
}
