//! The greatest number of parts held: the library beside an independent implementation, and both beside all beginnings
//! of runs, read with ever more slots.

use host::answers::*;
use host::book::*;
use host::books::examples::{doubling, harmless_recursion, lone, nesting, process, rinse};
use host::books::random::Random;
use host::books::runs::{lawful_run, Heights};
use host::books::shapes::{any_book, likely_book, little_book, without_unused};
use host::books::small::all_books;
use host::calls::depth::{given, GREATEST, PROFILE};
use host::calls::Argument;
use host::compile::plan_of;
use host::ffi::depth::{greatest, profile};
use host::pair::Pair;
use host::read::read;

/// The parts held where nothing says how many at most: more than these are as good as unbounded.
const MANY: usize = 5;

/// The beginnings of a book's runs, and how many slots the ones tried so far need.
struct Beginnings<'a> {
    plan: &'a [u8],
    kinds: u8,
    slots: usize,
    most: usize,
}

impl Beginnings<'_> {
    /// The slots that the beginnings of up to so many events need, at most one more than `most`.
    fn needed(book: &Book, events: usize, most: usize) -> usize {
        let mut beginnings = Beginnings {
            plan: &plan_of(book),
            kinds: book.kinds as u8,
            slots: 1,
            most,
        };
        beginnings.longer(&mut Vec::new(), events);
        beginnings.slots
    }

    /// Tries every beginning that goes on from this one, by so many events at most.
    fn longer(&mut self, run: &mut Vec<u8>, events: usize) {
        if events == 0 {
            return;
        }
        for kind in 0..self.kinds {
            run.push(kind);
            while self.slots <= self.most && self.number(run) == DEEP {
                self.slots += 1;
            }
            if self.slots <= self.most && matches!(self.number(run), END | NO_ROOM) {
                self.longer(run, events - 1);
            }
            run.pop();
        }
    }

    /// What the independent reader answers to a run, with the slots so far and no tree.
    fn number(&self, run: &[u8]) -> u32 {
        read(self.plan, run, &mut vec![0; self.slots], &mut []).number
    }
}

/// Checks the answer of a book that passes by its beginnings: none needs more, and some needs as many. Books whose answer
/// is UNBOUNDED need ever more.
fn check_beginnings(tally: &mut Tally, book: &Book, events: usize) {
    let answer = greatest(&book.bytes());
    tally.count(answer.number);
    match answer.number {
        DONE => {
            let held = answer.held as usize;
            let needed = Beginnings::needed(book, events, held);
            assert!(needed <= held, "{book:?} holds more than {held}");
            let longer =
                (events..events + 8).any(|more| Beginnings::needed(book, more, held) == held);
            assert!(longer, "{book:?} does not hold {held}");
        }
        UNBOUNDED => {
            let pumped =
                (events..events + 16).any(|more| Beginnings::needed(book, more, MANY) > MANY);
            assert!(pumped, "{book:?} holds no more than {MANY}");
        }
        _ => {}
    }
}

/// Books whose number is known by hand.
#[test]
fn by_hand() {
    let number = |book: &Book| {
        let answer = greatest(&book.bytes());
        (answer.number, answer.place, answer.held)
    };
    assert_eq!(number(&rinse()), (DONE, 0, 2));
    assert_eq!(number(&lone(TOKEN)), (DONE, 0, 1), "the start alone");
    assert_eq!(number(&lone(EMPTY)), (DONE, 0, 1), "the start alone");
    assert_eq!(number(&doubling()), (DONE, 0, 1), "no event at all");
    assert_eq!(number(&nesting()), (UNBOUNDED, 0, 0));
    assert_eq!(number(&lone(FAIL)), (BARREN, 0, 0));
    let held_behind_nothing = number(&harmless_recursion());
    assert_eq!(
        held_behind_nothing,
        (DONE, 0, 1),
        "a right that is not productive, in a circle"
    );
    let not_productive = Book::ending(
        2,
        &[
            (TOKEN, 0, 0),
            (TOKEN, 1, 0),
            (FAIL, 0, 0),
            (THEN, 1, 2),
            (THEN, 3, 3),
            (EITHER, 4, 0),
        ],
    );
    assert_eq!(
        number(&not_productive),
        (DONE, 0, 1),
        "rights behind nothing"
    );
    let mut chain = vec![(TOKEN, 0, 0)];
    chain.extend((1..512u16).map(|own| (THEN, own - 1, 0)));
    assert_eq!(number(&Book::ending(1, &chain)), (DONE, 0, 511));
    assert_eq!(number(&process(20, 512)).0, DONE, "a circle of no weight");
}

/// A profile of every number of slots, for books of every number.
#[test]
fn every_number_of_slots() {
    for thens in 0..70u16 {
        let mut chain = vec![(TOKEN, 0, 0)];
        chain.extend((1..=thens).map(|own| (THEN, own - 1, 0)));
        let book = Book::ending(1, &chain).bytes();
        let held = u32::from(thens.max(1));
        assert_eq!(greatest(&book).held, held);
        for slots in 0..70 {
            let wanted = match slots {
                0 | 65.. => (SLOTS, 0, 0),
                _ if slots < held => (DEEPER, held, 0),
                _ => (DONE, 0, held),
            };
            let answer = profile(&book, slots);
            assert_eq!((answer.number, answer.place, answer.held), wanted);
        }
    }
}

/// All beginnings of up to five events, of all small books.
#[test]
fn small_books() {
    let mut tally = Tally::default();
    for (count, kinds) in [(1, 2), (2, 2), (3, 2), (4, 2)] {
        all_books(count, kinds, &mut |book| {
            check_beginnings(&mut tally, book, 5)
        });
    }
    tally.expect(&[DONE, BARREN, CONFLICT, UNUSED], 100);
    assert!(tally.total() > 100_000);
}

/// Short beginnings of random books, those that hold ever more among them.
#[test]
fn little_books() {
    let mut tally = Tally::default();
    let mut random = Random::new(31);
    for _ in 0..60_000 {
        check_beginnings(&mut tally, &without_unused(&little_book(&mut random)), 4);
    }
    tally.expect(&[DONE, UNBOUNDED], 300);
}

/// Random books, by the independent implementation; lawful runs of those that pass, and other runs, read with as many
/// slots: never DEEP.
#[test]
fn random_books() {
    let mut pair = Pair::of(&GREATEST);
    let mut profiles = Pair::of(&PROFILE);
    let mut random = Random::new(32);
    let mut read_runs = 0;
    for round in 0..120_000 {
        let book = if round % 2 == 0 {
            likely_book(&mut random)
        } else {
            any_book(&mut random)
        };
        let bytes = book.bytes();
        let answer = pair.compare(&[Argument::Given(bytes.clone())]);
        let held = answer.fields[2] as u32;
        for slots in [held, held.saturating_sub(1), random.below(66) as u32] {
            profiles.compare(&given(&bytes, slots));
        }
        if answer.number() == DONE && round % 4 == 0 {
            let plan = plan_of(&book);
            let heights = Heights::of(&book);
            let run = lawful_run(&mut random, &book, &heights);
            let mut slots = vec![0; held as usize];
            let number = host::ffi::read::read(&plan, &run, &mut slots, &mut []).number;
            assert_ne!(number, DEEP, "{book:?} {run:?}");
            read_runs += 1;
        }
    }
    pair.tally.expect(&[DONE, CONFLICT, UNUSED, UNBOUNDED], 500);
    profiles
        .tally
        .expect(&[DONE, UNBOUNDED, DEEPER, SLOTS], 500);
    assert!(pair.tally.total() > 100_000 && read_runs > 5_000);
}
