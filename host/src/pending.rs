//! The parts still due after each event of a lawful run, with their stages, by its derivation alone.

use crate::answers::*;
use crate::board::Drum;
use crate::book::*;
use crate::books::random::Random;
use crate::books::runs::{lawful_run, Heights};
use crate::books::shapes::likely_book;
use crate::compile::compile;
use crate::due::due_plan;
use crate::recognise::{Meaning, Table};
use crate::worked_board::{Ask, Asked};

/// The longest run whose derivation is looked at.
const LONGEST: usize = 10;

/// A derivation gone through from its top, left to right.
struct Descent<'a> {
    book: &'a Book,
    tree: &'a [u16],
    /// The parts still due, the next last, each with the label of the innermost tagged node around it in the high half.
    due: Vec<u32>,
    /// What was due before the first event and after each.
    after: Vec<Vec<u32>>,
}

/// The parts still due before the first event of a lawful run with this tree, and after each.
pub fn pending(book: &Book, tree: &[u16]) -> Vec<Vec<u32>> {
    let mut descent = Descent {
        book,
        tree,
        due: Vec::new(),
        after: vec![vec![book.start.into()]],
    };
    descent.part(book.start, 0);
    descent.after
}

impl Descent<'_> {
    /// Goes through a part that stands below this label.
    fn part(&mut self, own: u16, label: u16) {
        let (&record, rest) = self.tree.split_first().expect("a record");
        self.tree = rest;
        if record >= EMPTY_RECORD {
            return;
        }
        let Node { form, left, right } = self.book.nodes[usize::from(own)];
        match form {
            TOKEN => self.after.push(self.due.clone()),
            EITHER if self.tree[0] == left => self.part(left, label),
            EITHER => self.part(right, label),
            THEN => {
                self.due.push(u32::from(label) << 16 | u32::from(right));
                self.part(left, label);
                self.due.pop();
                self.part(right, label);
            }
            TAGGED => self.part(left, right),
            _ => self.part(left, label),
        }
    }
}

/// Checks that a board holds just the parts still due by derivations, with their stages, on so many random books that
/// pass and have a tagged node.
pub fn check_held(ask: Ask, seed: u64, passes: usize) {
    let mut random = Random::new(seed);
    let (mut passed, mut labels) = (0, 0);
    while passed < passes {
        let mut book = likely_book(&mut random);
        staged(&mut random, &mut book);
        let run = lawful_run(&mut random, &book, &Heights::of(&book));
        let passes = compile(&book.bytes(), &mut []).number == PLAN_ROOM;
        if !passes || run.len() > LONGEST {
            continue;
        }
        let Meaning::Lawful(tree) = Table::of(&book, &run).meaning() else {
            panic!("{run:?} of {book:?} is lawful")
        };
        passed += 1;
        let plan = due_plan(&book);
        let mut drums = [Drum::IDLE];
        let mut asked = Asked::Open;
        for (events, held) in pending(&book, &tree).iter().enumerate() {
            assert_eq!(ask(&plan, &mut drums, 0, asked).number, DONE);
            let slots = &drums[0].slots[..drums[0].held as usize];
            assert_eq!(slots, held, "after {events} of {run:?} of {book:?}");
            labels += held.iter().filter(|&&slot| slot >> 16 != 0).count();
            asked = run
                .get(events)
                .map_or(Asked::Close, |&kind| Asked::Event(kind));
        }
        let closed = ask(&plan, &mut drums, 0, asked);
        assert_eq!((closed.number, closed.records as usize), (DONE, tree.len()));
    }
    assert!(labels > passes / 2, "{labels} labels");
}

/// Makes some of the refs of a book to lower nodes tagged nodes, which derive the same.
fn staged(random: &mut Random, book: &mut Book) {
    for (own, node) in book.nodes.iter_mut().enumerate() {
        if node.form == REF && usize::from(node.left) < own {
            node.form = TAGGED;
            node.right = random.within(1, 9) as u16;
        }
    }
    // a tagged node above the start, so that every book has a stage
    let label = random.within(1, 65_535) as u16;
    if book.nodes.len() < MOST_NODES {
        book.nodes.push(node(TAGGED, book.start, label));
        book.start = book.nodes.len() as u16 - 1;
    }
}
