//! Smaller cases: while a smaller one fails too, it is taken instead.

use super::case::Case;
use crate::calls::lender::Lending;
use crate::ffi::lent::Edge;
use crate::smaller::Smaller;
use std::time::{Duration, Instant};

/// After this time the smallest case so far is the answer.
const MOST_TIME: Duration = Duration::from_secs(60);

/// The smallest case found that fails, from one that does.
pub fn smallest(mut case: Case, fails: &mut dyn FnMut(&Case) -> bool) -> Case {
    let begun = Instant::now();
    loop {
        let found = smaller_cases(&case)
            .take_while(|_| begun.elapsed() < MOST_TIME)
            .find(|smaller| fails(smaller));
        match found {
            Some(smaller) => case = smaller,
            None => return case,
        }
    }
}

/// The cases that are smaller in one thing: plainly lent, or with one argument smaller.
fn smaller_cases(case: &Case) -> Smaller<Case> {
    let places = 0..case.arguments.len();
    let case = case.clone();
    let plain = plainly_lent(&case);
    Box::new(
        plain
            .into_iter()
            .chain(places.flat_map(move |place| smaller_at(&case, place))),
    )
}

/// The case with its memory lent plainly, if it is not.
fn plainly_lent(case: &Case) -> Option<Case> {
    let lending = Lending::at(Edge::End);
    (case.lending != lending).then(|| Case {
        lending,
        ..case.clone()
    })
}

/// The cases that are smaller in the argument at this place.
fn smaller_at(case: &Case, place: usize) -> Smaller<Case> {
    let case = case.clone();
    let smaller = case.call.takes[place].smaller(&case.arguments[place]);
    Box::new(smaller.map(move |argument| {
        let mut case = case.clone();
        case.arguments[place] = argument;
        case
    }))
}

#[cfg(test)]
mod tests {
    use super::*;
    use crate::answers::{DONE, PLAN_FORM};
    use crate::book::*;
    use crate::books::examples::{doubling, rinse};
    use crate::calls::{compile, form, listing, read, Argument, Call};
    use crate::compile::plan_of;
    use crate::form::form as judge;
    use crate::listing::{input, taken_apart};
    use crate::program::Delivery;
    use crate::read::read as reads;

    /// A case of this call with these arguments, not lent plainly.
    fn case(call: &'static Call, arguments: Vec<Argument>) -> Case {
        Case {
            call,
            arguments,
            lending: Lending {
                delivery: Delivery::Bytes,
                ..Lending::at(Edge::Begin)
            },
        }
    }

    /// Whether these bytes are a well-formed book with a node of this type.
    fn has_node(bytes: &[u8], wanted: u16) -> bool {
        let nodes = || Book::of_bytes(bytes).nodes;
        judge(bytes).number == DONE && nodes().iter().any(|node| node.form == wanted)
    }

    /// A great book shrinks to the smallest with a then, itself and a node below it, and its plan buffer to what a
    /// failure needs.
    #[test]
    fn book_shrinks() {
        let book = doubling().bytes();
        let found = smallest(
            case(&compile::COMPILE, compile::given(&book, 500)),
            &mut |case| has_node(case.arguments[0].bytes(), THEN) && case.arguments[1].room() > 9,
        );
        let book = Book {
            start: 0,
            ..Book::ending(1, &[(FAIL, 0, 0), (THEN, 0, 0)])
        };
        assert_eq!(found.arguments, compile::given(&book.bytes(), 10));
        assert_eq!(found.lending, Lending::at(Edge::End));
    }

    /// Bytes of no form shrink to those that a failure needs.
    #[test]
    fn bytes_shrink() {
        let found = smallest(
            case(&form::FORM, form::given(&[7, 8, 9, 10, 11])),
            &mut |case| case.arguments[0].bytes().iter().any(|&byte| byte > 3),
        );
        assert_eq!(found.arguments, form::given(&[4]));
    }

    /// A plan, its run and its buffers shrink to what a failure needs.
    #[test]
    fn reading_shrinks() {
        let arguments = read::given(&plan_of(&rinse()), &[0, 1, 1, 1, 2], 500, 600);
        let found = smallest(case(&read::READ, arguments), &mut |case| {
            let [plan, run, slots, room] = &case.arguments[..] else {
                return false;
            };
            let formed = reads(plan.bytes(), &[], &mut [], &mut []).number != PLAN_FORM;
            formed && run.bytes().contains(&2) && slots.room() > 3 && room.room() > 6
        });
        let book = Book::ending(1, &[(FAIL, 0, 0)]);
        let smallest = read::given(&book.plan(&[0, 0]), &[2], 4, 7);
        assert_eq!(found.arguments, smallest);
    }

    /// An input of the listing program keeps its length and its book together.
    #[test]
    fn input_shrinks() {
        let whole = input(&rinse().bytes(), &[0, 1, 2]);
        let found = smallest(
            case(&listing::LISTING, listing::given(&whole)),
            &mut |case| {
                let input = case.arguments[0].bytes();
                taken_apart(input).is_ok_and(|(book, _)| has_node(book, EMPTY))
            },
        );
        let book = Book::ending(1, &[(EMPTY, 0, 0)]).bytes();
        assert_eq!(found.arguments, listing::given(&input(&book, &[])));
    }
}
