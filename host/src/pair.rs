//! A call under test beside what it must answer.

use crate::answers::Tally;
use crate::calls::lender::{Lender, Lending};
use crate::calls::{Answer, Argument, Call};
use crate::ffi::lent::Edge;

/// A call, memory to lend to it, and how often it gave each answer.
pub struct Pair {
    call: &'static Call,
    lender: Lender,
    pub tally: Tally,
}

impl Pair {
    /// A pair that has compared nothing yet.
    pub fn of(call: &'static Call) -> Pair {
        Pair {
            call,
            lender: Lender::default(),
            tally: Tally::default(),
        }
    }

    /// Compares answers and buffers for these arguments, lent so that they end at a closed page.
    pub fn compare(&mut self, arguments: &[Argument]) -> Answer {
        self.compare_at(arguments, Edge::End)
    }

    /// Compares answers and buffers for these arguments, lent at an edge.
    pub fn compare_at(&mut self, arguments: &[Argument], edge: Edge) -> Answer {
        self.compare_lent(arguments, Lending::at(edge))
    }

    /// Compares answers and buffers for these arguments, lent so.
    pub fn compare_lent(&mut self, arguments: &[Argument], lending: Lending) -> Answer {
        let wanted = (self.call.wanted)(arguments);
        self.expect(arguments, lending, &wanted)
    }

    /// Checks that the call gives this answer and leaves this in its buffers.
    pub fn expect(&mut self, arguments: &[Argument], lending: Lending, wanted: &Answer) -> Answer {
        let answer = self.call.given(&mut self.lender, arguments, lending);
        assert!(
            answer == *wanted,
            "{} of {arguments:?}, lent {lending:?}: {} where this is right: {}",
            self.call.name,
            self.call.told(&answer),
            self.call.told(wanted),
        );
        self.tally.count(answer.number());
        answer
    }
}
