//! What calls take: each sort of parameter, how it is lent, how long it gets, and how it shrinks.

use super::Argument;
use crate::smaller::*;

/// A sort of parameter; no call takes two of one sort.
pub struct Sort {
    pub name: &'static str,
    pub way: Way,
    /// The most elements that are lent.
    pub most: usize,
}

/// How a parameter is lent.
#[derive(Clone, Copy)]
pub enum Way {
    /// Bytes to be read, with the way to smaller ones.
    Read(fn(&[u8]) -> Smaller<Vec<u8>>),
    /// 16-bit numbers to be read.
    ReadWords,
    /// Drums, lent as they stand, to be read and written.
    Drums,
    /// Bytes to be written.
    WriteBytes,
    /// 16-bit numbers to be written.
    WriteWords,
    /// 32-bit numbers to be written.
    WriteSlots,
    /// A number, handed over as it is.
    Number,
}

/// The most elements that are lent of most sorts.
const MOST: usize = 9 << 20;

/// A book, or what is given as one.
pub static BOOK: Sort = Sort {
    name: "book",
    way: Way::Read(smaller_books),
    most: MOST,
};

/// A plan, or what is given as one.
pub static PLAN: Sort = Sort {
    name: "plan",
    way: Way::Read(smaller_plans),
    most: MOST,
};

/// A run.
pub static RUN: Sort = Sort {
    name: "run",
    way: Way::Read(smaller_bytes),
    most: MOST,
};

/// The records of a tree.
pub static TREE_RECORDS: Sort = Sort {
    name: "tree",
    way: Way::ReadWords,
    most: MOST,
};

/// The listing program's input.
pub static INPUT: Sort = Sort {
    name: "input",
    way: Way::Read(smaller_inputs),
    most: MOST,
};

/// A house list, or what is given as one.
pub static HOUSE: Sort = Sort {
    name: "house list",
    way: Way::Read(smaller_bytes),
    most: MOST,
};

/// The buffer that a book is written to.
pub static OUT: Sort = Sort {
    name: "book buffer",
    way: Way::WriteBytes,
    most: MOST,
};

/// A sheet, or what is given as one.
pub static SHEET_TEXT: Sort = Sort {
    name: "sheet",
    way: Way::Read(smaller_bytes),
    most: MOST,
};

/// A node's number.
pub static NODE_NUMBER: Sort = Sort {
    name: "node",
    way: Way::Number,
    most: 0,
};

/// A controller's slots.
pub static SLOT_COUNT: Sort = Sort {
    name: "slot count",
    way: Way::Number,
    most: 0,
};

/// A kind.
pub static KIND: Sort = Sort {
    name: "kind",
    way: Way::Number,
    most: 0,
};

/// A list of drums.
pub static DRUMS: Sort = Sort {
    name: "drums",
    way: Way::Drums,
    most: 5_000,
};

/// A drum's number.
pub static DRUM_NUMBER: Sort = Sort {
    name: "drum",
    way: Way::Number,
    most: 0,
};

/// The buffer that the plan is written to.
pub static PLAN_BUFFER: Sort = Sort {
    name: "plan buffer",
    way: Way::WriteBytes,
    most: MOST,
};

/// The buffer that a run is written to.
pub static RUN_BUFFER: Sort = Sort {
    name: "run buffer",
    way: Way::WriteBytes,
    most: MOST,
};

/// The holding slots.
pub static SLOTS: Sort = Sort {
    name: "slots",
    way: Way::WriteSlots,
    most: MOST,
};

/// The buffer that the records are written to.
pub static TREE_BUFFER: Sort = Sort {
    name: "tree buffer",
    way: Way::WriteWords,
    most: 40_000_000,
};

impl Sort {
    /// Arguments smaller than this one of this sort, the smallest first.
    pub fn smaller(&self, argument: &Argument) -> Smaller<Argument> {
        match (self.way, argument) {
            (Way::Read(smaller), Argument::Given(bytes)) => {
                Box::new(smaller(bytes).map(Argument::Given))
            }
            (_, Argument::Words(words)) => Box::new(smaller_words(words).map(Argument::Words)),
            (_, Argument::Room(room)) => Box::new(smaller_numbers(*room).map(Argument::Room)),
            (_, Argument::Number(number)) => Box::new(
                smaller_numbers(*number as usize).map(|less| Argument::Number(less as u32)),
            ),
            (_, Argument::Drums(drums)) => Box::new(smaller_drums(drums).map(Argument::Drums)),
            (_, Argument::Given(_)) => panic!("bytes where a buffer is due"),
        }
    }
}
