//! The answers: their numbers, and the values that come with them, laid out as C has them.

pub const DONE: u32 = 0;
pub const LENGTH: u32 = 1;
pub const CONTENTS: u32 = 2;
pub const SETTINGS: u32 = 3;
pub const NODE: u32 = 4;
pub const BARREN: u32 = 5;
pub const CONFLICT: u32 = 6;
pub const PLAN_ROOM: u32 = 7;
pub const PLAN_FORM: u32 = 8;
pub const CELL: u32 = 9;
pub const LONG: u32 = 10;
pub const DEEP: u32 = 11;
pub const UNKNOWN: u32 = 12;
pub const UNEXPECTED: u32 = 13;
pub const END: u32 = 14;
pub const RUNAWAY: u32 = 15;
pub const NO_ROOM: u32 = 16;
pub const NO_DRUM: u32 = 17;
pub const IDLE: u32 = 18;
pub const NAMES: u32 = 19;
pub const KEPT: u32 = 20;
pub const OUT_ROOM: u32 = 21;
pub const UNUSED: u32 = 22;
pub const TREE: u32 = 23;
pub const RUN_LONG: u32 = 24;
pub const RUN_ROOM: u32 = 25;
pub const SHEET: u32 = 26;
pub const TWICE: u32 = 27;
pub const BIG: u32 = 28;
pub const KINDLESS: u32 = 29;
pub const UNBOUNDED: u32 = 30;
pub const DEEPER: u32 = 31;
pub const SLOTS: u32 = 32;
pub const STALE: u32 = 33;

/// Stands beside the answer numbers for the listing program's message that its input is too long.
pub const INPUT_TOO_LONG: u32 = 62;

/// Stands beside the answer numbers for the listing program's message that its input is too short.
pub const INPUT_TOO_SHORT: u32 = 63;

/// Answers are told apart below this number.
pub const ANSWERS: usize = 64;

/// The answer of this number as the fuzzer prints it.
pub fn answer_name(number: u32) -> String {
    match number {
        INPUT_TOO_LONG => "input too long".to_string(),
        INPUT_TOO_SHORT => "input too short".to_string(),
        number => number.to_string(),
    }
}

/// What an empty record has beside its node number.
pub const EMPTY_RECORD: u16 = 32_768;

/// The answer of the form test of a book.
#[repr(C)]
#[derive(Clone, Copy, Debug, PartialEq, Eq)]
pub struct Formed {
    pub number: u32,
    pub place: u32,
}

/// The answer of compiling.
#[repr(C)]
#[derive(Clone, Copy, Debug, PartialEq, Eq)]
pub struct Compiled {
    pub number: u32,
    pub place: u32,
    pub size: u32,
    pub both: u32,
    pub clash: u64,
}

/// The answer of reading.
#[repr(C)]
#[derive(Clone, Copy, Debug, PartialEq, Eq)]
pub struct Reading {
    pub number: u32,
    pub place: u32,
    pub records: u32,
    pub label: u32,
    pub expected: u64,
}

/// The answer of a call that writes bytes.
#[repr(C)]
#[derive(Clone, Copy, Debug, PartialEq, Eq)]
pub struct Written {
    pub number: u32,
    pub size: u32,
    pub place: u64,
}

/// Where a name stands: 0 nowhere, 1 in the book, 2 in the house list.
#[repr(C)]
#[derive(Clone, Copy, Debug, PartialEq, Eq)]
pub struct Part {
    pub from: u32,
    pub offset: u32,
    pub size: u32,
}

/// The answer on the parts that a book's readings hold.
#[repr(C)]
#[derive(Clone, Copy, Debug, PartialEq, Eq)]
pub struct Depth {
    pub number: u32,
    pub place: u32,
    pub held: u32,
}

/// How often each answer number was given.
pub struct Tally {
    counts: [usize; ANSWERS],
}

impl Default for Tally {
    /// No answer was given.
    fn default() -> Tally {
        Tally {
            counts: [0; ANSWERS],
        }
    }
}

impl Tally {
    /// Counts one answer.
    pub fn count(&mut self, number: u32) {
        self.counts[number as usize] += 1;
    }

    /// How many answers were counted.
    pub fn total(&self) -> usize {
        self.counts.iter().sum()
    }

    /// Fails unless each of these numbers was given at least so often.
    pub fn expect(&self, numbers: &[u32], least: usize) {
        for &number in numbers {
            let given = self.counts[number as usize];
            assert!(
                given >= least,
                "answer {number} was given {given} times; all: {:?}",
                self.counts
                    .iter()
                    .enumerate()
                    .filter(|count| *count.1 > 0)
                    .collect::<Vec<_>>()
            );
        }
    }
}
