//! The calls as one table. A row says what a call takes and answers, how it is made, what it must answer, and how the
//! fuzzer makes cases of it; the lender, the tests, the fuzzer and the shrinker go by the table.

pub mod board;
pub mod compile;
pub mod depth;
pub mod form;
pub mod lender;
pub mod listing;
pub mod moves;
pub mod name;
pub mod read;
pub mod sample;
pub mod sheet;
pub mod sorts;
pub mod unread;

use crate::answers::{Compiled, Reading};
use crate::board::Drum;
use crate::books::random::Random;
use lender::{Lender, Lending, Raw};
use sorts::Sort;
use std::fmt::LowerHex;

/// A compiler.
pub type Compile = fn(&[u8], &mut [u8]) -> Compiled;

/// A reader.
pub type Read = fn(&[u8], &[u8], &mut [u32], &mut [u16]) -> Reading;

/// All calls; a call's place here is its number.
pub static CALLS: [&Call; 16] = [
    &form::FORM,
    &compile::COMPILE,
    &read::READ,
    &board::OPEN,
    &board::EVENT,
    &board::CLOSE,
    &moves::FORWARD,
    &moves::BACK,
    &name::NAME,
    &sheet::MAKE,
    &sheet::PLACE,
    &unread::UNREAD,
    &depth::GREATEST,
    &depth::PROFILE,
    &sample::SAMPLE,
    &listing::LISTING,
];

/// A call.
pub struct Call {
    pub name: &'static str,
    /// What it takes, in the header's order.
    pub takes: &'static [&'static Sort],
    /// The fields of its answer, the number first.
    pub fields: &'static [&'static str],
    /// Every number that it can answer, and how often at least among 100,000 of the fuzzer's cases of this call.
    pub answers: &'static [(u32, u64)],
    /// How often the fuzzer makes the call, beside the others.
    pub share: usize,
    /// The number by which its example is answered.
    pub done: u32,
    /// What the call must answer and leave behind.
    pub wanted: fn(&[Argument]) -> Answer,
    /// How the call under test is made.
    pub made: Made,
    /// Arguments that the call answers with done: the rinse book's, with a run of three events.
    pub example: fn() -> Vec<Argument>,
    /// Arguments of any sort that the fuzzer tries.
    pub any: fn(&mut Random) -> Vec<Argument>,
}

/// How a call under test is made.
#[derive(Clone, Copy)]
pub enum Made {
    /// By the archive, on parts of memory.
    Archive(Raw),
    /// By a program of its own.
    Program(fn(&[Argument], Lending) -> Answer),
}

impl Call {
    /// What the call under test answers to these arguments and leaves behind.
    pub fn given(&self, lender: &mut Lender, arguments: &[Argument], lending: Lending) -> Answer {
        match self.made {
            Made::Archive(raw) => lender.call(raw, self.takes, arguments, lending),
            Made::Program(run) => run(arguments, lending),
        }
    }

    /// An answer of this call in words: its fields by name, and what it leaves, in hexadecimal.
    pub fn told(&self, answer: &Answer) -> String {
        let fields = self.fields.iter().zip(&answer.fields);
        let fields: Vec<String> = fields
            .map(|(name, value)| format!("{name} {value}"))
            .collect();
        let mut told = fields.join(", ") + "\n";
        for left in &answer.left {
            told += &match left {
                Left::Drums(drums) => drums
                    .iter()
                    .map(|drum| buffer_told(&drum.words()))
                    .collect(),
                Left::Bytes(bytes) => buffer_told(bytes),
                Left::Words(words) => buffer_told(words),
                Left::Slots(slots) => buffer_told(slots),
            };
        }
        if !answer.kept {
            told += "  memory beside a buffer was written\n";
        }
        told
    }
}

impl PartialEq for Call {
    /// Calls are told apart by their names.
    fn eq(&self, other: &Call) -> bool {
        self.name == other.name
    }
}

/// What is handed to a call for one of its parameters.
#[derive(Clone, Debug, PartialEq, Eq)]
pub enum Argument {
    /// Bytes that it may only read.
    Given(Vec<u8>),
    /// 16-bit numbers that it may only read.
    Words(Vec<u16>),
    /// A buffer of so many elements that it is to write.
    Room(usize),
    /// A number.
    Number(u32),
    /// A list of drums, lent as they stand, that it may change.
    Drums(Vec<Drum>),
}

impl Argument {
    /// The bytes that are given.
    pub fn bytes(&self) -> &[u8] {
        match self {
            Argument::Given(bytes) => bytes,
            _ => panic!("no bytes where bytes are due"),
        }
    }

    /// The 16-bit numbers that are given.
    pub fn words(&self) -> &[u16] {
        match self {
            Argument::Words(words) => words,
            _ => panic!("no words where words are due"),
        }
    }

    /// The length of the buffer that is lent.
    pub fn room(&self) -> usize {
        match self {
            Argument::Room(room) => *room,
            _ => panic!("no buffer where a buffer is due"),
        }
    }

    /// The number that is given.
    pub fn number(&self) -> u32 {
        match self {
            Argument::Number(number) => *number,
            _ => panic!("no number where a number is due"),
        }
    }

    /// The drums that are lent.
    pub fn drums(&self) -> &[Drum] {
        match self {
            Argument::Drums(drums) => drums,
            _ => panic!("no drums where drums are due"),
        }
    }

    /// How large it is.
    pub fn size(&self) -> usize {
        match self {
            Argument::Given(bytes) => bytes.len(),
            Argument::Words(words) => words.len(),
            Argument::Room(room) => *room,
            Argument::Number(number) => *number as usize,
            Argument::Drums(drums) => drums.len(),
        }
    }
}

/// What a buffer holds after a call.
#[derive(Clone, Debug, PartialEq, Eq)]
pub enum Left {
    Drums(Vec<Drum>),
    Bytes(Vec<u8>),
    Words(Vec<u16>),
    Slots(Vec<u32>),
}

/// What a call answers, and what it leaves in the buffers lent to it.
#[derive(Clone, Debug, PartialEq, Eq)]
pub struct Answer {
    /// The values of the call's fields.
    pub fields: Vec<u64>,
    pub left: Vec<Left>,
    /// Whether memory beside the buffers was kept.
    pub kept: bool,
}

impl Answer {
    /// The answer with these fields that leaves this in the buffers.
    pub fn new(fields: Vec<u64>, left: Vec<Left>) -> Answer {
        Answer {
            fields,
            left,
            kept: true,
        }
    }

    /// The answer's number.
    pub fn number(&self) -> u32 {
        self.fields[0] as u32
    }
}

/// A buffer's numbers in hexadecimal, those that are the same in a row once, with their count.
fn buffer_told<T: LowerHex + PartialEq>(buffer: &[T]) -> String {
    let mut told = format!("  left ({})", buffer.len());
    for same in buffer.chunk_by(|a, b| a == b) {
        told += &format!(" {:x}", same[0]);
        if same.len() > 1 {
            told += &format!("*{}", same.len());
        }
    }
    told + "\n"
}
