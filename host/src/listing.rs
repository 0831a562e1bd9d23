//! What the listing program must print.

use crate::answers::{Compiled, CONFLICT, DONE, EMPTY_RECORD, NO_ROOM};
use crate::book::{LONGEST_BOOK, LONGEST_PLAN};
use crate::compile::compile;
use crate::read::read;
use std::fmt::Display;

/// The most events that the program takes.
pub const MOST_EVENTS: usize = 4_096;

/// The records for which the program has room.
const ROOM: usize = 8_192;

/// The program's holding slots.
const SLOTS: usize = 512;

/// The message for a book or a run that is too long.
pub const TOO_LONG: &str = "input too long\n";

/// The message for an input that ends within the length or the book.
pub const TOO_SHORT: &str = "input too short\n";

/// The input with these bytes given as a book, their length before them, and these events.
pub fn input(book: &[u8], run: &[u8]) -> Vec<u8> {
    let length = book.len() as u16;
    [&length.to_le_bytes(), book, run].concat()
}

/// What the program prints for an input.
pub fn listing(input: &[u8]) -> String {
    match taken_apart(input) {
        Ok((book, run)) => judged(book, run),
        Err(message) => message.to_string(),
    }
}

/// The book and the events of an input, or the message.
pub fn taken_apart(input: &[u8]) -> Result<(&[u8], &[u8]), &'static str> {
    let (length, rest) = input.split_first_chunk().ok_or(TOO_SHORT)?;
    let length = usize::from(u16::from_le_bytes(*length));
    if length > LONGEST_BOOK {
        return Err(TOO_LONG);
    }
    let (book, run) = rest.split_at_checked(length).ok_or(TOO_SHORT)?;
    if run.len() > MOST_EVENTS {
        return Err(TOO_LONG);
    }
    Ok((book, run))
}

/// What is printed for a book and a run.
fn judged(book: &[u8], run: &[u8]) -> String {
    let mut plan = vec![0; LONGEST_PLAN];
    let compiled = compile(book, &mut plan);
    let Compiled {
        number,
        place,
        both,
        clash,
        ..
    } = compiled;
    if number == CONFLICT {
        return refused(number, place, format!("{clash} {both}"));
    }
    if number != DONE {
        return refused(number, place, 0);
    }
    let mut tree = vec![0; ROOM];
    let plan = &plan[..compiled.size as usize];
    let reading = read(plan, run, &mut [0; SLOTS], &mut tree);
    match reading.number {
        DONE => accepted(reading.place, &tree[..reading.records as usize]),
        NO_ROOM => refused(NO_ROOM, reading.place, reading.records),
        number => refused(number, reading.place, reading.expected),
    }
}

/// The line of a refusal.
fn refused(number: u32, place: u32, third: impl Display) -> String {
    format!("refused {number} {place} {third}\n")
}

/// The lines of an accepted run.
fn accepted(events: u32, tree: &[u16]) -> String {
    let mut lines = format!("accept {events} {}\n", tree.len());
    for record in tree {
        lines += &match record.checked_sub(EMPTY_RECORD) {
            Some(node) => format!("-{node}\n"),
            None => format!("{record}\n"),
        };
    }
    lines
}
