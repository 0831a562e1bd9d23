//! Moving books between their two forms, and looking a kind's name up.

use crate::answers::*;
use crate::book::*;
use crate::form::{form, length_good};
use crate::names::{bytes_of_names, names, HOUSE_NAMES};

/// Moves an old book forward: the same book with the first names of the house list.
pub fn forward(book: &[u8], house: &[u8], out: &mut [u8]) -> Written {
    written(out, moved_forward(book, house))
}

/// Moves a named book back: the same book without names, where those are the first of the house list.
pub fn back(book: &[u8], house: &[u8], out: &mut [u8]) -> Written {
    written(out, moved_back(book, house))
}

/// The bytes of an old book moved forward, or the refusal's number and place.
fn moved_forward(book: &[u8], house: &[u8]) -> Result<Vec<u8>, (u32, usize)> {
    own_form(book, false)?;
    let house = names(house, HOUSE_NAMES).map_err(|bad| (NAMES, bad))?;
    let book = Book::of_bytes(book);
    Ok(book.named_bytes(&house[..usize::from(book.kinds)]))
}

/// The bytes of a named book moved back, or the refusal's number and place.
fn moved_back(book: &[u8], house: &[u8]) -> Result<Vec<u8>, (u32, usize)> {
    own_form(book, true)?;
    let house = names(house, HOUSE_NAMES).map_err(|bad| (NAMES, bad))?;
    let plain = Book::of_bytes(book);
    if names_section(book) != bytes_of_names(&house[..usize::from(plain.kinds)]) {
        return Err((KEPT, 0));
    }
    Ok(plain.bytes())
}

/// The refusal of a book by its form, or where it is of the other form than the move takes.
fn own_form(book: &[u8], named: bool) -> Result<(), (u32, usize)> {
    if is_named(book) != named {
        let number = if length_good(book) { CONTENTS } else { LENGTH };
        return Err((number, 0));
    }
    let formed = form(book);
    match formed.number {
        DONE => Ok(()),
        number => Err((number, formed.place as usize)),
    }
}

/// The answer of a call that writes these bytes, or is refused so.
pub fn written(out: &mut [u8], bytes: Result<Vec<u8>, (u32, usize)>) -> Written {
    out.fill(0);
    match bytes {
        Err((number, place)) => refused(number, place),
        Ok(bytes) if out.len() < bytes.len() => refused(OUT_ROOM, 0),
        Ok(bytes) => {
            out[..bytes.len()].copy_from_slice(&bytes);
            Written {
                number: DONE,
                size: bytes.len() as u32,
                place: 0,
            }
        }
    }
}

/// A refusal.
pub fn refused(number: u32, place: usize) -> Written {
    Written {
        number,
        size: 0,
        place: place as u64,
    }
}

/// Where a kind's name stands.
pub fn name(book: &[u8], house: &[u8], kind: u32) -> Part {
    find_name(book, house, kind as usize).unwrap_or(Part {
        from: 0,
        offset: 0,
        size: 0,
    })
}

/// Where a kind's name stands, if it has one.
fn find_name(book: &[u8], house: &[u8], kind: usize) -> Option<Part> {
    if form(book).number != DONE || kind >= usize::from(Book::of_bytes(book).kinds) {
        return None;
    }
    let (from, list, before, count) = if is_named(book) {
        let section = names_section(book);
        let kinds = usize::from(Book::of_bytes(book).kinds);
        (1, section, book.len() - section.len(), kinds)
    } else {
        (2, house, 0, HOUSE_NAMES)
    };
    let names = names(list, count).ok()?;
    let offset = before
        + names[..kind]
            .iter()
            .map(|name| 1 + name.len())
            .sum::<usize>()
        + 1;
    Some(Part {
        from,
        offset: offset as u32,
        size: names[kind].len() as u32,
    })
}
