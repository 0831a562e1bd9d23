//! Names and house lists, good and damaged, and books with names.

use super::damaged::damaged;
use super::loose::good_book;
use super::random::Random;
use crate::book::Book;
use crate::names::{bytes_of_names, HOUSE_NAMES, LONGEST_NAME};

/// A good name, mostly short.
fn any_name(random: &mut Random) -> Vec<u8> {
    let longest = random.pick(&[1, 2, 3, LONGEST_NAME]);
    let size = random.within(1, longest);
    (0..size).map(|_| random.within(33, 126) as u8).collect()
}

/// So many names, none twice.
pub fn any_names(random: &mut Random, count: usize) -> Vec<Vec<u8>> {
    let mut names: Vec<Vec<u8>> = Vec::new();
    while names.len() < count {
        let name = any_name(random);
        if !names.contains(&name) {
            names.push(name);
        }
    }
    names
}

/// The bytes of names with something wrong: a length, a byte, a name twice, too few, too many, bytes left over.
pub fn bad_names(random: &mut Random, names: &[Vec<u8>]) -> Vec<u8> {
    let mut names = names.to_vec();
    let at = random.below(names.len());
    let size = names[at].len();
    match random.below(8) {
        0 => names[at] = vec![b'a'; LONGEST_NAME + 1],
        1 => names[at] = Vec::new(),
        2 => names[at][random.below(size)] = random.pick(&[32, 127, 0, 255, 31, 128]),
        3 => names[at] = names[random.below(names.len())].clone(),
        4 => {
            names.remove(at);
        }
        5 => names.push(any_name(random)),
        6 => {
            let mut bytes = bytes_of_names(&names);
            bytes.truncate(random.below(bytes.len()));
            return bytes;
        }
        _ => {
            let bytes = bytes_of_names(&names);
            return damaged(random, &bytes);
        }
    }
    bytes_of_names(&names)
}

/// A well-formed book with names; now and then with a bad list of them.
pub fn named_book(random: &mut Random) -> Vec<u8> {
    let book = good_book(random);
    let names = any_names(random, usize::from(book.kinds));
    if random.once_in(4) {
        book.three_sections(&bad_names(random, &names))
    } else {
        book.named_bytes(&names)
    }
}

/// The bytes of a house list; now and then a bad one.
pub fn any_house(random: &mut Random) -> Vec<u8> {
    let names = any_names(random, HOUSE_NAMES);
    if random.once_in(5) {
        bad_names(random, &names)
    } else {
        bytes_of_names(&names)
    }
}

/// A house list, and a named book whose names are its first, or nearly so.
pub fn book_of_the_house(random: &mut Random, book: &Book) -> (Vec<u8>, Vec<u8>) {
    let house = any_names(random, HOUSE_NAMES);
    let mut names = house[..usize::from(book.kinds)].to_vec();
    match random.below(6) {
        0 => {
            let at = random.below(names.len());
            names[at].reverse();
        }
        1 => {
            let at = random.below(names.len());
            names[at] = house[HOUSE_NAMES - 1].clone();
        }
        2 => names.reverse(),
        _ => (),
    }
    (book.named_bytes(&names), bytes_of_names(&house))
}
