//! Bytes that are nearly a book or a plan.

use super::random::Random;
use crate::book::words_of;

/// The book's bytes with one thing damaged: a word, a bit or the length.
pub fn damaged(random: &mut Random, bytes: &[u8]) -> Vec<u8> {
    let mut bytes = bytes.to_vec();
    let ways = if bytes.len() < 2 { 1 } else { 8 };
    match random.below(ways) {
        0 => lengthened(random, &mut bytes),
        1 => shortened(random, &mut bytes),
        2 => {
            let at = random.below(bytes.len());
            bytes[at] ^= 1 << random.below(8);
        }
        3 => damage_word(random, &mut bytes, 9),
        _ => {
            let words = bytes.len() / 2;
            damage_word(random, &mut bytes, words);
        }
    }
    bytes
}

/// Adds up to 13 bytes.
fn lengthened(random: &mut Random, bytes: &mut Vec<u8>) {
    for _ in 0..random.within(1, 13) {
        bytes.push(random.below(4) as u8);
    }
}

/// Takes bytes off the end: a few, or any number.
fn shortened(random: &mut Random, bytes: &mut Vec<u8>) {
    let most = if random.once_in(2) { 13 } else { bytes.len() };
    let off = random.within(1, most.min(bytes.len()));
    bytes.truncate(bytes.len() - off);
}

/// Sets one of the first words to another, mostly one near a limit.
fn damage_word(random: &mut Random, bytes: &mut [u8], words: usize) {
    let at = 2 * random.below(words.min(bytes.len() / 2));
    let old = words_of(&bytes[at..at + 2])[0];
    let own = (at / 6) as u16;
    let near = [
        0,
        1,
        old.wrapping_add(1),
        old.wrapping_sub(1),
        own,
        own.wrapping_sub(3),
        6,
        7,
        64,
        65,
        old ^ 256,
        65_535,
        random.word(),
    ];
    bytes[at..at + 2].copy_from_slice(&random.pick(&near).to_le_bytes());
}
