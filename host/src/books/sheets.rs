//! Sheets, good and damaged.

use super::random::Random;
use crate::sheet::{DEEPEST, LONGEST_WORD};

/// The bytes that damaged sheets are made with.
const BYTES: &[u8] = b"abexy =;|()* \n\t\r-A0\x00\xff";

/// A sheet or what is given as one.
pub fn any_sheet(random: &mut Random) -> Vec<u8> {
    match random.below(16) {
        0..=6 => good_sheet(random),
        7..=10 => {
            let mut sheet = good_sheet(random);
            for _ in 0..random.within(1, 2) {
                damage(random, &mut sheet);
            }
            sheet
        }
        11 => {
            let mut sheet = good_sheet(random);
            sheet.truncate(random.below(sheet.len() + 1));
            sheet
        }
        12 => large_sheet(random),
        13 => deep_sheet(random),
        14 => kindless_sheet(random),
        _ => {
            let length = random.below(20);
            (0..length).map(|_| random.pick(BYTES)).collect()
        }
    }
}

/// A sheet of a few rules.
pub fn good_sheet(random: &mut Random) -> Vec<u8> {
    let most = random.pick(&[1, 2, 6]);
    let rules = random.within(1, most);
    let words = words(random, rules + 5);
    let mut text = Text::new(random.once_in(2));
    for rule in 0..rules {
        let name = if random.once_in(20) {
            random.below(rules)
        } else {
            rule
        };
        text.word(random, &words[name]);
        text.sign(random, b'=');
        let size = random.pick(&[1, 3, 8]);
        expression(random, &mut text, &words, size, 3);
        text.sign(random, b';');
    }
    text.blanks(random);
    text.bytes
}

/// A sheet with about as many nodes or kinds as a book may have, or many more.
fn large_sheet(random: &mut Random) -> Vec<u8> {
    let mut text = Text::new(true);
    let near = random.within(0, 8);
    let words = words(random, 70);
    text.word(random, b"start");
    text.sign(random, b'=');
    let (count, kinds) = match random.below(3) {
        0 => (random.pick(&[252, 253, 254]) + near, 5),
        1 => (58 + near, 58 + near),
        _ => (random.within(1, 600), random.within(1, 66)),
    };
    for factor in 0..count {
        text.word(random, &words[factor % kinds]);
        if random.once_in(300) {
            text.sign(random, b'*');
        }
    }
    text.sign(random, b';');
    text.bytes
}

/// A sheet whose parentheses nest about as deep as they may.
fn deep_sheet(random: &mut Random) -> Vec<u8> {
    let depth = DEEPEST - 2 + random.below(5);
    let mut text = Text::new(false);
    text.word(random, b"a");
    text.sign(random, b'=');
    for _ in 0..depth {
        if random.once_in(9) {
            text.word(random, b"b");
        }
        text.sign(random, b'(');
    }
    text.word(random, b"c");
    for _ in 0..depth {
        text.sign(random, b')');
        if random.once_in(40) {
            text.sign(random, b'*');
        }
    }
    text.sign(random, b';');
    text.bytes
}

/// A sheet whose words are all names of rules, or nearly all.
fn kindless_sheet(random: &mut Random) -> Vec<u8> {
    let rules = random.within(1, 3);
    let kinds = usize::from(random.once_in(4));
    let words = words(random, rules + kinds);
    let mut text = Text::new(false);
    for name in &words[..rules] {
        text.word(random, name);
        text.sign(random, b'=');
        expression(random, &mut text, &words, 3, 2);
        text.sign(random, b';');
    }
    text.bytes
}

/// So many words, none twice, mostly short; `empty` is none of them.
fn words(random: &mut Random, count: usize) -> Vec<Vec<u8>> {
    let mut words: Vec<Vec<u8>> = Vec::new();
    while words.len() < count {
        let longest = random.pick(&[1, 2, 3, LONGEST_WORD]);
        let size = random.within(1, longest);
        let word: Vec<u8> = (0..size).map(|_| b'a' + random.below(26) as u8).collect();
        if word != b"empty" && !words.contains(&word) {
            words.push(word);
        }
    }
    words
}

/// Puts an expression of about this many factors.
fn expression(random: &mut Random, text: &mut Text, words: &[Vec<u8>], size: usize, depth: usize) {
    let factors = random.within(1, size);
    for number in 0..factors {
        if number > 0 && random.once_in(3) {
            text.sign(random, b'|');
        }
        match random.below(8) {
            0 => text.word(random, b"empty"),
            1 | 2 if depth > 0 => {
                text.sign(random, b'(');
                expression(random, text, words, size, depth - 1);
                text.sign(random, b')');
            }
            _ => {
                let word = random.below(words.len());
                text.word(random, &words[word]);
            }
        }
        if random.once_in(4) {
            text.sign(random, b'*');
        }
    }
}

/// A text under way.
struct Text {
    bytes: Vec<u8>,
    /// Whether it has blanks only where they are due.
    tight: bool,
}

impl Text {
    /// A text of no bytes.
    fn new(tight: bool) -> Text {
        Text {
            bytes: Vec::new(),
            tight,
        }
    }

    /// Puts some blanks, or none.
    fn blanks(&mut self, random: &mut Random) {
        if !self.tight {
            for _ in 0..random.below(3) {
                self.bytes.push(random.pick(b" \n"));
            }
        }
    }

    /// Puts a word, and a blank before it where a word stands.
    fn word(&mut self, random: &mut Random, word: &[u8]) {
        self.blanks(random);
        if self.bytes.last().is_some_and(u8::is_ascii_lowercase) {
            self.bytes.push(random.pick(b" \n"));
        }
        self.bytes.extend(word);
    }

    /// Puts a sign.
    fn sign(&mut self, random: &mut Random, sign: u8) {
        self.blanks(random);
        self.bytes.push(sign);
    }
}

/// Changes, takes out or puts in one byte, or a word of 16 or 17 letters.
fn damage(random: &mut Random, sheet: &mut Vec<u8>) {
    let at = random.below(sheet.len() + 1);
    let byte = random.pick(BYTES);
    match random.below(5) {
        0 | 1 if at < sheet.len() => sheet[at] = byte,
        2 if at < sheet.len() => {
            sheet.remove(at);
        }
        3 => {
            let letters = LONGEST_WORD + random.below(2);
            sheet.splice(at..at, vec![b'w'; letters]);
        }
        _ => sheet.insert(at, byte),
    }
}
