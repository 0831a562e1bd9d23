//! What the program `sheet` must print. What is due where a text goes wrong is found by trying bytes there.

use crate::answers::*;
use crate::book::*;
use crate::compile::compile;
use crate::listing::TOO_LONG;
use crate::sheet::{goes_wrong, made, Made, LONGEST_SHEET};

/// What the program prints for a text.
pub fn shown(text: &[u8]) -> String {
    if text.len() > LONGEST_SHEET {
        return TOO_LONG.to_string();
    }
    match made(text) {
        Ok(made) => book_lines(&made) + &said(text, &made),
        Err((SHEET, at)) => format!("refused 26{}: {} due\n", position(text, at), due(text, at)),
        Err((TWICE, at)) => format!("refused 27{}: this name comes again\n", position(text, at)),
        Err((BIG, _)) => "refused 28: over 512 nodes or 64 kinds\n".to_string(),
        Err((number, _)) => format!("refused {number}: no event kind\n"),
    }
}

/// The answer number of what was printed, or that of the message.
pub fn number_of(printed: &str) -> u32 {
    let mut lines = printed.lines();
    if printed == TOO_LONG {
        INPUT_TOO_LONG
    } else if lines.clone().any(|line| line.starts_with("passes, ")) {
        DONE
    } else {
        let refused = lines.find_map(|line| line.strip_prefix("refused "));
        let digits = refused.expect("a refusal").split([' ', ':']).next();
        digits.expect("a word").parse().expect("a number")
    }
}

/// The lines of a book: its kinds, its nodes and its start.
fn book_lines(made: &Made) -> String {
    let mut lines = String::new();
    let name = |kind: u16| String::from_utf8_lossy(made.kinds[usize::from(kind)]);
    for kind in 0..made.kinds.len() {
        lines += &format!("kind {kind} {}\n", name(kind as u16));
    }
    for (own, &(Node { form, left, right }, _)) in made.nodes.iter().enumerate() {
        lines += &format!("node {own} ");
        lines += &match form {
            EMPTY => "empty".to_string(),
            TOKEN => format!("token {}", name(left)),
            EITHER => format!("either {left} {right}"),
            THEN => format!("then {left} {right}"),
            REF => format!("ref {left}"),
            form => panic!("no sheet makes a node of type {form}"),
        };
        lines.push('\n');
    }
    lines + &format!("start {}\n", made.start)
}

/// What the compiler says of the book of a text.
fn said(text: &[u8], made: &Made) -> String {
    let bytes = made.book().named_bytes(&made.kinds);
    let mut plan = vec![0; LONGEST_PLAN];
    let said = compile(&bytes, &mut plan);
    if said.number == DONE {
        return format!("passes, a plan of {} bytes\n", said.size);
    }
    let at = made.nodes[said.place as usize].1;
    let mut line = format!(
        "refused {} node {}{}",
        said.number,
        said.place,
        position(text, at)
    );
    if said.number == CONFLICT {
        line.push(':');
        if said.both == 1 {
            line += " both sides can take nothing";
            line += if said.clash == 0 { "" } else { "," };
        }
        for (kind, name) in made.kinds.iter().enumerate() {
            if said.clash >> kind & 1 == 1 {
                line += &format!(" {}", String::from_utf8_lossy(name));
            }
        }
    }
    let (_, column, whole) = place(text, at);
    let whole = String::from_utf8_lossy(whole);
    format!("{line}\n{whole}\n{:>column$}\n", "^")
}

/// The line and the column of a byte, from 1, and its line.
fn place(text: &[u8], at: usize) -> (usize, usize, &[u8]) {
    let mut first = 0;
    for (number, line) in text.split(|&byte| byte == b'\n').enumerate() {
        if at <= first + line.len() {
            return (number + 1, at - first + 1, line);
        }
        first += line.len() + 1;
    }
    panic!("byte {at} is beyond the text")
}

/// The line and the column of a byte, as they are printed.
fn position(text: &[u8], at: usize) -> String {
    let (line, column, _) = place(text, at);
    format!(" line {line} column {column}")
}

/// What is due at a place: what of letters and signs a sheet may go on with there, and ` is`.
fn due(text: &[u8], at: usize) -> String {
    let begun = &text[..at];
    let may = |byte: u8| goes_wrong(&[begun, &[byte]].concat()) > at;
    let letters = begun.last().is_some_and(u8::is_ascii_lowercase);
    let signs = b"(*=|);".iter().filter(|&&sign| may(sign));
    let signs = signs.map(|&sign| format!("`{}`", char::from(sign)));
    let signs: Vec<String> = signs.collect();
    let words: &[&str] = match (letters, may(b'a')) {
        (true, true) => &["a letter"],
        (true, false) => &["a blank"],
        (false, false) => &[],
        (false, true) if name_is_due(begun) => &["a rule's name"],
        (false, true) => &["a word", "`empty`"],
    };
    let words = words.iter().map(|word| word.to_string());
    let all: Vec<String> = words.chain(signs).collect();
    match all.split_last().expect("something is due") {
        (last, []) => format!("{last} is"),
        (last, others) => format!("{} or {last} is", others.join(", ")),
    }
}

/// Whether a rule's name is due after these bytes: none but blanks stand behind the last `;`, or at all.
fn name_is_due(begun: &[u8]) -> bool {
    let last = begun.iter().rev().find(|byte| !b" \n".contains(byte));
    last.is_none_or(|&byte| byte == b';')
}
