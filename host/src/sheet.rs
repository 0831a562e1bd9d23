//! Sheets: a text taken apart into words and signs, its rules, the book made of them, and the place where a text goes
//! wrong. What a text may go on with is found by an automaton of its own, byte by byte.

use crate::answers::*;
use crate::book::*;
use crate::moves::written;

/// How deep parentheses nest.
pub const DEEPEST: usize = 32;

/// The most letters of a word.
pub const LONGEST_WORD: usize = 16;

/// The longest sheet that the program takes.
pub const LONGEST_SHEET: usize = 65_536;

/// A word or a sign, with the place of its first byte.
#[derive(Clone, Copy, Debug, PartialEq, Eq)]
enum Token<'a> {
    Word(usize, &'a [u8]),
    Sign(usize, u8),
}

/// An expression, with the place from which its nodes come.
#[derive(Clone, Debug, PartialEq, Eq)]
pub enum Expression<'a> {
    Word(usize, &'a [u8]),
    Empty(usize),
    Either(usize, Box<Expression<'a>>, Box<Expression<'a>>),
    Then(usize, Box<Expression<'a>>, Box<Expression<'a>>),
    Star(usize, Box<Expression<'a>>),
}

/// A rule: the place of its name, its name, and its expression.
#[derive(Clone, Debug, PartialEq, Eq)]
pub struct Rule<'a> {
    pub place: usize,
    pub name: &'a [u8],
    pub expression: Expression<'a>,
}

/// The book made of a sheet: its kinds by their names, its nodes with the places from which they come, and its start.
pub struct Made<'a> {
    pub kinds: Vec<&'a [u8]>,
    pub nodes: Vec<(Node, usize)>,
    pub start: usize,
}

/// Makes a book of a sheet.
pub fn sheet(text: &[u8], book: &mut [u8]) -> Written {
    written(book, made(text).map(|made| made.bytes()))
}

/// The place of the text from which a node comes.
pub fn sheet_place(text: &[u8], node: u32) -> Written {
    let found = made(text).and_then(|made| match made.nodes.get(node as usize) {
        Some((_, place)) => Ok(*place),
        None => Err((NODE, made.nodes.len())),
    });
    let (number, place) = match found {
        Ok(place) => (DONE, place),
        Err(refused) => refused,
    };
    Written {
        number,
        size: 0,
        place: place as u64,
    }
}

/// The book made of a sheet, or the refusal's number and place.
pub fn made(text: &[u8]) -> Result<Made<'_>, (u32, usize)> {
    let rules = rules(text).ok_or_else(|| (SHEET, goes_wrong(text)))?;
    for (number, rule) in rules.iter().enumerate() {
        if rules[..number].iter().any(|other| other.name == rule.name) {
            return Err((TWICE, rule.place));
        }
    }
    let mut making = Making::of(&rules);
    for rule in &rules {
        making.put(&rule.expression);
    }
    if making.nodes.len() > MOST_NODES || making.kinds.len() > MOST_KINDS {
        return Err((BIG, 0));
    }
    if making.kinds.is_empty() {
        return Err((KINDLESS, 0));
    }
    Ok(Made {
        start: making.ends[0].1,
        kinds: making.kinds,
        nodes: making.nodes,
    })
}

impl Made<'_> {
    /// The book without its names.
    pub fn book(&self) -> Book {
        Book {
            kinds: self.kinds.len() as u16,
            start: self.start as u16,
            nodes: self.nodes.iter().map(|&(node, _)| node).collect(),
        }
    }

    /// The bytes of the book with its names.
    fn bytes(&self) -> Vec<u8> {
        self.book().named_bytes(&self.kinds)
    }
}

/// How many nodes an expression has.
fn size(expression: &Expression) -> usize {
    match expression {
        Expression::Word(..) | Expression::Empty(_) => 1,
        Expression::Either(_, left, right) | Expression::Then(_, left, right) => {
            size(left) + size(right) + 1
        }
        Expression::Star(_, factor) => size(factor) + 4,
    }
}

/// A book under way.
struct Making<'a> {
    /// Each rule's name and last node.
    ends: Vec<(&'a [u8], usize)>,
    kinds: Vec<&'a [u8]>,
    nodes: Vec<(Node, usize)>,
}

impl<'a> Making<'a> {
    /// A book of these rules of which no node is put yet.
    fn of(rules: &[Rule<'a>]) -> Making<'a> {
        let mut next = 0;
        let ends = rules.iter().map(|rule| {
            next += size(&rule.expression);
            (rule.name, next - 1)
        });
        Making {
            ends: ends.collect(),
            kinds: Vec::new(),
            nodes: Vec::new(),
        }
    }

    /// Puts one node, and answers its number.
    fn add(&mut self, place: usize, form: u16, left: usize, right: usize) -> usize {
        self.nodes
            .push((node(form, left as u16, right as u16), place));
        self.nodes.len() - 1
    }

    /// Puts the nodes of an expression, and answers the number of the last.
    fn put(&mut self, expression: &Expression<'a>) -> usize {
        match expression {
            Expression::Word(place, word) => self.word(*place, word),
            Expression::Empty(place) => self.add(*place, EMPTY, 0, 0),
            Expression::Either(place, left, right) => {
                let (left, right) = (self.put(left), self.put(right));
                self.add(*place, EITHER, left, right)
            }
            Expression::Then(place, left, right) => {
                let (left, right) = (self.put(left), self.put(right));
                self.add(*place, THEN, left, right)
            }
            Expression::Star(place, factor) => {
                let factor = self.put(factor);
                let again = self.add(*place, REF, factor + 4, 0);
                let more = self.add(*place, THEN, factor, again);
                let none = self.add(*place, EMPTY, 0, 0);
                self.add(*place, EITHER, more, none)
            }
        }
    }

    /// Puts the node of a word: a ref to the last node of the rule that it names, or a token of its kind.
    fn word(&mut self, place: usize, word: &'a [u8]) -> usize {
        if let Some(&(_, last)) = self.ends.iter().find(|end| end.0 == word) {
            return self.add(place, REF, last, 0);
        }
        let known = self.kinds.iter().position(|&kind| kind == word);
        let kind = known.unwrap_or_else(|| {
            self.kinds.push(word);
            self.kinds.len() - 1
        });
        self.add(place, TOKEN, kind, 0)
    }
}

/// The words and signs of a text.
fn tokens(text: &[u8]) -> Vec<Token<'_>> {
    let mut tokens = Vec::new();
    let mut at = 0;
    while at < text.len() {
        let letters = text[at..]
            .iter()
            .take_while(|byte| byte.is_ascii_lowercase())
            .count();
        if letters > 0 {
            tokens.push(Token::Word(at, &text[at..at + letters]));
        } else if !is_blank(text[at]) {
            tokens.push(Token::Sign(at, text[at]));
        }
        at += letters.max(1);
    }
    tokens
}

/// Whether a byte separates words.
fn is_blank(byte: u8) -> bool {
    byte == b' ' || byte == b'\n'
}

/// Whether these letters are a word.
fn is_word(letters: &[u8]) -> bool {
    letters.len() <= LONGEST_WORD && letters != b"empty"
}

/// The rules of a text, if it is a sheet.
pub fn rules(text: &[u8]) -> Option<Vec<Rule<'_>>> {
    let mut left = &tokens(text)[..];
    let mut rules = Vec::new();
    while !left.is_empty() || rules.is_empty() {
        let (head, rest) = left.split_at_checked(2)?;
        let &[Token::Word(place, name), Token::Sign(_, b'=')] = head else {
            return None;
        };
        if !is_word(name) {
            return None;
        }
        let (expression, rest) = sequences(rest, DEEPEST)?;
        let (Token::Sign(_, b';'), rest) = rest.split_first()? else {
            return None;
        };
        rules.push(Rule {
            place,
            name,
            expression,
        });
        left = rest;
    }
    Some(rules)
}

/// What is read of some tokens, and those left.
type Read<'a, 't> = Option<(Expression<'a>, &'t [Token<'a>])>;

/// Sequences with `|` between them.
fn sequences<'a, 't>(from: &'t [Token<'a>], depth: usize) -> Read<'a, 't> {
    let (mut all, mut left) = factors(from, depth)?;
    while let Some((&Token::Sign(place, b'|'), rest)) = left.split_first() {
        let (other, rest) = factors(rest, depth)?;
        all = Expression::Either(place, Box::new(all), Box::new(other));
        left = rest;
    }
    Some((all, left))
}

/// Factors, one after the other.
fn factors<'a, 't>(from: &'t [Token<'a>], depth: usize) -> Read<'a, 't> {
    let (mut all, mut left) = factor(from, depth)?;
    while let Some(&Token::Word(place, _) | &Token::Sign(place, b'(')) = left.first() {
        let (other, rest) = factor(left, depth)?;
        all = Expression::Then(place, Box::new(all), Box::new(other));
        left = rest;
    }
    Some((all, left))
}

/// A word, `empty` or an expression in parentheses, with or without a star.
fn factor<'a, 't>(from: &'t [Token<'a>], depth: usize) -> Read<'a, 't> {
    let (bare, left) = match from.split_first()? {
        (&Token::Word(place, b"empty"), rest) => (Expression::Empty(place), rest),
        (&Token::Word(place, word), rest) if is_word(word) => (Expression::Word(place, word), rest),
        (&Token::Sign(_, b'('), rest) if depth > 0 => {
            let (inner, rest) = sequences(rest, depth - 1)?;
            let (Token::Sign(_, b')'), rest) = rest.split_first()? else {
                return None;
            };
            (inner, rest)
        }
        _ => return None,
    };
    match left.split_first() {
        Some((&Token::Sign(place, b'*'), rest)) => {
            Some((Expression::Star(place, Box::new(bare)), rest))
        }
        _ => Some((bare, left)),
    }
}

/// What may follow in a text.
#[derive(Clone, Copy, Debug, PartialEq, Eq)]
enum Due {
    /// A rule's name.
    Name,
    /// The rest of a rule's name, of which so many letters are read, all of them the first of `empty` or not.
    InName(usize, bool),
    /// The sign `=`.
    Equals,
    /// A factor.
    Factor,
    /// The rest of a word, of which so many letters are read.
    InWord(usize),
    /// What may follow a factor, a star too.
    Star,
    /// What may follow a factor that may have no star.
    NoStar,
}

/// The place of the first byte at which no sheet begins so; the length of a text that lacks something at its end.
pub fn goes_wrong(text: &[u8]) -> usize {
    let (mut due, mut open) = (Due::Name, 0);
    for (at, &byte) in text.iter().enumerate() {
        match next(due, &mut open, byte) {
            Some(then) => due = then,
            None => return at,
        }
    }
    text.len()
}

/// What may follow after a byte, with so many parentheses open; nothing where the byte may not come.
fn next(due: Due, open: &mut usize, byte: u8) -> Option<Due> {
    let letter = byte.is_ascii_lowercase();
    match due {
        Due::Name if is_blank(byte) => Some(Due::Name),
        Due::Name => letter.then_some(Due::InName(1, byte == b'e')),
        Due::InName(letters, begins) if letter => {
            let begins = begins && b"empty".get(letters) == Some(&byte);
            (letters < LONGEST_WORD).then_some(Due::InName(letters + 1, begins))
        }
        Due::InName(5, true) => None,
        Due::InName(..) | Due::Equals => match byte {
            b'=' => Some(Due::Factor),
            byte => is_blank(byte).then_some(Due::Equals),
        },
        Due::Factor if is_blank(byte) => Some(Due::Factor),
        Due::InWord(letters) if letter => {
            (letters < LONGEST_WORD).then_some(Due::InWord(letters + 1))
        }
        Due::InWord(_) | Due::Star if byte == b'*' => Some(Due::NoStar),
        Due::InWord(_) | Due::Star if is_blank(byte) => Some(Due::Star),
        Due::NoStar if is_blank(byte) => Some(Due::NoStar),
        _ if letter => Some(Due::InWord(1)),
        _ if byte == b'(' => {
            *open += 1;
            (*open <= DEEPEST).then_some(Due::Factor)
        }
        Due::Factor => None,
        _ => match byte {
            b'|' => Some(Due::Factor),
            b')' if *open > 0 => {
                *open -= 1;
                Some(Due::Star)
            }
            b';' if *open == 0 => Some(Due::Name),
            _ => None,
        },
    }
}
