//! Random well-formed books of many shapes.

use super::random::Random;
use crate::book::*;

/// Past this many nodes a shape is brought to its end.
const ENOUGH: usize = 430;

/// A book in the making.
struct Maker<'a> {
    random: &'a mut Random,
    kinds: u16,
    nodes: Vec<Node>,
    /// The refs that may point at any node of the finished book.
    free_refs: Vec<usize>,
}

/// A random well-formed book of any shape, mostly of few nodes.
pub fn any_book(random: &mut Random) -> Book {
    let kinds = random.within(1, 6) as u16;
    match random.below(9) {
        0 | 1 => soup(random, kinds),
        2..=4 => regular(random, kinds, 3),
        5 | 6 => rules(random, kinds, 3),
        7 => clash(random, kinds),
        _ => chain(random, kinds, 12),
    }
}

/// A book of which most pass: regular or by rules, of few nodes.
pub fn likely_book(random: &mut Random) -> Book {
    let kinds = random.within(2, 6) as u16;
    if random.once_in(2) {
        regular(random, kinds, 3)
    } else {
        rules(random, kinds, 3)
    }
}

/// The book with a tag above about half of its nodes, where that is not too many.
pub fn with_stages(random: &mut Random, book: &Book) -> Book {
    if book.nodes.len() > MOST_NODES / 2 {
        return book.clone();
    }
    let tagged: Vec<bool> = book.nodes.iter().map(|_| random.once_in(2)).collect();
    let mut count = 0;
    let places = tagged.iter().map(|&tag| {
        count += 1 + u16::from(tag);
        count - 1
    });
    let places: Vec<u16> = places.collect();
    let place = |child: u16| places[usize::from(child)];
    let mut nodes = Vec::new();
    for (&Node { form, left, right }, tag) in book.nodes.iter().zip(tagged) {
        nodes.push(match form {
            EITHER | THEN => node(form, place(left), place(right)),
            TAGGED | REF => node(form, place(left), right),
            _ => node(form, left, right),
        });
        if tag {
            let label = random.word().max(1);
            nodes.push(node(TAGGED, nodes.len() as u16 - 1, label));
        }
    }
    Book {
        kinds: book.kinds,
        start: place(book.start),
        nodes,
    }
}

/// A small book for recognition by derivations: at most 3 kinds.
pub fn little_book(random: &mut Random) -> Book {
    let kinds = random.within(1, 3) as u16;
    match random.below(6) {
        0 => soup(random, kinds),
        1..=3 => regular(random, kinds, 2),
        _ => rules(random, kinds, 2),
    }
}

/// A book of up to 512 nodes and 64 kinds.
pub fn large_book(random: &mut Random) -> Book {
    let kinds = random.pick(&[8, 40, 63, 64]);
    match random.below(5) {
        0 | 1 => regular(random, kinds, 8),
        2 | 3 => rules(random, kinds, 40),
        _ => chain(random, kinds, MOST_NODES),
    }
}

/// A book without the nodes that its start does not reach; those that stay keep their order.
pub fn without_unused(book: &Book) -> Book {
    let mut used = vec![false; book.nodes.len()];
    used[usize::from(book.start)] = true;
    while spread(book, &mut used) {}
    let before = |number: u16| used[..usize::from(number)].iter().filter(|&&is| is).count() as u16;
    let kept = book.nodes.iter().zip(&used).filter(|&(_, &is)| is);
    let renumbered = kept.map(|(&Node { form, left, right }, _)| match form {
        EITHER | THEN => node(form, before(left), before(right)),
        TAGGED | REF => node(form, before(left), right),
        _ => node(form, left, right),
    });
    Book {
        kinds: book.kinds,
        start: before(book.start),
        nodes: renumbered.collect(),
    }
}

/// Notes the sides of the nodes that are used as used too. Whether any was not yet.
fn spread(book: &Book, used: &mut [bool]) -> bool {
    let mut more = false;
    for own in (0..book.nodes.len())
        .rev()
        .filter(|&own| used[own])
        .collect::<Vec<_>>()
    {
        let Node { form, left, right } = book.nodes[own];
        let sides = match form {
            EITHER | THEN => vec![left, right],
            TAGGED | REF => vec![left],
            _ => Vec::new(),
        };
        for side in sides {
            more |= !std::mem::replace(&mut used[usize::from(side)], true);
        }
    }
    more
}

/// A book whose nodes are all chosen freely.
fn soup(random: &mut Random, kinds: u16) -> Book {
    let count = random.within(1, 12);
    let mut maker = maker(random, kinds);
    maker.loose(count);
    let start = maker.random.below(count);
    maker.finish(start)
}

/// A book like a regular expression, whose alternatives mostly begin with different kinds.
fn regular(random: &mut Random, kinds: u16, depth: usize) -> Book {
    let mut maker = maker(random, kinds);
    maker.unused();
    let all: Vec<u16> = (0..kinds).collect();
    let start = maker.part(&all, depth);
    maker.finish(usize::from(start))
}

/// A book of two choices between events, which may share some, beside or after each other.
fn clash(random: &mut Random, kinds: u16) -> Book {
    let mut maker = maker(random, kinds);
    let (one, other) = (maker.choice(), maker.choice());
    let form = maker.random.pick(&[EITHER, THEN]);
    let start = maker.add(form, one, other);
    maker.finish(usize::from(start))
}

/// A book of rules that refer to each other, each alternative beginning with its own kind.
fn rules(random: &mut Random, kinds: u16, most: usize) -> Book {
    let mut maker = maker(random, kinds);
    maker.unused();
    let count = maker.random.within(1, most);
    let heads: Vec<u16> = (0..count).map(|_| maker.add(REF, 0, 0)).collect();
    for &head in &heads {
        let last = maker.rule(&heads);
        maker.nodes[usize::from(head)].left = last;
    }
    maker.finish(usize::from(heads[0]))
}

/// A book of refs upward, each to the next, with an end that may lead back.
fn chain(random: &mut Random, kinds: u16, most: usize) -> Book {
    let count = random.within(2, most);
    let mut maker = maker(random, kinds);
    for to in 1..count {
        maker.add(REF, to as u16, 0);
    }
    let kind = maker.random.below(usize::from(kinds)) as u16;
    let back = maker.random.below(count) as u16;
    match maker.random.below(4) {
        0 => maker.add(TOKEN, kind, 0),
        1 => maker.add(EMPTY, 0, 0),
        2 => maker.add(REF, back, 0),
        _ => maker.add(EITHER, 0, 0),
    };
    let start = maker.random.below(count);
    maker.finish(start)
}

/// A book in the making, with no node yet.
fn maker(random: &mut Random, kinds: u16) -> Maker<'_> {
    Maker {
        random,
        kinds,
        nodes: Vec::new(),
        free_refs: Vec::new(),
    }
}

impl Maker<'_> {
    /// Adds a node and gives its number.
    fn add(&mut self, form: u16, left: u16, right: u16) -> u16 {
        self.nodes.push(node(form, left, right));
        self.nodes.len() as u16 - 1
    }

    /// A kind of the book.
    fn kind(&mut self) -> u16 {
        self.random.below(usize::from(self.kinds)) as u16
    }

    /// A label.
    fn label(&mut self) -> u16 {
        let any = self.random.within(1, 65_535) as u16;
        self.random.pick(&[1, 2, any, 65_535])
    }

    /// A node that is there already.
    fn lower(&mut self) -> u16 {
        self.random.below(self.nodes.len()) as u16
    }

    /// Adds nodes chosen freely.
    fn loose(&mut self, count: usize) {
        for _ in 0..count {
            let most = if self.nodes.is_empty() { 10 } else { 20 };
            let node = match self.random.below(most) {
                0 => node(FAIL, 0, 0),
                1 | 2 => node(EMPTY, 0, 0),
                3..=7 => node(TOKEN, self.kind(), 0),
                8 | 9 => {
                    self.free_refs.push(self.nodes.len());
                    node(REF, 0, 0)
                }
                10..=13 => node(EITHER, self.lower(), self.lower()),
                14..=17 => node(THEN, self.lower(), self.lower()),
                _ => node(TAGGED, self.lower(), self.label()),
            };
            self.nodes.push(node);
        }
    }

    /// Adds now and then some nodes that the shape does not use.
    fn unused(&mut self) {
        if self.nodes.len() < ENOUGH && self.random.once_in(4) {
            let count = self.random.within(1, 4);
            self.loose(count);
        }
    }

    /// The finished book with this start; free refs now get their nodes. Mostly the nodes that the start does not reach
    /// are taken out again. A large book is filled up to all nodes that a book can have: with nodes that are not used,
    /// or with tagged nodes above the start.
    fn finish(mut self, start: usize) -> Book {
        self.unused();
        let large = self.nodes.len() > ENOUGH / 2;
        let keeps = self.random.once_in(6);
        if large && keeps {
            self.loose(MOST_NODES - self.nodes.len());
        }
        let count = self.nodes.len();
        for at in std::mem::take(&mut self.free_refs) {
            self.nodes[at].left = self.random.below(count) as u16;
        }
        let mut book = Book {
            kinds: self.kinds,
            start: start as u16,
            nodes: std::mem::take(&mut self.nodes),
        };
        if keeps {
            return book;
        }
        book = without_unused(&book);
        while large && book.nodes.len() < MOST_NODES {
            let label = self.label();
            book.nodes.push(node(TAGGED, book.start, label));
            book.start = book.nodes.len() as u16 - 1;
        }
        book
    }

    /// Adds a part that begins with these kinds only.
    fn part(&mut self, kinds: &[u16], depth: usize) -> u16 {
        if depth == 0 || self.nodes.len() > ENOUGH {
            return self.leaf(kinds);
        }
        let (some, rest) = self.split(kinds);
        match self.random.below(12) {
            0..=2 => {
                let left = self.part(&some, depth - 1);
                let right = self.part(&rest, depth - 1);
                self.add(EITHER, left, right)
            }
            3..=6 => {
                let follow = if self.random.once_in(3) { kinds } else { &rest };
                let left = self.part(&some, depth - 1);
                let right = self.part(follow, depth - 1);
                self.add(THEN, left, right)
            }
            7 => self.optional(&some, depth),
            8 => self.star(&some, depth),
            9 => {
                let left = self.part(kinds, depth - 1);
                let label = self.label();
                self.add(TAGGED, left, label)
            }
            10 => {
                let left = self.part(kinds, depth - 1);
                self.add(REF, left, 0)
            }
            _ => self.leaf(kinds),
        }
    }

    /// Adds a token of one of these kinds, or now and then an empty or a fail.
    fn leaf(&mut self, kinds: &[u16]) -> u16 {
        match self.random.below(30) {
            0 => self.add(FAIL, 0, 0),
            1 | 2 => self.add(EMPTY, 0, 0),
            3 => {
                let own = self.nodes.len() as u16;
                self.add(REF, own, 0)
            }
            _ => {
                let kind = self.random.pick(kinds);
                self.add(TOKEN, kind, 0)
            }
        }
    }

    /// Adds a choice between events of some kinds, now and then also nothing.
    fn choice(&mut self) -> u16 {
        let first = self.kind();
        let mut choice = self.add(TOKEN, first, 0);
        for kind in 0..self.kinds {
            if kind != first && self.random.once_in(2) {
                let token = self.add(TOKEN, kind, 0);
                choice = self.either(Some(choice), token);
            }
        }
        if self.random.once_in(3) {
            let empty = self.add(EMPTY, 0, 0);
            choice = self.either(Some(choice), empty);
        }
        choice
    }

    /// Adds a part or nothing, either side first.
    fn optional(&mut self, kinds: &[u16], depth: usize) -> u16 {
        let part = self.part(kinds, depth - 1);
        let empty = self.add(EMPTY, 0, 0);
        if self.random.once_in(2) {
            self.add(EITHER, part, empty)
        } else {
            self.add(EITHER, empty, part)
        }
    }

    /// Adds any number of a part.
    fn star(&mut self, kinds: &[u16], depth: usize) -> u16 {
        let part = self.part(kinds, depth - 1);
        let again = self.add(REF, 0, 0);
        let more = self.add(THEN, part, again);
        let empty = self.add(EMPTY, 0, 0);
        let star = self.add(EITHER, more, empty);
        self.nodes[usize::from(again)].left = star;
        star
    }

    /// The kinds in two parts with none shared, or both all of them where there is but one.
    fn split(&mut self, kinds: &[u16]) -> (Vec<u16>, Vec<u16>) {
        if kinds.len() < 2 {
            return (kinds.to_vec(), kinds.to_vec());
        }
        let turn = self.random.below(kinds.len());
        let at = self.random.within(1, kinds.len() - 1);
        let mut turned = kinds.to_vec();
        turned.rotate_left(turn);
        let rest = turned.split_off(at);
        (turned, rest)
    }

    /// Adds a rule: alternatives that begin with different kinds, now and then an empty one; past enough nodes just a
    /// token.
    fn rule(&mut self, heads: &[u16]) -> u16 {
        let first = self.kind();
        if self.nodes.len() > ENOUGH {
            return self.add(TOKEN, first, 0);
        }
        let alternatives = self.random.within(1, 3).min(usize::from(self.kinds));
        let mut whole = None;
        for number in 0..alternatives as u16 {
            let kind = (first + number) % self.kinds;
            let body = self.alternative(kind, heads, number == 0);
            whole = Some(self.either(whole, body));
        }
        if self.random.once_in(4) {
            let empty = self.add(EMPTY, 0, 0);
            whole = Some(self.either(whole, empty));
        }
        whole.expect("at least one alternative")
    }

    /// Joins an alternative to those before it.
    fn either(&mut self, whole: Option<u16>, body: u16) -> u16 {
        match whole {
            None => body,
            Some(before) if self.random.once_in(2) => self.add(EITHER, before, body),
            Some(before) => self.add(EITHER, body, before),
        }
    }

    /// Adds an alternative: a token, then mostly a few rules and tokens, grouped either way.
    fn alternative(&mut self, kind: u16, heads: &[u16], short: bool) -> u16 {
        let mut body = self.add(TOKEN, kind, 0);
        if (short && !self.random.once_in(4)) || self.nodes.len() > ENOUGH {
            return body;
        }
        for _ in 0..self.random.within(1, 3) {
            let next = self.symbol(heads);
            body = self.add(THEN, body, next);
        }
        if self.random.once_in(2) {
            let token = self.leaf(&[kind]);
            let last = self.symbol(heads);
            let tail = self.add(THEN, token, last);
            body = self.add(THEN, body, tail);
        }
        body
    }

    /// Adds or names a part of an alternative: a rule or a token.
    fn symbol(&mut self, heads: &[u16]) -> u16 {
        match self.random.below(3) {
            0 => self.random.pick(heads),
            1 => {
                let to = self.random.pick(heads);
                self.add(REF, to, 0)
            }
            _ => {
                let kind = self.kind();
                self.add(TOKEN, kind, 0)
            }
        }
    }
}
