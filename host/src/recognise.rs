//! What a run is by derivations alone: no FIRST, no SNF, no plan.

use crate::answers::EMPTY_RECORD;
use crate::book::*;

/// What a run means under a book.
#[derive(Clone, Debug, PartialEq, Eq)]
pub enum Meaning {
    /// Lawful, with its tree, where a part that derives no event is a single empty record.
    Lawful(Vec<u16>),
    /// So many events begin a lawful run, and with the next, of a kind of the book, none.
    Unexpected(usize),
    /// So many events begin a lawful run, and the next is of no kind of the book.
    Unknown(usize),
    /// The run begins a lawful run and is none.
    Unfinished,
}

/// How a node derives a part of a run.
#[derive(Clone, Copy)]
enum Way {
    Leaf,
    Left,
    Right,
    /// Left derives up to here, right from here.
    Split(usize),
}

/// All that the nodes of a book derive of one run.
pub struct Table<'a> {
    book: &'a Book,
    run: &'a [u8],
    /// For each node, from and to: a way to derive that part.
    derives: Vec<Option<Way>>,
    /// For each node, from and to: whether some run that the node derives begins with that part.
    begins: Vec<bool>,
}

impl<'a> Table<'a> {
    /// The table of a run under a book.
    pub fn of(book: &'a Book, run: &'a [u8]) -> Table<'a> {
        let size = book.nodes.len() * (run.len() + 1) * (run.len() + 1);
        let mut table = Table {
            book,
            run,
            derives: vec![None; size],
            begins: vec![false; size],
        };
        while table.derive() {}
        while table.begin() {}
        table
    }

    /// What the run means.
    pub fn meaning(&self) -> Meaning {
        let start = self.book.start;
        let length = self.run.len();
        if self.way(start, 0, length).is_some() {
            return Meaning::Lawful(self.tree());
        }
        match (1..=length).find(|&to| !self.begun(start, 0, to)) {
            None => Meaning::Unfinished,
            Some(to) if u16::from(self.run[to - 1]) >= self.book.kinds => Meaning::Unknown(to - 1),
            Some(to) => Meaning::Unexpected(to - 1),
        }
    }

    /// Whether the run begins some lawful run.
    pub fn begins_lawful(&self) -> bool {
        self.begun(self.book.start, 0, self.run.len())
    }

    /// Whether each part of the run's tree has one way only to be derived.
    pub fn only_derivation(&self) -> bool {
        let mut due = vec![(self.book.start, 0, self.run.len())];
        let mut seen = vec![false; self.derives.len()];
        while let Some((own, from, to)) = due.pop() {
            let at = self.at(own, from, to);
            if std::mem::replace(&mut seen[at], true) {
                continue;
            }
            let ways = self.ways(own, from, to);
            if ways.len() != 1 {
                return false;
            }
            due.extend(self.parts(own, from, to, ways[0]));
        }
        true
    }

    /// The place of a node, from and to in the table.
    fn at(&self, own: u16, from: usize, to: usize) -> usize {
        let places = self.run.len() + 1;
        (usize::from(own) * places + from) * places + to
    }

    /// A way in which a node derives a part of the run.
    fn way(&self, own: u16, from: usize, to: usize) -> Option<Way> {
        self.derives[self.at(own, from, to)]
    }

    /// Whether some run that a node derives begins with a part of the run.
    fn begun(&self, own: u16, from: usize, to: usize) -> bool {
        self.begins[self.at(own, from, to)]
    }

    /// All nodes with all parts of the run.
    fn entries(&self) -> impl Iterator<Item = (u16, usize, usize)> {
        let length = self.run.len();
        let count = self.book.nodes.len() as u16;
        (0..count).flat_map(move |own| {
            (0..=length).flat_map(move |from| (from..=length).map(move |to| (own, from, to)))
        })
    }

    /// One turn of deriving; whether it gave anything new.
    fn derive(&mut self) -> bool {
        let mut grew = false;
        for (own, from, to) in self.entries() {
            let at = self.at(own, from, to);
            if self.derives[at].is_none() {
                self.derives[at] = self.ways(own, from, to).first().copied();
                grew |= self.derives[at].is_some();
            }
        }
        grew
    }

    /// The ways in which a node derives a part, from what is in the table.
    fn ways(&self, own: u16, from: usize, to: usize) -> Vec<Way> {
        let Node { form, left, right } = self.book.nodes[usize::from(own)];
        let derived = |part, from, to| self.way(part, from, to).is_some();
        let mut ways = Vec::new();
        match form {
            EMPTY if from == to => ways.push(Way::Leaf),
            TOKEN if self.is_event(left, from, to) => ways.push(Way::Leaf),
            EITHER => {
                ways.extend(derived(left, from, to).then_some(Way::Left));
                ways.extend(derived(right, from, to).then_some(Way::Right));
            }
            THEN => ways.extend(
                (from..=to)
                    .filter(|&at| derived(left, from, at) && derived(right, at, to))
                    .map(Way::Split),
            ),
            TAGGED | REF => ways.extend(derived(left, from, to).then_some(Way::Left)),
            _ => (),
        }
        ways
    }

    /// Whether a part is a single event of a kind.
    fn is_event(&self, kind: u16, from: usize, to: usize) -> bool {
        from + 1 == to && u16::from(self.run[from]) == kind
    }

    /// One turn of finding beginnings; whether it gave anything new.
    fn begin(&mut self) -> bool {
        let mut grew = false;
        for (own, from, to) in self.entries() {
            let at = self.at(own, from, to);
            if !self.begins[at] && self.can_begin(own, from, to) {
                self.begins[at] = true;
                grew = true;
            }
        }
        grew
    }

    /// Whether a node derives a run that begins with a part, from what is in the table.
    fn can_begin(&self, own: u16, from: usize, to: usize) -> bool {
        let Node { form, left, right } = self.book.nodes[usize::from(own)];
        match form {
            EMPTY => from == to,
            TOKEN => from == to || self.is_event(left, from, to),
            EITHER => self.begun(left, from, to) || self.begun(right, from, to),
            THEN => {
                let in_left = self.begun(left, from, to) && self.begun(right, to, to);
                let in_right = |at| self.way(left, from, at).is_some() && self.begun(right, at, to);
                in_left || (from..=to).any(in_right)
            }
            TAGGED | REF => self.begun(left, from, to),
            _ => false,
        }
    }

    /// The parts of a node that derives a part of the run in this way.
    fn parts(&self, own: u16, from: usize, to: usize, way: Way) -> Vec<(u16, usize, usize)> {
        let Node { left, right, .. } = self.book.nodes[usize::from(own)];
        match way {
            Way::Leaf => Vec::new(),
            Way::Left => vec![(left, from, to)],
            Way::Right => vec![(right, from, to)],
            Way::Split(at) => vec![(left, from, at), (right, at, to)],
        }
    }

    /// The records of the derivation in the table.
    fn tree(&self) -> Vec<u16> {
        let mut records = Vec::new();
        let mut due = vec![(self.book.start, 0, self.run.len())];
        while let Some((own, from, to)) = due.pop() {
            if from == to {
                records.push(own + EMPTY_RECORD);
                continue;
            }
            records.push(own);
            let way = self.way(own, from, to).expect("a derived part");
            let mut parts = self.parts(own, from, to, way);
            parts.reverse();
            due.extend(parts);
        }
        records
    }
}
