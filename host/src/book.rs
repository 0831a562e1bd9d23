//! Books as values, and their bytes.

use crate::names::{bytes_of_names, LONGEST_NAME};

pub const FAIL: u16 = 0;
pub const EMPTY: u16 = 1;
pub const TOKEN: u16 = 2;
pub const EITHER: u16 = 3;
pub const THEN: u16 = 4;
pub const TAGGED: u16 = 5;
pub const REF: u16 = 6;

/// The most nodes that a book has.
pub const MOST_NODES: usize = 512;

/// The most kinds that a book has.
pub const MOST_KINDS: usize = 64;

/// Where the settings stand in a book.
pub const BOOK_SETTINGS: usize = 14;

/// Where the nodes begin in a book.
pub const BOOK_NODES: usize = 18;

/// Where the settings stand in a plan.
pub const PLAN_SETTINGS: usize = 26;

/// Where the nodes begin in a plan.
pub const PLAN_NODES: usize = 30;

/// Where the settings stand in a book with names.
pub const NAMED_SETTINGS: usize = 20;

/// Where the nodes begin in a book with names.
pub const NAMED_NODES: usize = 24;

/// The bytes of one node.
pub const NODE_BYTES: usize = 6;

/// The bytes of what is due for one node.
pub const DUE_BYTES: usize = 2;

/// The bytes of the longest book without names.
pub const LONGEST_PLAIN: usize = BOOK_NODES + NODE_BYTES * MOST_NODES;

/// The bytes of the longest book: 512 nodes, and 64 names of 16 bytes.
pub const LONGEST_BOOK: usize =
    NAMED_NODES + NODE_BYTES * MOST_NODES + MOST_KINDS * (1 + LONGEST_NAME);

/// The bytes of the longest plan.
pub const LONGEST_PLAN: usize = PLAN_NODES + MOST_NODES * (NODE_BYTES + MOST_KINDS + 1 + DUE_BYTES);

/// A node: its type, left and right.
#[derive(Clone, Copy, Debug, PartialEq, Eq)]
pub struct Node {
    pub form: u16,
    pub left: u16,
    pub right: u16,
}

/// A node of this type, left and right.
pub fn node(form: u16, left: u16, right: u16) -> Node {
    Node { form, left, right }
}

/// A book: the number of kinds, the start node and the nodes.
#[derive(Clone, Debug, PartialEq, Eq)]
pub struct Book {
    pub kinds: u16,
    pub start: u16,
    pub nodes: Vec<Node>,
}

impl Book {
    /// The book with these nodes that starts at the last.
    pub fn ending(kinds: u16, nodes: &[(u16, u16, u16)]) -> Book {
        let nodes: Vec<Node> = nodes.iter().map(|&(f, l, r)| node(f, l, r)).collect();
        let start = nodes.len() as u16 - 1;
        Book {
            kinds,
            start,
            nodes,
        }
    }

    /// The book's bytes: contents, settings, nodes.
    pub fn bytes(&self) -> Vec<u8> {
        let nodes_length = (NODE_BYTES * self.nodes.len()) as u16;
        let mut words = vec![2, 1, 14, 4, 2, 18, nodes_length];
        words.extend(self.settings_and_nodes());
        bytes_of(&words)
    }

    /// The bytes of the book with names: contents, settings, nodes, names.
    pub fn named_bytes<T: AsRef<[u8]>>(&self, names: &[T]) -> Vec<u8> {
        self.three_sections(&bytes_of_names(names))
    }

    /// The bytes of three sections: contents, settings, nodes, and these bytes.
    pub fn three_sections(&self, third: &[u8]) -> Vec<u8> {
        let nodes_length = (NODE_BYTES * self.nodes.len()) as u16;
        let third_at = NAMED_NODES as u16 + nodes_length;
        let third_length = third.len() as u16;
        let mut words = vec![3, 1, 20, 4, 2, 24, nodes_length, 3, third_at, third_length];
        words.extend(self.settings_and_nodes());
        let mut bytes = bytes_of(&words);
        bytes.extend(third);
        bytes
    }

    /// The bytes of a plan of the book with these rows, in which nothing is due.
    pub fn plan(&self, rows: &[u8]) -> Vec<u8> {
        self.plan_due(rows, &vec![0; self.nodes.len()])
    }

    /// The bytes of a plan of the book with these rows and dues: contents, settings, nodes, rows, dues.
    pub fn plan_due(&self, rows: &[u8], dues: &[u16]) -> Vec<u8> {
        let nodes_length = NODE_BYTES * self.nodes.len();
        let rows_at = PLAN_NODES + nodes_length;
        let dues_at = rows_at + rows.len();
        let dues_length = DUE_BYTES * dues.len();
        let mut words = vec![4, 1, PLAN_SETTINGS as u16, 4, 2, PLAN_NODES as u16];
        words.extend(
            [
                nodes_length,
                3,
                rows_at,
                rows.len(),
                4,
                dues_at,
                dues_length,
            ]
            .map(|n| n as u16),
        );
        words.extend(self.settings_and_nodes());
        let mut bytes = bytes_of(&words);
        bytes.extend(rows);
        bytes.extend(bytes_of(dues));
        bytes
    }

    /// The words of the settings and of the nodes, which books and plans share.
    fn settings_and_nodes(&self) -> Vec<u16> {
        let mut words = vec![self.kinds, self.start];
        for node in &self.nodes {
            words.extend([node.form, node.left, node.right]);
        }
        words
    }

    /// The book that these bytes of good form are.
    pub fn of_bytes(book: &[u8]) -> Book {
        if is_named(book) {
            let nodes_end = NAMED_NODES + NODE_BYTES * named_count(book);
            Book::of(&book[NAMED_SETTINGS..nodes_end])
        } else {
            Book::of(&book[BOOK_SETTINGS..])
        }
    }

    /// The book whose settings and nodes stand in these bytes, as many nodes as there are.
    pub fn of(settings_and_nodes: &[u8]) -> Book {
        let words = words_of(settings_and_nodes);
        Book {
            kinds: words[0],
            start: words[1],
            nodes: words[2..]
                .chunks_exact(3)
                .map(|w| node(w[0], w[1], w[2]))
                .collect(),
        }
    }
}

/// Whether bytes given as a book have the count 3, that of books with names.
pub fn is_named(book: &[u8]) -> bool {
    book.starts_with(&[3, 0])
}

/// How many nodes the contents of a book with names say that it has.
pub fn named_count(book: &[u8]) -> usize {
    usize::from(words_of(&book[12..14])[0]) / NODE_BYTES
}

/// The names' section of a book with names whose contents are good.
pub fn names_section(book: &[u8]) -> &[u8] {
    &book[NAMED_NODES + NODE_BYTES * named_count(book)..]
}

/// The bytes of these words, each with its low byte first.
pub fn bytes_of(words: &[u16]) -> Vec<u8> {
    words.iter().flat_map(|word| word.to_le_bytes()).collect()
}

/// The words that stand in these bytes, each with its low byte first.
pub fn words_of(bytes: &[u8]) -> Vec<u16> {
    bytes
        .chunks_exact(2)
        .map(|pair| u16::from_le_bytes([pair[0], pair[1]]))
        .collect()
}
