//! The program `sheet` against the independent rendering of what it must print.

use host::answers::*;
use host::books::random::Random;
use host::books::sheets::any_sheet;
use host::listing::TOO_LONG;
use host::program::{Delivery, Program};
use host::sheet::LONGEST_SHEET;
use host::shown::{number_of, shown};

/// The program, and how often it gave each answer.
struct Pair {
    program: Program,
    tally: Tally,
}

impl Pair {
    /// A pair that has compared nothing yet.
    fn new() -> Pair {
        Pair {
            program: Program::sheet_under_test(),
            tally: Tally::default(),
        }
    }

    /// Compares what the program prints for a sheet with the rendering.
    fn compare(&mut self, sheet: &[u8], delivery: Delivery) {
        self.expect(sheet, delivery, &shown(sheet));
    }

    /// Checks that the program prints these lines for a sheet, and exits with status 0.
    fn expect(&mut self, sheet: &[u8], delivery: Delivery, lines: &str) {
        let printed = self.program.run(sheet, delivery);
        let text = String::from_utf8_lossy(&printed.output);
        let given = String::from_utf8_lossy(&sheet[..sheet.len().min(2_000)]);
        assert_eq!(text, lines, "of {given:?}, delivered {delivery:?}");
        assert_eq!(printed.status, Some(0), "the exit status of {given:?}");
        self.tally.count(number_of(&text));
    }
}

/// Sheets and lines written by hand.
#[test]
fn worked_sheets() {
    let mut pair = Pair::new();
    for (sheet, lines) in [
        (
            "r = a b* ;",
            "kind 0 a\nkind 1 b\nnode 0 token a\nnode 1 token b\nnode 2 ref 5\nnode 3 then 1 2\nnode 4 empty\n\
             node 5 either 3 4\nnode 6 then 0 5\nstart 6\npasses, a plan of 107 bytes\n",
        ),
        (
            "a = b |\n  b c ;\n",
            "kind 0 b\nkind 1 c\nnode 0 token b\nnode 1 token b\nnode 2 token c\nnode 3 then 1 2\n\
             node 4 either 0 3\nstart 4\nrefused 6 node 4 line 1 column 7: b\na = b |\n      ^\n",
        ),
        (
            "a = b ;\n\n c = d ;",
            "kind 0 b\nkind 1 d\nnode 0 token b\nnode 1 token d\nstart 0\n\
             refused 22 node 1 line 3 column 6\n c = d ;\n     ^\n",
        ),
        (
            "a = b a ;",
            "kind 0 b\nnode 0 token b\nnode 1 ref 2\nnode 2 then 0 1\nstart 2\n\
             refused 5 node 2 line 1 column 7\na = b a ;\n      ^\n",
        ),
        (
            "a = ( b* | c* ) b ;",
            "kind 0 b\nkind 1 c\nnode 0 token b\nnode 1 ref 4\nnode 2 then 0 1\nnode 3 empty\n\
             node 4 either 2 3\nnode 5 token c\nnode 6 ref 9\nnode 7 then 5 6\nnode 8 empty\n\
             node 9 either 7 8\nnode 10 either 4 9\nnode 11 token b\nnode 12 then 10 11\nstart 12\n\
             refused 6 node 10 line 1 column 10: both sides can take nothing\n\
             a = ( b* | c* ) b ;\n         ^\n",
        ),
        (
            "a = ( b* | b* ) ;",
            "kind 0 b\nnode 0 token b\nnode 1 ref 4\nnode 2 then 0 1\nnode 3 empty\nnode 4 either 2 3\n\
             node 5 token b\nnode 6 ref 9\nnode 7 then 5 6\nnode 8 empty\nnode 9 either 7 8\n\
             node 10 either 4 9\nstart 10\n\
             refused 6 node 10 line 1 column 10: both sides can take nothing, b\n\
             a = ( b* | b* ) ;\n         ^\n",
        ),
        ("", "refused 26 line 1 column 1: a rule's name is due\n"),
        ("\n\n", "refused 26 line 3 column 1: a rule's name is due\n"),
        ("a =\n  | b ;", "refused 26 line 2 column 3: a word, `empty` or `(` is due\n"),
        ("a = b )", "refused 26 line 1 column 7: a word, `empty`, `(`, `*`, `|` or `;` is due\n"),
        ("a = ( b", "refused 26 line 1 column 8: a letter, `(`, `*`, `|` or `)` is due\n"),
        ("a = b* *", "refused 26 line 1 column 8: a word, `empty`, `(`, `|` or `;` is due\n"),
        ("empty = b ;", "refused 26 line 1 column 6: a letter is due\n"),
        ("a b = c ;", "refused 26 line 1 column 3: `=` is due\n"),
        ("abcdefghijklmnopq = a ;", "refused 26 line 1 column 17: a blank or `=` is due\n"),
        ("a = b\r\n;", "refused 26 line 1 column 6: a letter, `(`, `*`, `|` or `;` is due\n"),
        ("a = b ;\na = c ;\n", "refused 27 line 2 column 1: this name comes again\n"),
        ("a = a ;", "refused 29: no event kind\n"),
    ] {
        assert_eq!(shown(sheet.as_bytes()), lines, "of {sheet:?}");
        for delivery in [Delivery::Whole, Delivery::Bytes] {
            pair.expect(sheet.as_bytes(), delivery, lines);
        }
    }
}

/// Sheets about the longest that is taken; bytes of every value; blanks only.
#[test]
fn odd_sheets() {
    let mut pair = Pair::new();
    for byte in 0..=255 {
        pair.compare(&[byte], Delivery::Whole);
        pair.compare(&[b"a = b ;".as_slice(), &[byte]].concat(), Delivery::Whole);
        pair.compare(
            &[b"a = ".as_slice(), &[byte], b" ;"].concat(),
            Delivery::Whole,
        );
    }
    for size in [LONGEST_SHEET - 1, LONGEST_SHEET, LONGEST_SHEET + 1, 1 << 20] {
        for byte in [b' ', b'\n', b'a', b'(', 0, 255] {
            pair.compare(&vec![byte; size], Delivery::Whole);
        }
        for begun in [&b"a = b b ;"[..], b"a = b ; c = d ;", b"a = b | b ;"] {
            for byte in [b' ', b'\n'] {
                let mut sheet = begun.to_vec();
                sheet.resize(size, byte);
                pair.compare(&sheet, Delivery::Whole);
                sheet.rotate_left(begun.len());
                pair.compare(&sheet, Delivery::Pieces(3));
            }
        }
    }
    pair.expect(&vec![b' '; LONGEST_SHEET + 1], Delivery::Bytes, TOO_LONG);
    pair.tally.expect(&[INPUT_TOO_LONG], 30);
    pair.tally.expect(&[DONE, UNUSED, CONFLICT], 5);
}

/// Random sheets, good and damaged, each delivered in one of the ways; some are grown over the longest that is taken.
#[test]
fn random_sheets() {
    let mut pair = Pair::new();
    let mut random = Random::new(9);
    for _ in 0..20_000 {
        let mut sheet = any_sheet(&mut random);
        if random.once_in(150) {
            let size = LONGEST_SHEET - 2 + random.below(6);
            let blanks = size.saturating_sub(sheet.len());
            sheet.splice(0..0, vec![random.pick(b" \n"); blanks]);
        }
        let delivery = if sheet.len() < 200 && random.once_in(8) {
            Delivery::any(&mut random)
        } else {
            Delivery::Whole
        };
        pair.compare(&sheet, delivery);
    }
    pair.tally
        .expect(&[DONE, BARREN, CONFLICT, UNUSED, SHEET], 300);
    pair.tally.expect(&[TWICE, BIG, KINDLESS], 150);
    pair.tally.expect(&[INPUT_TOO_LONG], 30);
}
