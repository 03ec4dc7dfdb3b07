//! Random questions as trees, written as text and as rows, and damaged texts.

use crate::random::Random;
use crate::table::{Row, Table};
use crate::text::TEXT_BYTES;

/// A question. The first number of an operator is the kind of its row.
#[derive(Clone, Debug)]
pub enum Tree {
    Place(usize),
    Registers(usize, usize),
    Constant(usize, usize),
    One(usize, Box<Tree>),
    Two(usize, Box<Tree>, Box<Tree>),
}

const ONE: [(usize, &str); 7] = [
    (4, "!"),
    (6, "EX"),
    (8, "EG"),
    (11, "AX"),
    (12, "EF"),
    (13, "AG"),
    (14, "AF"),
];
const TWO: [(usize, &str, &str); 4] = [(5, "(", "&"), (7, "E(", "U"), (9, "(", "|"), (10, "(", ">")];

impl Tree {
    /// The question as text, whatever its numbers are.
    pub fn text(&self) -> String {
        match self {
            Tree::Place(a) => format!("L{a}"),
            Tree::Registers(a, b) => format!("r{a}=r{b}"),
            Tree::Constant(a, b) => format!("r{a}=c{b}"),
            Tree::One(kind, of) => {
                let sign = ONE.iter().find(|o| o.0 == *kind).map_or("", |o| o.1);
                format!("{sign}{}", of.text())
            }
            Tree::Two(kind, left, right) => {
                let (open, sign) = TWO.iter().find(|o| o.0 == *kind).map_or(("", ""), |o| (o.1, o.2));
                format!("{open}{}{sign}{})", left.text(), right.text())
            }
        }
    }

    /// The question as rows: the left part's, the right part's, then its own.
    pub fn rows(&self) -> Vec<Row> {
        let mut rows = Vec::new();
        self.list(&mut rows);
        rows
    }

    fn list(&self, rows: &mut Vec<Row>) -> usize {
        let (kind, a, b) = match self {
            Tree::Place(a) => (1, *a, 0),
            Tree::Registers(a, b) => (2, *a, *b),
            Tree::Constant(a, b) => (3, *a, *b),
            Tree::One(kind, of) => (*kind, of.list(rows), 0),
            Tree::Two(kind, left, right) => {
                let a = left.list(rows);
                (*kind, a, right.list(rows))
            }
        };
        rows.push(Row { kind, a, b });
        rows.len()
    }
}

/// How a tree is drawn: what its table has, and how many numbers in a hundred may be any that can be written.
#[derive(Clone, Copy)]
pub struct Style {
    pub places: usize,
    pub registers: usize,
    pub constants: usize,
    pub astray: usize,
    /// In a hundred: an operator takes one question; of two, the left has all but one row, or the right has.
    one: usize,
    lean: usize,
}

impl Style {
    pub fn new(random: &mut Random, table: &Table, astray: usize) -> Style {
        Style {
            places: table.places,
            registers: table.registers,
            constants: table.constants.len(),
            astray,
            one: *random.pick(&[0, 30, 50, 70, 95]),
            lean: *random.pick(&[0, 0, 50, 100]),
        }
    }
}

fn number(random: &mut Random, style: &Style, most: usize) -> usize {
    if most == 0 || random.percent(style.astray) {
        let any = random.between(1, 99);
        *random.pick(&[most.max(1), most + 1, 9, 10, 16, 17, 99, any])
    } else {
        random.between(1, most)
    }
}

fn atom(random: &mut Random, style: &Style) -> Tree {
    let astray = random.percent(style.astray);
    let kinds = match (style.registers, style.constants) {
        _ if astray => 3,
        (0, _) => 1,
        (_, 0) => 2,
        _ => 3,
    };
    match random.below(kinds) {
        0 => Tree::Place(number(random, style, style.places)),
        1 => Tree::Registers(
            number(random, style, style.registers),
            number(random, style, style.registers),
        ),
        _ => Tree::Constant(
            number(random, style, style.registers),
            number(random, style, style.constants),
        ),
    }
}

/// A question of so many rows, one at least.
pub fn tree(random: &mut Random, style: &Style, rows: usize) -> Tree {
    if rows <= 1 {
        return atom(random, style);
    }
    // Two atoms and what joins them are three rows.
    if rows == 2 || random.percent(style.one) {
        let kind = random.pick(&ONE).0;
        return Tree::One(kind, Box::new(tree(random, style, rows - 1)));
    }
    let left = if random.percent(style.lean) {
        *random.pick(&[1, rows - 2])
    } else {
        random.between(1, rows - 2)
    };
    let kind = random.pick(&TWO).0;
    let first = tree(random, style, left);
    Tree::Two(kind, Box::new(first), Box::new(tree(random, style, rows - 1 - left)))
}

/// A question to this table that is read: 1 to 32 rows, numbers in range.
pub fn good(random: &mut Random, table: &Table) -> Tree {
    let rows = *random.pick(&[1, 2, 3, 5, 8, 12, 32]);
    let rows = random.between(1, rows);
    let style = Style::new(random, table, 0);
    tree(random, &style, rows)
}

/// A text of exactly so many bytes, one operator around another.
pub fn nested(random: &mut Random, bytes: usize) -> Vec<u8> {
    let mut text = random.pick(&["L1", "L12", "r1=r1", "r2=c1"]).as_bytes().to_vec();
    let shape = random.below(4);
    while text.len() < bytes {
        let (before, after) = match shape {
            0 => ("!", ""),
            1 => *random.pick(&[("EX", ""), ("AG", ""), ("AF", "")]),
            2 => *random.pick(&[("(", "&L1)"), ("(", "|L1)"), ("E(", "UL1)")]),
            _ => *random.pick(&[("(L1>", ")"), ("E(L1U", ")"), ("(L1&", ")"), ("!", ""), ("EF", "")]),
        };
        let longer = [before.as_bytes(), &text, after.as_bytes()].concat();
        text = if longer.len() <= bytes {
            longer
        } else {
            [b"!", &text[..]].concat()
        };
    }
    text
}

const BYTES: &[u8] = b"LrcEAXGFU!&|>()=0129";
const FOREIGN: &[u8] = &[
    0, 9, 10, 13, b' ', b'l', b'R', b'C', b'x', b'-', b'[', b'a', b'u', 0xc3, 0xef, 0xff,
];

/// Where one of these bytes stands, if one does.
fn some(random: &mut Random, text: &[u8], bytes: &[u8]) -> Option<usize> {
    let all: Vec<usize> = (0..text.len()).filter(|&i| bytes.contains(&text[i])).collect();
    if all.is_empty() {
        None
    } else {
        Some(*random.pick(&all))
    }
}

/// How many damages there are.
pub const DAMAGES: usize = 24;

/// One damage to a text that is not empty.
pub fn damage(random: &mut Random, which: usize, text: &mut Vec<u8>) {
    let at = random.below(text.len());
    match which {
        0 => text[at] = *random.pick(BYTES),
        1 => text[at] ^= 1 << random.below(8),
        2 => text.insert(at, *random.pick(BYTES)),
        3 => text.insert(at, *random.pick(FOREIGN)),
        4 => {
            text.remove(at);
        }
        5 => {
            let other = if random.percent(50) {
                (at + 1) % text.len()
            } else {
                random.below(text.len())
            };
            text.swap(at, other);
        }
        6 => text.truncate(at),
        7 => {
            // The front is lost.
            text.drain(..at);
        }
        8 => {
            // A piece stands twice.
            let end = random.between(at, text.len());
            let piece = text[at..end].to_vec();
            text.splice(at..at, piece);
        }
        9 => text.extend(*random.pick(&[&b"\n"[..], b" ", b"\r\n", b"\0", b"L1", b")"])),
        10 => text.insert(0, *random.pick(b" \n\t")),
        11 => {
            // A 0 in front of a number.
            if let Some(i) = some(random, text, b"Lrc") {
                text.insert(i + 1, b'0');
            }
        }
        12 => {
            // More digits.
            if let Some(i) = some(random, text, b"0123456789") {
                let more = random.between(1, 2);
                for _ in 0..more {
                    text.insert(i + 1, b'0' + random.below(10) as u8);
                }
            }
        }
        13 => {
            if let Some(i) = some(random, text, b"()") {
                text.remove(i);
            }
        }
        14 => text.insert(at, *random.pick(b"()")),
        15 => {
            // Brackets around one question.
            text.insert(0, b'(');
            text.push(b')');
        }
        16 => {
            // A letter in the other case.
            if let Some(i) = some(random, text, b"LrcEAXGFU") {
                text[i] ^= 0x20;
            }
        }
        17 => {
            // `A(` for `E(`, or E before another bracket.
            if let Some(i) = some(random, text, b"(") {
                let letter = *random.pick(b"AE");
                if i > 0 && text[i - 1] == b'E' {
                    text[i - 1] = letter;
                } else {
                    text.insert(i, letter);
                }
            }
        }
        18 => {
            // Another sign between two questions.
            if let Some(i) = some(random, text, b"&|>U") {
                text[i] = *random.pick(b"&|>U=");
            }
        }
        19 => {
            // A constant on the left, a place on the right, two constants.
            if let Some(i) = some(random, text, b"rc") {
                text[i] = *random.pick(b"rcL");
            }
        }
        20 => {
            // Up to the limit, one byte above it, or far above the rows.
            let limit = *random.pick(&[TEXT_BYTES - 1, TEXT_BYTES, TEXT_BYTES + 1, 40, 600]);
            while text.len() < limit {
                text.insert(0, b'!');
            }
        }
        21 => {
            // Joined with itself, mostly to more than 32 rows.
            let times = random.between(1, 5);
            for _ in 0..times {
                let half = text.clone();
                *text = [b"(", &half[..], &[*random.pick(b"&|>")], &half[..], b")"].concat();
            }
        }
        22 => {
            // Another number.
            if let Some(i) = some(random, text, b"123456789") {
                let other = random.between(1, 99).to_string();
                text.splice(i..i + 1, other.bytes());
            }
        }
        _ => text.clear(),
    }
}

/// A text as somebody might give it: of any size, numbers out of range among them, damaged up to three times.
pub fn damaged(random: &mut Random, table: &Table) -> Vec<u8> {
    let mut text = if random.percent(10) {
        let bytes = *random.pick(&[33, 64, TEXT_BYTES - 1, TEXT_BYTES, TEXT_BYTES + 1]);
        nested(random, bytes)
    } else {
        let rows = *random.pick(&[3, 8, 16, 32, 34, 60]);
        let rows = random.between(1, rows);
        let astray = *random.pick(&[0, 0, 3, 30]);
        let style = Style::new(random, table, astray);
        tree(random, &style, rows).text().into_bytes()
    };
    let times = *random.pick(&[0, 1, 1, 1, 2, 3]);
    for _ in 0..times {
        if !text.is_empty() {
            let which = random.below(DAMAGES);
            damage(random, which, &mut text);
        }
    }
    text
}
