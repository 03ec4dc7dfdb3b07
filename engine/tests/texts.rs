//! Questions as a line of text: the boundaries of document 02's W1, the rows, and the byte of refusal 11 against its
//! definition.

use engine::answer::{ask, ask_text};
use engine::generate::{case, Shape};
use engine::print::{asked, Form};
use engine::random::Random;
use engine::read::{read_table, Refusal};
use engine::table::{Row, Table};
use engine::text::{read_text, rows};
use engine::texts::{damaged, good, nested, tree, Style, Tree};
use engine::trials::sample_table;
use engine::write;
use std::collections::BTreeSet;

fn sample() -> Table {
    read_table(&sample_table()).expect("the sample")
}

/// Number and line of the refusal by the sample, of 2 registers, 1 constant and 3 places; zeros where the text is read.
fn judged(text: &[u8]) -> (u32, u32) {
    match read_text(&sample(), text) {
        Ok(_) => (0, 0),
        Err(Refusal { number, file, line }) => {
            assert_eq!(file, 2);
            (number, line)
        }
    }
}

#[test]
fn boundaries() {
    let read = [
        "L1", "L3", "r1=r2", "r2=r2", "r1=c1", "!L1", "EXL1", "EGL1", "EFL1", "AXL1", "AGL1", "AFL1",
    ];
    let joined = [
        "(L1&L2)",
        "(L1|L2)",
        "(L1>L2)",
        "E(L1UL2)",
        "AG!(L3&r1=r2)",
        "((L1&L2)>E(L1UL2))",
    ];
    for text in read.iter().chain(&joined) {
        assert_eq!(judged(text.as_bytes()), (0, 0), "{text}");
    }
    for (text, byte) in [
        ("", 1),
        ("L", 2),
        ("L0", 2),
        ("L100", 4),
        ("L01", 2),
        ("r", 2),
        ("r1", 3),
        ("r1=", 4),
        ("r1=L1", 4),
        ("r1=r", 5),
        ("r0=r1", 2),
        ("r1=r0", 5),
        ("r1=r100", 7),
        ("c1=r1", 1),
        ("(L1)", 4),
        ("((L1&L2))", 9),
        ("(L1&L2", 7),
        ("(L1UL2)", 4),
        ("(&L1)", 2),
        ("(L1&)", 5),
        ("(L1&L2))", 8),
        ("E(L1&L2)", 5),
        ("E(L1UL2", 8),
        ("E", 2),
        ("EL1", 2),
        ("EUL1", 2),
        ("A", 2),
        ("A(", 2),
        ("A(L1UL2)", 2),
        ("!", 2),
        ("AG", 3),
        ("AG ", 3),
        ("L1\n", 3),
        ("L1 ", 3),
        (" L1", 1),
        ("l1", 1),
        ("ag!L1", 1),
        ("L1&L2", 3),
        ("\u{feff}L1", 1),
        // The number of a place that is not there, and the text goes on wrongly.
        ("(L99&L", 7),
    ] {
        assert_eq!(judged(text.as_bytes()), (11, byte), "{text:?}");
    }
    for (text, row) in [
        ("L4", 1),
        ("L99", 1),
        ("r3=r1", 1),
        ("r1=r3", 1),
        ("r1=c2", 1),
        ("(L1&L4)", 2),
        ("(!L1&(L4|L5))", 3),
        ("E(r3=r3UL4)", 1),
    ] {
        assert_eq!(judged(text.as_bytes()), (5, row), "{text}");
    }
}

/// So many places joined, the brackets on the left.
fn joined(places: usize) -> String {
    let more = places - 1;
    "(".repeat(more) + "L1" + &"&L1)".repeat(more)
}

#[test]
fn lengths() {
    let not = |times: usize, rest: &str| ("!".repeat(times) + rest).into_bytes();
    assert_eq!(judged(&not(31, "L1")), (0, 0));
    assert_eq!(judged(&not(32, "L1")), (12, 0));
    assert_eq!(judged(&not(40, "x")), (11, 41));
    assert_eq!(judged(&not(40, "")), (11, 41));
    assert_eq!(judged(&not(40, "L99")), (12, 0));
    assert_eq!(judged(joined(16).as_bytes()), (0, 0));
    assert_eq!(judged(joined(17).as_bytes()), (12, 0));
    assert_eq!(judged(&not(398, "L1")), (12, 0));
    assert_eq!(judged(&not(399, "L1")), (1, 0));
    assert_eq!(judged(&not(400, "")), (11, 401));
    assert_eq!(judged(&not(401, "")), (1, 0));
    assert_eq!(judged(&not(399, "x")), (11, 400));
    assert_eq!(judged("(".repeat(400).as_bytes()), (11, 401));
    assert_eq!(judged(&[255; 401]), (1, 0));
    // Beyond the limits the grammar is the same.
    assert_eq!(rows(&not(2000, "L1")).map(|r| r.len()), Ok(2001));
    assert_eq!(rows(joined(500).as_bytes()).map(|r| r.len()), Ok(999));
    assert_eq!(rows(&not(2000, "")), Err(2001));
}

/// A text by its rows alone: those of an accepted text must give the text back, so it is one of the grammar.
fn written(rows: &[Row]) -> String {
    fn row(rows: &[Row], number: usize) -> String {
        let Row { kind, a, b } = rows[number - 1];
        let of = |n: usize| row(rows, n);
        match kind {
            1 => format!("L{a}"),
            2 => format!("r{a}=r{b}"),
            3 => format!("r{a}=c{b}"),
            4 => format!("!{}", of(a)),
            5 => format!("({}&{})", of(a), of(b)),
            6 => format!("EX{}", of(a)),
            7 => format!("E({}U{})", of(a), of(b)),
            8 => format!("EG{}", of(a)),
            9 => format!("({}|{})", of(a), of(b)),
            10 => format!("({}>{})", of(a), of(b)),
            11 => format!("AX{}", of(a)),
            12 => format!("EF{}", of(a)),
            13 => format!("AG{}", of(a)),
            _ => format!("AF{}", of(a)),
        }
    }
    row(rows, rows.len())
}

fn trees(seed: u64, most: usize) -> Tree {
    let mut random = Random::new(seed);
    let table = case(&mut random, Shape::Tiny).table;
    let count = random.between(1, most);
    let style = Style::new(&mut random, &table, 10);
    tree(&mut random, &style, count)
}

/// The rows of a text are those of its tree: one for each operator and atom, left before right, inner before outer.
#[test]
fn rows_of_trees() {
    let mut kinds = [0; 15];
    for seed in 0..2000 {
        let tree = trees(1000 + seed, 60);
        let text = tree.text();
        let found = rows(text.as_bytes());
        assert_eq!(found, Ok(tree.rows()), "{text}");
        assert_eq!(written(&tree.rows()), text);
        for row in tree.rows() {
            kinds[row.kind] += 1;
        }
    }
    assert!(kinds[1..].iter().all(|&n| n > 100), "{kinds:?}");
}

/// The answer to a text is that to the file of its rows.
#[test]
fn answers_of_rows() {
    let mut seen = [0; 2];
    for seed in 0..600 {
        let mut random = Random::new(40_000 + seed);
        let table = case(&mut random, Shape::Tiny).table;
        let tree = good(&mut random, &table);
        let bytes = write::table(&table);
        let by_text = ask_text(&bytes, tree.text().as_bytes(), None);
        let by_rows = ask(&bytes, &write::question(&tree.rows()), None);
        assert_eq!(
            asked(Form::Full, &by_text),
            asked(Form::Full, &by_rows),
            "{}",
            tree.text()
        );
        seen[by_text.is_ok_and(|a| a.yes) as usize] += 1;
    }
    assert!(seen.iter().all(|&n| n > 100), "{seen:?}");
}

/// Every beginning of a text goes on: it is judged at the byte behind it, or is a text itself.
#[test]
fn beginnings() {
    for seed in 0..300 {
        let mut random = Random::new(seed);
        let text = if seed % 50 == 0 {
            nested(&mut random, 400)
        } else {
            trees(seed, 40).text().into_bytes()
        };
        for n in 0..text.len() {
            match rows(&text[..n]) {
                Err(byte) => assert_eq!(byte, n + 1),
                Ok(found) => assert_eq!(written(&found).as_bytes(), &text[..n]),
            }
        }
    }
}

/// A text of the grammar that begins with these bytes, found by adding one byte after another.
fn completed(mut text: Vec<u8>) -> Vec<u8> {
    loop {
        match rows(&text) {
            Ok(found) => {
                assert_eq!(written(&found).as_bytes(), text);
                return text;
            }
            Err(byte) => assert_eq!(byte, text.len() + 1),
        }
        let n = text.len();
        // What ends a question before what begins one.
        let next = b")&UL1=rX".iter().find(|&&b| {
            let longer = [&text[..], &[b]].concat();
            rows(&longer) != Err(n + 1)
        });
        text.push(*next.expect("a byte that goes on"));
    }
}

/// What is before the byte of 11 begins a text; with it nothing does, whatever follows.
#[test]
fn damages() {
    let mut seen = [0; 13];
    for seed in 0..4000 {
        let mut random = Random::new(90_000 + seed);
        let table = case(&mut random, Shape::Tiny).table;
        let text = damaged(&mut random, &table);
        seen[read_text(&table, &text).map_or_else(|r| r.number as usize, |_| 0)] += 1;
        match rows(&text) {
            Ok(found) => assert_eq!(written(&found).as_bytes(), text),
            Err(byte) => {
                // Hundreds of open brackets would take long to close.
                if byte <= 100 {
                    completed(text[..byte - 1].to_vec());
                }
                if byte <= text.len() {
                    let cut = [&text[..byte], &[*random.pick(b"L1)(r=")]].concat();
                    assert_eq!(rows(&text[..byte]), Err(byte));
                    assert_eq!(rows(&cut), Err(byte));
                }
            }
        }
    }
    for number in [0, 1, 5, 11, 12] {
        assert!(seen[number] > 100, "{seen:?}");
    }
}

/// All texts of at most `most` bytes over the digits 0 and 1, and the first `most` bytes of all longer ones. True: the
/// text is whole. The least solution of the grammar's equations, each side cut after `most` bytes.
struct Texts {
    most: usize,
    all: BTreeSet<(Vec<u8>, bool)>,
}

impl Texts {
    fn then(&self, first: &BTreeSet<(Vec<u8>, bool)>, second: &BTreeSet<(Vec<u8>, bool)>) -> BTreeSet<(Vec<u8>, bool)> {
        // What is left of the second where so many bytes have room.
        let cut: Vec<BTreeSet<(Vec<u8>, bool)>> = (0..=self.most)
            .map(|room| {
                second
                    .iter()
                    .map(|(w, whole)| {
                        if w.len() > room {
                            (w[..room].to_vec(), false)
                        } else {
                            (w.clone(), *whole)
                        }
                    })
                    .collect()
            })
            .collect();
        let mut found = BTreeSet::new();
        for (a, whole) in first {
            if !whole {
                found.insert((a.clone(), false));
                continue;
            }
            for (b, whole) in &cut[self.most - a.len()] {
                found.insert(([&a[..], b].concat(), *whole));
            }
        }
        found
    }

    fn joined(&self, parts: &[&BTreeSet<(Vec<u8>, bool)>]) -> BTreeSet<(Vec<u8>, bool)> {
        let none = BTreeSet::from([(vec![], true)]);
        parts.iter().fold(none, |found, part| self.then(&found, part))
    }

    fn new(most: usize) -> Texts {
        let word = |w: &str| BTreeSet::from([(w.as_bytes().to_vec(), true)]);
        let number: BTreeSet<_> = ["1", "10", "11"].iter().flat_map(|&w| word(w)).collect();
        let mut texts = Texts {
            most,
            all: BTreeSet::new(),
        };
        loop {
            let q = &texts.all;
            let mut found = texts.joined(&[&word("L"), &number]);
            for kind in ["r", "c"] {
                found.extend(texts.joined(&[&word("r"), &number, &word("="), &word(kind), &number]));
            }
            for sign in ["!", "EX", "EG", "EF", "AX", "AG", "AF"] {
                found.extend(texts.joined(&[&word(sign), q]));
            }
            for (open, sign) in [("(", "&"), ("(", "|"), ("(", ">"), ("E(", "U")] {
                found.extend(texts.joined(&[&word(open), q, &word(sign), q, &word(")")]));
            }
            if found == texts.all {
                return texts;
            }
            texts.all = found;
        }
    }

    /// Every beginning of a text, of at most `most` bytes.
    fn beginnings(&self) -> BTreeSet<Vec<u8>> {
        let parts = |w: &Vec<u8>| (0..=w.len()).map(|n| w[..n].to_vec()).collect::<Vec<_>>();
        self.all.iter().flat_map(|(w, _)| parts(w)).collect()
    }
}

/// What the definition says: no byte where the text is one, else the first at which no text begins so, or one behind all.
fn stops_at(texts: &Texts, beginnings: &BTreeSet<Vec<u8>>, text: &[u8]) -> Option<usize> {
    if texts.all.contains(&(text.to_vec(), true)) {
        return None;
    }
    let viable = |n: &usize| beginnings.contains(&text[..*n]);
    Some((1..=text.len()).find(|n| !viable(n)).unwrap_or(text.len() + 1))
}

/// All strings of at most five bytes over a small alphabet.
#[test]
fn all_short_strings() {
    let texts = Texts::new(5);
    let beginnings = texts.beginnings();
    let alphabet = b"Lrc10=!()&UEXA";
    let mut level: Vec<Vec<u8>> = vec![vec![]];
    for n in 0..=5 {
        for text in &level {
            assert_eq!(rows(text).err(), stops_at(&texts, &beginnings, text), "{text:?}");
        }
        if n < 5 {
            level = level
                .iter()
                .flat_map(|w| alphabet.iter().map(move |&b| [&w[..], &[b]].concat()))
                .collect();
        }
    }
    assert_eq!(level.len(), alphabet.len().pow(5));
}

/// Every beginning of at most five bytes with any byte behind it.
#[test]
fn all_bytes_behind_beginnings() {
    let texts = Texts::new(6);
    let beginnings = texts.beginnings();
    let mut whole = 0;
    for begun in beginnings.iter().filter(|w| w.len() < 6) {
        // The equations know the digits 0 and 1; 2 to 9 stand where 1 may.
        for byte in (0..=255).filter(|b| !(b'2'..=b'9').contains(b)) {
            let text = [&begun[..], &[byte]].concat();
            let expected = stops_at(&texts, &beginnings, &text);
            assert_eq!(rows(&text).err(), expected, "{text:?}");
            whole += expected.is_none() as usize;
        }
        for byte in b'2'..=b'9' {
            let [one, other] = [b'1', byte].map(|b| rows(&[&begun[..], &[b]].concat()).map(|r| r.len()));
            assert_eq!(one, other, "{begun:?} {byte}");
        }
    }
    assert!(whole > 100, "{whole}");
}
