//! Reading of questions as one line of text, with document 02's refusals (W1).
//!
//! The method is Earley's: behind each byte stands the set of items, productions with a mark in them and the byte where
//! they began, that the bytes so far allow. No production is empty and each can be completed, so a set is empty exactly
//! if no text, however long, begins with these bytes. The tree is put together afterwards from all completed items, the
//! shorter ones first, by trying every way to split each; there must be exactly one.

use crate::answer::ROWS;
use crate::read::Refusal;
use crate::table::{Row, Table};
use std::collections::{BTreeMap, HashSet};

pub const TEXT_BYTES: usize = 400;

/// A byte of the grammar, or one of the signs below.
type Symbol = u8;
const QUESTION: Symbol = b'Q';
const NUMBER: Symbol = b'N';
/// A digit from 1, and any digit.
const FIRST_DIGIT: Symbol = b'1';
const DIGIT: Symbol = b'0';

struct Production {
    head: Symbol,
    body: &'static [Symbol],
    /// The kind of the row that it gives.
    kind: usize,
}

const fn question(kind: usize, body: &'static [Symbol]) -> Production {
    Production {
        head: QUESTION,
        body,
        kind,
    }
}

const fn number(body: &'static [Symbol]) -> Production {
    Production {
        head: NUMBER,
        body,
        kind: 0,
    }
}

static GRAMMAR: [Production; 16] = [
    question(1, b"LN"),
    question(2, b"rN=rN"),
    question(3, b"rN=cN"),
    question(4, b"!Q"),
    question(5, b"(Q&Q)"),
    question(6, b"EXQ"),
    question(7, b"E(QUQ)"),
    question(8, b"EGQ"),
    question(9, b"(Q|Q)"),
    question(10, b"(Q>Q)"),
    question(11, b"AXQ"),
    question(12, b"EFQ"),
    question(13, b"AGQ"),
    question(14, b"AFQ"),
    number(b"1"),
    number(b"10"),
];

fn is_head(symbol: Symbol) -> bool {
    symbol == QUESTION || symbol == NUMBER
}

/// Whether a symbol that is no head stands for this byte.
fn fits(symbol: Symbol, byte: u8) -> bool {
    match symbol {
        FIRST_DIGIT => matches!(byte, b'1'..=b'9'),
        DIGIT => byte.is_ascii_digit(),
        _ => symbol == byte,
    }
}

/// A production begun behind `origin` bytes, whose first `done` symbols are read.
#[derive(Clone, Copy, PartialEq, Eq, Hash)]
struct Item {
    production: usize,
    done: usize,
    origin: usize,
}

impl Item {
    fn next(&self) -> Option<Symbol> {
        GRAMMAR[self.production].body.get(self.done).copied()
    }

    fn advanced(&self) -> Item {
        Item {
            done: self.done + 1,
            ..*self
        }
    }
}

fn begun(head: Symbol, origin: usize) -> Vec<Item> {
    (0..GRAMMAR.len())
        .filter(|&p| GRAMMAR[p].head == head)
        .map(|production| Item {
            production,
            done: 0,
            origin,
        })
        .collect()
}

/// The items that follow from these ones behind the sets so far, themselves included.
fn closed(before: &[Vec<Item>], mut set: Vec<Item>) -> Vec<Item> {
    let mut seen: HashSet<Item> = set.iter().copied().collect();
    let mut i = 0;
    while i < set.len() {
        let item = set[i];
        let more: Vec<Item> = match item.next() {
            None => before[item.origin]
                .iter()
                .filter(|waiting| waiting.next() == Some(GRAMMAR[item.production].head))
                .map(Item::advanced)
                .collect(),
            Some(symbol) if is_head(symbol) => begun(symbol, before.len()),
            Some(_) => vec![],
        };
        set.extend(more.into_iter().filter(|&m| seen.insert(m)));
        i += 1;
    }
    set
}

/// The sets behind 0, 1, 2, .. bytes, as long as they are not empty.
fn sets(text: &[u8]) -> Vec<Vec<Item>> {
    let mut sets = vec![closed(&[], begun(QUESTION, 0))];
    for (i, &byte) in text.iter().enumerate() {
        let read = sets[i]
            .iter()
            .filter(|item| item.next().is_some_and(|s| !is_head(s) && fits(s, byte)))
            .map(Item::advanced)
            .collect();
        let set = closed(&sets, read);
        if set.is_empty() {
            break;
        }
        sets.push(set);
    }
    sets
}

/// A head that is read from one byte to another: head, bytes before it, bytes before its end.
type Span = (Symbol, usize, usize);

/// How a span is read: its production, and the spans of the heads in it.
struct Reading {
    production: usize,
    parts: Vec<Span>,
}

/// All ways to split a span by a production into parts that are read already.
fn splits(
    text: &[u8],
    readings: &BTreeMap<Span, Reading>,
    production: usize,
    start: usize,
    end: usize,
) -> Vec<Vec<Span>> {
    let mut ways: Vec<(usize, Vec<Span>)> = vec![(start, vec![])];
    for &symbol in GRAMMAR[production].body {
        let mut longer = Vec::new();
        for (at, parts) in ways {
            if is_head(symbol) {
                for (&part, _) in readings.range((symbol, at, at)..=(symbol, at, end)) {
                    longer.push((part.2, [parts.clone(), vec![part]].concat()));
                }
            } else if at < end && fits(symbol, text[at]) {
                longer.push((at + 1, parts));
            }
        }
        ways = longer;
    }
    ways.retain(|&(at, _)| at == end);
    ways.into_iter().map(|(_, parts)| parts).collect()
}

/// The one reading of every span that the sets know.
fn readings(text: &[u8], sets: &[Vec<Item>]) -> BTreeMap<Span, Reading> {
    let mut completed: Vec<(usize, usize, usize)> = Vec::new();
    for (end, set) in sets.iter().enumerate() {
        for item in set.iter().filter(|item| item.next().is_none()) {
            completed.push((end - item.origin, item.origin, item.production));
        }
    }
    // A part is shorter than the whole: each production has a byte of its own.
    completed.sort_unstable();
    let mut readings = BTreeMap::new();
    for (length, start, production) in completed {
        let mut ways = splits(text, &readings, production, start, start + length);
        assert_eq!(ways.len(), 1, "one way to split");
        let span = (GRAMMAR[production].head, start, start + length);
        let reading = Reading {
            production,
            parts: ways.remove(0),
        };
        assert!(readings.insert(span, reading).is_none(), "one production");
    }
    readings
}

fn value(digits: &[u8]) -> usize {
    digits.iter().fold(0, |v, d| 10 * v + (d - b'0') as usize)
}

/// Lists the rows of a span behind those that are there; the number of its own.
fn list(text: &[u8], readings: &BTreeMap<Span, Reading>, span: Span, rows: &mut Vec<Row>) -> usize {
    let reading = &readings[&span];
    let mut fields = [0; 2];
    for (field, &part) in fields.iter_mut().zip(&reading.parts) {
        *field = match part {
            (NUMBER, start, end) => value(&text[start..end]),
            _ => list(text, readings, part, rows),
        };
    }
    rows.push(Row {
        kind: GRAMMAR[reading.production].kind,
        a: fields[0],
        b: fields[1],
    });
    rows.len()
}

/// The rows of a text of any length, whatever their number and ranges; or the first byte, from 1, at which no
/// continuation is possible, or the length plus 1.
pub fn rows(text: &[u8]) -> Result<Vec<Row>, usize> {
    let sets = sets(text);
    let whole = |item: &Item| item.next().is_none() && item.origin == 0 && GRAMMAR[item.production].head == QUESTION;
    if sets.len() <= text.len() || !sets[text.len()].iter().any(whole) {
        return Err(sets.len());
    }
    let mut rows = Vec::new();
    list(text, &readings(text, &sets), (QUESTION, 0, text.len()), &mut rows);
    Ok(rows)
}

/// Whether what a row of an atom names is there.
fn in_range(table: &Table, row: &Row) -> bool {
    let within = |value: usize, most: usize| 1 <= value && value <= most;
    match row.kind {
        1 => within(row.a, table.places),
        2 => within(row.a, table.registers) && within(row.b, table.registers),
        3 => within(row.a, table.registers) && within(row.b, table.constants.len()),
        _ => true,
    }
}

pub fn read_text(table: &Table, text: &[u8]) -> Result<Vec<Row>, Refusal> {
    let refuse = |number: u32, line: usize| {
        Err(Refusal {
            number,
            file: 2,
            line: line as u32,
        })
    };
    if text.len() > TEXT_BYTES {
        return refuse(1, 0);
    }
    let rows = match rows(text) {
        Ok(rows) => rows,
        Err(byte) => return refuse(11, byte),
    };
    if rows.len() > ROWS {
        return refuse(12, 0);
    }
    match rows.iter().position(|row| !in_range(table, row)) {
        Some(i) => refuse(5, i + 1),
        None => Ok(rows),
    }
}
