//! Damage to files: each call does one or a few of the things below.

use crate::print::fields;
use crate::random::Random;
use crate::read::{COLUMNS, IDENTIFIER_COLUMNS};

/// The lines of a file with their byte 10, the last perhaps without.
struct Lines {
    lines: Vec<Vec<u8>>,
    /// Whether it is a table: its lines 2 have a wide field, and a question's rows of kind 2 are as long.
    table: bool,
}

fn split(bytes: &[u8], table: bool) -> Lines {
    Lines {
        lines: bytes.split_inclusive(|&b| b == 10).map(|l| l.to_vec()).collect(),
        table,
    }
}

/// A number in a field, and the field's columns.
type Field = (usize, usize);

fn written(line: &[Field]) -> Vec<u8> {
    let mut text: String = line.iter().map(|&(n, columns)| format!("{n:columns$}")).collect();
    text.push('\n');
    text.into_bytes()
}

/// The fields of a well-written line.
fn fields_of(line: &[u8], table: bool) -> Option<Vec<Field>> {
    let text = std::str::from_utf8(line).ok()?.strip_suffix('\n')?;
    if text.is_empty() || !text.is_ascii() {
        return None;
    }
    let wide = table && text.len() == COLUMNS + IDENTIFIER_COLUMNS && text.starts_with("     2");
    let mut rest = text;
    let mut found = Vec::new();
    while !rest.is_empty() {
        let columns = if wide && !found.is_empty() {
            IDENTIFIER_COLUMNS
        } else {
            COLUMNS
        };
        let (field, behind) = rest.split_at_checked(columns)?;
        found.push((field.trim_start().parse().ok()?, columns));
        rest = behind;
    }
    Some(found)
}

impl Lines {
    fn fields(&self, line: usize) -> Option<Vec<Field>> {
        fields_of(&self.lines[line], self.table)
    }

    /// The numbers of a well-written line.
    fn numbers(&self, line: usize) -> Option<Vec<usize>> {
        self.fields(line).map(|f| f.iter().map(|&(n, _)| n).collect())
    }

    fn kind(&self, line: usize) -> usize {
        self.numbers(line).map_or(0, |n| n[0])
    }

    fn of_kind(&self, random: &mut Random, kinds: &[usize]) -> Option<usize> {
        let all: Vec<usize> = (0..self.lines.len())
            .filter(|&i| kinds.contains(&self.kind(i)))
            .collect();
        if all.is_empty() {
            None
        } else {
            Some(*random.pick(&all))
        }
    }

    /// Whether the first line still has so many fields.
    fn begins(&self, fields: usize) -> bool {
        !self.lines.is_empty() && self.numbers(0).is_some_and(|n| n.len() == fields)
    }

    fn is_question(&self) -> bool {
        self.begins(3)
    }

    /// Puts other fields into a line.
    fn set(&mut self, line: usize, change: impl FnOnce(&mut Vec<Field>)) {
        if let Some(mut fields) = self.fields(line) {
            change(&mut fields);
            self.lines[line] = written(&fields);
        }
    }

    /// Puts one number into a line, if it has that field.
    fn put(&mut self, line: usize, field: usize, value: usize) {
        self.set(line, |f| {
            if let Some(slot) = f.get_mut(field) {
                slot.0 = value;
            }
        });
    }
}

const VALUES: [usize; 22] = [
    0, 1, 2, 3, 4, 5, 6, 7, 8, 9, 13, 14, 15, 16, 17, 31, 32, 33, 64, 65, 99_999, 999_999,
];
/// Identifiers at the limit and beyond it: just, as far as one of 32 bits that wraps round to 7, and as far as twelve
/// columns go.
pub const IDENTIFIERS: [usize; 8] = [
    4_294_967_294,
    4_294_967_295,
    4_294_967_296,
    4_294_967_303,
    8_589_934_591,
    9_999_999_999,
    10_000_000_000,
    999_999_999_999,
];
const BYTES: [u8; 14] = [0, 9, 10, 13, b' ', b'+', b'-', b'.', b'0', b'1', b'9', b'a', 0xc3, 0xff];

/// How many damages there are.
pub const DAMAGES: usize = 35;

fn bytes_damage(random: &mut Random, which: usize, bytes: &mut Vec<u8>) {
    let at = random.below(bytes.len());
    match which {
        0 => bytes[at] ^= 1 << random.below(8),
        1 => bytes[at] = *random.pick(&BYTES),
        2 => bytes.insert(at, *random.pick(&BYTES)),
        3 => {
            bytes.remove(at);
        }
        4 => {
            // The last byte 10 is missing.
            bytes.pop();
        }
        5 => bytes.push(*random.pick(&BYTES)),
        6 => bytes.truncate(at),
        7 => {
            // Tab for a space.
            if let Some(i) = (at..bytes.len()).find(|&i| bytes[i] == b' ') {
                bytes[i] = 9;
            }
        }
        8 => {
            // Exactly at a limit, or one byte above it.
            let limit = *random.pick(&[309, 310, 608, 609, 40_000, 40_001]);
            bytes.resize(limit, *random.pick(&BYTES));
        }
        _ => {
            // Byte 13 before every byte 10.
            *bytes = bytes
                .iter()
                .flat_map(|&b| if b == 10 { vec![13, 10] } else { vec![b] })
                .collect();
        }
    }
}

fn lines_damage(random: &mut Random, which: usize, lines: &mut Lines) {
    let at = random.below(lines.lines.len());
    let found = lines.fields(at);
    let field = random.below(found.as_ref().map_or(1, |f| f.len()));
    // The columns of this field.
    let columns = found.map(|f| {
        let from = f[..field].iter().map(|&(_, columns)| columns).sum();
        from..from + f[field].1
    });
    match which {
        10 | 11 => {
            // A field off by one.
            let up = random.percent(50);
            lines.set(at, |f| {
                let n = f[field].0;
                f[field].0 = if up { n + 1 } else { n.saturating_sub(1) }
            });
        }
        12 | 13 => {
            let v = *random.pick(&VALUES);
            lines.put(at, field, v);
        }
        14 => {
            // A leading zero.
            if let Some(columns) = columns {
                let part = &mut lines.lines[at][columns];
                if let Some(i) = part.iter().rposition(|&b| b == b' ') {
                    part[i] = b'0';
                }
            }
        }
        15 => {
            // A field moved to the left.
            if let Some(columns) = columns {
                let part = &mut lines.lines[at][columns];
                if part[0] == b' ' {
                    part.rotate_left(1);
                }
            }
        }
        16 => {
            let line = lines.lines[at].clone();
            lines.lines.insert(at, line);
        }
        17 => {
            let other = random.below(lines.lines.len());
            lines.lines.swap(at, other);
        }
        18 => {
            if at + 1 < lines.lines.len() {
                lines.lines.swap(at, at + 1);
            }
        }
        19 => {
            lines.lines.remove(at);
        }
        20 => lines.set(at, |f| f.push((0, COLUMNS))),
        21 => lines.set(at, |f| {
            f.pop();
        }),
        22 => {
            // Another kind, the line as wide as before.
            let v = random.below(16);
            lines.put(at, 0, v);
        }
        23 => {
            // An empty line.
            lines.lines.insert(at, vec![10]);
        }
        _ => meaning_damage(random, which, lines),
    }
}

fn meaning_damage(random: &mut Random, which: usize, lines: &mut Lines) {
    match which {
        24 if lines.table && lines.begins(6) => {
            // A count at or beyond its limit.
            let (f, v) = *random.pick(&[
                (1, 5),
                (1, 6),
                (2, 2),
                (2, 3),
                (3, 0),
                (3, 16),
                (3, 17),
                (4, 0),
                (4, 16),
                (4, 17),
                (5, 0),
                (5, 64),
                (5, 65),
            ]);
            lines.put(0, f, v);
        }
        25 => {
            // Conditions doubled until there are eight, nine or more.
            if let Some(i) = lines.of_kind(random, &[5, 7]) {
                let line = lines.lines[i].clone();
                let copies = random.between(5, 9);
                for _ in 0..copies {
                    lines.lines.insert(i, line.clone());
                }
            }
        }
        26 if lines.is_question() => {
            // Rows up to 32, 33 or more.
            let last = lines.lines[lines.lines.len() - 1].clone();
            let count = random.between(31, 34);
            while lines.lines.len() < count {
                lines.lines.push(last.clone());
            }
        }
        27 => {
            // Constants equal or falling, registers of lines 8 too.
            if let Some(i) = lines.of_kind(random, &[2, 8]) {
                let k = lines.kind(i);
                if i > 0 && lines.kind(i - 1) == k {
                    let before = lines.numbers(i - 1).and_then(|n| n.get(1).copied()).unwrap_or(0);
                    let v = before.saturating_sub(random.below(2));
                    lines.put(i, 1, v);
                }
            }
        }
        28 => {
            // A term out of its range, or of a kind that may not stand there.
            if let Some(i) = lines.of_kind(random, &[5, 7, 8]) {
                let (k, v) = (random.between(0, 4), random.between(0, 6));
                let right = random.percent(50);
                lines.set(i, |n| {
                    let f = match (n[0].0, right) {
                        (8, _) => 2,
                        (_, true) => 4,
                        (_, false) => 1,
                    };
                    if f + 1 < n.len() {
                        n[f].0 = k;
                        n[f + 1].0 = v;
                    }
                });
            }
        }
        29 if lines.is_question() => {
            // A row naming itself, row 0 or a later one, or an unused field filled.
            let i = random.below(lines.lines.len());
            let v = *random.pick(&[0, 1, i + 1, i + 2, 33, 999_999]);
            let f = random.between(1, 2);
            lines.put(i, f, v);
        }
        30 => {
            // A start or target that no contents meet, or a parameter there.
            if let Some(i) = lines.of_kind(random, &[4]) {
                let k = random.between(1, 3);
                lines.lines.insert(i + 1, fields(&[5, k, 1, 2, k, 1]).into_bytes());
            }
        }
        31 => {
            // Lines 7 behind lines 8, or an arc more than declared.
            if let Some(i) = lines.of_kind(random, &[6, 7, 8]) {
                let line = lines.lines[i].clone();
                let at = random.between(i, lines.lines.len());
                lines.lines.insert(at, line);
            }
        }
        32 => {
            // A field as wide as an identifier's, or as narrow as the others; the first or last of a line.
            let i = lines
                .of_kind(random, &[2])
                .filter(|_| lines.table && random.percent(50));
            let i = i.unwrap_or_else(|| random.below(lines.lines.len()));
            let last = random.percent(80);
            lines.set(i, |f| {
                let slot = if last { f.len() - 1 } else { 0 };
                f[slot].1 = COLUMNS + IDENTIFIER_COLUMNS - f[slot].1;
            });
        }
        _ => identifier_damage(random, which, lines),
    }
}

/// An identifier at its limit or beyond it, alone or with the layout damaged as well.
fn identifier_damage(random: &mut Random, which: usize, lines: &mut Lines) {
    let Some(i) = lines.of_kind(random, &[2]).filter(|_| lines.table) else {
        return;
    };
    let v = *random.pick(&IDENTIFIERS);
    lines.put(i, 1, v);
    if which == 33 {
        return;
    }
    match random.below(4) {
        // Without its byte 10.
        0 => {
            lines.lines[i].pop();
        }
        // With a third field.
        1 => {
            let columns = *random.pick(&[COLUMNS, IDENTIFIER_COLUMNS]);
            lines.set(i, |f| f.push((0, columns)));
        }
        // Where no line 2 may stand.
        2 => {
            let line = lines.lines[i].clone();
            let at = random.between(i + 1, lines.lines.len());
            lines.lines.insert(at, line);
        }
        // A digit more.
        _ => lines.lines[i].insert(COLUMNS, b'1'),
    }
}

/// Damages the bytes once or a few times.
pub fn mutate(random: &mut Random, bytes: &[u8]) -> Vec<u8> {
    let mut bytes = bytes.to_vec();
    // No line of a question or of a target has six fields and kind 1.
    let table = bytes.starts_with(b"     1") && bytes.get(6 * COLUMNS) == Some(&10);
    let times = *random.pick(&[1, 1, 1, 2, 3]);
    for _ in 0..times {
        if bytes.is_empty() {
            return bytes;
        }
        // Bytes and layout less often than values: most of their damages end in refusal 2.
        let which = match random.below(10) {
            0 | 1 => random.below(10),
            2 | 3 => random.between(14, 23),
            4..=6 => random.between(10, 13),
            _ => random.between(24, DAMAGES - 1),
        };
        if which < 10 {
            bytes_damage(random, which, &mut bytes);
        } else {
            let mut lines = split(&bytes, table);
            lines_damage(random, which, &mut lines);
            bytes = lines.lines.concat();
        }
    }
    bytes
}
