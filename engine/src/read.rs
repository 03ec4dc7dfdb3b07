//! Reading of tables, targets and questions with document 01's refusals, identifiers as document 02 (W2) has them.

use crate::meaning::some_contents;
use crate::table::{Arc, Condition, Row, Table, Target, Term};

pub const TABLE_BYTES: usize = 40_000;
pub const TARGET_BYTES: usize = 309;
pub const QUESTION_BYTES: usize = 608;
/// The columns of a field, and of the one that holds a constant's identifier.
pub const COLUMNS: usize = 6;
pub const IDENTIFIER_COLUMNS: usize = 12;

/// What is turned back: number, file (1 table, 2 the other, 0 none), line (0 where none is named).
#[derive(Clone, Copy, Debug, PartialEq, Eq)]
pub struct Refusal {
    pub number: u32,
    pub file: u32,
    pub line: u32,
}

/// The lines of one file, taken from the top.
struct Lines<'a> {
    file: u32,
    /// Each line without its byte 10, and whether it has one.
    lines: Vec<(&'a [u8], bool)>,
    /// How many were taken.
    taken: usize,
}

impl<'a> Lines<'a> {
    fn new(file: u32, bytes: &'a [u8], limit: usize) -> Result<Self, Refusal> {
        if bytes.len() > limit {
            return Err(Refusal {
                number: 1,
                file,
                line: 0,
            });
        }
        let mut lines: Vec<(&[u8], bool)> = bytes.split(|&b| b == 10).map(|l| (l, true)).collect();
        // What stands behind the last byte 10 is a line without end, or nothing at all.
        let rest = lines.pop().map(|(l, _)| l).unwrap_or(&[]);
        if !rest.is_empty() {
            lines.push((rest, false));
        }
        Ok(Lines { file, lines, taken: 0 })
    }

    fn at_end(&self) -> bool {
        self.taken == self.lines.len()
    }

    /// The first field of the next line, if the line is there and the field is well written.
    fn peek_kind(&self) -> Option<u64> {
        let (line, _) = self.lines.get(self.taken)?;
        number(line.get(0..COLUMNS)?)
    }

    /// A refusal at the line that would be taken next (the line after the last, if none is left).
    fn refuse_next(&self, number: u32) -> Refusal {
        Refusal {
            number,
            file: self.file,
            line: self.taken as u32 + 1,
        }
    }

    /// A refusal at the line taken last.
    fn refuse(&self, number: u32) -> Refusal {
        Refusal {
            number,
            file: self.file,
            line: self.taken as u32,
        }
    }

    /// Takes the next line, which must have exactly these fields, each of so many columns.
    fn take(&mut self, fields: &[usize]) -> Result<Vec<u64>, Refusal> {
        let layout = self.refuse_next(2);
        let &(line, ended) = self.lines.get(self.taken).ok_or(layout)?;
        if !ended || line.len() != fields.iter().sum::<usize>() {
            return Err(layout);
        }
        let mut values = Vec::new();
        let mut rest = line;
        for &columns in fields {
            let (field, behind) = rest.split_at(columns);
            values.push(number(field).ok_or(layout)?);
            rest = behind;
        }
        self.taken += 1;
        Ok(values)
    }

    /// Takes the next line, which must be of this kind; gives the further fields.
    fn take_kind(&mut self, kind: u64, further: &[usize]) -> Result<Vec<u64>, Refusal> {
        if self.peek_kind() != Some(kind) {
            return Err(self.refuse_next(2));
        }
        let mut values = self.take(&[&[COLUMNS], further].concat())?;
        values.remove(0);
        Ok(values)
    }

    /// The value as a number from low to high, else this refusal at the line taken last.
    fn within(&self, value: u64, low: usize, high: usize, refusal: u32) -> Result<usize, Refusal> {
        if value < low as u64 || value > high as u64 {
            return Err(self.refuse(refusal));
        }
        Ok(value as usize)
    }
}

/// A number right-justified in its field: spaces, then digits without a leading zero. Twelve digits are more than
/// 32 bits hold: which numbers are in range is said afterwards.
fn number(field: &[u8]) -> Option<u64> {
    let text = std::str::from_utf8(field).ok()?;
    let digits = text.trim_start_matches(' ');
    if digits.is_empty() || !digits.bytes().all(|b| b.is_ascii_digit()) {
        return None;
    }
    if digits.len() > 1 && digits.starts_with('0') {
        return None;
    }
    digits.parse().ok()
}

/// What terms may name where a condition or a set stands.
struct Scope {
    registers: usize,
    /// None where parameters may not stand at all.
    parameters: Option<usize>,
    constants: usize,
}

fn term(lines: &Lines, scope: &Scope, kind: u64, number: u64) -> Result<Term, Refusal> {
    match (kind, scope.parameters) {
        (1, _) => Ok(Term::Register(lines.within(number, 1, scope.registers, 5)?)),
        (2, Some(parameters)) => Ok(Term::Parameter(lines.within(number, 1, parameters, 5)?)),
        (3, _) => Ok(Term::Constant(lines.within(number, 1, scope.constants, 5)?)),
        _ => Err(lines.refuse(5)),
    }
}

/// Lines 5 or lines 7: as many as stand here, the ninth refused.
fn conditions(lines: &mut Lines, kind: u64, scope: &Scope) -> Result<Vec<Condition>, Refusal> {
    let mut found = Vec::new();
    while lines.peek_kind() == Some(kind) {
        let v = lines.take_kind(kind, &[COLUMNS; 5])?;
        if found.len() == 8 {
            return Err(lines.refuse(6));
        }
        let left = term(lines, scope, v[0], v[1])?;
        let equal = lines.within(v[2], 1, 2, 5)? == 1;
        let right = term(lines, scope, v[3], v[4])?;
        found.push(Condition { left, equal, right });
    }
    Ok(found)
}

fn arc(lines: &mut Lines, registers: usize, constants: usize, places: usize, arity: &[usize]) -> Result<Arc, Refusal> {
    let v = lines.take_kind(6, &[COLUMNS; 3])?;
    let from = lines.within(v[0], 1, places, 5)?;
    let action = lines.within(v[1], 1, arity.len(), 5)?;
    let to = lines.within(v[2], 1, places, 5)?;
    let scope = Scope {
        registers,
        parameters: Some(arity[action - 1]),
        constants,
    };
    let conditions = conditions(lines, 7, &scope)?;
    let mut sets: Vec<(usize, Term)> = Vec::new();
    while lines.peek_kind() == Some(8) {
        let v = lines.take_kind(8, &[COLUMNS; 3])?;
        let register = lines.within(v[0], 1, registers, 5)?;
        let value = term(lines, &scope, v[1], v[2])?;
        if sets.last().is_some_and(|&(before, _)| before >= register) {
            return Err(lines.refuse(4));
        }
        sets.push((register, value));
    }
    Ok(Arc {
        from,
        action,
        to,
        conditions,
        sets,
    })
}

pub fn read_table(bytes: &[u8]) -> Result<Table, Refusal> {
    let mut lines = Lines::new(1, bytes, TABLE_BYTES)?;
    let v = lines.take_kind(1, &[COLUMNS; 5])?;
    let registers = lines.within(v[0], 0, 5, 3)?;
    let constant_count = lines.within(v[1], 0, 2, 3)?;
    let places = lines.within(v[2], 1, 16, 3)?;
    let actions = lines.within(v[3], 1, 16, 3)?;
    let arc_count = lines.within(v[4], 0, 64, 3)?;
    let mut constants: Vec<u32> = Vec::new();
    for _ in 0..constant_count {
        let v = lines.take_kind(2, &[IDENTIFIER_COLUMNS])?;
        let identifier = u32::try_from(v[0]).map_err(|_| lines.refuse(5))?;
        if constants.last().is_some_and(|&before| before >= identifier) {
            return Err(lines.refuse(4));
        }
        constants.push(identifier);
    }
    let mut arity = Vec::new();
    for _ in 0..actions {
        let v = lines.take_kind(3, &[COLUMNS])?;
        arity.push(lines.within(v[0], 0, 3, 5)?);
    }
    let v = lines.take_kind(4, &[COLUMNS])?;
    let start = lines.within(v[0], 1, places, 5)?;
    let scope = Scope {
        registers,
        parameters: None,
        constants: constant_count,
    };
    let start_conditions = conditions(&mut lines, 5, &scope)?;
    let mut arcs = Vec::new();
    for _ in 0..arc_count {
        arcs.push(arc(&mut lines, registers, constant_count, places, &arity)?);
    }
    if !lines.at_end() {
        return Err(lines.refuse_next(2));
    }
    if !some_contents(registers, &constants, &start_conditions) {
        return Err(Refusal {
            number: 7,
            file: 1,
            line: 0,
        });
    }
    Ok(Table {
        registers,
        constants,
        places,
        arity,
        start,
        start_conditions,
        arcs,
    })
}

pub fn read_target(table: &Table, bytes: &[u8]) -> Result<Target, Refusal> {
    let mut lines = Lines::new(2, bytes, TARGET_BYTES)?;
    let v = lines.take_kind(4, &[COLUMNS])?;
    let place = lines.within(v[0], 1, table.places, 5)?;
    let scope = Scope {
        registers: table.registers,
        parameters: None,
        constants: table.constants.len(),
    };
    let conditions = conditions(&mut lines, 5, &scope)?;
    if !lines.at_end() {
        return Err(lines.refuse_next(2));
    }
    Ok(Target { place, conditions })
}

/// What a field of a row names.
enum Names {
    Place,
    Register,
    Constant,
    Row,
    Nothing,
}

pub fn read_question(table: &Table, bytes: &[u8]) -> Result<Vec<Row>, Refusal> {
    let mut lines = Lines::new(2, bytes, QUESTION_BYTES)?;
    let mut rows: Vec<Row> = Vec::new();
    while rows.is_empty() || !lines.at_end() {
        let v = lines.take(&[COLUMNS; 3])?;
        let kind = lines.within(v[0], 1, 14, 5)?;
        let names = match kind {
            1 => [Names::Place, Names::Nothing],
            2 => [Names::Register, Names::Register],
            3 => [Names::Register, Names::Constant],
            5 | 7 | 9 | 10 => [Names::Row, Names::Row],
            _ => [Names::Row, Names::Nothing],
        };
        let mut fields = [0; 2];
        for i in 0..2 {
            fields[i] = match names[i] {
                Names::Place => lines.within(v[i + 1], 1, table.places, 5)?,
                Names::Register => lines.within(v[i + 1], 1, table.registers, 5)?,
                Names::Constant => lines.within(v[i + 1], 1, table.constants.len(), 5)?,
                Names::Row => lines.within(v[i + 1], 1, rows.len(), 8)?,
                Names::Nothing => lines.within(v[i + 1], 0, 0, 5)?,
            };
        }
        rows.push(Row {
            kind,
            a: fields[0],
            b: fields[1],
        });
    }
    Ok(rows)
}
