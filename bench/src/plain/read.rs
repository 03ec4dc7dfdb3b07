//! Files read line by line, with document 01's refusals; identifiers as document 02 (W2) has them.

#[derive(Clone, Copy, Debug, PartialEq, Eq)]
pub struct Refusal {
    pub number: u32,
    pub file: u32,
    pub line: u32,
}

/// A term as an index: registers from 0, then parameters from 5, then constants from 8.
pub type Term = usize;
pub const PARAMETERS: usize = 5;
pub const CONSTANTS: usize = 8;
/// Values of registers, parameters and constants, by term.
pub type Values = [u32; 10];

#[derive(Clone, Copy)]
pub struct Condition {
    left: Term,
    right: Term,
    equal: bool,
}

pub fn meets(values: &Values, conditions: &[Condition]) -> bool {
    conditions
        .iter()
        .all(|c| (values[c.left] == values[c.right]) == c.equal)
}

pub struct Arc {
    pub from: usize,
    pub to: usize,
    pub parameters: usize,
    pub conditions: Vec<Condition>,
    /// For each register the term that it is set to, if any.
    pub sets: [Option<Term>; 5],
}

pub struct Table {
    pub registers: usize,
    pub constants: Vec<u32>,
    pub places: usize,
    pub start: usize,
    pub starting: Vec<Condition>,
    pub arcs: Vec<Arc>,
}

pub struct Row {
    pub kind: u32,
    pub a: usize,
    pub b: usize,
}

struct File<'a> {
    bytes: &'a [u8],
    at: usize,
    file: u32,
    line: u32,
    /// The numbers of the line taken last: a field of twelve columns may hold more than 32 bits do.
    fields: [u64; 6],
}

impl<'a> File<'a> {
    fn new(bytes: &'a [u8], file: u32, most: usize) -> Result<Self, Refusal> {
        let opened = File {
            bytes,
            at: 0,
            file,
            line: 0,
            fields: [0; 6],
        };
        if bytes.len() > most {
            return opened.refuse(1);
        }
        Ok(opened)
    }

    fn refuse<T>(&self, number: u32) -> Result<T, Refusal> {
        Err(Refusal {
            number,
            file: self.file,
            line: self.line,
        })
    }

    fn ended(&self) -> bool {
        self.at == self.bytes.len()
    }

    /// Reads the field of so many columns that begins at this byte, if it is well written.
    fn field(&self, at: usize, columns: usize) -> Option<u64> {
        let field = self.bytes.get(at..at + columns)?;
        let first = field.iter().position(|&b| b != b' ')?;
        let digits = &field[first..];
        if digits.len() > 1 && digits[0] == b'0' {
            return None;
        }
        let mut number = 0;
        for &d in digits {
            if !d.is_ascii_digit() {
                return None;
            }
            number = number * 10 + (d - b'0') as u64;
        }
        Some(number)
    }

    /// The kind of the next line, if there is one and its first field is well written.
    fn next_kind(&self) -> Option<u64> {
        self.field(self.at, 6)
    }

    /// Takes a line of so many fields of six columns.
    fn take(&mut self, count: usize) -> Result<(), Refusal> {
        self.take_columns(count, 6)
    }

    /// The same where the last field has so many columns.
    fn take_columns(&mut self, count: usize, last: usize) -> Result<(), Refusal> {
        self.line += 1;
        for i in 0..count {
            let columns = if i + 1 == count { last } else { 6 };
            match self.field(self.at, columns) {
                Some(number) => self.fields[i] = number,
                None => return self.refuse(2),
            }
            self.at += columns;
        }
        if self.bytes.get(self.at) != Some(&10) {
            return self.refuse(2);
        }
        self.at += 1;
        Ok(())
    }

    fn take_kind(&mut self, kind: u64, count: usize, last: usize) -> Result<(), Refusal> {
        if self.next_kind() != Some(kind) {
            self.line += 1;
            return self.refuse(2);
        }
        self.take_columns(count, last)
    }

    /// Field i, which must lie in this range.
    fn value(&self, i: usize, low: usize, high: usize, number: u32) -> Result<usize, Refusal> {
        let value = self.fields[i] as usize;
        if value < low || high < value {
            return self.refuse(number);
        }
        Ok(value)
    }

    /// The term in fields i and i + 1; how many registers, parameters and constants there are.
    fn term(&self, i: usize, counts: [usize; 3]) -> Result<Term, Refusal> {
        let kind = self.value(i, 1, 3, 5)?;
        let number = self.value(i + 1, 1, counts[kind - 1], 5)?;
        Ok([0, PARAMETERS, CONSTANTS][kind - 1] + number - 1)
    }

    fn conditions(&mut self, kind: u64, counts: [usize; 3]) -> Result<Vec<Condition>, Refusal> {
        let mut found = Vec::new();
        while self.next_kind() == Some(kind) {
            self.take(6)?;
            if found.len() == 8 {
                return self.refuse(6);
            }
            let left = self.term(1, counts)?;
            let equal = self.value(3, 1, 2, 5)? == 1;
            let right = self.term(4, counts)?;
            found.push(Condition { left, right, equal });
        }
        Ok(found)
    }

    fn end(&mut self) -> Result<(), Refusal> {
        if self.ended() {
            return Ok(());
        }
        self.line += 1;
        self.refuse(2)
    }
}

/// The table; that some contents meet its start conditions is tested by whoever knows the classes.
pub fn table(bytes: &[u8]) -> Result<Table, Refusal> {
    let mut f = File::new(bytes, 1, 40_000)?;
    f.take_kind(1, 6, 6)?;
    let registers = f.value(1, 0, 5, 3)?;
    let constant_count = f.value(2, 0, 2, 3)?;
    let places = f.value(3, 1, 16, 3)?;
    let actions = f.value(4, 1, 16, 3)?;
    let arc_count = f.value(5, 0, 64, 3)?;
    let mut constants: Vec<u32> = Vec::new();
    for _ in 0..constant_count {
        f.take_kind(2, 2, 12)?;
        let identifier = f.value(1, 0, u32::MAX as usize, 5)? as u32;
        if constants.last().is_some_and(|&last| identifier <= last) {
            return f.refuse(4);
        }
        constants.push(identifier);
    }
    let mut arities = Vec::new();
    for _ in 0..actions {
        f.take_kind(3, 2, 6)?;
        arities.push(f.value(1, 0, 3, 5)?);
    }
    f.take_kind(4, 2, 6)?;
    let start = f.value(1, 1, places, 5)?;
    let starting = f.conditions(5, [registers, 0, constant_count])?;
    let mut arcs = Vec::new();
    for _ in 0..arc_count {
        f.take_kind(6, 4, 6)?;
        let from = f.value(1, 1, places, 5)?;
        let action = f.value(2, 1, actions, 5)?;
        let to = f.value(3, 1, places, 5)?;
        let parameters = arities[action - 1];
        let counts = [registers, parameters, constant_count];
        let conditions = f.conditions(7, counts)?;
        let mut sets = [None; 5];
        let mut last = 0;
        while f.next_kind() == Some(8) {
            f.take(4)?;
            let register = f.value(1, 1, registers, 5)?;
            let term = f.term(2, counts)?;
            if register <= last {
                return f.refuse(4);
            }
            last = register;
            sets[register - 1] = Some(term);
        }
        arcs.push(Arc {
            from,
            to,
            parameters,
            conditions,
            sets,
        });
    }
    f.end()?;
    Ok(Table {
        registers,
        constants,
        places,
        start,
        starting,
        arcs,
    })
}

pub fn target(table: &Table, bytes: &[u8]) -> Result<(usize, Vec<Condition>), Refusal> {
    let mut f = File::new(bytes, 2, 309)?;
    f.take_kind(4, 2, 6)?;
    let place = f.value(1, 1, table.places, 5)?;
    let conditions = f.conditions(5, [table.registers, 0, table.constants.len()])?;
    f.end()?;
    Ok((place, conditions))
}

pub fn question(table: &Table, bytes: &[u8]) -> Result<Vec<Row>, Refusal> {
    let mut f = File::new(bytes, 2, 608)?;
    let mut rows: Vec<Row> = Vec::new();
    while rows.is_empty() || !f.ended() {
        f.take(3)?;
        f.value(0, 1, 14, 5)?;
        let kind = f.fields[0] as u32;
        let (k, c, n) = (table.registers, table.constants.len(), rows.len());
        let (a, b) = match kind {
            1 => (f.value(1, 1, table.places, 5)?, f.value(2, 0, 0, 5)?),
            2 => (f.value(1, 1, k, 5)?, f.value(2, 1, k, 5)?),
            3 => (f.value(1, 1, k, 5)?, f.value(2, 1, c, 5)?),
            5 | 7 | 9 | 10 => (f.value(1, 1, n, 8)?, f.value(2, 1, n, 8)?),
            _ => (f.value(1, 1, n, 8)?, f.value(2, 0, 0, 5)?),
        };
        rows.push(Row { kind, a, b });
    }
    Ok(rows)
}
