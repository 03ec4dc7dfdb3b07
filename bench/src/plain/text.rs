//! Questions as one line of text (document 02, W1): recursive descent, one byte ahead.

use super::read::{Refusal, Row, Table};

struct Text<'a> {
    bytes: &'a [u8],
    at: usize,
    rows: Vec<Row>,
}

/// The byte, from 1, at which a text stops being one.
struct Stop(usize);

impl Text<'_> {
    fn stop<T>(&self) -> Result<T, Stop> {
        Err(Stop(self.at + 1))
    }

    fn peek(&self) -> Option<u8> {
        self.bytes.get(self.at).copied()
    }

    /// Takes the next byte, which must be one of these.
    fn take(&mut self, of: &[u8]) -> Result<u8, Stop> {
        match self.peek() {
            Some(byte) if of.contains(&byte) => {
                self.at += 1;
                Ok(byte)
            }
            _ => self.stop(),
        }
    }

    fn number(&mut self) -> Result<usize, Stop> {
        let first = self.take(b"123456789")?;
        let tens = (first - b'0') as usize;
        Ok(match self.take(b"0123456789") {
            Ok(second) => 10 * tens + (second - b'0') as usize,
            Err(_) => tens,
        })
    }

    /// A row more; its number.
    fn push(&mut self, kind: u32, a: usize, b: usize) -> usize {
        self.rows.push(Row { kind, a, b });
        self.rows.len()
    }

    fn one(&mut self, kind: u32) -> Result<usize, Stop> {
        let a = self.question()?;
        Ok(self.push(kind, a, 0))
    }

    /// Two questions with one of these signs between, and the closing bracket.
    fn two(&mut self, signs: &[u8]) -> Result<usize, Stop> {
        let a = self.question()?;
        let kind = match self.take(signs)? {
            b'&' => 5,
            b'U' => 7,
            b'|' => 9,
            _ => 10,
        };
        let b = self.question()?;
        self.take(b")")?;
        Ok(self.push(kind, a, b))
    }

    fn question(&mut self) -> Result<usize, Stop> {
        match self.take(b"Lr!(EA")? {
            b'L' => {
                let a = self.number()?;
                Ok(self.push(1, a, 0))
            }
            b'r' => {
                let a = self.number()?;
                self.take(b"=")?;
                let kind = if self.take(b"rc")? == b'r' { 2 } else { 3 };
                let b = self.number()?;
                Ok(self.push(kind, a, b))
            }
            b'!' => self.one(4),
            b'(' => self.two(b"&|>"),
            b'E' => match self.take(b"XGF(")? {
                b'X' => self.one(6),
                b'G' => self.one(8),
                b'F' => self.one(12),
                _ => self.two(b"U"),
            },
            _ => match self.take(b"XGF")? {
                b'X' => self.one(11),
                b'G' => self.one(13),
                _ => self.one(14),
            },
        }
    }
}

pub fn text(table: &Table, bytes: &[u8]) -> Result<Vec<Row>, Refusal> {
    let refuse = |number: u32, line: usize| Refusal {
        number,
        file: 2,
        line: line as u32,
    };
    if bytes.len() > 400 {
        return Err(refuse(1, 0));
    }
    let mut read = Text {
        bytes,
        at: 0,
        rows: vec![],
    };
    read.question().map_err(|Stop(byte)| refuse(11, byte))?;
    if read.peek().is_some() {
        return Err(refuse(11, read.at + 1));
    }
    if read.rows.len() > 32 {
        return Err(refuse(12, 0));
    }
    for (i, row) in read.rows.iter().enumerate() {
        let inside = match row.kind {
            1 => row.a <= table.places,
            2 => row.a <= table.registers && row.b <= table.registers,
            3 => row.a <= table.registers && row.b <= table.constants.len(),
            _ => true,
        };
        if !inside {
            return Err(refuse(5, i + 1));
        }
    }
    Ok(read.rows)
}
