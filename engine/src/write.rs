//! Tables, targets and questions written as files.

use crate::print::with_identifiers;
use crate::table::{Condition, Row, Table, Target, Term};

fn term(t: Term) -> [usize; 2] {
    match t {
        Term::Register(n) => [1, n],
        Term::Parameter(n) => [2, n],
        Term::Constant(n) => [3, n],
    }
}

fn line(text: &mut String, numbers: &[usize]) {
    text.push_str(&crate::print::fields(numbers));
}

fn conditions(text: &mut String, kind: usize, conditions: &[Condition]) {
    for c in conditions {
        let (l, r) = (term(c.left), term(c.right));
        line(text, &[kind, l[0], l[1], if c.equal { 1 } else { 2 }, r[0], r[1]]);
    }
}

pub fn table(t: &Table) -> Vec<u8> {
    let mut text = String::new();
    line(
        &mut text,
        &[1, t.registers, t.constants.len(), t.places, t.arity.len(), t.arcs.len()],
    );
    for &c in &t.constants {
        text.push_str(&with_identifiers(&[2], &[c]));
    }
    for &a in &t.arity {
        line(&mut text, &[3, a]);
    }
    line(&mut text, &[4, t.start]);
    conditions(&mut text, 5, &t.start_conditions);
    for arc in &t.arcs {
        line(&mut text, &[6, arc.from, arc.action, arc.to]);
        conditions(&mut text, 7, &arc.conditions);
        for &(r, value) in &arc.sets {
            let v = term(value);
            line(&mut text, &[8, r, v[0], v[1]]);
        }
    }
    text.into_bytes()
}

pub fn target(t: &Target) -> Vec<u8> {
    let mut text = String::new();
    line(&mut text, &[4, t.place]);
    conditions(&mut text, 5, &t.conditions);
    text.into_bytes()
}

pub fn question(rows: &[Row]) -> Vec<u8> {
    let mut text = String::new();
    for r in rows {
        line(&mut text, &[r.kind, r.a, r.b]);
    }
    text.into_bytes()
}

/// A list for the replayer: one number a line.
pub fn list(numbers: &[u32]) -> Vec<u8> {
    numbers
        .iter()
        .map(|n| format!("{n}\n"))
        .collect::<String>()
        .into_bytes()
}
