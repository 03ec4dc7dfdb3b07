//! What the files say, as plain data. Registers, parameters, constants, places and arcs
//! are numbered from 1 in the files; here the numbers are kept as they are written.

/// A term: register, parameter of the arc's action, or constant, each by its number.
#[derive(Clone, Copy, Debug, PartialEq, Eq)]
pub enum Term {
    Register(usize),
    Parameter(usize),
    Constant(usize),
}

/// Two terms that must be equal, or different.
#[derive(Clone, Copy, Debug, PartialEq, Eq)]
pub struct Condition {
    pub left: Term,
    pub equal: bool,
    pub right: Term,
}

#[derive(Clone, Debug)]
pub struct Arc {
    pub from: usize,
    pub action: usize,
    pub to: usize,
    pub conditions: Vec<Condition>,
    /// Register and the term whose old value it gets; the others may hold anything afterwards.
    pub sets: Vec<(usize, Term)>,
}

#[derive(Clone, Debug)]
pub struct Table {
    pub registers: usize,
    pub constants: Vec<u32>,
    pub places: usize,
    /// Number of parameters of each action.
    pub arity: Vec<usize>,
    pub start: usize,
    pub start_conditions: Vec<Condition>,
    pub arcs: Vec<Arc>,
}

impl Table {
    pub fn parameters(&self, arc: &Arc) -> usize {
        self.arity[arc.action - 1]
    }
}

#[derive(Clone, Debug)]
pub struct Target {
    pub place: usize,
    pub conditions: Vec<Condition>,
}

/// One row of a question as it stands in the file.
#[derive(Clone, Copy, Debug, PartialEq, Eq)]
pub struct Row {
    pub kind: usize,
    pub a: usize,
    pub b: usize,
}
