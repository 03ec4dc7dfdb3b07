//! Values of terms, conditions, and steps over explicit identifiers.

use crate::table::{Arc, Condition, Table, Term};

/// Five slots, those behind the table's registers 0 (the replayer's form).
pub type Contents = [u32; 5];
/// Three slots, those behind the action's parameters 0.
pub type Parameters = [u32; 3];

pub fn value(constants: &[u32], contents: &[u32], parameters: &[u32], term: Term) -> u32 {
    match term {
        Term::Register(r) => contents[r - 1],
        Term::Parameter(p) => parameters[p - 1],
        Term::Constant(c) => constants[c - 1],
    }
}

pub fn meets(constants: &[u32], contents: &[u32], parameters: &[u32], condition: &Condition) -> bool {
    let left = value(constants, contents, parameters, condition.left);
    let right = value(constants, contents, parameters, condition.right);
    (left == right) == condition.equal
}

pub fn meets_all(constants: &[u32], contents: &[u32], parameters: &[u32], conditions: &[Condition]) -> bool {
    conditions.iter().all(|c| meets(constants, contents, parameters, c))
}

/// Whether the condition speaks of the first so many parameters only.
pub fn decided(condition: &Condition, known: usize) -> bool {
    [condition.left, condition.right].iter().all(|t| match t {
        Term::Parameter(p) => *p <= known,
        _ => true,
    })
}

/// Whether this very step exists, its arc taken for granted at its place.
pub fn is_step(table: &Table, arc: &Arc, old: &[u32], parameters: &[u32], new: &[u32]) -> bool {
    meets_all(&table.constants, old, parameters, &arc.conditions)
        && arc
            .sets
            .iter()
            .all(|&(r, t)| new[r - 1] == value(&table.constants, old, parameters, t))
}

/// The smallest identifiers that are no constants.
pub fn others(constants: &[u32], how_many: usize) -> Vec<u32> {
    (0..).filter(|i| !constants.contains(i)).take(how_many).collect()
}

/// All tuples over a pool, in dictionary order of the pool's positions.
pub fn tuples(pool: &[u32], length: usize) -> Vec<Vec<u32>> {
    let mut all = vec![vec![]];
    for _ in 0..length {
        all = all
            .iter()
            .flat_map(|t| {
                pool.iter().map(move |&x| {
                    let mut longer = t.clone();
                    longer.push(x);
                    longer
                })
            })
            .collect();
    }
    all
}

/// A pool in which contents of every class occur: the constants and as many others as registers.
pub fn contents_pool(registers: usize, constants: &[u32]) -> Vec<u32> {
    let mut pool = constants.to_vec();
    pool.extend(others(constants, registers));
    pool
}

/// Whether some contents meet all these conditions (no parameters in them).
pub fn some_contents(registers: usize, constants: &[u32], conditions: &[Condition]) -> bool {
    tuples(&contents_pool(registers, constants), registers)
        .iter()
        .any(|contents| meets_all(constants, contents, &[], conditions))
}
