//! The run along a path of configurations: at each step the smallest arc that fits, then the
//! smallest list of parameters and new contents, found by trying a pool in dictionary order.
//!
//! The pool is 0 to 14 and the constants. It suffices: let the smallest list hold an x that is
//! no constant and above 14. The old contents, by the same argument one step earlier, do not
//! hold x. Old contents, parameters, new contents and constants are at most 5 + 3 + 5 + 2
//! identifiers, x among them, so one of 0 to 14 is not among them; in x's stead it gives a
//! smaller list.

use crate::class::Classes;
use crate::meaning::{decided, meets, value, Contents, Parameters};
use crate::table::{Arc, Condition, Table};

pub struct Moment {
    pub arc: usize,
    pub place: usize,
    pub parameters: Parameters,
    pub contents: Contents,
}

fn trial_pool(table: &Table) -> Vec<u32> {
    let mut pool: Vec<u32> = (0..=14).chain(table.constants.iter().copied()).collect();
    pool.sort_unstable();
    pool.dedup();
    pool
}

struct Trial<'a> {
    table: &'a Table,
    arc: &'a Arc,
    old: &'a Contents,
    list: &'a [u32],
    pool: &'a [u32],
}

impl Trial<'_> {
    /// Parameters in dictionary order, given up as soon as a condition fails.
    fn parameters(&self, known: usize, parameters: &mut Parameters) -> Option<Contents> {
        let fits = |c: &Condition| !decided(c, known) || meets(&self.table.constants, self.old, parameters, c);
        if !self.arc.conditions.iter().all(fits) {
            return None;
        }
        if known == self.table.parameters(self.arc) {
            let mut new: Vec<Option<u32>> = vec![None; self.table.registers];
            for &(r, t) in &self.arc.sets {
                new[r - 1] = Some(value(&self.table.constants, self.old, parameters, t));
            }
            return self.contents(0, &mut new);
        }
        for &x in self.pool {
            parameters[known] = x;
            if let Some(contents) = self.parameters(known + 1, parameters) {
                return Some(contents);
            }
        }
        parameters[known] = 0;
        None
    }

    /// Whether register r may hold x beside what is held already: as the next list says, equal
    /// to the same registers and to the same constant.
    fn agrees(&self, r: usize, x: u32, new: &[Option<u32>]) -> bool {
        let constant = self.table.constants.iter().position(|&c| c == x);
        let label = self.list[r] as usize;
        let constants = self.table.constants.len();
        let right_kind = match constant {
            Some(c) => label == c + 1,
            None => label > constants,
        };
        right_kind
            && new.iter().enumerate().all(|(s, held)| match held {
                Some(y) => (x == *y) == (self.list[r] == self.list[s]),
                None => true,
            })
    }

    /// New contents in dictionary order, given up as soon as they leave the class.
    fn contents(&self, from: usize, new: &mut Vec<Option<u32>>) -> Option<Contents> {
        if from == 0 {
            let held: Vec<(usize, u32)> = new.iter().enumerate().filter_map(|(r, x)| x.map(|x| (r, x))).collect();
            if !held.iter().all(|&(r, x)| self.agrees(r, x, new)) {
                return None;
            }
        }
        let Some(r) = (from..new.len()).find(|&r| new[r].is_none()) else {
            let mut contents = [0; 5];
            for (slot, x) in contents.iter_mut().zip(new.iter()) {
                *slot = x.expect("all held");
            }
            return Some(contents);
        };
        for &x in self.pool {
            if self.agrees(r, x, new) {
                new[r] = Some(x);
                if let Some(contents) = self.contents(r + 1, new) {
                    return Some(contents);
                }
                new[r] = None;
            }
        }
        None
    }
}

/// The smallest step from this place with these contents to the next place and class.
pub fn smallest_step(table: &Table, classes: &Classes, place: usize, old: &Contents, next: usize) -> Option<Moment> {
    let pool = trial_pool(table);
    let next_place = next / classes.count() + 1;
    let list = &classes.lists[next % classes.count()];
    for (i, arc) in table.arcs.iter().enumerate() {
        if arc.from == place && arc.to == next_place {
            let mut parameters = [0; 3];
            let trial = Trial {
                table,
                arc,
                old,
                list,
                pool: &pool,
            };
            if let Some(contents) = trial.parameters(0, &mut parameters) {
                return Some(Moment {
                    arc: i + 1,
                    place: next_place,
                    parameters,
                    contents,
                });
            }
        }
    }
    None
}

/// The run along a path: the start first (arc 0, no parameters), then each step.
pub fn along(table: &Table, classes: &Classes, path: &[usize]) -> Vec<Moment> {
    let first = path[0];
    let mut moments = vec![Moment {
        arc: 0,
        place: first / classes.count() + 1,
        parameters: [0; 3],
        contents: classes.contents(first % classes.count()),
    }];
    for &next in &path[1..] {
        let last = &moments[moments.len() - 1];
        let step = smallest_step(table, classes, last.place, &last.contents, next).expect("a step of the path");
        moments.push(step);
    }
    moments
}

/// The replayer's form: five start contents, then arc, three identifiers, five new contents.
pub fn flat(moments: &[Moment]) -> Vec<u32> {
    let mut numbers = moments[0].contents.to_vec();
    for m in &moments[1..] {
        numbers.push(m.arc as u32);
        numbers.extend(m.parameters);
        numbers.extend(m.contents);
    }
    numbers
}
