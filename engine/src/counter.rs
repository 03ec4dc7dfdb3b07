//! Tables with long shortest runs: a counter over the classes of one place, the other places
//! passed one after the other between two counts.

use crate::random::Random;
use crate::table::{Arc, Condition, Row, Table, Target, Term};

fn same(left: Term, right: Term) -> Condition {
    Condition {
        left,
        equal: true,
        right,
    }
}

fn differ(left: Term, right: Term) -> Condition {
    Condition {
        left,
        equal: false,
        right,
    }
}

const LOW: Term = Term::Constant(1);
const HIGH: Term = Term::Constant(2);
const FRESH: Term = Term::Parameter(1);

/// Registers in order of weight: the first is the leading digit.
struct Digits {
    order: Vec<usize>,
}

impl Digits {
    fn digit(&self, i: usize) -> Term {
        Term::Register(self.order[i])
    }

    /// An arc that moves digit i to this value, all lighter digits from high back to low.
    fn count(&self, i: usize, mut conditions: Vec<Condition>, value: Term) -> Arc {
        let mut sets = Vec::new();
        for j in 0..self.order.len() {
            if j > i {
                conditions.push(same(self.digit(j), HIGH));
            }
            let v = match j.cmp(&i) {
                std::cmp::Ordering::Less => self.digit(j),
                std::cmp::Ordering::Equal => value,
                std::cmp::Ordering::Greater => LOW,
            };
            sets.push((self.order[j], v));
        }
        sets.sort_by_key(|&(r, _)| r);
        Arc {
            from: 1,
            action: 1,
            to: 1,
            conditions,
            sets,
        }
    }

    /// Two values a digit: low, high.
    fn binary(&self) -> Vec<Arc> {
        (0..self.order.len())
            .map(|i| self.count(i, vec![same(self.digit(i), LOW)], HIGH))
            .collect()
    }

    /// A digit goes from low to the leading digit's value (where that is no constant), to a
    /// value of its own, to high; the leading digit from low to some value, to high.
    fn wide(&self) -> Vec<Arc> {
        let lead = self.digit(0);
        let fresh = |mut c: Vec<Condition>| {
            c.extend([differ(FRESH, LOW), differ(FRESH, HIGH)]);
            c
        };
        let mut arcs = vec![
            self.count(0, fresh(vec![same(lead, LOW)]), FRESH),
            self.count(0, vec![differ(lead, LOW), differ(lead, HIGH)], HIGH),
        ];
        for i in 1..self.order.len() {
            let d = self.digit(i);
            arcs.push(self.count(i, vec![same(d, LOW), differ(lead, LOW), differ(lead, HIGH)], lead));
            arcs.push(self.count(
                i,
                fresh(vec![same(d, lead), differ(lead, HIGH), differ(FRESH, lead)]),
                FRESH,
            ));
            arcs.push(self.count(i, fresh(vec![same(d, LOW), same(lead, HIGH)]), FRESH));
            arcs.push(self.count(i, vec![differ(d, LOW), differ(d, HIGH), differ(d, lead)], HIGH));
        }
        arcs
    }
}

/// Steps from all low to all high: for `wide`, with n registers and d further places,
/// (2 × 3^(n−1) + 4^(n−1) − 1) × (d + 1); for `binary`, (2^n − 1) × (d + 1).
pub fn counter(random: &mut Random, registers: usize, further: usize, wide: bool) -> (Table, Target) {
    let mut order: Vec<usize> = (1..=registers).collect();
    for i in (1..order.len()).rev() {
        order.swap(i, random.below(i + 1));
    }
    let digits = Digits { order };
    let mut arcs = if wide { digits.wide() } else { digits.binary() };
    let places = further + 1;
    if further > 0 {
        for arc in arcs.iter_mut() {
            arc.to = 2;
        }
    }
    let keep: Vec<(usize, Term)> = (1..=registers).map(|r| (r, Term::Register(r))).collect();
    for place in 2..=places {
        let to = if place == places { 1 } else { place + 1 };
        arcs.push(Arc {
            from: place,
            action: 2,
            to,
            conditions: vec![],
            sets: keep.clone(),
        });
    }
    for i in (1..arcs.len()).rev() {
        arcs.swap(i, random.below(i + 1));
    }
    // Small constants, or the two largest.
    let low = if random.percent(75) {
        random.below(20) as u32
    } else {
        u32::MAX - 1
    };
    let high = low + 1 + random.below(20).min((u32::MAX - 1 - low) as usize) as u32;
    let all = |value: Term| {
        (1..=registers)
            .map(|r| same(Term::Register(r), value))
            .collect::<Vec<_>>()
    };
    let table = Table {
        registers,
        constants: vec![low, high],
        places,
        arity: vec![1, 0],
        start: 1,
        start_conditions: all(LOW),
        arcs,
    };
    (
        table,
        Target {
            place: 1,
            conditions: all(HIGH),
        },
    )
}

/// All configurations of five registers, two constants and sixteen places in one falling order: a step lowers the place,
/// or from place 1 the list. The last one is stuck, and there alone EG of place 1 holds. The question is EG of all others:
/// each round takes away one configuration only.
pub fn falling() -> (Table, Target, Vec<Row>) {
    let keep = |until: usize| (1..until).map(|r| (r, Term::Register(r)));
    let mut arcs = Vec::new();
    for i in 1..=5 {
        let here = Term::Register(i);
        let mut lower = |conditions: Vec<Condition>, value: Term| {
            let mut sets: Vec<(usize, Term)> = keep(i).collect();
            sets.push((i, value));
            arcs.push(Arc {
                from: 1,
                action: 2,
                to: 16,
                conditions,
                sets,
            });
        };
        lower(vec![differ(here, LOW)], LOW);
        lower(vec![differ(here, LOW), differ(here, HIGH)], HIGH);
        // To the block of register j: this one's block is later than all blocks of registers 1 to j.
        for j in 1..i {
            let there = Term::Register(j);
            let mut conditions = vec![
                differ(there, LOW),
                differ(there, HIGH),
                differ(here, LOW),
                differ(here, HIGH),
            ];
            conditions.extend((1..=j).map(|m| differ(here, Term::Register(m))));
            lower(conditions, there);
        }
    }
    for place in 2..=16 {
        arcs.push(Arc {
            from: place,
            action: 2,
            to: place - 1,
            conditions: vec![],
            sets: keep(6).collect(),
        });
    }
    let table = Table {
        registers: 5,
        constants: vec![0, 1],
        places: 16,
        arity: vec![1, 0],
        start: 16,
        start_conditions: vec![],
        arcs,
    };
    let conditions = (1..=5).map(|r| same(Term::Register(r), LOW)).collect();
    let question = [(1, 1, 0), (8, 1, 0), (4, 2, 0), (8, 3, 0)];
    (
        table,
        Target { place: 1, conditions },
        question.map(|(kind, a, b)| Row { kind, a, b }).to_vec(),
    )
}
