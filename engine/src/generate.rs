//! Random tables, targets, questions and lists for the replayer.

use crate::answer::{reach_table, Reached};
use crate::class::Classes;
use crate::counter::counter;
use crate::meaning::{meets_all, some_contents, value};
use crate::random::Random;
use crate::table::{Arc, Condition, Row, Table, Target, Term};

#[derive(Clone, Copy, Debug, PartialEq, Eq)]
pub enum Shape {
    /// 0 to 2 registers, few places and arcs.
    Tiny,
    /// 0 to 3 registers, up to 8 places.
    Small,
    /// 4 or 5 registers, up to 16 places and 64 arcs.
    Large,
    /// Counters with long shortest runs.
    Long,
    /// Every count at its limit.
    Full,
}

pub struct Case {
    pub table: Table,
    pub target: Target,
    pub question: Vec<Row>,
    pub list: Vec<u32>,
}

/// What random terms may name.
struct Scope {
    registers: usize,
    parameters: usize,
    constants: usize,
}

fn term(random: &mut Random, s: &Scope) -> Option<Term> {
    let all = s.registers + s.parameters + s.constants;
    if all == 0 {
        return None;
    }
    let n = random.below(all);
    Some(if n < s.registers {
        Term::Register(n + 1)
    } else if n < s.registers + s.parameters {
        Term::Parameter(n - s.registers + 1)
    } else {
        Term::Constant(n - s.registers - s.parameters + 1)
    })
}

/// An identifier of so many digits, one to ten.
fn identifier(random: &mut Random, digits: u32) -> u32 {
    let least = if digits == 1 { 0 } else { 10usize.pow(digits - 1) };
    let most = (10usize.pow(digits) - 1).min(u32::MAX as usize);
    random.between(least, most) as u32
}

/// Rising constants: all small, so that runs use the identifiers beside them, or of any length; the two largest now and then.
fn constants(random: &mut Random, count: usize) -> Vec<u32> {
    let small = *random.pick(&[Some(3), Some(6), Some(15), Some(17), Some(40), None, None]);
    let mut found: Vec<u32> = Vec::new();
    while found.len() < count {
        let c = match (random.below(12), small) {
            (0, _) => u32::MAX - random.below(2) as u32,
            (_, Some(top)) => random.below(top) as u32,
            (_, None) => {
                let digits = random.between(1, 10) as u32;
                identifier(random, digits)
            }
        };
        if !found.contains(&c) {
            found.push(c);
        }
    }
    found.sort_unstable();
    found
}

fn loose(random: &mut Random, s: &Scope) -> Option<Condition> {
    Some(Condition {
        left: term(random, s)?,
        equal: random.percent(50),
        right: term(random, s)?,
    })
}

/// A pattern of conditions; parameters that must be fresh, stored or constant among them.
fn pattern(random: &mut Random, s: &Scope, found: &mut Vec<Condition>) {
    let parameter = if s.parameters > 0 {
        Some(Term::Parameter(random.between(1, s.parameters)))
    } else {
        None
    };
    let register = if s.registers > 0 {
        Some(Term::Register(random.between(1, s.registers)))
    } else {
        None
    };
    let constant = if s.constants > 0 {
        Some(Term::Constant(random.between(1, s.constants)))
    } else {
        None
    };
    let mut push = |left: Option<Term>, equal: bool, right: Option<Term>| {
        if let (Some(left), Some(right)) = (left, right) {
            found.push(Condition { left, equal, right });
        }
    };
    match random.below(9) {
        0 => {
            // Fresh: differs from every register and every constant.
            for r in 1..=s.registers {
                push(parameter, false, Some(Term::Register(r)));
            }
            for c in 1..=s.constants {
                push(parameter, false, Some(Term::Constant(c)));
            }
        }
        1 => push(parameter, true, register),
        2 => push(register, true, parameter),
        3 => push(parameter, true, constant),
        4 => push(register, random.percent(50), constant),
        5 => push(parameter, false, constant),
        6 => push(parameter, false, register),
        7 if random.percent(15) => {
            // Contradictory, in one or two conditions.
            if random.percent(30) {
                push(register.or(parameter), false, register.or(parameter));
            } else {
                push(register.or(constant), true, parameter.or(constant));
                push(parameter.or(constant), false, register.or(constant));
            }
        }
        _ => {
            if let Some(c) = loose(random, s) {
                found.push(c);
            }
        }
    }
}

fn conditions(random: &mut Random, s: &Scope, patterns: usize) -> Vec<Condition> {
    let mut found = Vec::new();
    for _ in 0..patterns {
        pattern(random, s, &mut found);
    }
    found.truncate(8);
    found
}

/// How a table's arcs are drawn.
struct Style {
    /// In a hundred: a register is kept, and is left unset.
    keep: usize,
    unset: usize,
    patterns: usize,
    /// 0 anywhere, 1 a ring, 2 never back.
    course: usize,
}

fn arc(random: &mut Random, table: &Table, style: &Style) -> Arc {
    // Mostly from a place that the arcs so far lead to, the latest most often.
    let mut led: Vec<usize> = vec![table.start];
    led.extend(table.arcs.iter().map(|a| a.to));
    let from = match random.below(10) {
        0 | 1 => random.between(1, table.places),
        2..=5 => led[led.len() - 1],
        _ => *random.pick(&led),
    };
    let to = match style.course {
        _ if random.percent(15) => from,
        1 => from % table.places + 1,
        2 => random.between(from, table.places),
        _ => random.between(1, table.places),
    };
    let action = random.between(1, table.arity.len());
    let s = Scope {
        registers: table.registers,
        parameters: table.arity[action - 1],
        constants: table.constants.len(),
    };
    let patterns = random.between(0, style.patterns);
    let mut sets = Vec::new();
    for r in 1..=table.registers {
        if random.percent(style.keep) {
            sets.push((r, Term::Register(r)));
        } else if !random.percent(style.unset) {
            // A parameter more often than its share: else nothing new is stored.
            let t = if s.parameters > 0 && random.percent(40) {
                Some(Term::Parameter(random.between(1, s.parameters)))
            } else {
                term(random, &s)
            };
            sets.extend(t.map(|t| (r, t)));
        }
    }
    Arc {
        from,
        action,
        to,
        conditions: conditions(random, &s, patterns),
        sets,
    }
}

fn random_table(random: &mut Random, shape: Shape) -> Table {
    let (registers, places, actions, arcs) = match shape {
        Shape::Tiny => (
            random.between(0, 2),
            random.between(1, 3),
            random.between(1, 3),
            random.between(0, 5),
        ),
        Shape::Small => {
            let registers = *random.pick(&[0, 1, 2, 2, 3, 3, 3]);
            (
                registers,
                random.between(1, 8),
                random.between(1, 4),
                random.between(0, 20),
            )
        }
        Shape::Large => (
            random.between(4, 5),
            random.between(1, 16),
            random.between(1, 16),
            random.between(1, 64),
        ),
        Shape::Long | Shape::Full => (5, 16, 16, 64),
    };
    let constant_count = if shape == Shape::Full { 2 } else { random.between(0, 2) };
    let arity = (0..actions)
        .map(|_| if shape == Shape::Full { 3 } else { random.between(0, 3) })
        .collect();
    let mut table = Table {
        registers,
        constants: constants(random, constant_count),
        places,
        arity,
        start: random.between(1, places),
        start_conditions: vec![],
        arcs: vec![],
    };
    let style = Style {
        keep: *random.pick(&[0, 30, 60, 85, 85, 95]),
        unset: *random.pick(&[0, 0, 10, 30, 60]),
        patterns: *random.pick(&[1, 2, 3, 5]),
        course: random.below(3),
    };
    for _ in 0..arcs {
        let next = arc(random, &table, &style);
        table.arcs.push(next);
    }
    if shape == Shape::Full {
        fill_up(random, &mut table);
    }
    table.start_conditions = start(random, &table, shape);
    table
}

/// Eight conditions and five sets on every arc, mostly ones that do not forbid every step.
fn fill_up(random: &mut Random, table: &mut Table) {
    let s = Scope {
        registers: 5,
        parameters: 3,
        constants: 2,
    };
    for arc in table.arcs.iter_mut() {
        while arc.conditions.len() < 8 {
            let more = if random.percent(10) {
                loose(random, &s)
            } else {
                term(random, &s).map(|t| Condition {
                    left: t,
                    equal: true,
                    right: t,
                })
            };
            arc.conditions.extend(more);
        }
        for r in 1..=5 {
            if !arc.sets.iter().any(|&(set, _)| set == r) {
                arc.sets.extend(term(random, &s).map(|t| (r, t)));
            }
        }
        arc.sets.sort_by_key(|&(r, _)| r);
    }
}

fn start(random: &mut Random, table: &Table, shape: Shape) -> Vec<Condition> {
    let s = Scope {
        registers: table.registers,
        parameters: 0,
        constants: table.constants.len(),
    };
    if shape != Shape::Full && random.percent(60) {
        // One class or few: else many targets are starts.
        let classes = Classes::new(table.registers, &table.constants);
        let class = random.below(classes.count());
        return portrait(random, table.constants.len(), &classes.lists[class]);
    }
    loop {
        let count = match shape {
            Shape::Full => 8,
            _ => *random.pick(&[0, 0, 1, 2, 3, 8]),
        };
        let found: Vec<Condition> = (0..count).filter_map(|_| loose(random, &s)).collect();
        if some_contents(table.registers, &table.constants, &found) {
            return found;
        }
    }
}

/// True conditions about contents of this list, at most eight of them.
fn portrait(random: &mut Random, constants: usize, list: &[u32]) -> Vec<Condition> {
    let mut all = Vec::new();
    for (i, &x) in list.iter().enumerate() {
        for c in 1..=constants {
            all.push(Condition {
                left: Term::Register(i + 1),
                equal: x == c as u32,
                right: Term::Constant(c),
            });
        }
        for (j, &y) in list.iter().enumerate().take(i) {
            all.push(Condition {
                left: Term::Register(i + 1),
                equal: x == y,
                right: Term::Register(j + 1),
            });
        }
    }
    for i in (1..all.len()).rev() {
        all.swap(i, random.below(i + 1));
    }
    let most = if random.percent(70) { 8 } else { random.between(0, 8) };
    all.truncate(most);
    all
}

/// Most targets look at a far configuration, the others are random.
fn target(random: &mut Random, table: &Table) -> Target {
    let s = Scope {
        registers: table.registers,
        parameters: 0,
        constants: table.constants.len(),
    };
    if random.percent(25) {
        let count = *random.pick(&[0, 1, 1, 2, 3, 8]);
        return Target {
            place: random.between(1, table.places),
            conditions: (0..count).filter_map(|_| loose(random, &s)).collect(),
        };
    }
    let classes = Classes::new(table.registers, &table.constants);
    let c = if random.percent(85) {
        let anywhere = Target {
            place: table.start,
            conditions: vec![],
        };
        let reached: Reached = reach_table(table, &anywhere, None);
        let far = (0..table.places * classes.count()).filter(|&c| reached.least[c] != crate::answer::NONE);
        let mut far: Vec<usize> = far.collect();
        far.sort_by_key(|&c| reached.least[c]);
        let last = far.len() - 1;
        far[last - random.below(far.len().min(3))]
    } else {
        random.below(table.places * classes.count())
    };
    Target {
        place: c / classes.count() + 1,
        conditions: portrait(random, table.constants.len(), &classes.lists[c % classes.count()]),
    }
}

fn row(random: &mut Random, table: &Table, earlier: usize) -> Row {
    let atom = earlier == 0 || random.percent(if earlier < 4 { 60 } else { 20 });
    if atom {
        let kind = match (table.registers, table.constants.len()) {
            (0, _) => 1,
            (_, 0) => random.between(1, 2),
            _ => random.between(1, 3),
        };
        return match kind {
            1 => Row {
                kind,
                a: random.between(1, table.places),
                b: 0,
            },
            2 => Row {
                kind,
                a: random.between(1, table.registers),
                b: random.between(1, table.registers),
            },
            _ => Row {
                kind,
                a: random.between(1, table.registers),
                b: random.between(1, table.constants.len()),
            },
        };
    }
    let near = |random: &mut Random| {
        if random.percent(60) {
            earlier - random.below(earlier.min(3))
        } else {
            random.between(1, earlier)
        }
    };
    let kind = random.between(4, 14);
    let a = near(random);
    let b = if [5, 7, 9, 10].contains(&kind) { near(random) } else { 0 };
    Row { kind, a, b }
}

fn question(random: &mut Random, table: &Table, shape: Shape) -> Vec<Row> {
    let count = match shape {
        Shape::Full => 32,
        Shape::Large | Shape::Long => random.between(1, 12),
        _ if random.percent(10) => 32,
        _ => random.between(1, 16),
    };
    let mut rows: Vec<Row> = Vec::new();
    while rows.len() < count {
        rows.push(row(random, table, rows.len()));
    }
    rows
}

/// A random walk with random identifiers, in the replayer's form.
fn walk(random: &mut Random, table: &Table) -> Vec<u32> {
    let mut stock: Vec<u32> = table.constants.clone();
    stock.extend((0..6).map(|_| {
        if random.percent(10) {
            random.draw() as u32
        } else {
            random.below(30) as u32
        }
    }));
    let any = |random: &mut Random, stock: &[u32]| -> Vec<u32> {
        (0..table.registers).map(|_| *random.pick(stock)).collect()
    };
    let mut contents = any(random, &stock);
    for _ in 0..200 {
        if meets_all(&table.constants, &contents, &[], &table.start_conditions) {
            break;
        }
        contents = any(random, &stock);
    }
    let mut list = contents.clone();
    list.resize(5, 0);
    let mut place = table.start;
    let length = random.below(9);
    for _ in 0..length {
        let leaving: Vec<usize> = (0..table.arcs.len()).filter(|&a| table.arcs[a].from == place).collect();
        if leaving.is_empty() {
            break;
        }
        let mut step = None;
        for _ in 0..200 {
            let a = *random.pick(&leaving);
            let arc = &table.arcs[a];
            let parameters: Vec<u32> = (0..table.parameters(arc)).map(|_| *random.pick(&stock)).collect();
            if meets_all(&table.constants, &contents, &parameters, &arc.conditions) {
                step = Some((a, parameters));
                break;
            }
        }
        let Some((a, parameters)) = step else { break };
        let arc = &table.arcs[a];
        let mut new = any(random, &stock);
        for &(r, t) in &arc.sets {
            new[r - 1] = value(&table.constants, &contents, &parameters, t);
        }
        list.push(a as u32 + 1);
        let mut slots = parameters.clone();
        slots.resize(3, 0);
        list.extend(slots);
        let mut slots = new.clone();
        slots.resize(5, 0);
        list.extend(slots);
        contents = new;
        place = arc.to;
    }
    list
}

/// A walk or the shortest run, now and then with a wrong number or of a wrong length.
fn list(random: &mut Random, table: &Table, target: &Target, shape: Shape) -> Vec<u32> {
    let mut list = if shape == Shape::Long || random.percent(30) {
        reach_table(table, target, None).run
    } else {
        walk(random, table)
    };
    if list.is_empty() {
        list = walk(random, table);
    }
    if random.percent(50) {
        let at = random.below(list.len());
        list[at] = match random.below(5) {
            0 => 0,
            1 => list[at].wrapping_add(1),
            2 => random.below(16) as u32,
            3 => *random.pick(&list),
            _ => random.draw() as u32,
        };
    }
    if random.percent(6) {
        let length = random.between(0, list.len() + 3);
        list.resize(length, 0);
    }
    list
}

pub fn case(random: &mut Random, shape: Shape) -> Case {
    let (table, target) = if shape == Shape::Long {
        let registers = *random.pick(&[1, 2, 3, 4, 4, 5, 5, 5]);
        let further = *random.pick(&[0, 1, 3, 15, 15]);
        let wide = random.percent(70);
        counter(random, registers, further, wide)
    } else {
        let table = random_table(random, shape);
        let target = target(random, &table);
        (table, target)
    };
    let question = question(random, &table, shape);
    let list = list(random, &table, &target, shape);
    Case {
        table,
        target,
        question,
        list,
    }
}
