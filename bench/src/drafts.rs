//! Tables and questions that are changed at random, a few things at a time, and stay legal: what the search for slow ones
//! (src/bin/worst.rs) works on.

use crate::tables::{columns, Case};
use engine::random::Random;

/// Term, relation, term, as a line has them.
type Condition = [usize; 5];

#[derive(Clone)]
struct Arc {
    from: usize,
    to: usize,
    parameters: usize,
    when: Vec<Condition>,
    sets: [Option<[usize; 2]>; 5],
}

/// A table with a target and a question.
#[derive(Clone)]
pub struct Draft {
    pub name: String,
    registers: usize,
    constants: Vec<usize>,
    places: usize,
    start: usize,
    starting: Vec<Condition>,
    arcs: Vec<Arc>,
    target: usize,
    reaching: Vec<Condition>,
    rows: Vec<[usize; 3]>,
}

fn lines(bytes: &[u8]) -> Vec<Vec<usize>> {
    let text = std::str::from_utf8(bytes).expect("a text");
    let numbers = |line: &str| line.split_whitespace().map(|w| w.parse().expect("a number")).collect();
    text.lines().map(numbers).collect()
}

fn written(lines: &[Vec<usize>]) -> Vec<u8> {
    let line = |numbers: &Vec<usize>| {
        let words: Vec<String> = numbers.iter().map(|n| n.to_string()).collect();
        words.join(" ")
    };
    columns(&lines.iter().map(line).collect::<Vec<String>>().join(";"))
}

fn condition(line: &[usize]) -> Condition {
    line[1..].try_into().expect("five numbers")
}

impl Draft {
    /// What a legal case says.
    pub fn of(c: &Case) -> Draft {
        let mut draft = Draft {
            name: c.name.clone(),
            registers: 0,
            constants: vec![],
            places: 0,
            start: 0,
            starting: vec![],
            arcs: vec![],
            target: 0,
            reaching: vec![],
            rows: vec![],
        };
        let mut arities = vec![];
        for line in lines(&c.table) {
            match line[0] {
                1 => (draft.registers, draft.places) = (line[1], line[3]),
                2 => draft.constants.push(line[1]),
                3 => arities.push(line[1]),
                4 => draft.start = line[1],
                5 => draft.starting.push(condition(&line)),
                6 => draft.arcs.push(Arc {
                    from: line[1],
                    to: line[3],
                    parameters: arities[line[2] - 1],
                    when: vec![],
                    sets: [None; 5],
                }),
                kind => {
                    let arc = draft.arcs.last_mut().expect("an arc's line");
                    if kind == 7 {
                        arc.when.push(condition(&line));
                    } else {
                        arc.sets[line[1] - 1] = Some([line[2], line[3]]);
                    }
                }
            }
        }
        for line in lines(&c.target) {
            match line[0] {
                4 => draft.target = line[1],
                _ => draft.reaching.push(condition(&line)),
            }
        }
        draft.rows = lines(&c.question).iter().map(|l| [l[0], l[1], l[2]]).collect();
        draft
    }

    /// A table at every limit, of arcs that are much alike, with a question of so many rows.
    pub fn random(random: &mut Random, rows: usize) -> Draft {
        let mut draft = Draft {
            name: "random".to_string(),
            registers: 5,
            constants: vec![0, 1],
            places: 16,
            start: 1,
            starting: vec![],
            arcs: vec![],
            target: 16,
            // Contents that none meet: all is looked at.
            reaching: vec![[1, 1, 2, 1, 1]],
            rows: vec![],
        };
        let kinds: Vec<Arc> = (0..1 + random.below(3)).map(|_| draft.arc(random)).collect();
        for _ in 0..64 {
            let like = &kinds[random.below(kinds.len())];
            let mut arc = like.clone();
            (arc.from, arc.to) = (1 + random.below(16), 1 + random.below(16));
            draft.arcs.push(arc);
        }
        for i in 0..rows {
            let row = draft.row(random, i);
            draft.rows.push(row);
        }
        draft
    }

    pub fn table(&self) -> Vec<u8> {
        let head = [1, self.registers, self.constants.len(), self.places, 4, self.arcs.len()];
        let mut lines = vec![head.to_vec()];
        lines.extend(self.constants.iter().map(|&c| vec![2, c]));
        lines.extend((0..4).map(|arity| vec![3, arity]));
        lines.push(vec![4, self.start]);
        let tagged = |kind: usize, c: &Condition| [&[kind], &c[..]].concat();
        lines.extend(self.starting.iter().map(|c| tagged(5, c)));
        for arc in &self.arcs {
            lines.push(vec![6, arc.from, arc.parameters + 1, arc.to]);
            lines.extend(arc.when.iter().map(|c| tagged(7, c)));
            for (r, set) in arc.sets.iter().enumerate() {
                lines.extend(set.map(|[kind, n]| vec![8, r + 1, kind, n]));
            }
        }
        written(&lines)
    }

    pub fn target(&self) -> Vec<u8> {
        let mut lines = vec![vec![4, self.target]];
        lines.extend(self.reaching.iter().map(|c| [&[5], &c[..]].concat()));
        written(&lines)
    }

    pub fn question(&self) -> Vec<u8> {
        let lines: Vec<Vec<usize>> = self.rows.iter().map(|r| r.to_vec()).collect();
        written(&lines)
    }

    /// A term over the registers, so many parameters, and the constants; none where there is nothing to name.
    fn term(&self, random: &mut Random, parameters: usize) -> Option<[usize; 2]> {
        let counts = [self.registers, parameters, self.constants.len()];
        let kinds: Vec<usize> = (1..=3).filter(|&k| counts[k - 1] > 0).collect();
        if kinds.is_empty() {
            return None;
        }
        let kind = *random.pick(&kinds);
        Some([kind, 1 + random.below(counts[kind - 1])])
    }

    fn condition(&self, random: &mut Random, parameters: usize) -> Option<Condition> {
        let (left, right) = (self.term(random, parameters)?, self.term(random, parameters)?);
        Some([left[0], left[1], 1 + random.below(2), right[0], right[1]])
    }

    /// Conditions of a kind that costs: eight that hold, known late or at once; seven and one that fails; one that
    /// fails; none; or any.
    fn conditions(&self, random: &mut Random, parameters: usize) -> Vec<Condition> {
        let last = match (parameters, self.registers) {
            (0, 0) => return vec![],
            (0, _) => [1, 1],
            (n, _) => [2, n],
        };
        let holds = [last[0], last[1], 1, last[0], last[1]];
        let fails = [last[0], last[1], 2, last[0], last[1]];
        match random.below(6) {
            0 => vec![holds; 8],
            1 => [vec![holds; 7], vec![fails]].concat(),
            2 => vec![fails],
            3 => vec![],
            _ => (0..random.below(9))
                .filter_map(|_| self.condition(random, parameters))
                .collect(),
        }
    }

    /// What registers are set to: none; all to parameters as far as there are some; all to constant 1; or any.
    fn sets(&self, random: &mut Random, parameters: usize) -> [Option<[usize; 2]>; 5] {
        let style = random.below(5);
        let mut sets = [None; 5];
        for (r, slot) in sets.iter_mut().enumerate().take(self.registers) {
            *slot = match style {
                0 => None,
                1 if r < parameters => Some([2, r + 1]),
                2 if !self.constants.is_empty() => Some([3, 1]),
                1..=3 => Some([1, r + 1]),
                _ => self.term(random, parameters).filter(|_| random.below(4) > 0),
            };
        }
        sets
    }

    fn arc(&self, random: &mut Random) -> Arc {
        let parameters = *random.pick(&[0, 1, 2, 3, 3, 3]);
        Arc {
            from: 1 + random.below(self.places),
            to: 1 + random.below(self.places),
            parameters,
            when: self.conditions(random, parameters),
            sets: self.sets(random, parameters),
        }
    }

    /// Row i, counted from 0: first what speaks of places and registers, then mostly what needs steps.
    fn row(&self, random: &mut Random, i: usize) -> [usize; 3] {
        let place = [1, 1 + random.below(self.places), 0];
        if i == 0 || i < 6 && random.below(2) == 0 {
            let r = self.registers;
            return match random.below(3) {
                0 if r > 0 => [2, 1 + random.below(r), 1 + random.below(r)],
                1 if r > 0 && !self.constants.is_empty() => {
                    [3, 1 + random.below(r), 1 + random.below(self.constants.len())]
                }
                _ => place,
            };
        }
        let kind = *random.pick(&[4, 5, 6, 7, 7, 8, 8, 8, 9, 11, 12, 12, 13, 14, 14, 14]);
        let a = 1 + random.below(i);
        let b = 1 + random.below(i);
        [kind, a, if matches!(kind, 5 | 7 | 9 | 10) { b } else { 0 }]
    }

    /// Some arcs by their numbers: one, those from or into a place, or a stretch.
    fn some_arcs(&self, random: &mut Random) -> Vec<usize> {
        let all = self.arcs.len();
        if all == 0 {
            return vec![];
        }
        let one = random.below(all);
        let like = &self.arcs[one];
        match random.below(6) {
            0 => (0..all).filter(|&i| self.arcs[i].from == like.from).collect(),
            1 => (0..all).filter(|&i| self.arcs[i].to == like.to).collect(),
            2 => (one..(one + 1 + random.below(32)).min(all)).collect(),
            3 => (0..all).collect(),
            _ => vec![one],
        }
    }

    /// Changes some arcs, all in the same way.
    fn change_arcs(&mut self, random: &mut Random) {
        let some = self.some_arcs(random);
        let Some(&first) = some.first() else { return };
        let place = 1 + random.below(self.places);
        let like = if random.below(2) == 0 {
            self.arc(random)
        } else {
            self.arcs[random.below(self.arcs.len())].clone()
        };
        let register = random.below(self.registers.max(1));
        let fewest = some.iter().map(|&i| self.arcs[i].parameters).min().unwrap_or(0);
        let condition = self.condition(random, fewest);
        let term = self.term(random, fewest);
        match random.below(10) {
            0 => some.iter().for_each(|&i| self.arcs[i].from = place),
            1 => some.iter().for_each(|&i| self.arcs[i].to = place),
            2 => some.iter().for_each(|&i| {
                let arc = &mut self.arcs[i];
                (arc.parameters, arc.when, arc.sets) = (like.parameters, like.when.clone(), like.sets);
            }),
            3 => some.iter().filter(|_| condition.is_some()).for_each(|&i| {
                let when = &mut self.arcs[i].when;
                when.truncate(7);
                when.extend(condition);
            }),
            4 => some.iter().for_each(|&i| {
                self.arcs[i].when.pop();
            }),
            5 if self.registers > 0 => some.iter().for_each(|&i| self.arcs[i].sets[register] = term),
            6 if self.registers > 0 => some.iter().for_each(|&i| self.arcs[i].sets[register] = None),
            // These arcs first, or last.
            7 | 8 => {
                let (taken, left): (Vec<usize>, Vec<usize>) = (0..self.arcs.len()).partition(|i| some.contains(i));
                let order = if random.below(2) == 0 {
                    [taken, left].concat()
                } else {
                    [left, taken].concat()
                };
                self.arcs = order.into_iter().map(|i| self.arcs[i].clone()).collect();
            }
            _ => {
                if self.arcs.len() < 64 && random.below(3) > 0 {
                    let more = self.arcs[first].clone();
                    let at = random.below(self.arcs.len() + 1);
                    self.arcs.insert(at, Arc { from: place, ..more });
                } else {
                    self.arcs.remove(first);
                }
            }
        }
    }

    /// Changes the question, which keeps at most so many rows: a row, or this row and all that follow.
    fn change_rows(&mut self, random: &mut Random, most: usize) {
        let i = random.below(self.rows.len());
        let row = self.row(random, i);
        match random.below(4) {
            0 => self.rows[i..].fill(row),
            1 if self.rows.len() < most => {
                let last = self.rows[self.rows.len() - 1];
                self.rows.push(last);
            }
            _ => self.rows[i] = row,
        }
    }

    fn change_target(&mut self, random: &mut Random) {
        match random.below(4) {
            0 => self.target = 1 + random.below(self.places),
            1 => self.reaching = (0..random.below(6)).filter_map(|_| self.condition(random, 0)).collect(),
            2 => self.start = 1 + random.below(self.places),
            // Conditions of one kind about constant 1 cannot contradict each other.
            _ if !self.constants.is_empty() => {
                let relation = 1 + random.below(2);
                self.starting = (1..=random.below(self.registers + 1))
                    .map(|r| [1, r, relation, 3, 1])
                    .collect();
            }
            _ => {}
        }
    }

    fn swap_places(&mut self, random: &mut Random) {
        let (a, b) = (1 + random.below(self.places), 1 + random.below(self.places));
        let swapped = |place: usize| {
            if place == a {
                b
            } else if place == b {
                a
            } else {
                place
            }
        };
        for arc in &mut self.arcs {
            (arc.from, arc.to) = (swapped(arc.from), swapped(arc.to));
        }
        for row in self.rows.iter_mut().filter(|r| r[0] == 1) {
            row[1] = swapped(row[1]);
        }
        (self.start, self.target) = (swapped(self.start), swapped(self.target));
    }

    /// One to three changes; of the question too, or of the target.
    pub fn changed(&self, random: &mut Random, asking: bool, most: usize) -> Draft {
        let mut next = self.clone();
        for _ in 0..1 + random.below(3) {
            match random.below(10) {
                0 => next.swap_places(random),
                1 | 2 if asking => next.change_rows(random, most),
                1 => next.change_target(random),
                _ => next.change_arcs(random),
            }
        }
        next
    }
}
