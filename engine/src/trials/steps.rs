//! The data of the program `test_steps`: tables, and which steps lead from which configuration to which.
//!
//! A group is one file. A case is its header, then its table. The header's numbers: how many bytes of the table stand
//! there, and how many it has (those behind are bytes 10); then for each of three probes: first, stride, count, how many
//! words of the buffer are lent, digest of the steps, digest of the successors.
//!
//! A probe takes the numbers first, first + stride, .. (32 bits, wrapping round), `count` of them. For each the program
//! asks its successors, in a new buffer of ROOM words, and for each pair of them whether a step leads from one to the
//! other. The digest of the steps has 1 for yes, 0 for no, or 2 and the numbers of the refusal; that of the successors
//! all of the buffer, and behind it the numbers of a refusal.

use super::{fresh_data, header, random_for, refusal_numbers, report, titles, FILL};
use crate::answer::{words, WORDS};
use crate::generate::{case, Shape};
use crate::graph::{method_for, Graph};
use crate::mutate::mutate;
use crate::print::digest;
use crate::random::Random;
use crate::read::{read_table, Refusal};
use crate::trials::{partly_stuck, sample_table};
use crate::write;
use std::fs;
use std::io;
use std::path::Path;

const ROOM: usize = 340;
const PROBES: usize = 3;

/// The configurations that each configuration of a table leads to.
struct Steps {
    rows: Vec<Vec<bool>>,
}

impl Steps {
    fn new(table: &[u8]) -> Result<Self, Refusal> {
        let table = read_table(table)?;
        let graph = Graph::new(&table, method_for(&table));
        let mut rows: Vec<Option<Vec<bool>>> = vec![None; graph.configurations];
        for node in 0..graph.nodes() {
            let mut row = vec![false; graph.configurations];
            for &next in graph.successors(node) {
                row[graph.configuration[next as usize]] = true;
            }
            match &rows[graph.configuration[node]] {
                None => rows[graph.configuration[node]] = Some(row),
                Some(known) => assert_eq!(known, &row, "contents of one class differ"),
            }
        }
        let rows = rows
            .into_iter()
            .map(|row| row.expect("a configuration without contents"))
            .collect();
        Ok(Steps { rows })
    }
}

fn range() -> Refusal {
    Refusal {
        number: 5,
        file: 0,
        line: 0,
    }
}

fn step(steps: &Result<Steps, Refusal>, from: u32, to: u32) -> Result<bool, Refusal> {
    let steps = steps.as_ref().map_err(|r| *r)?;
    let row = steps.rows.get(from as usize).ok_or(range())?;
    row.get(to as usize).copied().ok_or(range())
}

fn successors(steps: &Result<Steps, Refusal>, from: u32, room: usize) -> Result<Vec<u32>, Refusal> {
    if room < WORDS {
        return Err(Refusal {
            number: 9,
            file: 0,
            line: 0,
        });
    }
    let steps = steps.as_ref().map_err(|r| *r)?;
    let row = steps.rows.get(from as usize).ok_or(range())?;
    Ok(words(row))
}

#[derive(Clone, Copy)]
struct Probe {
    first: u32,
    stride: u32,
    count: u32,
    room: usize,
}

/// How many cases there are, and how many steps and successors had which reply.
#[derive(Default)]
struct Counts {
    cases: usize,
    steps: [usize; 3],
    successors: [usize; 2],
}

/// The digests of a probe.
fn judge(steps: &Result<Steps, Refusal>, p: Probe, counts: &mut Counts) -> [u64; 2] {
    let numbers: Vec<u32> = (0..p.count)
        .map(|i| p.first.wrapping_add(i.wrapping_mul(p.stride)))
        .collect();
    let (mut led, mut rows) = (Vec::new(), Vec::new());
    for &from in &numbers {
        let mut buffer = vec![FILL; ROOM];
        match successors(steps, from, p.room) {
            Ok(row) => {
                counts.successors[0] += 1;
                buffer[..WORDS].copy_from_slice(&row);
                rows.extend(buffer);
            }
            Err(r) => {
                counts.successors[1] += 1;
                rows.extend(buffer);
                rows.extend(refusal_numbers(&r));
            }
        }
        for &to in &numbers {
            match step(steps, from, to) {
                Ok(true) => {
                    counts.steps[0] += 1;
                    led.push(1);
                }
                Ok(false) => {
                    counts.steps[1] += 1;
                    led.push(0);
                }
                Err(r) => {
                    counts.steps[2] += 1;
                    led.push(2);
                    led.extend(refusal_numbers(&r));
                }
            }
        }
    }
    [digest(&led), digest(&rows)]
}

struct Case {
    table: Vec<u8>,
    /// With bytes 10 behind the table's own.
    length: usize,
    probes: [Probe; PROBES],
}

fn record(c: &Case, counts: &mut Counts) -> Vec<u8> {
    let mut whole = c.table.clone();
    whole.resize(c.length, 10);
    let steps = Steps::new(&whole);
    counts.cases += 1;
    let mut fields = vec![c.table.len() as u64, c.length as u64];
    for p in c.probes {
        let digests = judge(&steps, p, counts);
        fields.extend([p.first as u64, p.stride as u64, p.count as u64, p.room as u64]);
        fields.extend(digests);
    }
    let mut bytes = header(&fields);
    bytes.extend(&c.table);
    bytes
}

/// A valid table: its configurations, up to `most` of them evenly; some at random; those around the last, or around the
/// largest number there is. Buffers as long as asked, longer, and too short.
fn valid(random: &mut Random, table: Vec<u8>, most: usize) -> Case {
    let n = Steps::new(&table).map_or(1, |s| s.rows.len());
    let stride = n.div_ceil(most);
    let room = |random: &mut Random| WORDS + random.below(ROOM - WORDS + 1);
    let all = Probe {
        first: 0,
        stride: stride as u32,
        count: n.div_ceil(stride) as u32,
        room: room(random),
    };
    let some = Probe {
        first: random.below(n) as u32,
        stride: random.between(1, n) as u32,
        count: 3,
        room: *random.pick(&[0, 1, WORDS - 1, WORDS]),
    };
    let edge = Probe {
        first: if random.percent(70) {
            n as u32 - 1
        } else {
            *random.pick(&[u32::MAX, 65_535, 10_783])
        },
        stride: 1,
        count: 3,
        room: room(random),
    };
    Case {
        length: table.len(),
        table,
        probes: [all, some, edge],
    }
}

/// Tables for each number of registers and constants, small in bytes.
fn by_counts(seed: u64) -> Vec<Case> {
    let mut found = Vec::new();
    let mut number = 0;
    for registers in 0..=5 {
        for constants in 0..=2 {
            let before = found.len();
            while found.len() == before {
                number += 1;
                let mut random = random_for(seed, 30, number);
                let shape = match registers {
                    0..=2 => Shape::Tiny,
                    3 => Shape::Small,
                    _ => Shape::Large,
                };
                let c = case(&mut random, shape);
                let table = write::table(&c.table);
                let fits = c.table.registers == registers && c.table.constants.len() == constants;
                let small = if registers < 4 { 900 } else { 2_000 };
                if fits && table.len() < small && c.table.arcs.len() > 1 {
                    found.push(valid(&mut random, table, 12));
                }
            }
        }
    }
    found.push(valid(&mut random_for(seed, 31, 1), sample_table(), 21));
    // Only questions see a stuck segment stay: no step leads from its configuration.
    found.push(valid(&mut random_for(seed, 31, 2), partly_stuck(), 4));
    found
}

/// Tables that are turned back, for each refusal that a table can get.
fn damaged(seed: u64) -> Vec<Case> {
    let probes = |random: &mut Random| {
        let first = *random.pick(&[0, 1, 7, u32::MAX]);
        [WORDS, WORDS - 1, ROOM].map(|room| Probe {
            first,
            stride: 1,
            count: 2,
            room,
        })
    };
    let mut found = Vec::new();
    // 1: a byte too many, and many; 2: as long as can be, with empty lines behind the last.
    for (i, length) in [40_001, 40_999, 40_000].into_iter().enumerate() {
        found.push(Case {
            table: sample_table(),
            length,
            probes: probes(&mut random_for(seed, 32, i)),
        });
    }
    let mut wanted: Vec<(u32, usize)> = (2..=7).map(|n| (n, 2)).collect();
    let mut number = 0;
    while wanted.iter().any(|&(_, left)| left > 0) {
        number += 1;
        let mut random = random_for(seed, 33, number);
        let table = mutate(
            &mut random,
            &write::table(&case(&mut random_for(seed, 34, number), Shape::Tiny).table),
        );
        let Err(r) = read_table(&table) else { continue };
        if table.len() > 900 {
            continue;
        }
        if let Some(slot) = wanted.iter_mut().find(|(n, left)| *n == r.number && *left > 0) {
            slot.1 -= 1;
            found.push(Case {
                length: table.len(),
                table,
                probes: probes(&mut random),
            });
        }
    }
    found
}

/// Writes FOLDER/data and FOLDER/stdout.
pub fn write(folder: &Path, seed: u64) -> io::Result<()> {
    let data = fresh_data(folder)?;
    let mut text = titles(
        "group",
        8,
        &["cases", "yes", "no", "refused", "written", "refused", "differ"],
    );
    for (name, cases) in [("valid", by_counts(seed)), ("damaged", damaged(seed))] {
        let mut counts = Counts::default();
        let bytes: Vec<u8> = cases.iter().flat_map(|c| record(c, &mut counts)).collect();
        fs::write(data.join(name), bytes)?;
        let numbers = [
            vec![counts.cases],
            counts.steps.to_vec(),
            counts.successors.to_vec(),
            vec![0],
        ];
        text += &report(name, 8, &numbers.concat());
    }
    fs::write(folder.join("stdout"), text)
}
