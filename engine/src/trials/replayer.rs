//! The data of the program `test_replayer`: tables and lists for the replayer, and its verdicts.
//!
//! One file, `cases`. A case is its header, then its table and its list. The header's numbers: how many bytes of the
//! table stand there, and how many it has (those behind are bytes 10); how many numbers the list has.
//!
//! The program prints for each case its number, the reply of the replayer that takes the list, and the reply of the one
//! that takes start and steps: a list that is too short for a start has zeros behind it, and numbers behind the last
//! whole step are left out. A reply is four numbers: 1 good; 0 and the first bad moment; or 2 and those of the refusal.

use super::{concat_lines, digits, fresh_data, header, partly_stuck, random_for, report, sample_table};
use crate::generate::{case, Shape};
use crate::mutate::mutate;
use crate::print::fields;
use crate::read::{read_table, Refusal};
use crate::replay::{replay, Replayed};
use crate::write;
use std::fs;
use std::io;
use std::path::Path;

/// The longest list: a start and 24 steps.
const LIST: usize = 221;

struct Case {
    table: Vec<u8>,
    /// With bytes 10 behind the table's own.
    length: usize,
    list: Vec<u32>,
}

fn plain(table: Vec<u8>, list: Vec<u32>) -> Case {
    Case {
        length: table.len(),
        table,
        list,
    }
}

fn reply(answer: Result<Replayed, Refusal>) -> [usize; 4] {
    match answer {
        Ok(Replayed::Good) => [1, 0, 0, 0],
        Ok(Replayed::Bad(moment)) => [0, moment, 0, 0],
        Err(r) => [2, r.number as usize, r.file as usize, r.line as usize],
    }
}

/// The start and the whole steps of a list.
fn whole(list: &[u32]) -> Vec<u32> {
    let mut list = list.to_vec();
    list.resize(list.len().max(5), 0);
    list.truncate(5 + (list.len() - 5) / 9 * 9);
    list
}

/// A step of the sample, with one parameter and two registers.
fn step(arc: u32, parameter: u32, contents: [u32; 2]) -> Vec<u32> {
    vec![arc, parameter, 0, 0, contents[0], contents[1], 0, 0, 0]
}

/// Runs of the sample: the start, then steps.
fn sample_cases() -> Vec<Case> {
    let run = |start: [u32; 5], steps: &[&Vec<u32>]| {
        let mut list = start.to_vec();
        list.extend(steps.iter().flat_map(|s| s.iter()));
        plain(sample_table(), list)
    };
    let start = [0; 5];
    let (translated, revised) = (step(1, 1, [1, 0]), step(2, 2, [1, 2]));
    let slot = |step: &Vec<u32>, at: usize, x: u32| {
        let mut step = step.clone();
        step[at] = x;
        step
    };
    let mut found = vec![
        // 1, 2: document 01's run, and its start alone.
        run(start, &[&translated, &revised]),
        run(start, &[]),
        // 3, 4: a start that is not permitted, and one with an unused slot that is not 0.
        run([1, 0, 0, 0, 0], &[&translated, &revised]),
        run([0, 0, 7, 0, 0], &[]),
        // 5, 6: transitions that the table does not have.
        run(start, &[&slot(&translated, 0, 0), &revised]),
        run(start, &[&slot(&translated, 0, 3), &revised]),
        // 7: an unused slot of the parameters.
        run(start, &[&slot(&translated, 2, 9), &revised]),
        // 8: the reviser is the translator.
        run(start, &[&translated, &step(2, 1, [1, 1])]),
        // 9, 10: one step, and two, after the end.
        run(start, &[&translated, &revised, &revised]),
        run(start, &[&translated, &revised, &revised, &revised]),
    ];
    // Each slot of the second step, and of the start, with another number.
    for at in 0..9 {
        found.push(run(start, &[&translated, &slot(&revised, at, 4)]));
    }
    for at in 0..5 {
        let mut other = start;
        other[at] = u32::MAX;
        found.push(run(other, &[&translated, &revised]));
    }
    found.push(run(start, &[&slot(&translated, 0, u32::MAX)]));
    // Identifiers as large as can be.
    let large = [u32::MAX, u32::MAX - 1];
    found.push(run(
        start,
        &[&step(1, large[0], [large[0], 0]), &step(2, large[1], large)],
    ));
    // Lists of a wrong length.
    let good = [start.to_vec(), translated, revised].concat();
    for length in [0, 1, 4, 6, 13, 15, 22, 24, 31] {
        let mut list = good.clone();
        list.resize(length, 0);
        found.push(plain(sample_table(), list));
    }
    found
}

/// A table whose constants are the two largest identifiers: the register goes from the first to the second and to others.
fn largest_cases() -> Vec<Case> {
    let (first, second) = (u32::MAX - 1, u32::MAX);
    let table = concat_lines(&[
        &[1, 1, 2, 2, 1, 2],
        &[2, first as usize],
        &[2, second as usize],
        &[3, 1],
        &[4, 1],
        &[5, 1, 1, 1, 3, 1],
        &[6, 1, 1, 2],
        &[7, 2, 1, 1, 3, 2],
        &[8, 1, 2, 1],
        &[6, 2, 1, 2],
        &[7, 2, 1, 2, 3, 1],
        &[7, 2, 1, 2, 3, 2],
        &[8, 1, 2, 1],
    ]);
    let run = |start: u32, steps: &[[u32; 3]]| {
        let mut list = vec![start, 0, 0, 0, 0];
        for &[arc, parameter, register] in steps {
            list.extend([arc, parameter, 0, 0, register, 0, 0, 0, 0]);
        }
        plain(table.clone(), list)
    };
    let away = first - 1;
    vec![
        // Good: to the second constant, and on to the identifiers beside the constants.
        run(first, &[[1, second, second], [2, away, away], [2, 0, 0]]),
        // Bad: the other constant at the start, the wrong one in a step, one where none may be, one of them set.
        run(second, &[]),
        run(first, &[[1, first, first]]),
        run(first, &[[1, second, second], [2, second, second]]),
        run(first, &[[1, second, second], [2, away, second]]),
        run(first, &[[1, second, first]]),
    ]
}

/// A stay where no step exists, as arc 0 with nothing changed: only questions see it, so it is bad. Behind the sample's run,
/// and at a start that is stuck at a place with an arc; there with that arc too, and the start alone.
fn stay_cases() -> Vec<Case> {
    let (translated, revised) = (step(1, 1, [1, 0]), step(2, 2, [1, 2]));
    let run = [vec![0; 5], translated, revised, step(0, 0, [1, 2])].concat();
    let mut found = vec![plain(sample_table(), run)];
    for steps in [vec![], step(0, 0, [5, 0]), step(1, 5, [5, 0])] {
        found.push(plain(partly_stuck(), [vec![5, 0, 0, 0, 0], steps].concat()));
    }
    found
}

/// Random tables with a walk or the shortest run, some with a wrong number.
fn random_cases(seed: u64) -> Vec<Case> {
    let mut found = Vec::new();
    for (group, shape, count) in [(40, Shape::Tiny, 8), (41, Shape::Small, 4), (42, Shape::Large, 2)] {
        let most = if shape == Shape::Large { 2_500 } else { 800 };
        let mut left = count;
        let mut number = 0;
        while left > 0 {
            number += 1;
            let c = case(&mut random_for(seed, group, number), shape);
            let table = write::table(&c.table);
            // Short tables with a few steps; of good runs no more than of bad ones.
            let good = replay(&table, &c.list) == Ok(Replayed::Good);
            if (23..=LIST).contains(&c.list.len()) && table.len() < most && good == (left % 2 == 0) {
                left -= 1;
                found.push(plain(table, c.list));
            }
        }
    }
    // As many steps as there is room for: a good run round a loop, and one that is bad at its last step.
    let round =
        (fields(&[1, 1, 0, 1, 1, 1]) + &fields(&[3, 3]) + &fields(&[4, 1]) + &fields(&[6, 1, 1, 1])).into_bytes();
    let mut list = vec![0; 5];
    for i in 1..=24 {
        list.extend([1, i, i + 1, i + 2, i, 0, 0, 0, 0]);
    }
    assert_eq!(list.len(), LIST);
    found.push(plain(round.clone(), list.clone()));
    list[LIST - 1] = 1;
    found.push(plain(round, list));
    found
}

/// Tables that are turned back, for each refusal that a table can get; and after a wrong length.
fn refused_cases(seed: u64) -> Vec<Case> {
    let mut found = Vec::new();
    for (length, list) in [(40_001, vec![0; 5]), (40_000, vec![0; 14]), (40_001, vec![0; 6])] {
        found.push(Case {
            table: sample_table(),
            length,
            list,
        });
    }
    let mut wanted: Vec<u32> = (2..=7).collect();
    let mut number = 0;
    while !wanted.is_empty() {
        number += 1;
        let mut random = random_for(seed, 43, number);
        let c = case(&mut random, Shape::Tiny);
        let table = mutate(&mut random, &write::table(&c.table));
        let Err(r) = read_table(&table) else { continue };
        if table.len() > 700 || c.list.len() > LIST {
            continue;
        }
        if let Some(at) = wanted.iter().position(|&n| n == r.number) {
            wanted.remove(at);
            found.push(plain(table, c.list));
        }
    }
    found
}

/// Writes FOLDER/data and FOLDER/stdout.
pub fn write(folder: &Path, seed: u64) -> io::Result<()> {
    let data = fresh_data(folder)?;
    let (mut bytes, mut text) = (Vec::new(), String::new());
    let cases = [
        sample_cases(),
        random_cases(seed),
        refused_cases(seed),
        largest_cases(),
        stay_cases(),
    ];
    for (i, c) in cases.iter().flatten().enumerate() {
        let mut table = c.table.clone();
        table.resize(c.length, 10);
        let lists = reply(replay(&table, &c.list));
        let steps = reply(replay(&table, &whole(&c.list)));
        text += &report("", 0, &[vec![i + 1], lists.to_vec(), steps.to_vec()].concat());
        bytes.extend(header(&[c.table.len() as u64, c.length as u64, c.list.len() as u64]));
        bytes.extend(&c.table);
        bytes.extend(digits(&c.list));
    }
    fs::write(data.join("cases"), bytes)?;
    fs::write(folder.join("stdout"), text)
}
