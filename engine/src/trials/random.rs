//! The data of the program `test_random`: groups of cases with this engine's results.
//!
//! A group is one file. A case is its header, then its table, its target, its question, its question as text and its list
//! for the replayer. The header's FIELDS numbers:
//! lengths of table, target, question and text in bytes, and of the list in numbers;
//! reaching: reply (0 never, 1 reached, 2 refused), then steps, reached configurations, and the digests of words, least
//! steps, links, run and printed moments; where refused number, file and line;
//! asking: reply (0 no, 1 yes, 2 refused), then class, digest of the five contents, digest of the rows; where refused
//! number, file and line; the same of asking by the text;
//! replaying: reply (0 bad, 1 good, 2 refused), then the bad moment; where refused number, file and line.
//! Other fields are 0.

use super::{
    concat_lines, digits, fresh_data, header, partly_stuck, random_for, report, sample_stopped, sample_table,
    sample_without, titles,
};
use crate::answer::{ask, ask_text, reach, Asked, Reached};
use crate::counter::{counter, falling};
use crate::generate::{case, Shape};
use crate::mutate::mutate;
use crate::print::{digest, moments};
use crate::random::Random;
use crate::read::Refusal;
use crate::replay::{replay, Replayed};
use crate::table::{Arc, Condition, Row, Table, Target, Term};
use crate::texts;
use crate::write;
use std::fs;
use std::io;
use std::path::Path;

pub const FIELDS: usize = 25;
/// The longest list for the replayer, in numbers, and the longest table and other file, in bytes: the program's room.
const LIST: usize = 2_000;
const TABLE: usize = 40_500;
const OTHER: usize = 1_000;
/// What sets the groups of texts apart from the others.
const TEXTS: u64 = 20;

pub struct Files {
    pub table: Vec<u8>,
    pub target: Vec<u8>,
    pub question: Vec<u8>,
    pub text: Vec<u8>,
    pub list: Vec<u32>,
}

/// How many cases had which reply.
#[derive(Default)]
struct Counts {
    cases: usize,
    reach: [usize; 3],
    ask: [usize; 3],
    ask_text: [usize; 3],
    replay: [usize; 3],
}

fn refused(r: &Refusal) -> Vec<u64> {
    vec![2, r.number as u64, r.file as u64, r.line as u64]
}

fn reach_fields(answer: &Result<Reached, Refusal>) -> Vec<u64> {
    let mut fields = match answer {
        Err(r) => refused(r),
        Ok(a) => {
            let run = |numbers: &[u32]| if a.reached { digest(numbers) } else { 0 };
            vec![
                a.reached as u64,
                a.steps as u64,
                a.count as u64,
                digest(&a.words),
                digest(&a.least),
                digest(&a.link),
                run(&a.run),
                run(&moments(a)),
            ]
        }
    };
    fields.resize(8, 0);
    fields
}

fn ask_fields(answer: &Result<Asked, Refusal>) -> Vec<u64> {
    match answer {
        Err(r) => refused(r),
        Ok(a) => {
            let mut contents = a.contents.clone();
            contents.resize(5, 0);
            let contents = if a.yes { 0 } else { digest(&contents) };
            vec![a.yes as u64, a.class as u64, contents, digest(&a.rows)]
        }
    }
}

fn replay_fields(answer: &Result<Replayed, Refusal>) -> Vec<u64> {
    match answer {
        Err(r) => refused(r),
        Ok(Replayed::Good) => vec![1, 0, 0, 0],
        Ok(Replayed::Bad(moment)) => vec![0, *moment as u64, 0, 0],
    }
}

fn record(files: &Files, counts: &mut Counts) -> Vec<u8> {
    let mut fields = vec![
        files.table.len() as u64,
        files.target.len() as u64,
        files.question.len() as u64,
        files.text.len() as u64,
        files.list.len() as u64,
    ];
    let reached = reach_fields(&reach(&files.table, &files.target, None));
    let asked = ask_fields(&ask(&files.table, &files.question, None));
    let by_text = ask_fields(&ask_text(&files.table, &files.text, None));
    let replayed = replay_fields(&replay(&files.table, &files.list));
    counts.cases += 1;
    counts.reach[reached[0] as usize] += 1;
    counts.ask[asked[0] as usize] += 1;
    counts.ask_text[by_text[0] as usize] += 1;
    counts.replay[replayed[0] as usize] += 1;
    fields.extend(reached);
    fields.extend(asked);
    fields.extend(by_text);
    fields.extend(replayed);
    assert_eq!(fields.len(), FIELDS);
    let mut bytes = header(&fields);
    bytes.extend(&files.table);
    bytes.extend(&files.target);
    bytes.extend(&files.question);
    bytes.extend(&files.text);
    bytes.extend(digits(&files.list));
    bytes
}

/// A case, and its table before anything is damaged. The text is drawn by a generator of its own: it came later, and the
/// rest stays as it was.
fn files(random: &mut Random, drawn: &mut Random, shape: Shape) -> (Files, Table) {
    let c = case(random, shape);
    let mut list = c.list;
    if list.len() > LIST {
        // A part of a run from its start is a run.
        list.truncate(5 + 9 * (LIST / 9 - 1));
    }
    let files = Files {
        table: write::table(&c.table),
        target: write::target(&c.target),
        question: write::question(&c.question),
        text: texts::good(drawn, &c.table).text().into_bytes(),
        list,
    };
    (files, c.table)
}

/// The generator of a case's text.
fn drawn_for(seed: u64, group: u64, case: usize) -> Random {
    random_for(seed, TEXTS + group, case)
}

fn valid(seed: u64, group: u64, shape: Shape, count: usize) -> Vec<Files> {
    (1..=count)
        .map(|i| files(&mut random_for(seed, group, i), &mut drawn_for(seed, group, i), shape).0)
        .collect()
}

/// Every count at its limit and no conditions: many steps from everywhere.
fn widest(random: &mut Random, set: usize) -> Files {
    let arcs = (0..64)
        .map(|i| {
            let mut sets = Vec::new();
            for r in 1..=set {
                let term = match random.below(10) {
                    0..=4 => Term::Parameter(random.between(1, 3)),
                    9 => Term::Constant(random.between(1, 2)),
                    _ => Term::Register(random.between(1, 5)),
                };
                sets.push((r, term));
            }
            Arc {
                from: i % 16 + 1,
                action: random.between(1, 16),
                to: random.between(1, 16),
                conditions: vec![],
                sets,
            }
        })
        .collect();
    let table = Table {
        registers: 5,
        constants: vec![random.below(5) as u32, 5 + random.below(20) as u32],
        places: 16,
        arity: vec![3; 16],
        start: random.between(1, 16),
        start_conditions: vec![],
        arcs,
    };
    // Contents that none have: all is looked at, and the target is never reached.
    let never = Condition {
        left: Term::Register(1),
        equal: false,
        right: Term::Register(1),
    };
    let question = [
        (1, 3, 0),
        (2, 1, 5),
        (5, 1, 2),
        (12, 3, 0),
        (8, 4, 0),
        (14, 1, 0),
        (11, 6, 0),
        (7, 5, 6),
    ];
    Files {
        table: write::table(&table),
        target: write::target(&Target {
            place: 16,
            conditions: vec![never],
        }),
        question: write::question(&question.map(|(kind, a, b)| Row { kind, a, b })),
        text: b"E(EGEF(L3&r1=r5)UAXAFL3)".to_vec(),
        list: vec![0; 5],
    }
}

/// The longest run of the counters, and the question that takes 10,783 rounds.
fn longest(seed: u64) -> Vec<Files> {
    let mut random = random_for(seed, 9, 1);
    let (table, target) = counter(&mut random, 5, 15, true);
    let place = [(1, 1, 0), (12, 1, 0), (13, 2, 0), (14, 1, 0)];
    let counting = Files {
        table: write::table(&table),
        target: write::target(&target),
        question: write::question(&place.map(|(kind, a, b)| Row { kind, a, b })),
        text: b"AGEFL1".to_vec(),
        list: vec![0, 0, 0, 0, 0],
    };
    let (table, target, question) = falling();
    let falling = Files {
        table: write::table(&table),
        target: write::target(&target),
        question: write::question(&question),
        // Once is enough.
        text: b"EXr1=r1".to_vec(),
        list: vec![0, 0, 0, 0, 0],
    };
    vec![counting, falling]
}

/// Which call a damaged file is to turn back, and for what.
#[derive(Clone, Copy, PartialEq, Eq)]
enum Damaged {
    Table(u32),
    Target(u32),
    Question(u32),
}

/// Damaged cases, so many for each refusal that each kind of file can get.
fn damaged(seed: u64) -> Vec<Files> {
    let mut wanted: Vec<(Damaged, usize)> = vec![(Damaged::Table(1), 4)];
    wanted.extend((2..=7).map(|n| (Damaged::Table(n), 32)));
    wanted.extend([1, 2, 5].map(|n| (Damaged::Target(n), 24)));
    wanted.extend([1, 2, 5, 8].map(|n| (Damaged::Question(n), 24)));
    let mut found = Vec::new();
    let mut case = 0;
    while wanted.iter().any(|&(_, left)| left > 0) {
        case += 1;
        let mut random = random_for(seed, 8, case);
        let shape = match random.below(30) {
            0 => Shape::Full,
            1 => Shape::Large,
            2..=9 => Shape::Small,
            _ => Shape::Tiny,
        };
        // One large case for each kind is enough.
        if matches!(shape, Shape::Full | Shape::Large) && case % 3 != 0 {
            continue;
        }
        let mut drawn = drawn_for(seed, 8, case);
        let (mut f, table) = files(&mut random, &mut drawn, shape);
        f.text = texts::damaged(&mut drawn, &table);
        while f.text.len() > OTHER {
            f.text = texts::damaged(&mut drawn, &table);
        }
        let what = match random.below(3) {
            0 => {
                f.table = mutate(&mut random, &f.table);
                reach(&f.table, &f.target, None).err().map(|r| Damaged::Table(r.number))
            }
            1 => {
                f.target = mutate(&mut random, &f.target);
                reach(&f.table, &f.target, None)
                    .err()
                    .map(|r| Damaged::Target(r.number))
            }
            _ => {
                f.question = mutate(&mut random, &f.question);
                ask(&f.table, &f.question, None)
                    .err()
                    .map(|r| Damaged::Question(r.number))
            }
        };
        if f.table.len() > TABLE || f.target.len() > OTHER || f.question.len() > OTHER {
            continue;
        }
        if let Some(slot) = wanted.iter_mut().find(|(w, left)| Some(*w) == what && *left > 0) {
            slot.1 -= 1;
            found.push(f);
        }
    }
    found
}

/// A line of fields.
fn line(numbers: &[usize]) -> String {
    crate::print::fields(numbers)
}

/// Document 01's examples that carry no star, some that do, and its habits to lose, then document 02's, each with what
/// the documents say of the replies: the first fields of reaching and of asking.
fn examples() -> Vec<Files> {
    let sample = sample_table();
    let loose = sample_without(&[8, 1, 1, 1]);
    let same = [5, 1, 1, 1, 1, 1];
    let table = |registers: usize, starting: usize, conditions: usize| {
        let mut text = line(&[1, registers, 0, 1, 1, 1]) + &line(&[3, 0]) + &line(&[4, 1]);
        text += &line(&same).repeat(starting);
        text += &line(&[6, 1, 1, 1]);
        text += &line(&[7, 1, 1, 1, 1, 1]).repeat(conditions);
        text.into_bytes()
    };
    let target = |conditions: usize| (line(&[4, 1]) + &line(&same).repeat(conditions)).into_bytes();
    // A question as rows, and as text. So many rows that hold at place 1, an even number of them negations in the text.
    let rows = |count: usize| {
        let text = match count {
            1 => "L1".to_string(),
            n => "!".repeat(n - 2) + "EFL1",
        };
        (line(&[1, 1, 0]).repeat(count).into_bytes(), text)
    };
    let asked = |rows: &[&[usize]], text: &str| (concat_lines(rows), text.to_string());
    let good = |table: Vec<u8>, target: Vec<u8>, (question, text): (Vec<u8>, String)| Files {
        table,
        target,
        question,
        text: text.into_bytes(),
        list: vec![0; 5],
    };
    let mut found = Vec::new();
    let mut add = |files: Files, reached: &[u64], asked: &[u64], by_text: &[u64]| {
        assert!(reach_fields(&reach(&files.table, &files.target, None)).starts_with(reached));
        assert!(ask_fields(&ask(&files.table, &files.question, None)).starts_with(asked));
        assert!(ask_fields(&ask_text(&files.table, &files.text, None)).starts_with(by_text));
        found.push(files);
    };
    // Reached in 0 steps; yes; no.
    let (pass, yes, no): (&[u64], &[u64], &[u64]) = (&[1, 0], &[1], &[0]);
    // The sample: two steps to place 3, and AF place 3.
    let third = || line(&[4, 3]).into_bytes();
    let inevitable = || asked(&[&[1, 3, 0], &[14, 1, 0]], "AFL3");
    add(good(sample.clone(), third(), inevitable()), &[1, 2, 3], yes, yes);
    // With registers equal: never; without line 8 1 1 1 two steps. EG of register 1 = register 1: yes, by document 02.
    let equal = concat_lines(&[&[4, 3], &[5, 1, 1, 1, 1, 2]]);
    let endless = || asked(&[&[2, 1, 1], &[8, 1, 0]], "EGr1=r1");
    add(good(sample.clone(), equal.clone(), endless()), &[0], yes, yes);
    let ends = reach(&loose, &equal, None).map(|a| a.run[a.run.len() - 5..].to_vec());
    assert_eq!(ends, Ok(vec![2, 2, 0, 0, 0]));
    add(good(loose.clone(), equal.clone(), endless()), &[1, 2], yes, yes);
    // A run of 0 steps.
    add(good(sample.clone(), target(0), rows(1)), pass, yes, yes);
    // 5 registers pass, 6 are 3.
    add(good(table(5, 0, 0), target(0), rows(1)), pass, yes, yes);
    let size: &[u64] = &[2, 3, 1, 1];
    add(good(table(6, 0, 0), target(0), rows(1)), size, size, size);
    // In a table 8 conditions pass, 9 are 6: start conditions, then an arc's.
    let (start, arc): (&[u64], &[u64]) = (&[2, 6, 1, 12], &[2, 6, 1, 13]);
    add(good(table(1, 8, 0), target(0), rows(1)), pass, yes, yes);
    add(good(table(1, 9, 0), target(0), rows(1)), start, start, start);
    add(good(table(1, 0, 8), target(0), rows(1)), pass, yes, yes);
    add(good(table(1, 0, 9), target(0), rows(1)), arc, arc, arc);
    // In a target 8 pass, 9 are 1.
    add(good(table(1, 0, 0), target(8), rows(1)), pass, yes, yes);
    add(good(table(1, 0, 0), target(9), rows(1)), &[2, 1, 2, 0], yes, yes);
    // 32 rows pass, 33 are 1; in a text they are 12.
    add(good(table(1, 0, 0), target(0), rows(32)), pass, yes, yes);
    add(
        good(table(1, 0, 0), target(0), rows(33)),
        pass,
        &[2, 1, 2, 0],
        &[2, 12, 2, 0],
    );
    // A register that is not set may hold anything: here no longer the constant.
    let other = concat_lines(&[&[4, 2], &[5, 1, 1, 2, 3, 1]]);
    let unset = concat_lines(&[
        &[1, 1, 1, 2, 1, 1],
        &[2, 0],
        &[3, 0],
        &[4, 1],
        &[5, 1, 1, 1, 3, 1],
        &[6, 1, 1, 2],
    ]);
    add(good(unset, other.clone(), endless()), &[1, 1], yes, yes);
    // A register that holds no constant does not equal one: no step, so the segment stays. EG is true there and AF false.
    let apart = concat_lines(&[
        &[1, 1, 1, 2, 1, 1],
        &[2, 0],
        &[3, 0],
        &[4, 1],
        &[5, 1, 1, 2, 3, 1],
        &[6, 1, 1, 2],
        &[7, 1, 1, 1, 3, 1],
    ]);
    let always = || asked(&[&[1, 2, 0], &[14, 1, 0]], "AFL2");
    add(good(apart.clone(), other.clone(), endless()), &[0, 0], yes, yes);
    add(good(apart, other, always()), &[0, 0], &[0, 1], &[0, 1]);
    // A stored parameter, then a fresh one.
    let both = concat_lines(&[
        &[1, 1, 0, 3, 1, 2],
        &[3, 1],
        &[4, 1],
        &[6, 1, 1, 2],
        &[7, 2, 1, 1, 1, 1],
        &[8, 1, 1, 1],
        &[6, 2, 1, 3],
        &[7, 2, 1, 2, 1, 1],
        &[8, 1, 2, 1],
    ]);
    add(good(both, third(), always()), &[1, 2], yes, yes);
    // Document 02's text: nobody revises her own segment; without line 8 1 1 1 somebody may.
    let apart = || {
        asked(
            &[&[1, 3, 0], &[2, 1, 2], &[5, 1, 2], &[4, 3, 0], &[13, 4, 0]],
            "AG!(L3&r1=r2)",
        )
    };
    add(good(sample.clone(), equal.clone(), apart()), &[0], yes, yes);
    add(good(loose, equal.clone(), apart()), &[1], no, no);
    // What is turned back of a text, in this order: 1, 11, 12, 5.
    for (text, refused) in [
        ("!".repeat(401), [2, 1, 2, 0]),
        ("!".repeat(400), [2, 11, 2, 401]),
        ("!".repeat(40) + "x", [2, 11, 2, 41]),
        ("AG!(L3&r1=r2)\n".to_string(), [2, 11, 2, 14]),
        ("(L9&E(L1&L2))".to_string(), [2, 11, 2, 9]),
        ("!".repeat(32) + "L9", [2, 12, 2, 0]),
        ("(r1=c1&(L3>(L4|r3=c1)))".to_string(), [2, 5, 2, 3]),
    ] {
        let question = (inevitable().0, text);
        add(good(sample.clone(), equal.clone(), question), &[0], yes, &refused);
    }
    // Constants as large as can be; a number too large is 5, before 4, and is not taken for what 32 bits leave of it; the
    // old width of line 2 is 2.
    let constants = |lines: &str| {
        let mut text = line(&[1, 1, 2, 1, 1, 0]) + lines + &line(&[3, 0]) + &line(&[4, 1]);
        text += &line(&[5, 1, 1, 1, 3, 2]);
        text.into_bytes()
    };
    for (lines, refused) in [
        ("     2  4294967294\n     2  4294967295\n", None),
        ("     2  4294967295\n     2  4294967296\n", Some([2, 5, 1, 3])),
        ("     2           5\n     2  4294967303\n", Some([2, 5, 1, 3])),
        ("     2999999999999\n     2           7\n", Some([2, 5, 1, 2])),
        ("     2  4294967295\n     2  4294967294\n", Some([2, 4, 1, 3])),
        ("     2     0\n     2     1\n", Some([2, 2, 1, 2])),
    ] {
        let (reached, asked) = refused.as_ref().map_or((pass, yes), |r| (&r[..], &r[..]));
        add(good(constants(lines), target(0), rows(1)), reached, asked, asked);
    }
    // Where no step exists the segment stays, for questions. Other contents than the constant are stuck at a place with an
    // arc: they stay there, at the start of class 1, and the constant does not.
    let second = || line(&[4, 2]).into_bytes();
    let (constant, other): (&[u64], &[u64]) = (&[0, 0], &[0, 1]);
    for (question, reply) in [
        // Every row kind that speaks of steps, of places 1 and 2, of none and of all.
        (
            asked(
                &[
                    &[1, 1, 0],
                    &[1, 2, 0],
                    &[5, 1, 2],
                    &[4, 3, 0],
                    &[6, 1, 0],
                    &[6, 2, 0],
                    &[6, 3, 0],
                    &[6, 4, 0],
                    &[8, 1, 0],
                    &[8, 2, 0],
                    &[8, 3, 0],
                    &[8, 4, 0],
                    &[11, 1, 0],
                    &[11, 2, 0],
                    &[11, 3, 0],
                    &[11, 4, 0],
                    &[14, 1, 0],
                    &[14, 2, 0],
                    &[14, 3, 0],
                    &[14, 4, 0],
                    &[7, 1, 2],
                    &[12, 2, 0],
                    &[13, 1, 0],
                    &[10, 9, 23],
                ],
                "(EGL1>AGL1)",
            ),
            yes,
        ),
        (always(), other),
        (asked(&[&[1, 2, 0], &[6, 1, 0]], "EXL2"), other),
        (asked(&[&[1, 1, 0], &[6, 1, 0]], "EXL1"), constant),
        (asked(&[&[1, 1, 0], &[8, 1, 0]], "EGL1"), constant),
        (asked(&[&[2, 1, 1], &[6, 1, 0]], "EXr1=r1"), yes),
        (
            asked(&[&[3, 1, 1], &[4, 1, 0], &[11, 1, 0], &[10, 2, 3]], "(!r1=c1>AXr1=c1)"),
            other,
        ),
    ] {
        add(good(partly_stuck(), second(), question), &[1, 1, 3], reply, reply);
    }
    // An arc that can never be met counts for nothing: the segment stays at place 1.
    for never in [
        line(&[7, 1, 1, 2, 1, 1]),
        line(&[7, 2, 1, 1, 1, 1]) + &line(&[7, 2, 1, 2, 1, 1]),
        line(&[7, 2, 1, 1, 3, 1]) + &line(&[7, 2, 1, 1, 3, 2]),
    ] {
        let head = concat_lines(&[
            &[1, 1, 2, 2, 1, 1],
            &[2, 0],
            &[2, 7],
            &[3, 1],
            &[4, 1],
            &[5, 1, 1, 2, 3, 1],
            &[6, 1, 1, 2],
        ]);
        let table = [head, never.into_bytes(), line(&[8, 1, 1, 1]).into_bytes()].concat();
        let remains = asked(&[&[1, 1, 0], &[8, 1, 0], &[11, 2, 0]], "AXEGL1");
        add(good(table.clone(), second(), remains), &[0, 0, 2], yes, yes);
        add(good(table, second(), always()), &[0, 0, 2], other, other);
    }
    // The sample without its second arc stops at place 2, and goes on from place 1.
    let remains = asked(&[&[1, 2, 0], &[8, 1, 0], &[14, 2, 0]], "AFEGL2");
    add(good(sample_stopped(), third(), remains), &[0, 0, 2], yes, yes);
    add(good(sample_stopped(), third(), inevitable()), &[0, 0, 2], no, no);
    found
}

fn summary(name: &str, c: &Counts) -> String {
    let by_reply = |r: &[usize; 3]| [r[1], r[0], r[2]];
    let counts = [&c.reach, &c.ask, &c.ask_text, &c.replay].map(by_reply).concat();
    report(name, 8, &[vec![c.cases], counts, vec![0]].concat())
}

/// Writes FOLDER/data and FOLDER/stdout.
pub fn write(folder: &Path, seed: u64) -> io::Result<()> {
    let mut full = valid(seed, 5, Shape::Full, 4);
    full.extend((0..=5).map(|set| widest(&mut random_for(seed, 6, set), set)));
    let mut long = valid(seed, 4, Shape::Long, 14);
    long.extend(longest(seed));
    let groups = [
        ("examples", examples()),
        ("tiny", valid(seed, 1, Shape::Tiny, 120)),
        ("small", valid(seed, 2, Shape::Small, 140)),
        ("large", valid(seed, 3, Shape::Large, 36)),
        ("long", long),
        ("full", full),
        ("damaged", damaged(seed)),
    ];
    let data = fresh_data(folder)?;
    let mut text = titles(
        "group",
        8,
        &[
            "cases", "reached", "never", "refused", "yes", "no", "refused", "yes", "no", "refused", "good", "bad",
            "refused", "differ",
        ],
    );
    for (name, cases) in groups {
        let mut counts = Counts::default();
        let bytes: Vec<u8> = cases.iter().flat_map(|f| record(f, &mut counts)).collect();
        fs::write(data.join(name), bytes)?;
        text += &summary(name, &counts);
    }
    fs::write(folder.join("stdout"), text)
}
