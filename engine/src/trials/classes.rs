//! The data of the program `test_classes`: cases of the seven calls on contents, classes and matrices alone.
//!
//! A file for each call. A case is its header, then the list of constants and the contents that the call is given, and
//! the bytes of its matrix. The header's numbers: call, registers, constants (for the calls that take their number), class; lengths of the
//! list of constants, of the contents and of the matrix; how many numbers of the buffer are lent; reply (0 an answer,
//! else the refusal's number), digest of the outcome. A call takes some of these; those it does not take are 0.
//!
//! The outcome of a call is a list of numbers: its answer as two halves, the lower first, or all of the buffer (OUT
//! numbers or ENTRIES entries, the first of them lent) after the call; behind that the numbers of a refusal.
//!
//! The file `sweeps`: for a header with registers, constants, classes and a digest, and its list of constants, the
//! program makes six calls for each class and for the number behind the last (`sweep`), and digests their outcomes.

use super::{digits, fresh_data, header, random_for, refusal_numbers, report, titles, FILL, FILL8};
use crate::class::{
    class_count, class_of_contents, class_of_matrix, contents_of_class, contents_of_matrix, matrix_of, matrix_of_class,
    matrix_of_contents, room, Classes,
};
use crate::print::digest;
use crate::random::Random;
use crate::read::Refusal;
use std::fs;
use std::io;
use std::path::Path;

/// The buffers of the program, of which a part is lent.
const OUT: usize = 16;
const ENTRIES: usize = 64;
/// The refusals that have a column.
const REFUSALS: [u32; 5] = [9, 3, 4, 5, 10];

#[derive(Clone, Copy, PartialEq, Eq)]
enum Call {
    ClassCount = 1,
    ClassOf,
    ContentsOf,
    MatrixOf,
    MatrixOfClass,
    ClassOfMatrix,
    ContentsOfMatrix,
}

use Call::*;

const CALLS: [(Call, &str); 7] = [
    (ClassCount, "class_count"),
    (ClassOf, "class_of"),
    (ContentsOf, "contents_of"),
    (MatrixOf, "matrix_of"),
    (MatrixOfClass, "matrix_of_class"),
    (ClassOfMatrix, "class_of_matrix"),
    (ContentsOfMatrix, "contents_of_matrix"),
];

impl Call {
    /// Whether the call takes a list of constants (else their number), contents, a matrix, a class.
    fn lists(self) -> bool {
        matches!(self, ClassOf | ContentsOf | MatrixOf | ContentsOfMatrix)
    }

    fn contents(self) -> bool {
        matches!(self, ClassOf | MatrixOf)
    }

    fn matrix(self) -> bool {
        matches!(self, ClassOfMatrix | ContentsOfMatrix)
    }

    fn class(self) -> bool {
        matches!(self, ContentsOf | MatrixOfClass)
    }

    /// How many numbers or entries it writes for so many registers.
    fn writes(self, registers: u32) -> Option<u64> {
        match self {
            ContentsOf | ContentsOfMatrix => Some(registers as u64),
            MatrixOf | MatrixOfClass => Some(registers as u64 * registers as u64),
            _ => None,
        }
    }
}

#[derive(Clone)]
struct Case {
    call: Call,
    registers: u32,
    constants: u32,
    list: Vec<u32>,
    class: u64,
    contents: Vec<u32>,
    matrix: Vec<u32>,
    room: usize,
}

/// What a call gives: its reply's numbers, or what it writes.
enum Given {
    Number(usize),
    Written(Vec<u32>),
}

/// As many constants as a call is told, three where there are more.
fn some_constants(count: u32) -> Vec<u32> {
    (0..count.min(3)).collect()
}

fn answer(c: &Case) -> Result<Given, Refusal> {
    let registers = c.registers as usize;
    if let Some(n) = c.call.writes(c.registers) {
        room(n, c.room)?;
    }
    let counted = some_constants(c.constants);
    let class = c.class as usize;
    Ok(match c.call {
        ClassCount => Given::Number(class_count(registers, c.constants as usize)?),
        ClassOf => Given::Number(class_of_contents(registers, &c.list, &c.contents)?),
        ContentsOf => Given::Written(contents_of_class(registers, &c.list, class)?),
        MatrixOf => Given::Written(matrix_of_contents(registers, &c.list, &c.contents)?),
        MatrixOfClass => Given::Written(matrix_of_class(registers, &counted, class)?),
        ClassOfMatrix => Given::Number(class_of_matrix(registers, &counted, &c.matrix)?),
        ContentsOfMatrix => Given::Written(contents_of_matrix(registers, &c.list, &c.matrix)?),
    })
}

/// The reply (0 or the refusal's number) and the digest of the outcome.
fn outcome(c: &Case) -> (u32, u64) {
    let given = answer(c);
    let mut numbers = match c.call {
        ContentsOf | ContentsOfMatrix => vec![FILL; OUT],
        MatrixOf | MatrixOfClass => vec![FILL8; ENTRIES],
        _ => vec![],
    };
    let reply = match given {
        Ok(Given::Number(n)) => {
            numbers.extend([n as u32, (n as u64 >> 32) as u32]);
            0
        }
        Ok(Given::Written(list)) => {
            numbers[..list.len()].copy_from_slice(&list);
            0
        }
        Err(r) => {
            numbers.extend(refusal_numbers(&r));
            r.number
        }
    };
    (reply, digest(&numbers))
}

fn constants(random: &mut Random, count: usize) -> Vec<u32> {
    let pool = [0, 1, 2, 3, 7, 14, 15, 999_999, 1_000_000, 1 << 31, FILL, u32::MAX];
    let mut list: Vec<u32> = Vec::new();
    while list.len() < count {
        let c = *random.pick(&pool);
        if !list.contains(&c) {
            list.push(c);
        }
    }
    list.sort_unstable();
    list
}

fn contents(random: &mut Random, registers: usize, constants: &[u32]) -> Vec<u32> {
    let mut pool = constants.to_vec();
    pool.extend([0, 1, 7, u32::MAX, random.draw() as u32]);
    (0..registers).map(|_| *random.pick(&pool)).collect()
}

/// A case that is answered, where registers and constants are within their limits.
fn case(random: &mut Random, call: Call, registers: u32, count: usize) -> Case {
    let list = constants(random, count);
    let contents = contents(random, registers as usize, &list);
    let classes = class_count(registers as usize, count).unwrap_or(1);
    let last = random.percent(20);
    let class = if last { classes - 1 } else { random.below(classes) };
    let matrix = matrix_of(&list, &contents);
    let written = call.writes(registers);
    let more = *random.pick(&[0, 0, 1, 3]);
    let only = |yes: bool, numbers: Vec<u32>| if yes { numbers } else { vec![] };
    Case {
        call,
        registers,
        constants: if call.lists() { 0 } else { count as u32 },
        class: if call.class() { class as u64 } else { 0 },
        contents: only(call.contents(), contents),
        matrix: only(call.matrix(), matrix),
        list: only(call.lists(), list),
        room: written.map_or(0, |n| n as usize + more),
    }
}

/// What can be wrong with a case. Where a call does not take the number or list, nothing changes.
const WRONGS: usize = 16;

fn spoil(random: &mut Random, c: &mut Case, wrong: usize) {
    let classes = class_count(c.registers as usize, c.list.len().max(c.constants as usize)).unwrap_or(1) as u64;
    let shift = |list: &mut Vec<u32>, longer: bool| {
        if longer {
            list.push(0);
        } else {
            list.pop();
        }
    };
    match wrong {
        // 9: contents, matrix or room of a wrong length.
        0 | 1 => {
            if c.call.contents() {
                shift(&mut c.contents, wrong == 0);
            }
            if c.call.matrix() {
                shift(&mut c.matrix, wrong == 0);
            }
        }
        2 => {
            c.room = c
                .room
                .min(c.call.writes(c.registers).map_or(0, |n| n.saturating_sub(1)) as usize)
        }
        3 => c.room = 0,
        // 3, and 9 where a length goes with it.
        4 => c.registers = 6,
        5 => c.registers = *random.pick(&[7, 8, 65_535, 65_536, 1 << 31, u32::MAX]),
        6 => {
            if c.call.lists() {
                c.list = constants(random, 3);
            } else {
                c.constants = 3;
            }
        }
        7 => {
            if c.call.lists() {
                c.list = constants(random, 4);
            } else {
                c.constants = *random.pick(&[4, 65_536, 1 << 31, u32::MAX]);
            }
        }
        // 4: constants that do not rise.
        8 | 9 => {
            if c.call.lists() {
                let x = random.below(9) as u32;
                c.list = if wrong == 8 { vec![x, x] } else { vec![x + 1, x] };
            }
        }
        10 => c.list.reverse(),
        // 5: classes behind the last.
        11 if c.call.class() => c.class = classes,
        12 if c.call.class() => c.class = classes + random.below(300) as u64,
        13 if c.call.class() => c.class = *random.pick(&[674, 1 << 16, 1 << 32, (1 << 32) + 1, 1 << 63, u64::MAX]),
        // 10: an entry that does not go with the others, or has no meaning.
        14 | 15 if !c.matrix.is_empty() => {
            let at = random.below(c.matrix.len());
            let entries: &[u32] = if wrong == 14 { &[0, 1, 2, 3] } else { &[4, 5, 170, 255] };
            c.matrix[at] = *random.pick(entries);
        }
        _ => {}
    }
}

/// The cases of a call: each number of registers and constants, then each kind of wrong, then two of them at once.
fn cases(seed: u64, call: Call) -> Vec<Case> {
    let mut found = Vec::new();
    let mut number = 0;
    let mut random = || {
        number += 1;
        random_for(seed, 20 + call as u64, number)
    };
    for registers in 0..=5 {
        for count in 0..=2 {
            found.push(case(&mut random(), call, registers, count));
        }
    }
    let any = |random: &mut Random| {
        let (registers, count) = (random.between(1, 5) as u32, random.between(0, 2));
        case(random, call, registers, count)
    };
    // The counts past their limits, with lengths that go with them.
    for (registers, count) in [(6, 0), (6, 2), (0, 3), (5, 3), (6, 3)] {
        found.push(case(&mut random(), call, registers, count));
    }
    let good = |c: &Case| outcome(c).0 == 0;
    let mut spoilt = |wrongs: &[usize]| {
        let mut random = random();
        let mut c = any(&mut random);
        let before = outcome(&c);
        for &wrong in wrongs {
            spoil(&mut random, &mut c, wrong);
        }
        // What changed nothing is no further case; a spoilt matrix may be another good one.
        if outcome(&c) != before || (!good(&c) && wrongs.len() == 1) {
            found.push(c);
        }
    };
    for wrong in 0..WRONGS {
        spoilt(&[wrong]);
    }
    for first in [0, 2, 4, 6, 8, 11, 14] {
        for second in [3, 7, 9, 13, 15] {
            if (first + second) % 3 == 0 {
                spoilt(&[first, second]);
            }
        }
    }
    found
}

fn record(c: &Case) -> Vec<u8> {
    let (reply, digest) = outcome(c);
    let mut bytes = header(&[
        c.call as u64,
        c.registers as u64,
        c.constants as u64,
        c.class,
        c.list.len() as u64,
        c.contents.len() as u64,
        c.matrix.len() as u64,
        c.room as u64,
        reply as u64,
        digest,
    ]);
    bytes.extend(digits(&c.list));
    bytes.extend(digits(&c.contents));
    bytes.extend(c.matrix.iter().map(|&entry| entry as u8));
    bytes
}

/// Every class and the number behind the last: contents of the class, the class and the matrix of those; the matrix of
/// the class, the class and the contents of that. Buffers are lent just as long as is written, or one longer in turn.
fn sweep(registers: u32, list: &[u32]) -> (usize, u64) {
    let classes = Classes::new(registers as usize, list).count();
    let entries = (registers * registers) as usize;
    let mut outcomes = Vec::new();
    for class in 0..=classes as u64 {
        let more = (class % 2) as usize;
        let blank = |call: Call| Case {
            call,
            registers,
            constants: if call.lists() { 0 } else { list.len() as u32 },
            list: if call.lists() { list.to_vec() } else { vec![] },
            class: if call.class() { class } else { 0 },
            contents: vec![],
            matrix: vec![],
            room: call.writes(registers).unwrap_or(0) as usize + more,
        };
        let written = |c: &Case, fill: u32, length: usize| match answer(c) {
            Ok(Given::Written(list)) => list,
            _ => vec![fill; length],
        };
        let contents_of = blank(ContentsOf);
        let contents = written(&contents_of, FILL, registers as usize);
        let matrix_of_class = blank(MatrixOfClass);
        let matrix = written(&matrix_of_class, FILL8, entries);
        let class_of = Case {
            contents: contents.clone(),
            ..blank(ClassOf)
        };
        let matrix_of = Case {
            contents,
            ..blank(MatrixOf)
        };
        let class_of_matrix = Case {
            matrix: matrix.clone(),
            ..blank(ClassOfMatrix)
        };
        let contents_of_matrix = Case {
            matrix,
            ..blank(ContentsOfMatrix)
        };
        for c in [
            contents_of,
            class_of,
            matrix_of,
            matrix_of_class,
            class_of_matrix,
            contents_of_matrix,
        ] {
            let (_, d) = outcome(&c);
            outcomes.extend([d as u32, (d >> 32) as u32]);
        }
    }
    (classes, digest(&outcomes))
}

/// Each number of registers and constants; the constants small, apart, and as large as can be.
fn sweeps() -> Vec<(u32, Vec<u32>)> {
    let largest = [u32::MAX - 1, u32::MAX];
    let lists: [&[u32]; 7] = [&[], &[0], &[5], &[u32::MAX], &[0, 1], &[2, u32::MAX], &largest];
    (0..=5)
        .flat_map(|r| lists.iter().map(move |l| (r, l.to_vec())))
        .collect()
}

/// Writes FOLDER/data and FOLDER/stdout.
pub fn write(folder: &Path, seed: u64) -> io::Result<()> {
    let data = fresh_data(folder)?;
    let mut text = titles("call", 18, &["cases", "answer", "9", "3", "4", "5", "10", "differ"]);
    for (call, name) in CALLS {
        let cases = cases(seed, call);
        let replies: Vec<u32> = cases.iter().map(|c| outcome(c).0).collect();
        let count = |reply: u32| replies.iter().filter(|&&r| r == reply).count();
        let mut counts = vec![cases.len(), count(0)];
        counts.extend(REFUSALS.map(count));
        // Each refusal that the call can give is tried.
        let can = [call != ClassCount, true, call.lists(), call.class(), call.matrix()];
        for (n, can) in counts[2..].iter().zip(can) {
            assert_eq!(*n > 0, can, "{name}");
        }
        counts.push(0);
        fs::write(data.join(name), cases.iter().flat_map(record).collect::<Vec<u8>>())?;
        text += &report(name, 18, &counts);
    }
    text += &titles("every class", 18, &["sweeps", "classes", "differ"]);
    let mut bytes = Vec::new();
    let mut all = 0;
    for (registers, list) in sweeps() {
        let (classes, digest) = sweep(registers, &list);
        all += classes;
        bytes.extend(header(&[registers as u64, list.len() as u64, classes as u64, digest]));
        bytes.extend(digits(&list));
    }
    fs::write(data.join("sweeps"), bytes)?;
    text += &report("", 18, &[sweeps().len(), all, 0]);
    fs::write(folder.join("stdout"), text)
}
