//! The data of the test programs, with this engine's results, and what each program must print.
//!
//! `write` writes FOLDER/data and FOLDER/stdout of the program that the folder is named after. Where cases are read from
//! one file, a case begins with a header line: numbers of sixteen hexadecimal digits, each followed by a space, the last
//! by byte 10. Behind it stand the case's files and lists, each just behind the other; a list has eight hexadecimal
//! digits for a number.

pub mod answers;
pub mod classes;
pub mod random;
pub mod replayer;
pub mod steps;

use crate::print::{fields, with_identifiers};
use crate::random::Random;
use crate::read::Refusal;
use std::fs;
use std::io;
use std::path::Path;

/// The seed of the stored data; a case depends on the seed, its group and its own number only.
pub const SEED: u64 = 20_261_115;
/// What fills a lent buffer before a call: numbers of 32 bits, bytes.
pub const FILL: u32 = 0xaaaa_aaaa;
pub const FILL8: u32 = 0xaa;

/// FOLDER/data and FOLDER/stdout; none where no program has the folder's name.
pub fn write(folder: &Path, seed: u64) -> Option<io::Result<()>> {
    let name = folder.file_name()?.to_str()?;
    Some(match name {
        "test_random" => random::write(folder, seed),
        "test_classes" => classes::write(folder, seed),
        "test_steps" => steps::write(folder, seed),
        "test_answers" => answers::write(folder),
        "test_replayer" => replayer::write(folder, seed),
        _ => return None,
    })
}

/// An empty folder FOLDER/data.
fn fresh_data(folder: &Path) -> io::Result<std::path::PathBuf> {
    let data = folder.join("data");
    if data.exists() {
        fs::remove_dir_all(&data)?;
    }
    fs::create_dir_all(&data)?;
    Ok(data)
}

fn random_for(seed: u64, group: u64, case: usize) -> Random {
    Random::new(seed.wrapping_mul(1_000_003).wrapping_add(group * 100_000 + case as u64))
}

fn header(numbers: &[u64]) -> Vec<u8> {
    let numbers: Vec<String> = numbers.iter().map(|n| format!("{n:016x}")).collect();
    (numbers.join(" ") + "\n").into_bytes()
}

fn digits(list: &[u32]) -> Vec<u8> {
    list.iter().flat_map(|n| format!("{n:08x}").into_bytes()).collect()
}

/// A line of a report: a name, then each count in eight columns.
fn report(name: &str, width: usize, counts: &[usize]) -> String {
    let mut text = format!("{name:<width$}");
    for n in counts {
        text += &format!("{n:8}");
    }
    text + "\n"
}

fn titles(name: &str, width: usize, titles: &[&str]) -> String {
    let mut text = format!("{name:<width$}");
    for title in titles {
        text += &format!("{title:>8}");
    }
    text + "\n"
}

/// A refusal's numbers, as they go into a digest.
fn refusal_numbers(r: &Refusal) -> [u32; 3] {
    [r.number, r.file, r.line]
}

/// Lines of a table, a target or a question. Only a table has lines of two numbers whose kind is 2: its constants.
fn concat_lines(lines: &[&[usize]]) -> Vec<u8> {
    let line = |l: &[usize]| match *l {
        [2, identifier] => with_identifiers(&[2], &[identifier as u32]),
        _ => fields(l),
    };
    lines.iter().map(|l| line(l)).collect::<String>().into_bytes()
}

/// Document 01's sample, its sixteen lines.
const SAMPLE: [&[usize]; 16] = [
    &[1, 2, 1, 3, 2, 2],
    &[2, 0],
    &[3, 1],
    &[3, 1],
    &[4, 1],
    &[5, 1, 1, 1, 3, 1],
    &[5, 1, 2, 1, 3, 1],
    &[6, 1, 1, 2],
    &[7, 2, 1, 2, 3, 1],
    &[8, 1, 2, 1],
    &[8, 2, 3, 1],
    &[6, 2, 2, 3],
    &[7, 2, 1, 2, 1, 1],
    &[7, 2, 1, 2, 3, 1],
    &[8, 1, 1, 1],
    &[8, 2, 2, 1],
];

pub fn sample_table() -> Vec<u8> {
    concat_lines(&SAMPLE)
}

/// The sample without its second arc: it stops at place 2, translated.
fn sample_stopped() -> Vec<u8> {
    let mut lines = SAMPLE[..11].to_vec();
    lines[0] = &[1, 2, 1, 3, 2, 1];
    concat_lines(&lines)
}

/// A place with an arc that fits for some contents only: a parameter is to equal both the register and the constant. With
/// others the segment is stuck at place 1, and with all at place 2.
pub fn partly_stuck() -> Vec<u8> {
    concat_lines(&[
        &[1, 1, 1, 2, 1, 1],
        &[2, 0],
        &[3, 1],
        &[4, 1],
        &[6, 1, 1, 2],
        &[7, 2, 1, 1, 1, 1],
        &[7, 2, 1, 1, 3, 1],
        &[8, 1, 1, 1],
    ])
}

/// The sample without one of its lines.
fn sample_without(left_out: &[usize]) -> Vec<u8> {
    let sample = sample_table();
    let gone = fields(left_out).into_bytes();
    let at = sample
        .windows(gone.len())
        .position(|w| w == gone)
        .expect("a line of the sample");
    [&sample[..at], &sample[at + gone.len()..]].concat()
}
