//! Folders of cases: written, and their expected results put beside them.
//!
//! DIR/NNNNN/ holds table.txt, target.txt, question.txt, question_text.txt and run.txt (the
//! replayer's list, one number a line). `expect` adds reach.out, ask.out, ask_text.out and
//! replay.out (printouts), reach.digest, ask.digest and ask_text.digest, and DIR/summary.txt: one
//! line per case and call.

use crate::answer::{ask, ask_text, reach};
use crate::generate::{case, Shape};
use crate::mutate::mutate;
use crate::print::{asked, reached, replayed, Form};
use crate::random::Random;
use crate::replay::replay;
use crate::texts;
use crate::write;
use std::fs;
use std::io;
use std::path::{Path, PathBuf};

/// Which shapes, and whether one file of each case is damaged.
pub fn shape(random: &mut Random, name: &str) -> Option<(Shape, bool)> {
    let small = |random: &mut Random| if random.percent(50) { Shape::Tiny } else { Shape::Small };
    Some(match name {
        "tiny" => (Shape::Tiny, false),
        "small" => (Shape::Small, false),
        "large" => (Shape::Large, false),
        "long" => (Shape::Long, false),
        "full" => (Shape::Full, false),
        "damaged" => (if random.percent(5) { Shape::Full } else { small(random) }, true),
        "mixed" => match random.below(100) {
            0..=54 => (small(random), false),
            55..=64 => (Shape::Large, false),
            65..=69 => (Shape::Long, false),
            70..=71 => (Shape::Full, false),
            _ => (small(random), true),
        },
        _ => return None,
    })
}

/// Sets the seeds of texts apart.
const TEXTS: u64 = 0x7465_7874 << 32;

pub fn generate(seed: u64, count: usize, dir: &Path, name: &str) -> io::Result<()> {
    for i in 1..=count {
        // Each case from a seed of its own, so that one can be made again alone.
        let mut random = Random::new(seed.wrapping_mul(1_000_003).wrapping_add(i as u64));
        let Some((shape, damaged)) = shape(&mut random, name) else {
            return Err(io::Error::new(io::ErrorKind::InvalidInput, "no such shape"));
        };
        let case = case(&mut random, shape);
        // The text from a generator of its own: it came later, and the other files stay as they were.
        let mut drawn = Random::new(seed.wrapping_mul(1_000_003).wrapping_add(i as u64) ^ TEXTS);
        let text = if damaged {
            texts::damaged(&mut drawn, &case.table)
        } else {
            texts::good(&mut drawn, &case.table).text().into_bytes()
        };
        let mut files = [
            ("table.txt", write::table(&case.table)),
            ("target.txt", write::target(&case.target)),
            ("question.txt", write::question(&case.question)),
            ("question_text.txt", text),
            ("run.txt", write::list(&case.list)),
        ];
        if damaged {
            // The table, or both other files.
            if random.percent(60) {
                files[0].1 = mutate(&mut random, &files[0].1);
            } else {
                files[1].1 = mutate(&mut random, &files[1].1);
                files[2].1 = mutate(&mut random, &files[2].1);
            }
        }
        let folder = dir.join(format!("{i:05}"));
        fs::create_dir_all(&folder)?;
        for (file, bytes) in files {
            fs::write(folder.join(file), bytes)?;
        }
    }
    Ok(())
}

/// An unreadable file counts as empty.
pub fn bytes(path: &Path) -> Vec<u8> {
    fs::read(path).unwrap_or_default()
}

pub fn numbers(path: &Path) -> Option<Vec<u32>> {
    let text = fs::read_to_string(path).ok()?;
    text.split_whitespace().map(|w| w.parse().ok()).collect()
}

pub fn expect(dir: &Path) -> io::Result<usize> {
    let mut folders: Vec<PathBuf> = Vec::new();
    for entry in fs::read_dir(dir)? {
        let path = entry?.path();
        if path.is_dir() {
            folders.push(path);
        }
    }
    folders.sort();
    let mut summary = String::new();
    for folder in &folders {
        let table = bytes(&folder.join("table.txt"));
        let reach = reach(&table, &bytes(&folder.join("target.txt")), None);
        let ask = ask(&table, &bytes(&folder.join("question.txt")), None);
        let ask_text = ask_text(&table, &bytes(&folder.join("question_text.txt")), None);
        let list = numbers(&folder.join("run.txt")).unwrap_or_default();
        let replay = replay(&table, &list);
        let (r, a) = (reached(Form::Digest, &reach), asked(Form::Digest, &ask));
        let (t, p) = (asked(Form::Digest, &ask_text), replayed(Form::Digest, &replay));
        fs::write(folder.join("reach.out"), reached(Form::Fields, &reach))?;
        fs::write(folder.join("ask.out"), asked(Form::Fields, &ask))?;
        fs::write(folder.join("ask_text.out"), asked(Form::Fields, &ask_text))?;
        fs::write(folder.join("replay.out"), replayed(Form::Fields, &replay))?;
        let name = folder.file_name().unwrap_or_default().to_string_lossy().into_owned();
        for (call, text) in [("reach", &r), ("ask", &a), ("ask_text", &t), ("replay", &p)] {
            summary.push_str(&format!("{name} {call} {}\n", text.trim_end().replace('\n', " ")));
        }
        fs::write(folder.join("reach.digest"), r)?;
        fs::write(folder.join("ask.digest"), a)?;
        fs::write(folder.join("ask_text.digest"), t)?;
    }
    fs::write(dir.join("summary.txt"), summary)?;
    Ok(folders.len())
}
