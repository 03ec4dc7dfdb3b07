//! The stored data of the test programs: what the engine writes is what is stored, and the boundary cases of reading,
//! whose results stand in boundaries.py by hand, are as the engine judges them.

use engine::cases::bytes;
use engine::print::fields;
use engine::read::{read_question, read_table, read_target, Refusal};
use engine::text::read_text;
use engine::trials::{self, SEED};
use std::collections::BTreeMap;
use std::fs;
use std::path::{Path, PathBuf};

fn crates() -> PathBuf {
    Path::new(env!("CARGO_MANIFEST_DIR")).join("../crates")
}

/// All files below a folder.
fn files(folder: &Path, below: &str, found: &mut BTreeMap<String, Vec<u8>>) {
    for entry in fs::read_dir(folder).expect("a folder") {
        let path = entry.expect("an entry").path();
        let name = format!("{below}/{}", path.file_name().unwrap_or_default().to_string_lossy());
        if path.is_dir() {
            files(&path, &name, found);
        } else {
            found.insert(name, fs::read(&path).expect("a file"));
        }
    }
}

fn stored(folder: &Path) -> BTreeMap<String, Vec<u8>> {
    let mut found = BTreeMap::new();
    files(&folder.join("data"), "data", &mut found);
    found.insert("stdout".to_string(), fs::read(folder.join("stdout")).expect("stdout"));
    found
}

/// What `engine trials` writes for a program; all but test_random, which takes minutes.
#[test]
fn written() {
    let room = std::env::temp_dir().join(format!("engine-stored-{}", std::process::id()));
    for name in ["test_classes", "test_steps", "test_answers", "test_replayer"] {
        let folder = room.join(name);
        fs::create_dir_all(&folder).expect("a folder");
        trials::write(&folder, SEED).expect("a program").expect("written");
        let (new, old) = (stored(&folder), stored(&crates().join(name)));
        let names = |m: &BTreeMap<String, Vec<u8>>| m.keys().cloned().collect::<Vec<_>>();
        assert_eq!(names(&new), names(&old), "{name}");
        for (file, bytes) in &new {
            assert!(bytes == &old[file], "{name}/{file}");
        }
    }
    fs::remove_dir_all(room).expect("removed");
}

/// The refusal, zeros where all is read, and the files that are there.
fn judged(data: &Path, case: &str) -> [usize; 4] {
    let part = |kind: &str| data.join(format!("{case}.{kind}"));
    if !part("table").exists() {
        return [0; 4];
    }
    let line = |files: usize, r: Option<Refusal>| {
        let r = r.map_or([0; 3], |r| [r.number, r.file, r.line]);
        [r[0] as usize, r[1] as usize, r[2] as usize, files]
    };
    let table = match read_table(&bytes(&part("table"))) {
        Ok(table) => table,
        Err(r) => return line(1, Some(r)),
    };
    if part("target").exists() {
        return line(3, read_target(&table, &bytes(&part("target"))).err());
    }
    if part("question").exists() {
        return line(5, read_question(&table, &bytes(&part("question"))).err());
    }
    if part("text").exists() {
        return line(9, read_text(&table, &bytes(&part("text"))).err());
    }
    line(1, None)
}

#[test]
fn boundaries() {
    let folder = crates().join("test_reading");
    let text = fs::read_to_string(folder.join("stdout")).expect("stdout");
    for (i, line) in text.lines().enumerate() {
        let seen = judged(&folder.join("data"), &format!("{:03}", i + 1));
        let numbers = [vec![i + 1], seen.to_vec()].concat();
        assert_eq!(fields(&numbers), format!("{line}\n"));
    }
}
