//! The C functions on many inputs: valid and damaged, short and long, each compared with the engine.

use engine::answer;
use engine::counter::{counter, falling};
use engine::generate::{case, Shape};
use engine::mutate::{mutate, IDENTIFIERS};
use engine::print::fields;
use engine::random::Random;
use engine::read::Refusal;
use engine::table::Row;
use engine::text::rows;
use engine::texts;
use engine::trials::{partly_stuck, sample_table};
use engine::write;

/// Runs a test with the stack that a C program's first thread has.
fn on_stack(test: fn()) {
    let thread = std::thread::Builder::new().stack_size(8 << 20).spawn(test);
    thread.expect("a thread").join().expect("the test");
}

fn code<T>(answer: &Result<T, Refusal>, yes: impl Fn(&T) -> bool) -> u32 {
    match answer {
        Ok(a) => yes(a) as u32,
        Err(r) => 100 + r.number,
    }
}

/// Both calls against the engine; the codes.
fn compare(table: &[u8], target: &[u8], question: &[u8], what: &str) -> [u32; 2] {
    let reached = code(&answer::reach(table, target, None), |a| a.reached);
    let asked = code(&answer::ask(table, question, None), |a| a.yes);
    assert_eq!(calls::reach(table, target), reached, "reach, {what}");
    assert_eq!(calls::ask(table, question), asked, "ask, {what}");
    [reached, asked]
}

/// The call by text against the engine; the code.
fn compare_text(table: &[u8], text: &[u8], what: &str) -> u32 {
    let asked = code(&answer::ask_text(table, text, None), |a| a.yes);
    assert_eq!(calls::ask_text(table, text), asked, "ask_text, {what}");
    asked
}

struct Files {
    table: Vec<u8>,
    target: Vec<u8>,
    question: Vec<u8>,
}

fn files(random: &mut Random, shape: Shape) -> Files {
    let c = case(random, shape);
    Files {
        table: write::table(&c.table),
        target: write::target(&c.target),
        question: write::question(&c.question),
    }
}

fn sample() -> Files {
    Files {
        table: sample_table(),
        target: (fields(&[4, 3]) + &fields(&[5, 1, 1, 2, 1, 2])).into_bytes(),
        question: (fields(&[1, 3, 0]) + &fields(&[14, 1, 0])).into_bytes(),
    }
}

#[test]
fn the_sample() {
    on_stack(|| {
        let f = sample();
        assert_eq!(compare(&f.table, &f.target, &f.question, "sample"), [1, 1]);
    });
}

#[test]
fn valid_files() {
    on_stack(|| {
        let mut seen = [0; 4];
        for (shape, count) in [
            (Shape::Tiny, 2000),
            (Shape::Small, 600),
            (Shape::Large, 40),
            (Shape::Long, 12),
            (Shape::Full, 4),
        ] {
            for seed in 0..count {
                let f = files(&mut Random::new(50_000 + seed), shape);
                let [r, a] = compare(&f.table, &f.target, &f.question, &format!("{shape:?} {seed}"));
                seen[r as usize] += 1;
                seen[2 + a as usize] += 1;
            }
        }
        assert!(seen.iter().all(|&n| n > 100), "{seen:?}");
    });
}

#[test]
fn damaged_files() {
    on_stack(|| {
        let mut seen = [0; 9];
        for seed in 0..4000 {
            let mut random = Random::new(70_000 + seed);
            let shape = if seed % 400 == 0 { Shape::Full } else { Shape::Tiny };
            let mut f = files(&mut random, shape);
            match random.below(3) {
                0 => f.table = mutate(&mut random, &f.table),
                1 => f.target = mutate(&mut random, &f.target),
                _ => f.question = mutate(&mut random, &f.question),
            }
            for c in compare(&f.table, &f.target, &f.question, &format!("{seed}")) {
                if c >= 100 {
                    seen[c as usize - 100] += 1;
                }
            }
        }
        assert!(seen[1..].iter().all(|&n| n > 5), "{seen:?}");
    });
}

/// Every beginning of each file of the sample.
#[test]
fn short_files() {
    on_stack(|| {
        let f = sample();
        for n in 0..=f.table.len() {
            compare(&f.table[..n], &f.target, &f.question, &format!("table of {n} bytes"));
        }
        for n in 0..=f.target.len() {
            compare(&f.table, &f.target[..n], &f.question, &format!("target of {n} bytes"));
        }
        for n in 0..=f.question.len() {
            compare(&f.table, &f.target, &f.question[..n], &format!("question of {n} bytes"));
        }
        compare(&[], &[], &[], "nothing");
    });
}

/// Files at their limits, above them, and far above them.
#[test]
fn long_files() {
    on_stack(|| {
        let f = sample();
        for n in [39_999, 40_000, 40_001, 40_002, 65_536, 1_000_000] {
            for byte in [b' ', b'0', 10, 0, 255] {
                let mut table = f.table.clone();
                table.resize(n, byte);
                compare(&table, &f.target, &f.question, &format!("table of {n} bytes"));
            }
        }
        for n in [308, 309, 310, 311, 607, 608, 609, 610, 40_001, 1_000_000] {
            let mut target = f.target.clone();
            target.resize(n, 10);
            let mut question = f.question.clone();
            question.resize(n, 10);
            compare(&f.table, &target, &question, &format!("others of {n} bytes"));
        }
        // As many good lines as fit, and one more.
        for n in [8, 9] {
            let target = (fields(&[4, 1]) + &fields(&[5, 1, 1, 1, 1, 1]).repeat(n)).into_bytes();
            let question = fields(&[1, 1, 0]).repeat(4 * n).into_bytes();
            compare(&f.table, &target, &question, &format!("{n} conditions"));
        }
        for n in [31, 32, 33] {
            let question = fields(&[1, 1, 0]).repeat(n).into_bytes();
            compare(&f.table, &f.target, &question, &format!("{n} rows"));
        }
    });
}

/// Every byte of the sample's files replaced by others.
#[test]
fn wrong_bytes() {
    on_stack(|| {
        let f = sample();
        for byte in [0, 9, 10, 13, b' ', b'-', b'0', b'1', b'2', b'3', b'9', b'a', 255] {
            for i in 0..f.table.len() {
                let mut table = f.table.clone();
                table[i] = byte;
                compare(
                    &table,
                    &f.target,
                    &f.question,
                    &format!("byte {i} of the table is {byte}"),
                );
            }
            for i in 0..f.target.len() {
                let mut target = f.target.clone();
                target[i] = byte;
                compare(
                    &f.table,
                    &target,
                    &f.question,
                    &format!("byte {i} of the target is {byte}"),
                );
            }
            for i in 0..f.question.len() {
                let mut question = f.question.clone();
                question[i] = byte;
                compare(
                    &f.table,
                    &f.target,
                    &question,
                    &format!("byte {i} of the question is {byte}"),
                );
            }
        }
    });
}

/// Lines 2 at the limits of an identifier and of its columns, as the first and as the second constant.
#[test]
fn identifiers() {
    on_stack(|| {
        let below = [0, 7, 999_999, 1_000_000, 2_147_483_647, 2_147_483_648];
        let numbers = [&below[..], &IDENTIFIERS].concat();
        let [target, question] = [&[4, 1][..], &[1, 1, 0]].map(|l| fields(l).into_bytes());
        let mut seen = [0; 6];
        let mut try_lines = |constants: usize, lines: &str| {
            let table = fields(&[1, 1, constants, 1, 1, 0]) + lines + &fields(&[3, 0]) + &fields(&[4, 1]);
            let [code, _] = compare(table.as_bytes(), &target, &question, lines);
            seen[code.saturating_sub(100) as usize] += 1;
        };
        for &a in &numbers {
            for line in [
                format!("     2{a:12}\n"),
                format!("     2{a:6}\n"),
                format!("     2{a:11}\n"),
                format!("     2{a:13}\n"),
                format!("     2{a:<12}\n"),
                format!("     2{a:012}\n"),
                format!("     2{a:+12}\n"),
                format!("     2{a:12}"),
                format!("     2{a:12}     0\n"),
                format!("     2{a:12}           0\n"),
                format!("     3{a:12}\n"),
                format!("           2{a:12}\n"),
            ] {
                for constants in 0..=2 {
                    try_lines(constants, &line);
                }
            }
            for &b in &numbers {
                try_lines(2, &format!("     2{a:12}\n     2{b:12}\n"));
                try_lines(1, &format!("     2{a:12}\n     2{b:12}\n"));
            }
        }
        for number in [0, 2, 4, 5] {
            assert!(seen[number] > 10, "{seen:?}");
        }
    });
}

/// Questions as text that are read, of up to 32 rows; their rows by the other call give the same.
#[test]
fn valid_texts() {
    on_stack(|| {
        let mut seen = [0; 2];
        for (shape, count) in [
            (Shape::Tiny, 2000),
            (Shape::Small, 400),
            (Shape::Large, 30),
            (Shape::Full, 4),
        ] {
            for seed in 0..count {
                let mut random = Random::new(110_000 + seed);
                let c = case(&mut random, shape);
                let table = write::table(&c.table);
                let tree = texts::good(&mut random, &c.table);
                let asked = compare_text(&table, tree.text().as_bytes(), &format!("{shape:?} {seed}"));
                assert_eq!(
                    calls::ask(&table, &write::question(&tree.rows())),
                    asked,
                    "{}",
                    tree.text()
                );
                seen[asked as usize] += 1;
            }
        }
        assert!(seen.iter().all(|&n| n > 100), "{seen:?}");
    });
}

#[test]
fn damaged_texts() {
    on_stack(|| {
        let mut seen = [0; 13];
        for seed in 0..20_000 {
            let mut random = Random::new(130_000 + seed);
            let c = case(&mut random, Shape::Tiny);
            let text = texts::damaged(&mut random, &c.table);
            let mut table = write::table(&c.table);
            if seed % 20 == 0 {
                table = mutate(&mut random, &table);
            }
            let asked = compare_text(&table, &text, &format!("{seed}"));
            if asked >= 100 {
                seen[asked as usize - 100] += 1;
            }
        }
        for number in [1, 2, 5, 7, 11, 12] {
            assert!(seen[number] > 5, "{seen:?}");
        }
    });
}

/// Every string of at most four bytes over a small alphabet.
#[test]
fn short_texts() {
    on_stack(|| {
        let table = sample_table();
        let mut level: Vec<Vec<u8>> = vec![vec![]];
        for _ in 0..=4 {
            for text in &level {
                // Most are turned back: the engine's answer only where it is needed.
                if rows(text).is_ok() {
                    compare_text(&table, text, &format!("{text:?}"));
                } else {
                    assert_eq!(calls::ask_text(&table, text), 111, "{text:?}");
                }
            }
            level = level
                .iter()
                .flat_map(|w| b"Lrc10=!()&UEXA".iter().map(move |&b| [&w[..], &[b]].concat()))
                .collect();
        }
    });
}

/// Texts at the limit of bytes and beyond, nested as deep as they can be, and every byte of one replaced.
#[test]
fn long_texts() {
    on_stack(|| {
        let table = sample_table();
        for seed in 0..400 {
            let mut random = Random::new(170_000 + seed);
            let bytes = *random.pick(&[31, 32, 33, 34, 255, 256, 257, 399, 400, 401, 402]);
            let text = texts::nested(&mut random, bytes);
            compare_text(&table, &text, &format!("{bytes} bytes"));
            compare_text(&table, &text[..bytes - 1], &format!("{bytes} bytes without the last"));
        }
        for bytes in [399, 400, 401, 65_536, 65_540, 1_000_000] {
            for byte in [b'!', b'(', b'E', b'L', b'1', 0, 10, 255] {
                compare_text(&table, &vec![byte; bytes], &format!("{bytes} times {byte}"));
            }
        }
        let text = b"E((L1&r1=r2)U(AG!r2=c1>EF(L1|L3)))";
        for i in 0..text.len() {
            for byte in 0..=255 {
                let mut other = text.to_vec();
                other[i] = byte;
                compare_text(&table, &other, &format!("byte {i} is {byte}"));
            }
        }
    });
}

/// The longest run that the counters give, and 10,783 rounds.
#[test]
fn long_work() {
    on_stack(|| {
        let (table, target) = counter(&mut Random::new(1), 5, 15, true);
        let question = [(1, 1, 0), (12, 1, 0), (13, 2, 0)].map(|(kind, a, b)| Row { kind, a, b });
        let (table, target) = (write::table(&table), write::target(&target));
        assert_eq!(compare(&table, &target, &write::question(&question), "counter"), [1, 1]);
        let (table, target, question) = falling();
        let (table, target) = (write::table(&table), write::target(&target));
        assert_eq!(compare(&table, &target, &write::question(&question), "falling"), [1, 0]);
    });
}

/// Where no step exists the segment stays, for questions: at a place whose arc fits for some contents only, and at the end of
/// the sample.
#[test]
fn stuck_segments() {
    on_stack(|| {
        let target = fields(&[4, 2]).into_bytes();
        for (text, yes) in [
            ("(r1=c1|EGL1)", 1),
            ("(r1=c1|AXL1)", 1),
            ("(r1=c1|EXL1)", 1),
            ("(!r1=c1|AFL2)", 1),
            ("AFL2", 0),
            ("EXL2", 0),
            ("EXL1", 0),
            ("EGL1", 0),
            ("EXr1=r1", 1),
            ("AX!r1=r1", 0),
        ] {
            let table = partly_stuck();
            let question = write::question(&rows(text.as_bytes()).expect("a question"));
            assert_eq!(compare(&table, &target, &question, text), [1, yes], "{text}");
            assert_eq!(compare_text(&table, text.as_bytes(), text), yes, "{text}");
        }
        for (text, yes) in [("EGr1=r1", 1), ("AFEGL3", 1), ("EGL1", 0), ("AFL3", 1)] {
            assert_eq!(compare_text(&sample_table(), text.as_bytes(), text), yes, "{text}");
        }
    });
}

/// The input is only read, wherever it lies, and calls in two threads do not disturb each other.
#[test]
fn only_read() {
    let work = || {
        for seed in 0..200 {
            let mut random = Random::new(90_000 + seed);
            let f = files(&mut random, Shape::Tiny);
            let text = texts::nested(&mut random, 20 + seed as usize);
            // The four files side by side at an odd place.
            let mut all = vec![b'7'; 3];
            all.extend(&f.table);
            all.extend(&f.target);
            all.extend(&f.question);
            all.extend(&text);
            all.push(b'7');
            let before = all.clone();
            let (t, g) = (3 + f.table.len(), 3 + f.table.len() + f.target.len());
            let q = g + f.question.len();
            compare(&all[3..t], &all[t..g], &all[g..q], &format!("{seed}"));
            compare_text(&all[3..t], &all[q..q + text.len()], &format!("{seed}"));
            assert_eq!(all, before);
        }
    };
    let threads: Vec<_> = (0..2)
        .map(|_| {
            std::thread::Builder::new()
                .stack_size(8 << 20)
                .spawn(work)
                .expect("a thread")
        })
        .collect();
    for t in threads {
        t.join().expect("the test");
    }
}
