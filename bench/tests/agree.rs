//! The plain implementation gives what the independent engine gives, and the cases are what they are said to be.

use bench::drafts::Draft;
use bench::plain::{ask, ask_text, reach, Asked, Refusal, Rounds};
use bench::tables::{
    asked, each_place, fails_late, far_ends, long_run, long_texts, many_losses, many_rounds, mix, padded, parallel,
    ring, sample, sample_texts, sized, smallest, spaced, spread, star, vain_first, worst, Case, Star, Worst,
};
use engine::generate::{case, Shape};
use engine::mutate::mutate;
use engine::random::Random;
use engine::{answer, texts, write};
use std::fs;
use std::path::Path;

fn narrow(list: &[u32]) -> Vec<u16> {
    list.iter().map(|&x| x as u16).collect()
}

fn same(refusal: Refusal) -> engine::read::Refusal {
    engine::read::Refusal {
        number: refusal.number,
        file: refusal.file,
        line: refusal.line,
    }
}

fn compare_reach(table: &[u8], target: &[u8], what: &str) {
    match (reach(table, target), answer::reach(table, target, None)) {
        (Ok(ours), Ok(theirs)) => {
            assert_eq!(ours.reached, theirs.reached, "{what}");
            assert_eq!(ours.steps, theirs.steps, "{what}");
            assert_eq!(ours.count as usize, theirs.count, "{what}");
            assert!(ours.words == theirs.words, "words: {what}");
            assert!(ours.least == narrow(&theirs.least), "least: {what}");
            assert!(ours.links == narrow(&theirs.link), "links: {what}");
            assert!(ours.run == theirs.run, "run: {what}");
            assert!(ours.lines == engine::print::moments(&theirs), "lines: {what}");
        }
        (Err(ours), Err(theirs)) => assert_eq!(same(ours), theirs, "{what}"),
        _ => panic!("{what}"),
    }
}

fn compare_asked(ours: Result<Asked, Refusal>, theirs: &Result<answer::Asked, engine::read::Refusal>, what: &str) {
    match (ours, theirs) {
        (Ok(ours), Ok(theirs)) => {
            assert_eq!(ours.yes, theirs.yes, "{what}");
            assert_eq!(ours.class, theirs.class, "{what}");
            assert!(ours.contents.starts_with(&theirs.contents), "{what}");
            assert!(ours.rows == theirs.rows, "rows: {what}");
        }
        (Err(ours), Err(theirs)) => assert_eq!(same(ours), *theirs, "{what}"),
        _ => panic!("{what}"),
    }
}

fn compare_ask(table: &[u8], question: &[u8], what: &str) {
    let theirs = answer::ask(table, question, None);
    for rounds in [Rounds::Whole, Rounds::Back] {
        compare_asked(ask(table, question, rounds), &theirs, what);
    }
}

fn compare_ask_text(table: &[u8], text: &[u8], what: &str) {
    let theirs = answer::ask_text(table, text, None);
    compare_asked(ask_text(table, text, Rounds::Back), &theirs, what);
}

#[test]
fn random_tables() {
    for seed in 0..400 {
        let mut random = Random::new(9000 + seed);
        let shape = match seed % 20 {
            0 | 1 => Shape::Large,
            2 => Shape::Long,
            3 => Shape::Full,
            n if n < 12 => Shape::Small,
            _ => Shape::Tiny,
        };
        let c = case(&mut random, shape);
        let table = write::table(&c.table);
        let (target, question) = (write::target(&c.target), write::question(&c.question));
        compare_reach(&table, &target, &seed.to_string());
        compare_ask(&table, &question, &seed.to_string());
    }
}

#[test]
fn damaged_files() {
    let mut seen = [0; 9];
    for seed in 0..3000 {
        let mut random = Random::new(20_000 + seed);
        let c = case(&mut random, Shape::Tiny);
        let mut files = [
            write::table(&c.table),
            write::target(&c.target),
            write::question(&c.question),
        ];
        let which = random.below(3);
        files[which] = mutate(&mut random, &files[which]);
        compare_reach(&files[0], &files[1], &seed.to_string());
        compare_ask(&files[0], &files[2], &seed.to_string());
        for refused in [
            answer::reach(&files[0], &files[1], None).err(),
            answer::ask(&files[0], &files[2], None).err(),
        ] {
            seen[refused.map_or(0, |r| r.number as usize)] += 1;
        }
    }
    assert!(seen[1..].iter().all(|&n| n > 0), "{seen:?}");
}

/// The boundary cases of reading: both judge them alike.
#[test]
fn boundaries() {
    let data = Path::new(env!("CARGO_MANIFEST_DIR")).join("../crates/test_reading/data");
    let mut tried = 0;
    for entry in fs::read_dir(&data).expect("the data") {
        let path = entry.expect("an entry").path();
        if path.extension() != Some("table".as_ref()) {
            continue;
        }
        let part = |kind: &str| fs::read(path.with_extension(kind)).unwrap_or_default();
        let what = path.display().to_string();
        compare_reach(&part("table"), &part("target"), &what);
        compare_ask(&part("table"), &part("question"), &what);
        compare_ask_text(&part("table"), &part("text"), &what);
        tried += 1;
    }
    assert!(tried > 300, "{tried}");
}

#[test]
fn damaged_texts() {
    let mut seen = [0; 13];
    for seed in 0..6000 {
        let mut random = Random::new(30_000 + seed);
        let c = case(&mut random, Shape::Tiny);
        let table = write::table(&c.table);
        let text = texts::damaged(&mut random, &c.table);
        compare_ask_text(&table, &text, &seed.to_string());
        let refused = answer::ask_text(&table, &text, None).err();
        seen[refused.map_or(0, |r| r.number as usize)] += 1;
    }
    for number in [0, 1, 5, 11, 12] {
        assert!(seen[number] > 100, "{seen:?}");
    }
}

#[test]
fn timed_texts() {
    let table = sample().table;
    for t in sample_texts().iter().chain(&long_texts()) {
        compare_ask_text(&table, &t.text, &t.name);
        let refused = answer::ask_text(&table, &t.text, None).err();
        assert_eq!(refused.map(|r| r.number), t.refused, "{}", t.name);
    }
}

fn both(c: &Case) {
    compare_reach(&c.table, &c.target, &c.name);
    compare_ask(&c.table, &c.question, &c.name);
}

#[test]
fn timed_tables() {
    both(&smallest());
    both(&sample());
    for c in mix() {
        both(&c);
        let found = reach(&c.table, &c.target).expect("a good table");
        assert!(found.reached && found.steps >= 3, "{}", c.name);
        assert!(ask(&c.table, &c.question, Rounds::Back).is_ok(), "{}", c.name);
    }
    both(&sized(Worst::Set, 2, 16, 1));
    both(&sized(Worst::Free, 3, 32, 0));
}

/// How many configurations each row has.
fn ones(asked: &Asked, row: usize) -> u32 {
    asked.rows[337 * row..][..337].iter().map(|w| w.count_ones()).sum()
}

#[test]
fn extremes() {
    for long in [long_run(), fails_late()] {
        compare_reach(&long.table, &long.target, &long.name);
        assert_eq!(reach(&long.table, &long.target).expect("a good table").steps, 6_672);
    }
    // Of all configurations but the one that is stuck, none is left in the end.
    for c in [many_rounds(1), many_losses(1), padded(1)] {
        compare_reach(&c.table, &c.target, &c.name);
        let asked = ask(&c.table, &c.question, Rounds::Back).expect("a good table");
        let found = [1, 2, 3].map(|row| ones(&asked, row));
        assert_eq!((asked.yes, found), (false, [1, 10_783, 0]), "{}", c.name);
    }
    for kind in Worst::ALL {
        let c = worst(kind);
        assert!(!reach(&c.table, &c.target).expect("a good table").reached);
    }
}

/// Both plain ways give the same rows; how many configurations the last one has.
fn alike(c: &Case, last: usize) -> u32 {
    let back = ask(&c.table, &c.question, Rounds::Back).expect("a good question");
    let whole = ask(&c.table, &c.question, Rounds::Whole).expect("a good question");
    assert_eq!((back.yes, back.class), (whole.yes, whole.class), "{}", c.name);
    assert!(back.rows == whole.rows, "{}", c.name);
    assert!(reach(&c.table, &c.target).is_ok(), "{}", c.name);
    ones(&back, last)
}

/// With few rows, since those that follow are the same.
#[test]
fn tables_that_hurt() {
    // All of places 1 to 12 comes to place 13; the last three places are stuck elsewhere.
    assert_eq!(alike(&vain_first(1), 1), 13 * 674);
    alike(&far_ends(1), 11);
    for s in [Star::Wide, Star::Narrow] {
        assert_eq!(alike(&star(s, 12, 2), 2), 10_784);
        assert_eq!(alike(&star(s, 8, 2), 2), 10_784);
    }
    // Places 1 and 2 lead to each other; of all but place 5, places 3 and 4 are lost.
    assert_eq!(alike(&parallel(12, 2), 2), 2 * 674);
    assert_eq!(alike(&parallel(8, 2), 3), 13 * 674);
    // The rings stay; of all but place 15, places 13 and 14 are lost.
    assert_eq!(alike(&ring(true, 2), 3), 13 * 674);
    assert_eq!(alike(&ring(false, 2), 3), 13 * 674);
    alike(&spaced(Worst::Free, 2), 4);
    alike(&each_place(Worst::Keep), 31);
    alike(&asked(sized(Worst::Set, 5, 64, 0), 6, 2), 2);
    for places in [1, 2, 4, 8] {
        alike(&spread(Worst::Set, 2, 64, 3, places), 5);
    }
    // The longest questions there are.
    for c in [
        many_rounds(29),
        padded(29),
        vain_first(31),
        far_ends(21),
        star(Star::Wide, 8, 31),
    ] {
        assert_eq!(c.question.len(), 608, "{}", c.name);
    }
}

/// A draft says what its case says, and stays legal however often it is changed.
#[test]
fn drafts() {
    for c in [
        vain_first(1),
        far_ends(21),
        fails_late(),
        worst(Worst::Late),
        star(Star::Narrow, 8, 31),
    ] {
        let draft = Draft::of(&c);
        assert!(draft.table() == c.table, "{}", c.name);
        assert!(draft.target() == c.target, "{}", c.name);
        assert!(draft.question() == c.question, "{}", c.name);
    }
    let mut draft = Draft::of(&sized(Worst::Set, 2, 16, 2));
    for seed in 0..2000 {
        let mut random = Random::new(seed);
        draft = draft.changed(&mut random, seed % 2 == 0, 32);
        let (table, question) = (draft.table(), draft.question());
        assert!(reach(&table, &draft.target()).is_ok(), "{seed}");
        let [back, whole] = [Rounds::Back, Rounds::Whole].map(|r| ask(&table, &question, r).ok().map(|a| a.rows));
        assert!(back.is_some() && back == whole, "{seed}");
    }
    for seed in 0..3 {
        let draft = Draft::random(&mut Random::new(seed), 32);
        assert!(reach(&draft.table(), &draft.target()).is_ok(), "{seed}");
    }
}
