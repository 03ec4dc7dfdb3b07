//! Times the checker's C functions and the plain implementation on the same tables, in one run.
//!
//! Every number is the median of several trials, each of as many calls as fill a few milliseconds; the trials of the two
//! take turns, so that a slow spell of the machine hits both. Time is the thread's on its processor: what others take of it
//! does not count. Behind the medians stands how far the middle half of the checker's trials lies apart, in percent.

use bench::checker;
use bench::clock::{now, short};
use bench::plain::{self, Rounds};
use bench::tables::{
    asked, at_limits, each_place, fails_late, far_ends, long_run, long_texts, many_losses, many_rounds, mix, padded,
    sample, sample_texts, sized, smallest, spaced, spread, star, vain_first, worst, Case, Star, Text, Worst,
};
use std::hint::black_box;

/// Seconds for one call, and how far the middle half of the trials lies apart, in percent of the median.
#[derive(Clone, Copy)]
struct Time {
    median: f64,
    spread: f64,
}

fn once(call: &mut dyn FnMut(), calls: usize) -> f64 {
    let start = now();
    for _ in 0..calls {
        call();
    }
    (now() - start) / calls as f64
}

fn time_of(mut trials: Vec<f64>) -> Time {
    trials.sort_by(|a, b| a.total_cmp(b));
    let n = trials.len();
    let median = trials[n / 2];
    Time {
        median,
        spread: 100.0 * (trials[3 * n / 4] - trials[n / 4]) / median,
    }
}

/// Times the calls in turns, fewer times where a call takes long.
fn time(calls: &mut [&mut dyn FnMut()]) -> Vec<Time> {
    let first: Vec<f64> = calls.iter_mut().map(|call| once(*call, 1)).collect();
    let slowest = first.iter().copied().fold(0.0, f64::max);
    let trials = match slowest {
        // Once is enough there.
        s if s > 10.0 => return first.into_iter().map(|t| time_of(vec![t])).collect(),
        s if s > 1.0 => 3,
        s if s > 0.1 => 7,
        _ => 15,
    };
    let mut found: Vec<Vec<f64>> = vec![vec![]; calls.len()];
    for _ in 0..trials {
        for (i, call) in calls.iter_mut().enumerate() {
            let count = (0.004 / first[i]).ceil().clamp(1.0, 2000.0) as usize;
            found[i].push(once(*call, count));
        }
    }
    found.into_iter().map(time_of).collect()
}

fn line(name: &str, ours: Option<Time>, plain: &[Time]) {
    let mut text = format!("{name:<56}");
    text.push_str(&format!("{:>12}", ours.map_or("-".to_string(), |t| short(t.median))));
    for t in plain {
        text.push_str(&format!("{:>12}", short(t.median)));
        text.push_str(&format!(
            "{:>8}",
            ours.map_or("-".to_string(), |o| format!("{:.2}", o.median / t.median))
        ));
    }
    let spread = ours.unwrap_or(plain[0]).spread;
    println!("{text}{spread:>7.1} %");
}

fn reaching(c: &Case) {
    let code = checker::reach(&c.table, &c.target);
    let plainly = plain::reach(&c.table, &c.target).expect("a good table");
    if let Some(code) = code {
        assert_eq!(code, plainly.reached as u32, "{}", c.name);
    }
    let mut ours = || {
        black_box(checker::reach(black_box(&c.table), black_box(&c.target)));
    };
    let mut plain = || {
        black_box(plain::reach(black_box(&c.table), black_box(&c.target)).is_ok());
    };
    if checker::LINKED {
        let t = time(&mut [&mut ours, &mut plain]);
        line(&c.name, Some(t[0]), &t[1..]);
    } else {
        let t = time(&mut [&mut plain]);
        line(&c.name, None, &t);
    }
}

fn asking(c: &Case) {
    let code = checker::ask(&c.table, &c.question);
    let plainly = plain::ask(&c.table, &c.question, Rounds::Back).expect("a good question");
    if let Some(code) = code {
        assert_eq!(code, plainly.yes as u32, "{}", c.name);
    }
    let mut ours = || {
        black_box(checker::ask(black_box(&c.table), black_box(&c.question)));
    };
    let mut whole = || {
        black_box(plain::ask(black_box(&c.table), black_box(&c.question), Rounds::Whole).is_ok());
    };
    let mut back = || {
        black_box(plain::ask(black_box(&c.table), black_box(&c.question), Rounds::Back).is_ok());
    };
    if checker::LINKED {
        let t = time(&mut [&mut ours, &mut whole, &mut back]);
        line(&c.name, Some(t[0]), &t[1..]);
    } else {
        let t = time(&mut [&mut whole, &mut back]);
        line(&c.name, None, &t);
    }
}

fn asking_text(table: &[u8], t: &Text) {
    let code = checker::ask_text(table, &t.text);
    let plainly = plain::ask_text(table, &t.text, Rounds::Back).expect("a good text");
    if let Some(code) = code {
        assert_eq!(code, plainly.yes as u32, "{}", t.name);
    }
    let mut ours = || {
        black_box(checker::ask_text(black_box(table), black_box(&t.text)));
    };
    let mut whole = || {
        black_box(plain::ask_text(black_box(table), black_box(&t.text), Rounds::Whole).is_ok());
    };
    let mut back = || {
        black_box(plain::ask_text(black_box(table), black_box(&t.text), Rounds::Back).is_ok());
    };
    if checker::LINKED {
        let times = time(&mut [&mut ours, &mut whole, &mut back]);
        line(&t.name, Some(times[0]), &times[1..]);
    } else {
        let times = time(&mut [&mut whole, &mut back]);
        line(&t.name, None, &times);
    }
}

/// What is added to a call that takes so long.
fn added(whole: Time, opening: Time) -> Time {
    let median = whole.median - opening.median;
    Time {
        median,
        // Of the whole call's trials, in percent of what is added.
        spread: whole.spread * whole.median / median,
    }
}

/// What reading long texts costs: each is turned back at its end, so a call opens the table, reads the text and does no
/// more. Opening is the call with the empty text. All trials take turns.
fn reading(table: &[u8]) {
    let texts = long_texts();
    for t in &texts {
        assert_eq!(t.text.len(), 400, "{}", t.name);
        let refused = plain::ask_text(table, &t.text, Rounds::Back).err().map(|r| r.number);
        assert_eq!(refused, t.refused, "{}", t.name);
        if let Some(code) = checker::ask_text(table, &t.text) {
            assert_eq!(Some(code), t.refused.map(|n| 100 + n), "{}", t.name);
        }
    }
    let mut calls: Vec<Box<dyn FnMut()>> = vec![];
    if checker::LINKED {
        calls.push(Box::new(|| {
            black_box(checker::ask_text(black_box(table), black_box(&[])));
        }));
        calls.push(Box::new(|| {
            black_box(checker::ask(black_box(table), black_box(&[])));
        }));
        for t in &texts {
            calls.push(Box::new(|| {
                black_box(checker::ask_text(black_box(table), black_box(&t.text)));
            }));
        }
    }
    calls.push(Box::new(|| {
        black_box(plain::ask_text(black_box(table), black_box(&[]), Rounds::Back).is_ok());
    }));
    calls.push(Box::new(|| {
        black_box(plain::ask(black_box(table), black_box(&[]), Rounds::Back).is_ok());
    }));
    for t in &texts {
        calls.push(Box::new(|| {
            black_box(plain::ask_text(black_box(table), black_box(&t.text), Rounds::Back).is_ok());
        }));
    }
    let mut lent: Vec<&mut dyn FnMut()> = calls.iter_mut().map(|c| &mut **c as &mut dyn FnMut()).collect();
    let times = time(&mut lent);
    let (ours, plainly) = times.split_at(times.len() - texts.len() - 2);
    let at = |i: usize| ours.get(i).copied();
    line("opening the smallest table (empty text)", at(0), &plainly[..1]);
    line("the same with an empty file of rows", at(1), &plainly[1..2]);
    let mut most: f64 = 0.0;
    for (i, t) in texts.iter().enumerate() {
        let mine = at(i + 2).map(|whole| added(whole, ours[0]));
        line(&t.name, mine, &[added(plainly[i + 2], plainly[0])]);
        most = most.max(mine.map_or(0.0, |m| m.median));
    }
    if let Some(opening) = at(0) {
        println!(
            "Reading 400 bytes takes at most {}, opening the smallest table {}.",
            short(most),
            short(opening.median)
        );
    }
}

fn header(title: &str, columns: &[&str]) {
    let mut text = format!("\n{title:<56}{:>12}", "checker");
    for column in columns {
        text.push_str(&format!("{column:>12}{:>8}", "ratio"));
    }
    println!("{text}{:>9}", "spread");
}

/// Questions on tables that were made to hurt; with `all` also those that take long.
fn hurting(all: bool) {
    header("questions with many rounds", &["plain", "going back"]);
    asking(&many_rounds(1));
    asking(&padded(1));
    asking(&many_losses(1));
    asking(&vain_first(1));
    asking(&far_ends(21));
    // These take minutes.
    if all {
        asking(&many_rounds(29));
        asking(&padded(29));
        asking(&many_losses(29));
        asking(&vain_first(31));
    }

    header("questions with many rows", &["plain", "going back"]);
    for s in [Star::Wide, Star::Narrow] {
        asking(&star(s, 12, 31));
        asking(&star(s, 8, 31));
    }
    asking(&spaced(Worst::Set, 29));
    asking(&spaced(Worst::Free, 29));
    asking(&each_place(Worst::Set));
    for row in [6, 12, 14] {
        asking(&at_limits(Worst::Late, row, 31));
    }
    if all {
        for kind in [Worst::Free, Worst::Set, Worst::Keep] {
            for row in [6, 12, 14] {
                asking(&at_limits(kind, row, 31));
            }
        }
    }
}

fn growing() {
    let arcs = [0, 16, 32, 48, 64];
    let places = [1, 2, 4, 8, 16];
    let mut cases: Vec<Case> = (0..=5).map(|registers| sized(Worst::Set, registers, 64, 3)).collect();
    cases.extend(arcs.map(|arcs| sized(Worst::Set, 5, arcs, 3)));
    cases.extend((0..=3).map(|parameters| sized(Worst::Set, 5, 64, parameters)));
    cases.extend(places.map(|places| spread(Worst::Set, 5, 64, 3, places)));
    header("growth: reaching", &["plain"]);
    cases.iter().for_each(reaching);
    header("growth: questions", &["plain", "going back"]);
    cases.iter().for_each(asking);

    // Rows, where the steps themselves take little.
    header("growth: rows of a question", &["plain", "going back"]);
    let rows = [1, 8, 16, 31];
    for rows in rows {
        asking(&asked(sized(Worst::Set, 5, 64, 0), 6, rows));
    }
    for rows in rows {
        asking(&star(Star::Narrow, 12, rows));
    }
    for rows in rows {
        asking(&star(Star::Narrow, 8, rows));
    }
}

fn run() {
    let all = std::env::args().any(|a| a == "all");
    println!("Medians. Ratio: the checker's time to the plain implementation's. Spread: the middle half of the checker's trials.");
    println!("Buffers: the C functions have working buffers of their own and clear them at each call; the plain implementation");
    println!("allocates and clears its vectors at each call. The smallest table shows what that costs.");
    if !checker::LINKED {
        println!("The checker is not linked (no target/staticlib/libchecker.a): the plain implementation alone.");
    }

    header("reaching", &["plain"]);
    reaching(&smallest());
    reaching(&sample());
    for c in mix() {
        reaching(&c);
    }
    for kind in Worst::ALL {
        reaching(&worst(kind));
    }
    reaching(&long_run());
    reaching(&fails_late());

    header("questions", &["plain", "going back"]);
    asking(&smallest());
    asking(&sample());
    for c in mix() {
        asking(&c);
    }
    for kind in Worst::ALL {
        asking(&worst(kind));
    }
    asking(&long_run());

    hurting(all);

    header("questions as text", &["plain", "going back"]);
    for t in sample_texts() {
        asking_text(&sample().table, &t);
    }

    header("reading 400 bytes, beyond the opening", &["plain"]);
    reading(&smallest().table);

    growing();
}

/// Writes the files of the cases whose use of the stack is measured.
fn write_files(folder: &str) -> std::io::Result<()> {
    for (name, c) in [
        ("smallest", smallest()),
        ("sample", sample()),
        ("worst", worst(Worst::Set)),
        ("long", long_run()),
        ("rounds", many_rounds(29)),
        ("losses", many_losses(1)),
    ] {
        std::fs::write(format!("{folder}/{name}.table"), &c.table)?;
        std::fs::write(format!("{folder}/{name}.target"), &c.target)?;
        std::fs::write(format!("{folder}/{name}.question"), &c.question)?;
    }
    let texts = sample_texts().into_iter().chain(long_texts());
    for (i, t) in texts.enumerate() {
        std::fs::write(format!("{folder}/{:02}.text", i + 1), &t.text)?;
    }
    Ok(())
}

fn main() {
    let words: Vec<String> = std::env::args().collect();
    if let [_, word, folder] = &words[..] {
        if word == "files" {
            return write_files(folder).expect("the files");
        }
    }
    // The checker's working buffers and its recursive walk live on the stack.
    let thread = std::thread::Builder::new()
        .stack_size(256 << 20)
        .spawn(run)
        .expect("a thread");
    thread.join().expect("the benchmark");
}
