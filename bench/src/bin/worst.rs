//! Looks for tables on which the checker takes long.
//!
//! `worst SECONDS SEED FOLDER [ROWS [GOAL]]` makes four searches of a quarter of the time each: for questions and for
//! targets on which the checker takes the most seconds, and on which it takes the most times as long as the plain
//! implementation (for questions the better of its two ways). With one of the names question-seconds, question-ratio,
//! target-seconds and target-ratio as goal, only that search is made. Each is hill climbing with restarts: from the
//! tables that are known to hurt and from random ones at every limit, a few changes at a time, kept if they make it worse.
//! It prints what it found and writes the worst files into the folder. Questions have at most so many rows, 32 if nothing
//! is said: fewer make a try shorter, where a row takes seconds.
//!
//! All that is drawn comes from the seed; what is kept depends on the times that were measured, so two runs with the same
//! seed begin alike and may part.
//!
//! A try runs in a process of its own, which gives up after a limit: a call of the checker cannot be interrupted.

use bench::checker;
use bench::clock::{now, short};
use bench::drafts::Draft;
use bench::plain::{self, Rounds};
use bench::tables::{
    at_limits, each_place, fails_late, far_ends, long_run, many_losses, many_rounds, mix, padded, parallel, ring,
    spaced, star, vain_first, worst, Star, Worst,
};
use engine::random::Random;
use std::fs;
use std::hint::black_box;
use std::process::Command;
use std::sync::mpsc::{self, RecvTimeoutError};
use std::time::{Duration, Instant};

/// What is looked for.
#[derive(Clone, Copy)]
struct Goal {
    asking: bool,
    /// The most times as long as the plain implementation, not the most seconds.
    ratio: bool,
}

impl Goal {
    fn name(self) -> &'static str {
        match (self.asking, self.ratio) {
            (true, false) => "question-seconds",
            (true, true) => "question-ratio",
            (false, false) => "target-seconds",
            (false, true) => "target-ratio",
        }
    }
}

/// Ratios of calls that are shorter than this do not count: there it is buffers and reading that take the time, which the
/// smallest tables of the benchmark show.
const LEAST: f64 = 1e-3;

/// The seconds of a try; none where the limit came first or nothing was taken.
#[derive(Clone, Copy, Default)]
struct Times {
    checker: Option<f64>,
    back: Option<f64>,
    whole: Option<f64>,
}

impl Times {
    /// The better of the plain ways.
    fn plain(&self) -> Option<f64> {
        match (self.back, self.whole) {
            (Some(x), Some(y)) => Some(x.min(y)),
            (x, y) => x.or(y),
        }
    }

    fn ratio(&self) -> Option<f64> {
        Some(self.checker? / self.plain()?)
    }

    /// How bad it is, for this goal; a call that met the limit counts as long as that.
    fn score(&self, goal: Goal, limit: f64) -> f64 {
        if !goal.ratio {
            return self.checker.unwrap_or(limit);
        }
        match (self.checker, self.plain()) {
            (Some(ours), _) if ours < LEAST => 0.0,
            (ours, Some(plain)) => ours.unwrap_or(limit) / plain,
            _ => 0.0,
        }
    }
}

/// The seconds of a call in a thread that has a large stack, the least of up to three where it is short, and its reply;
/// none if the limit comes first.
fn timed(limit: f64, call: impl Fn() -> u32 + Send + 'static) -> Option<(f64, u32)> {
    let (tell, told) = mpsc::channel();
    let work = move || {
        let (mut least, mut reply) = (f64::INFINITY, 0);
        for _ in 0..3 {
            let start = now();
            reply = call();
            least = least.min(now() - start);
            if least > 0.05 {
                break;
            }
        }
        let _ = tell.send((least, reply));
    };
    std::thread::Builder::new()
        .stack_size(256 << 20)
        .spawn(work)
        .expect("a thread");
    match told.recv_timeout(Duration::from_secs_f64(limit)) {
        Ok(found) => Some(found),
        Err(RecvTimeoutError::Timeout) => None,
        Err(RecvTimeoutError::Disconnected) => panic!("the call failed"),
    }
}

/// The process of one try: prints the three times. All must give the same reply.
fn one(asking: bool, with_plain: bool, limit: f64, table: Vec<u8>, other: Vec<u8>) {
    let judged = if asking { checker::ask } else { checker::reach };
    let (t, o) = (table.clone(), other.clone());
    let ours = timed(limit, move || {
        judged(black_box(&t), black_box(&o)).expect("the checker is linked")
    });
    let plain = |rounds: Rounds, limit: f64| {
        let (t, o) = (table.clone(), other.clone());
        timed(limit, move || {
            let reply = if asking {
                plain::ask(black_box(&t), black_box(&o), rounds).map(|a| a.yes)
            } else {
                plain::reach(black_box(&t), black_box(&o)).map(|r| r.reached)
            };
            reply.map_or_else(|refusal| 100 + refusal.number, |yes| yes as u32)
        })
    };
    let back = if with_plain { plain(Rounds::Back, limit) } else { None };
    // Whole rounds only as long as they may still be the better way.
    let whole = match back {
        Some((back, _)) if asking => plain(Rounds::Whole, 4.0 * back + 0.01),
        _ => None,
    };
    let found = [ours, back, whole];
    let replies: Vec<u32> = found.iter().flatten().map(|(_, reply)| *reply).collect();
    assert!(replies.iter().all(|&r| r < 2 && r == replies[0]), "{replies:?}");
    for time in found {
        println!("{}", time.map_or("-".to_string(), |(t, _)| format!("{t:.9}")));
    }
    // Threads that have met the limit are still at work.
    std::process::exit(0);
}

struct Search {
    goal: Goal,
    folder: String,
    limit: f64,
    patience: Duration,
    tries: usize,
}

impl Search {
    fn files(&self, name: &str) -> [String; 2] {
        let other = if self.goal.asking { "question" } else { "target" };
        [
            format!("{}/{name}.table", self.folder),
            format!("{}/{name}.{other}", self.folder),
        ]
    }

    fn write(&self, draft: &Draft, name: &str) {
        let [table, other] = self.files(name);
        fs::write(table, draft.table()).expect("a file");
        let bytes = if self.goal.asking {
            draft.question()
        } else {
            draft.target()
        };
        fs::write(other, bytes).expect("a file");
    }

    /// Times a draft in a process of its own. If that fails its files stay.
    fn measure(&mut self, draft: &Draft, with_plain: bool) -> Times {
        self.tries += 1;
        self.write(draft, "trying");
        let [table, other] = self.files("trying");
        let program = std::env::current_exe().expect("this program");
        let kind = if self.goal.asking { "ask" } else { "reach" };
        let plain = if with_plain { "plain" } else { "alone" };
        let limit = self.limit.to_string();
        let output = Command::new(program)
            .args(["one", kind, plain, &limit, &table, &other])
            .output()
            .expect("a process");
        let failed = String::from_utf8_lossy(&output.stderr);
        assert!(output.status.success(), "{table} {other}: {failed}");
        let text = String::from_utf8_lossy(&output.stdout);
        let mut times = text.lines().map(|line| line.parse::<f64>().ok());
        let mut next = || times.next().flatten();
        Times {
            checker: next(),
            back: next(),
            whole: next(),
        }
    }

    fn score(&mut self, draft: &Draft) -> f64 {
        let times = self.measure(draft, self.goal.ratio);
        times.score(self.goal, self.limit)
    }

    /// Measured twice, since a slow spell of the machine is no slow table.
    fn sure(&mut self, draft: &Draft) -> f64 {
        self.score(draft).min(self.score(draft))
    }

    /// Climbs from this draft until thirty changes in a row, or those of a sixth of the time, were in vain.
    fn climb(&mut self, random: &mut Random, start: Draft, score: f64, most: usize, end: Instant) -> (Draft, f64) {
        let (mut best, mut height, mut vain) = (start, score, 0);
        let mut gained = Instant::now();
        while vain < 30 && gained.elapsed() < self.patience && Instant::now() < end {
            vain += 1;
            let next = best.changed(random, self.goal.asking, most);
            let better = 1.02 * height;
            let mut found = self.score(&next);
            if found > better {
                found = found.min(self.sure(&next));
            }
            if found > better {
                (best, height, vain) = (next, found, 0);
                gained = Instant::now();
            }
        }
        (best, height)
    }

    fn run(&mut self, starts: &[Draft], seed: u64, most: usize, seconds: f64) {
        let end = Instant::now() + Duration::from_secs_f64(seconds);
        let mut known: Vec<(Draft, f64)> = vec![];
        for draft in starts {
            if Instant::now() < end {
                let score = self.sure(draft);
                known.push((draft.clone(), score));
            }
        }
        // The worst last.
        known.sort_by(|a, b| a.1.total_cmp(&b.1));
        let (mut best, mut height) = known[known.len() - 1].clone();
        let first = (best.name.clone(), height);
        let mut climbs = 0;
        while Instant::now() < end {
            // Each climb has numbers of its own.
            let mut random = Random::new(seed.wrapping_mul(1_000_003) + climbs);
            climbs += 1;
            // From the worst that is known downwards; every third time from a random table, later from the worst found.
            let (start, score) = match (climbs % 3, known.pop()) {
                (0, again) => {
                    known.extend(again);
                    let draft = Draft::random(&mut random, most);
                    let score = self.score(&draft);
                    (draft, score)
                }
                (_, Some(start)) => start,
                _ => (best.clone(), height),
            };
            let (found, reached) = self.climb(&mut random, start, score, most, end);
            if reached > height {
                (best, height) = (found, reached);
            }
        }
        self.write(&best, self.goal.name());
        let times = self.measure(&best, true);
        let shown = |t: Option<f64>| t.map_or("-".to_string(), short);
        let tall = |h: f64| {
            if self.goal.ratio {
                format!("{h:.2} times")
            } else {
                short(h)
            }
        };
        println!("{}: {} tries, {} climbs", self.goal.name(), self.tries, climbs);
        println!("    known: {}, {}", first.0, tall(first.1));
        println!("    found: from {}, {}", best.name, tall(height));
        let ways = if self.goal.asking {
            format!(
                "{} going back, {} in whole rounds",
                shown(times.back),
                shown(times.whole)
            )
        } else {
            shown(times.back)
        };
        println!(
            "    once more: checker {}, plain {ways}; ratio {}",
            times.checker.map_or(format!("over {}", short(self.limit)), short),
            times.ratio().map_or("-".to_string(), |r| format!("{r:.2}")),
        );
        for file in self.files("trying") {
            let _ = fs::remove_file(file);
        }
    }
}

/// The tables that are known to hurt.
fn starts(asking: bool, rows: usize) -> Vec<Draft> {
    let mut cases = vec![fails_late(), long_run()];
    if asking {
        let left = |first: usize| rows.saturating_sub(first).max(1);
        cases.extend([many_rounds(left(3)), many_losses(left(3)), padded(left(3))]);
        cases.extend([vain_first(left(1)), far_ends(left(11))]);
        for s in [Star::Wide, Star::Narrow] {
            cases.extend([star(s, 12, left(1)), star(s, 8, left(1))]);
        }
        cases.extend([parallel(12, left(1)), parallel(8, left(2))]);
        cases.extend([ring(true, left(2)), ring(false, left(2))]);
        for kind in [Worst::Set, Worst::Late, Worst::Free] {
            cases.extend([
                at_limits(kind, 12, left(1)),
                at_limits(kind, 14, left(1)),
                spaced(kind, left(3)),
            ]);
        }
        cases.push(each_place(Worst::Set));
    } else {
        cases.extend(Worst::ALL.map(worst));
        cases.extend([vain_first(1), star(Star::Wide, 12, 1), star(Star::Narrow, 12, 1)]);
        cases.extend(mix().into_iter().filter(|c| c.name == "certified"));
    }
    cases.iter().map(Draft::of).collect()
}

fn main() {
    let words: Vec<String> = std::env::args().skip(1).collect();
    let words: Vec<&str> = words.iter().map(String::as_str).collect();
    if let ["one", kind, with_plain, limit, table, other] = words[..] {
        let read = |path: &str| fs::read(path).expect("a file");
        let limit = limit.parse().expect("seconds");
        return one(kind == "ask", with_plain == "plain", limit, read(table), read(other));
    }
    let (seconds, seed, folder, rows, only) = match words[..] {
        [seconds, seed, folder] => (seconds, seed, folder, "32", None),
        [seconds, seed, folder, rows] => (seconds, seed, folder, rows, None),
        [seconds, seed, folder, rows, goal] => (seconds, seed, folder, rows, Some(goal)),
        _ => {
            eprintln!("worst SECONDS SEED FOLDER [ROWS [GOAL]]");
            std::process::exit(1);
        }
    };
    if !checker::LINKED {
        eprintln!("the checker is not linked: tools/staticlib");
        std::process::exit(1);
    }
    let seconds: f64 = seconds.parse().expect("seconds");
    let seed: u64 = seed.parse().expect("a seed");
    let rows: usize = rows.parse().expect("a number of rows");
    assert!((1..=32).contains(&rows), "1 to 32 rows");
    fs::create_dir_all(folder).expect("a folder");
    let goals: Vec<Goal> = [(true, false), (true, true), (false, false), (false, true)]
        .into_iter()
        .map(|(asking, ratio)| Goal { asking, ratio })
        .filter(|goal| only.is_none_or(|name| name == goal.name()))
        .collect();
    assert!(!goals.is_empty(), "a goal");
    for &goal in &goals {
        let seconds = seconds / goals.len() as f64;
        let mut search = Search {
            goal,
            folder: folder.to_string(),
            limit: (seconds / 4.0).clamp(2.0, 60.0),
            patience: Duration::from_secs_f64(seconds / 6.0),
            tries: 0,
        };
        search.run(&starts(goal.asking, rows), seed, rows, seconds);
    }
}
