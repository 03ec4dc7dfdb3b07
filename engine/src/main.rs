//! The engine's commands (see README.md).

use engine::answer::{ask, ask_text, reach};
use engine::cases::{bytes, expect, generate, numbers};
use engine::class::{class_of_contents, class_of_matrix, contents_of_class, matrix_of_class, Classes};
use engine::graph::{method_for, Graph, Method};
use engine::mutate::mutate;
use engine::print::{asked, fields, reached, refused, replayed, Form};
use engine::random::Random;
use engine::read::{read_table, Refusal};
use engine::replay::replay;
use engine::trials;
use std::io::Write;
use std::path::Path;
use std::process::ExitCode;

const USAGE: &str = "usage:
  engine reach TABLE TARGET [--full | --digest] [--pool | --class]
  engine ask TABLE QUESTION [--full | --digest] [--pool | --class]
  engine ask_text TABLE TEXT [--full | --digest] [--pool | --class]
  engine replay TABLE RUNFILE [--full]
  engine successors TABLE CONFIGURATION [--pool | --class]
  engine lists REGISTERS CONSTANTS
  engine class REGISTERS / CONSTANT.. / CONTENTS..
  engine contents REGISTERS / CONSTANT.. / CLASS
  engine matrix REGISTERS / CONSTANT.. / CLASS
  engine matrixclass REGISTERS / CONSTANT.. / ENTRY..
  engine generate SEED COUNT DIR [tiny | small | large | long | full | damaged | mixed]
  engine expect DIR
  engine mutate SEED FILE
  engine trials FOLDER [SEED]
";

struct Options {
    form: Form,
    method: Option<Method>,
    words: Vec<String>,
}

fn options() -> Option<Options> {
    let mut found = Options {
        form: Form::Fields,
        method: None,
        words: vec![],
    };
    for word in std::env::args().skip(1) {
        match word.as_str() {
            "--full" => found.form = Form::Full,
            "--digest" => found.form = Form::Digest,
            "--pool" => found.method = Some(Method::Pool),
            "--class" => found.method = Some(Method::Class),
            other if other.starts_with("--") => return None,
            _ => found.words.push(word),
        }
    }
    Some(found)
}

/// The configurations one step behind this one, each with its place and list.
fn successors(table: &Path, configuration: usize, method: Option<Method>) -> String {
    let table = match read_table(&bytes(table)) {
        Ok(table) => table,
        Err(r) => return refused(Form::Fields, &r),
    };
    let graph = Graph::new(&table, method.unwrap_or_else(|| method_for(&table)));
    let Some(node) = (0..graph.nodes()).find(|&n| graph.configuration[n] == configuration) else {
        return String::new();
    };
    let mut next: Vec<usize> = graph
        .successors(node)
        .iter()
        .map(|&m| graph.configuration[m as usize])
        .collect();
    next.sort_unstable();
    next.dedup();
    next.iter()
        .map(|&c| {
            let mut line = vec![c, c / graph.classes.count() + 1];
            line.extend(
                graph.classes.lists[c % graph.classes.count()]
                    .iter()
                    .map(|&x| x as usize),
            );
            fields(&line)
        })
        .collect()
}

/// Calls on contents, classes or matrices alone: 1 and the numbers, or 2 and the refusal, with
/// single spaces.
fn alone(call: &str, words: &[&str]) -> Option<String> {
    let parts: Vec<Vec<u32>> = words
        .split(|&w| w == "/")
        .map(|part| part.iter().map(|w| w.parse().ok()).collect::<Option<Vec<u32>>>())
        .collect::<Option<Vec<_>>>()?;
    let [registers, constants, rest] = &parts[..] else {
        return None;
    };
    let [registers] = registers[..] else { return None };
    let registers = registers as usize;
    let one = |class: usize| vec![class as u32];
    let found: Result<Vec<u32>, Refusal> = match (call, &rest[..]) {
        ("class", contents) => class_of_contents(registers, constants, contents).map(one),
        ("contents", [class]) => contents_of_class(registers, constants, *class as usize),
        ("matrix", [class]) => matrix_of_class(registers, constants, *class as usize),
        ("matrixclass", matrix) => class_of_matrix(registers, constants, matrix).map(one),
        _ => return None,
    };
    let numbers = match found {
        Ok(numbers) => [vec![1], numbers].concat(),
        Err(r) => vec![2, r.number, r.file, r.line],
    };
    Some(numbers.iter().map(|n| n.to_string()).collect::<Vec<_>>().join(" ") + "\n")
}

fn answer() -> Option<Vec<u8>> {
    let o = options()?;
    let words: Vec<&str> = o.words.iter().map(|w| w.as_str()).collect();
    let text = match words[..] {
        ["reach", table, target] => reached(
            o.form,
            &reach(&bytes(Path::new(table)), &bytes(Path::new(target)), o.method),
        ),
        ["ask", table, question] => asked(
            o.form,
            &ask(&bytes(Path::new(table)), &bytes(Path::new(question)), o.method),
        ),
        ["ask_text", table, text] => asked(
            o.form,
            &ask_text(&bytes(Path::new(table)), &bytes(Path::new(text)), o.method),
        ),
        ["replay", table, list] => replayed(o.form, &replay(&bytes(Path::new(table)), &numbers(Path::new(list))?)),
        ["successors", table, configuration] => successors(Path::new(table), configuration.parse().ok()?, o.method),
        ["lists", registers, constants] => {
            let constants: Vec<u32> = (0..constants.parse().ok().filter(|&c| c <= 2)?).collect();
            let classes = Classes::new(registers.parse().ok().filter(|&r| r <= 5)?, &constants);
            classes
                .lists
                .iter()
                .map(|l| fields(&l.iter().map(|&x| x as usize).collect::<Vec<_>>()))
                .collect()
        }
        [call @ ("class" | "contents" | "matrix" | "matrixclass"), ..] => alone(call, &words[1..])?,
        ["generate", seed, count, dir] | ["generate", seed, count, dir, _] => {
            let name = words.get(4).copied().unwrap_or("mixed");
            generate(seed.parse().ok()?, count.parse().ok()?, Path::new(dir), name).ok()?;
            String::new()
        }
        ["expect", dir] => format!("{} cases\n", expect(Path::new(dir)).ok()?),
        ["trials", folder] | ["trials", folder, _] => {
            let seed = words.get(2).map_or(Some(trials::SEED), |w| w.parse().ok())?;
            trials::write(Path::new(folder), seed)?.ok()?;
            String::new()
        }
        ["mutate", seed, file] => {
            return Some(mutate(&mut Random::new(seed.parse().ok()?), &bytes(Path::new(file))));
        }
        _ => return None,
    };
    Some(text.into_bytes())
}

fn main() -> ExitCode {
    match answer() {
        Some(text) => {
            // A closed pipe is no error of ours.
            let _ = std::io::stdout().write_all(&text);
            ExitCode::SUCCESS
        }
        None => {
            eprint!("{USAGE}");
            ExitCode::from(64)
        }
    }
}
