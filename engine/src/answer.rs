//! Everything that reaching and asking give back.

use crate::ask::Judge;
use crate::graph::{method_for, Graph, Method};
use crate::paths::{first_path_to, first_paths, least_steps, NEVER};
use crate::read::{read_question, read_table, read_target, Refusal};
use crate::run::{along, flat, Moment};
use crate::table::{Row, Table, Target};
use crate::text::read_text;

pub const CONFIGURATIONS: usize = 10_784;
pub const WORDS: usize = 337;
pub const ROWS: usize = 32;
/// Unreached and unused entries of the two lists.
pub const NONE: u32 = 65_535;

pub struct Reached {
    pub reached: bool,
    pub steps: usize,
    pub count: usize,
    pub words: Vec<u32>,
    pub least: Vec<u32>,
    pub link: Vec<u32>,
    /// The run moment by moment, and as the replayer takes it; empty where there is none.
    pub moments: Vec<Moment>,
    pub run: Vec<u32>,
    /// For the printout: registers, and parameters of each arc.
    pub registers: usize,
    pub arities: Vec<usize>,
}

pub struct Asked {
    pub yes: bool,
    pub class: usize,
    pub contents: Vec<u32>,
    /// 32 × 337 words.
    pub rows: Vec<u32>,
}

/// Marks as 32-bit words: c is bit c mod 32 of word c div 32.
pub fn words(marks: &[bool]) -> Vec<u32> {
    let mut words = vec![0; WORDS];
    for c in (0..marks.len()).filter(|&c| marks[c]) {
        words[c / 32] |= 1 << (c % 32);
    }
    words
}

fn list(values: &[usize]) -> Vec<u32> {
    let mut list = vec![NONE; CONFIGURATIONS];
    for (slot, &x) in list.iter_mut().zip(values) {
        if x != NEVER {
            *slot = x as u32;
        }
    }
    list
}

/// The path to a configuration by its links.
fn by_links(link: &[usize], last: usize) -> Vec<usize> {
    let mut path = vec![last];
    let mut at = last;
    while link[at] != at {
        at = link[at];
        path.push(at);
    }
    path.reverse();
    path
}

pub fn reach(table: &[u8], target: &[u8], method: Option<Method>) -> Result<Reached, Refusal> {
    let table = read_table(table)?;
    let target = read_target(&table, target)?;
    Ok(reach_table(&table, &target, method))
}

pub fn reach_table(table: &Table, target: &Target, method: Option<Method>) -> Reached {
    let graph = Graph::new(table, method.unwrap_or_else(|| method_for(table)));
    let starts = graph.select(table, table.start, &table.start_conditions);
    let least = least_steps(&graph, &starts);
    let (link, rank) = first_paths(&graph, &least);
    let goal = graph.select(table, target.place, &target.conditions);
    let path = first_path_to(&graph, &least, &goal);

    let least = graph.per_configuration(&least);
    let link = graph.per_configuration(&link);
    let rank = graph.per_configuration(&rank);
    let goal = graph.per_configuration(&goal);
    // The same path by the other road: of the nearest configurations the one of the least rank,
    // followed back.
    let chosen = (0..graph.configurations)
        .filter(|&c| goal[c] && least[c] != NEVER)
        .min_by_key(|&c| (least[c], rank[c]));
    assert_eq!(path, chosen.map(|c| by_links(&link, c)), "links and first path differ");

    let marks: Vec<bool> = least.iter().map(|&d| d != NEVER).collect();
    let moments = path.as_ref().map_or(vec![], |p| along(table, &graph.classes, p));
    Reached {
        reached: path.is_some(),
        steps: path.as_ref().map_or(0, |p| p.len() - 1),
        count: marks.iter().filter(|&&m| m).count(),
        words: words(&marks),
        least: list(&least),
        link: list(&link),
        run: if moments.is_empty() { vec![] } else { flat(&moments) },
        moments,
        registers: table.registers,
        arities: table.arcs.iter().map(|a| table.parameters(a)).collect(),
    }
}

pub fn ask(table: &[u8], question: &[u8], method: Option<Method>) -> Result<Asked, Refusal> {
    let table = read_table(table)?;
    let rows = read_question(&table, question)?;
    Ok(ask_table(&table, &rows, method))
}

/// The same of a question as a line of text.
pub fn ask_text(table: &[u8], text: &[u8], method: Option<Method>) -> Result<Asked, Refusal> {
    let table = read_table(table)?;
    let rows = read_text(&table, text)?;
    Ok(ask_table(&table, &rows, method))
}

pub fn ask_table(table: &Table, rows: &[Row], method: Option<Method>) -> Asked {
    let graph = Graph::new(table, method.unwrap_or_else(|| method_for(table)));
    let sets = Judge::new(table, &graph).rows(rows);
    let sets: Vec<Vec<bool>> = sets.iter().map(|s| graph.per_configuration(s)).collect();
    let starts = graph.per_configuration(&graph.select(table, table.start, &table.start_conditions));
    let last = &sets[sets.len() - 1];
    let failing = (0..graph.configurations).find(|&c| starts[c] && !last[c]);
    let mut all: Vec<u32> = sets.iter().flat_map(|s| words(s)).collect();
    all.resize(ROWS * WORDS, 0);
    let class = failing.map(|c| c % graph.classes.count());
    Asked {
        yes: failing.is_none(),
        class: class.unwrap_or(0),
        contents: class.map_or(vec![], |k| graph.classes.contents(k)[..table.registers].to_vec()),
        rows: all,
    }
}
