//! The run along a path: at each step the smallest arc, then the smallest parameters and new contents.

use super::classes::{contents, List};
use super::read::{meets, Arc, Table, Values, CONSTANTS, PARAMETERS};
use super::steps::Machine;

/// Old contents and constants as values.
fn values(table: &Table, old: &[u32; 5]) -> Values {
    let mut values = [0; 10];
    values[..5].copy_from_slice(old);
    values[CONSTANTS..CONSTANTS + table.constants.len()].copy_from_slice(&table.constants);
    values
}

/// The smallest new contents of this class whose set registers hold these values, if there are any.
fn new_contents(table: &Table, list: &List, set: &[Option<u32>; 5]) -> Option<[u32; 5]> {
    // What each label stands for.
    let mut meaning: Vec<Option<u32>> = table.constants.iter().map(|&c| Some(c)).collect();
    meaning.resize(8, None);
    for r in 0..table.registers {
        let Some(value) = set[r] else { continue };
        let label = list[r] as usize - 1;
        match meaning[label] {
            Some(held) if held == value => {}
            None if !meaning.contains(&Some(value)) => meaning[label] = Some(value),
            _ => return None,
        }
    }
    let mut new = [0; 5];
    for r in 0..table.registers {
        let label = list[r] as usize - 1;
        if meaning[label].is_none() {
            meaning[label] = (0..).find(|x| !meaning.contains(&Some(*x)));
        }
        new[r] = meaning[label]?;
    }
    Some(new)
}

/// Tries parameters in dictionary order from the pool.
fn choose(table: &Table, arc: &Arc, list: &List, pool: &[u32], known: usize, values: &mut Values) -> Option<[u32; 5]> {
    if known == arc.parameters {
        if !meets(values, &arc.conditions) {
            return None;
        }
        return new_contents(table, list, &arc.sets.map(|t| t.map(|t| values[t])));
    }
    for &x in pool {
        values[PARAMETERS + known] = x;
        if let Some(new) = choose(table, arc, list, pool, known + 1, values) {
            return Some(new);
        }
    }
    values[PARAMETERS + known] = 0;
    None
}

fn print(lines: &mut Vec<u32>, moment: usize, arc: u32, place: usize, contents: &[u32], parameters: &[u32]) {
    let start = lines.len();
    lines.push((3 + contents.len() + parameters.len()) as u32);
    lines.extend([moment as u32, arc, place as u32]);
    lines.extend(contents);
    lines.extend(parameters);
    lines.resize(start + 12, 0);
}

/// The run as the replayer takes it, and its moments as they are printed.
pub fn along(machine: &Machine, path: &[usize]) -> (Vec<u32>, Vec<u32>) {
    let table = &machine.table;
    let classes = machine.classes();
    let k = table.registers;
    let mut pool: Vec<u32> = (0..=14).chain(table.constants.iter().copied()).collect();
    pool.sort_unstable();
    pool.dedup();
    let mut old = contents(table, &machine.lists[path[0] % classes]);
    let mut run = old.to_vec();
    let mut lines = Vec::new();
    print(&mut lines, 0, 0, path[0] / classes + 1, &old[..k], &[]);
    for (moment, &next) in path.iter().enumerate().skip(1) {
        let (from, to) = (path[moment - 1] / classes + 1, next / classes + 1);
        let list = &machine.lists[next % classes];
        for (i, arc) in table.arcs.iter().enumerate() {
            if arc.from != from || arc.to != to {
                continue;
            }
            // Where the step between the classes is missing every choice would be tried in vain.
            let mut marks = vec![false; classes];
            machine.mark_step(i, path[moment - 1] % classes, &mut marks);
            if !marks[next % classes] {
                continue;
            }
            let mut values = values(table, &old);
            if let Some(new) = choose(table, arc, list, &pool, 0, &mut values) {
                let parameters = &values[PARAMETERS..PARAMETERS + 3];
                run.push(i as u32 + 1);
                run.extend(parameters);
                run.extend(new);
                print(
                    &mut lines,
                    moment,
                    i as u32 + 1,
                    to,
                    &new[..k],
                    &parameters[..arc.parameters],
                );
                old = new;
                break;
            }
        }
    }
    (run, lines)
}
