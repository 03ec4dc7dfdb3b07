//! The replayer: is this list of numbers a run from a permitted start?

use crate::meaning::{is_step, meets_all};
use crate::read::{read_table, Refusal};
use crate::table::Table;

#[derive(Clone, Copy, Debug, PartialEq, Eq)]
pub enum Replayed {
    Good,
    /// The first bad moment, 0 for the start.
    Bad(usize),
}

/// Refusal 9 for the list's length comes before the table's refusals.
pub fn replay(table: &[u8], list: &[u32]) -> Result<Replayed, Refusal> {
    if list.len() < 5 || !(list.len() - 5).is_multiple_of(9) {
        return Err(Refusal {
            number: 9,
            file: 0,
            line: 0,
        });
    }
    Ok(replay_table(&read_table(table)?, list))
}

fn zero(slots: &[u32]) -> bool {
    slots.iter().all(|&x| x == 0)
}

fn replay_table(table: &Table, list: &[u32]) -> Replayed {
    let k = table.registers;
    let mut place = table.start;
    let mut old = &list[..5];
    if !zero(&old[k..]) || !meets_all(&table.constants, old, &[], &table.start_conditions) {
        return Replayed::Bad(0);
    }
    for (i, step) in list[5..].chunks(9).enumerate() {
        let (parameters, new) = (&step[1..4], &step[4..]);
        let arc = (step[0] as usize).checked_sub(1).and_then(|a| table.arcs.get(a));
        let good = arc.is_some_and(|arc| {
            arc.from == place
                && zero(&parameters[table.parameters(arc)..])
                && zero(&new[k..])
                && is_step(table, arc, old, parameters, new)
        });
        if !good {
            return Replayed::Bad(i + 1);
        }
        place = arc.map_or(0, |a| a.to);
        old = new;
    }
    Replayed::Good
}
