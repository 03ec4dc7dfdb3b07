//! Classes as lists of labels, in dictionary order.

use super::read::{Table, Values, CONSTANTS};

pub type List = [u8; 5];

/// All lists for so many registers and constants.
pub fn lists(registers: usize, constants: usize) -> Vec<List> {
    let mut found = Vec::new();
    extend(registers, 0, constants as u8, &mut [0; 5], &mut found);
    found
}

/// Fills the list from register r on; `top` is the largest label so far.
fn extend(registers: usize, r: usize, top: u8, list: &mut List, found: &mut Vec<List>) {
    if r == registers {
        found.push(*list);
        return;
    }
    for label in 1..=top + 1 {
        list[r] = label;
        extend(registers, r + 1, top.max(label), list, found);
    }
    list[r] = 0;
}

/// A class as values: its labels in the registers, and the constants' own labels.
pub fn values(list: &List) -> Values {
    let mut values = [0; 10];
    for (slot, &label) in values.iter_mut().zip(list) {
        *slot = label as u32;
    }
    values[CONSTANTS] = 1;
    values[CONSTANTS + 1] = 2;
    values
}

/// The contents given back: block by block the smallest identifier that is no constant and not yet used.
pub fn contents(table: &Table, list: &List) -> [u32; 5] {
    let mut contents = [0; 5];
    let mut blocks: Vec<u32> = table.constants.clone();
    for r in 0..table.registers {
        let label = list[r] as usize;
        if label > blocks.len() {
            let fresh = (0..).find(|x| !blocks.contains(x)).expect("identifiers never end");
            blocks.push(fresh);
        }
        contents[r] = blocks[label - 1];
    }
    contents
}
