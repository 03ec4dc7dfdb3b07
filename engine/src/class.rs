//! Classes of contents: lists found by first occurrence, numbered by sorting what all contents
//! over a sufficient pool give; matrices compared entry by entry.

use crate::meaning::{contents_pool, others, tuples, Contents};
use crate::read::Refusal;
use std::cell::RefCell;
use std::collections::{BTreeMap, BTreeSet};
use std::rc::Rc;

/// The list of contents: the constant's number, or the number of constants plus the block's.
pub fn list_of(constants: &[u32], contents: &[u32]) -> Vec<u32> {
    let mut blocks: Vec<u32> = Vec::new();
    contents
        .iter()
        .map(|&x| {
            if let Some(c) = constants.iter().position(|&c| c == x) {
                return c as u32 + 1;
            }
            let block = blocks.iter().position(|&b| b == x).unwrap_or_else(|| {
                blocks.push(x);
                blocks.len() - 1
            });
            (constants.len() + block) as u32 + 1
        })
        .collect()
}

/// All lists for so many registers and these constants, numbered in dictionary order.
pub struct Classes {
    pub registers: usize,
    pub constants: Vec<u32>,
    pub lists: Vec<Vec<u32>>,
    numbers: BTreeMap<Vec<u32>, usize>,
}

impl Classes {
    pub fn new(registers: usize, constants: &[u32]) -> Self {
        let found: BTreeSet<Vec<u32>> = tuples(&contents_pool(registers, constants), registers)
            .iter()
            .map(|contents| list_of(constants, contents))
            .collect();
        let lists: Vec<Vec<u32>> = found.into_iter().collect();
        let numbers = lists.iter().cloned().enumerate().map(|(i, l)| (l, i)).collect();
        Classes {
            registers,
            constants: constants.to_vec(),
            lists,
            numbers,
        }
    }

    /// The same, made once for the same numbers.
    fn of(registers: usize, constants: &[u32]) -> Rc<Self> {
        thread_local! {
            static MADE: RefCell<BTreeMap<(usize, Vec<u32>), Rc<Classes>>> = RefCell::default();
        }
        let key = (registers, constants.to_vec());
        MADE.with_borrow_mut(|made| {
            made.entry(key)
                .or_insert_with(|| Rc::new(Classes::new(registers, constants)))
                .clone()
        })
    }

    pub fn count(&self) -> usize {
        self.lists.len()
    }

    pub fn number(&self, contents: &[u32]) -> usize {
        self.numbers[&list_of(&self.constants, &contents[..self.registers])]
    }

    /// The contents given back: block by block the smallest identifier that is no constant
    /// and not yet used.
    pub fn contents(&self, class: usize) -> Contents {
        let fresh = others(&self.constants, self.registers);
        let mut contents = [0; 5];
        for (slot, &label) in contents.iter_mut().zip(&self.lists[class]) {
            let label = label as usize - 1;
            *slot = match self.constants.get(label) {
                Some(&c) => c,
                None => fresh[label - self.constants.len()],
            };
        }
        contents
    }
}

/// The matrix of contents: 0 different, 1 equal and no constant, 2 or 3 equal to a constant.
pub fn matrix_of(constants: &[u32], contents: &[u32]) -> Vec<u32> {
    let mut matrix = Vec::new();
    for x in contents {
        for y in contents {
            let constant = constants.iter().position(|c| c == x);
            matrix.push(match (x == y, constant) {
                (false, _) => 0,
                (true, None) => 1,
                (true, Some(c)) => c as u32 + 2,
            });
        }
    }
    matrix
}

fn alone(number: u32) -> Refusal {
    Refusal {
        number,
        file: 0,
        line: 0,
    }
}

fn counts(registers: usize, constants: &[u32]) -> Result<(), Refusal> {
    if registers > 5 || constants.len() > 2 {
        return Err(alone(3));
    }
    if constants.windows(2).any(|w| w[0] >= w[1]) {
        return Err(alone(4));
    }
    Ok(())
}

/// Calls on contents, classes or matrices alone: refusals 9, 3, 4, 5, 10 in this order.
pub fn class_count(registers: usize, constants: usize) -> Result<usize, Refusal> {
    if constants > 2 {
        return Err(alone(3));
    }
    let constants: Vec<u32> = (0..constants as u32).collect();
    counts(registers, &constants)?;
    Ok(Classes::of(registers, &constants).count())
}

/// A buffer to which a call writes so many numbers.
pub fn room(written: u64, lent: usize) -> Result<(), Refusal> {
    if (lent as u64) < written {
        return Err(alone(9));
    }
    Ok(())
}

pub fn class_of_contents(registers: usize, constants: &[u32], contents: &[u32]) -> Result<usize, Refusal> {
    if contents.len() != registers {
        return Err(alone(9));
    }
    counts(registers, constants)?;
    Ok(Classes::of(registers, constants).number(contents))
}

pub fn contents_of_class(registers: usize, constants: &[u32], class: usize) -> Result<Vec<u32>, Refusal> {
    counts(registers, constants)?;
    let classes = Classes::of(registers, constants);
    if class >= classes.count() {
        return Err(alone(5));
    }
    Ok(classes.contents(class)[..registers].to_vec())
}

pub fn matrix_of_contents(registers: usize, constants: &[u32], contents: &[u32]) -> Result<Vec<u32>, Refusal> {
    class_of_contents(registers, constants, contents)?;
    Ok(matrix_of(constants, contents))
}

pub fn matrix_of_class(registers: usize, constants: &[u32], class: usize) -> Result<Vec<u32>, Refusal> {
    Ok(matrix_of(constants, &contents_of_class(registers, constants, class)?))
}

pub fn class_of_matrix(registers: usize, constants: &[u32], matrix: &[u32]) -> Result<usize, Refusal> {
    if matrix.len() as u128 != (registers as u128) * (registers as u128) {
        return Err(alone(9));
    }
    counts(registers, constants)?;
    let classes = Classes::of(registers, constants);
    (0..classes.count())
        .find(|&k| matrix_of(constants, &classes.contents(k)[..registers]) == matrix)
        .ok_or(alone(10))
}

pub fn contents_of_matrix(registers: usize, constants: &[u32], matrix: &[u32]) -> Result<Vec<u32>, Refusal> {
    let class = class_of_matrix(registers, constants, matrix)?;
    contents_of_class(registers, constants, class)
}
