//! Printouts of document 01, identifiers as document 02 (W2) has them; the full form; digests.

use crate::answer::{Asked, Reached};
use crate::read::Refusal;
use crate::replay::Replayed;

/// How much to print.
#[derive(Clone, Copy, Debug, PartialEq, Eq)]
pub enum Form {
    /// Document 01's printout.
    Fields,
    /// Labelled lines with every number.
    Full,
    /// Labelled lines, long lists as digests.
    Digest,
}

/// A line of numbers in fields of six columns.
pub fn fields(numbers: &[usize]) -> String {
    with_identifiers(numbers, &[])
}

/// A line of numbers in fields of six columns, then identifiers in fields of twelve.
pub fn with_identifiers(numbers: &[usize], identifiers: &[u32]) -> String {
    let mut line: String = numbers.iter().map(|n| format!("{n:6}")).collect();
    line.extend(identifiers.iter().map(|n| format!("{n:12}")));
    line.push('\n');
    line
}

/// FNV-1a, 64 bits, over each number as four bytes, lowest first.
pub fn digest(numbers: &[u32]) -> u64 {
    let mut hash: u64 = 0xcbf2_9ce4_8422_2325;
    for byte in numbers.iter().flat_map(|n| n.to_le_bytes()) {
        hash = (hash ^ byte as u64).wrapping_mul(0x0000_0100_0000_01b3);
    }
    hash
}

/// What is printed of a run, moment by moment: twelve numbers each, first how many follow that are printed, then
/// moment, arc, place, registers, parameters, and zeros.
pub fn moments(a: &Reached) -> Vec<u32> {
    let mut numbers = Vec::new();
    for (moment, m) in a.moments.iter().enumerate() {
        let parameters = if moment == 0 { 0 } else { a.arities[m.arc - 1] };
        let mut line = vec![(3 + a.registers + parameters) as u32];
        line.extend([moment as u32, m.arc as u32, m.place as u32]);
        line.extend(&m.contents[..a.registers]);
        line.extend(&m.parameters[..parameters]);
        line.resize(12, 0);
        numbers.extend(line);
    }
    numbers
}

fn labelled(label: &str, numbers: &[u32]) -> String {
    let mut line = format!("{label} {}", numbers.len());
    for n in numbers {
        line.push_str(&format!(" {n}"));
    }
    line.push('\n');
    line
}

fn long(form: Form, label: &str, numbers: &[u32]) -> String {
    if form == Form::Full {
        labelled(label, numbers)
    } else {
        format!("{label} {} {:016x}\n", numbers.len(), digest(numbers))
    }
}

pub fn refused(form: Form, r: &Refusal) -> String {
    match form {
        Form::Fields => fields(&[2, r.number as usize, r.file as usize, r.line as usize]),
        _ => format!("code {}\nrefusal {} {} {}\n", 100 + r.number, r.number, r.file, r.line),
    }
}

pub fn reached(form: Form, answer: &Result<Reached, Refusal>) -> String {
    let a = match answer {
        Ok(a) => a,
        Err(r) => return refused(form, r),
    };
    if form == Form::Fields {
        let mut text = fields(&[a.reached as usize, a.steps, a.count]);
        for m in moments(a).chunks(12) {
            let (numbers, identifiers) = m[1..=m[0] as usize].split_at(3);
            text.push_str(&with_identifiers(&[0, 1, 2].map(|i| numbers[i] as usize), identifiers));
        }
        return text;
    }
    let v = a.reached as u32;
    let mut text = format!("code {v}\nverdict {v}\nsteps {}\ncount {}\n", a.steps, a.count);
    text.push_str(&long(form, "words", &a.words));
    text.push_str(&long(form, "least", &a.least));
    text.push_str(&long(form, "link", &a.link));
    if a.reached {
        text.push_str(&long(form, "run", &a.run));
    }
    text
}

pub fn asked(form: Form, answer: &Result<Asked, Refusal>) -> String {
    let a = match answer {
        Ok(a) => a,
        Err(r) => return refused(form, r),
    };
    if form == Form::Fields {
        return if a.yes {
            fields(&[1])
        } else {
            with_identifiers(&[0, a.class], &a.contents)
        };
    }
    let v = a.yes as u32;
    let mut text = format!("code {v}\nverdict {v}\n");
    if !a.yes {
        text.push_str(&format!("class {}\n", a.class));
        text.push_str(&labelled("contents", &a.contents));
    }
    text.push_str(&long(form, "rows", &a.rows));
    text
}

pub fn replayed(form: Form, answer: &Result<Replayed, Refusal>) -> String {
    match (form, answer) {
        (_, Err(r)) => refused(form, r),
        (Form::Fields, Ok(Replayed::Good)) => fields(&[1]),
        (Form::Fields, Ok(Replayed::Bad(moment))) => fields(&[0, *moment]),
        (_, Ok(Replayed::Good)) => "good\n".to_string(),
        (_, Ok(Replayed::Bad(moment))) => format!("bad {moment}\n"),
    }
}
