//! The data of the program `test_answers`: files by name, and the printouts for them.
//!
//! Case NN has NN.table and NN.target, NN.question or NN.text, of which one may be missing or a folder. The program
//! prints the case's number on a line, then what the program of this kind of file prints for these files.

use super::{concat_lines, fresh_data, sample_table, sample_without};
use crate::answer::{ask, ask_text, reach};
use crate::cases::bytes;
use crate::print::{asked, fields, reached, Form};
use std::fs;
use std::io;
use std::path::Path;

enum Part {
    File(Vec<u8>),
    Missing,
    /// A folder in the place of a file: it can be opened and not read.
    Folder,
}

use Part::{File, Folder, Missing};

enum Case {
    Reach(Part, Part),
    Ask(Part, Part),
    AskText(Part, Part),
}

use Case::{Ask, AskText, Reach};

fn cases() -> Vec<Case> {
    let sample = || File(sample_table());
    let lines = |l: &[&[usize]]| File(concat_lines(l));
    let third = || lines(&[&[4, 3]]);
    let equal = || lines(&[&[4, 3], &[5, 1, 1, 1, 1, 2]]);
    let inevitable = || lines(&[&[1, 3, 0], &[14, 1, 0]]);
    let six_registers = || {
        let mut table = sample_table();
        table.splice(
            ..fields(&[1, 2, 1, 3, 2, 2]).len(),
            fields(&[1, 6, 1, 3, 2, 2]).into_bytes(),
        );
        File(table)
    };
    let wide = || {
        lines(&[
            &[1, 5, 2, 1, 1, 0],
            &[2, 0],
            &[2, 1],
            &[3, 0],
            &[4, 1],
            &[5, 1, 1, 2, 3, 1],
            &[5, 1, 1, 2, 3, 2],
            &[5, 1, 2, 2, 1, 1],
            &[5, 1, 3, 2, 1, 2],
            &[5, 1, 4, 1, 3, 2],
        ])
    };
    // Constants as large as can be.
    let largest = || {
        lines(&[
            &[1, 2, 2, 4, 3, 3],
            &[2, 4_294_967_294],
            &[2, 4_294_967_295],
            &[3, 1],
            &[3, 2],
            &[3, 3],
            &[4, 1],
            &[5, 1, 1, 1, 3, 2],
            &[5, 1, 2, 2, 3, 2],
            &[5, 1, 2, 2, 3, 1],
            // Fresh beside a register, and the other register free.
            &[6, 1, 1, 2],
            &[7, 2, 1, 2, 1, 2],
            &[7, 2, 1, 2, 3, 1],
            &[7, 2, 1, 2, 3, 2],
            &[8, 2, 2, 1],
            // A constant as a parameter, and a stored one.
            &[6, 2, 2, 3],
            &[7, 2, 1, 1, 3, 2],
            &[7, 2, 2, 1, 1, 2],
            &[8, 1, 2, 1],
            &[8, 2, 3, 1],
            // Every number of the line but one has ten digits.
            &[6, 3, 3, 4],
            &[7, 2, 1, 1, 1, 1],
            &[7, 2, 2, 1, 1, 2],
            &[7, 2, 3, 2, 1, 1],
            &[7, 2, 3, 2, 1, 2],
            &[8, 1, 1, 2],
            &[8, 2, 1, 1],
        ])
    };
    // The longest line of a run: five registers and three parameters of ten digits.
    let longest = || {
        lines(&[
            &[1, 5, 2, 2, 1, 1],
            &[2, 4_294_967_294],
            &[2, 4_294_967_295],
            &[3, 3],
            &[4, 1],
            &[5, 1, 1, 1, 3, 1],
            &[5, 1, 2, 1, 3, 2],
            &[5, 1, 3, 1, 3, 1],
            &[5, 1, 4, 1, 3, 2],
            &[5, 1, 5, 1, 3, 1],
            &[6, 1, 1, 2],
            &[7, 2, 1, 1, 3, 2],
            &[7, 2, 2, 1, 3, 1],
            &[7, 2, 3, 1, 3, 2],
            &[8, 1, 2, 1],
            &[8, 2, 2, 2],
            &[8, 3, 2, 3],
            &[8, 4, 1, 4],
            &[8, 5, 1, 5],
        ])
    };
    // The sample with another line 2.
    let nobody = |line: &str| {
        let mut table = sample_table();
        let at = fields(&[1, 2, 1, 3, 2, 2]).len();
        table.splice(at..at + 19, line.bytes());
        File(table)
    };
    let text = |t: &str| File(t.as_bytes().to_vec());
    let separate = || text("AG!(L3&r1=r2)");
    let all_but = lines(&[&[2, 1, 5], &[4, 1, 0], &[3, 4, 2], &[5, 2, 3], &[4, 4, 0]]);
    vec![
        // 1 to 3: document 01's sample, place 3; with registers equal; the same without line 8 1 1 1.
        Reach(sample(), third()),
        Reach(sample(), equal()),
        Reach(File(sample_without(&[8, 1, 1, 1])), equal()),
        // 4, 5: the two folders of examples/.
        Reach(File(sample_without(&[7, 2, 1, 2, 1, 1])), equal()),
        Reach(sample(), equal()),
        // A run of no steps.
        Reach(sample(), lines(&[&[4, 1]])),
        // 7, 8: a table and a target that are turned back.
        Reach(File(sample_table()[..163].to_vec()), third()),
        Reach(sample(), lines(&[&[4, 4]])),
        // 9, 10: one of them missing.
        Reach(Missing, third()),
        Reach(sample(), Missing),
        // 11, 12: the sample, EG of register 1 = register 1; AF place 3.
        Ask(sample(), lines(&[&[2, 1, 1], &[8, 1, 0]])),
        Ask(sample(), inevitable()),
        // 13, 14: a table and a question that are turned back.
        Ask(six_registers(), inevitable()),
        Ask(sample(), lines(&[&[1, 3, 0], &[14, 2, 0]])),
        // 15, 16: one of them missing.
        Ask(Missing, inevitable()),
        Ask(sample(), Missing),
        // 17: a no with five registers and two constants.
        Ask(wide(), all_but),
        // 18 to 21: a folder in the place of a file.
        Reach(Folder, third()),
        Reach(sample(), Folder),
        Ask(Folder, inevitable()),
        Ask(sample(), Folder),
        // 22 to 24: document 02's text; the same without line 8 1 1 1; without line 7 2 1 2 1 1.
        AskText(sample(), separate()),
        AskText(File(sample_without(&[8, 1, 1, 1])), separate()),
        AskText(File(sample_without(&[7, 2, 1, 2, 1, 1])), separate()),
        // 25, 26: the sample, E(U), yes and no.
        AskText(sample(), text("E(r2=c1UL3)")),
        AskText(sample(), text("E(r1=c1UL3)")),
        // 27: a no with five registers and two constants.
        AskText(wide(), text("!(!r1=r5&r4=c2)")),
        // 28: a table that is turned back, and so is the text.
        AskText(six_registers(), text("x")),
        // 29 to 32: a text that is turned back, by 1, 11, 12 and 5.
        AskText(sample(), text(&"!".repeat(401))),
        AskText(sample(), text("AG!(L3&r1=r2)\n")),
        AskText(sample(), text(&("!".repeat(32) + "L4"))),
        AskText(sample(), text("EF(L3&!r1=r3)")),
        // 33 to 36: one of them missing, or a folder in its place.
        AskText(Missing, separate()),
        AskText(sample(), Missing),
        AskText(Folder, separate()),
        AskText(sample(), Folder),
        // 37 to 39: constants as large as can be, held, given back and beside the smallest moves; never; the longest line.
        Reach(largest(), lines(&[&[4, 4]])),
        Reach(largest(), lines(&[&[4, 4], &[5, 1, 1, 1, 1, 2]])),
        Reach(longest(), lines(&[&[4, 2]])),
        // 40 to 43: the sample with the largest identifier for nobody, with the next number, with one that is 0 in 32
        // bits, and with line 2 as it was before document 02.
        Reach(nobody("     2  4294967295\n"), third()),
        Reach(nobody("     2  4294967296\n"), third()),
        Reach(nobody("     2  8589934592\n"), third()),
        Reach(nobody("     2     0\n"), third()),
        // 44, 45: a no with such constants, and the longest line of an answer; 46, 47: the same as text.
        Ask(largest(), lines(&[&[3, 1, 2], &[13, 1, 0]])),
        Ask(longest(), lines(&[&[1, 1, 0], &[13, 1, 0]])),
        AskText(largest(), text("AGr1=c2")),
        AskText(longest(), text("AGL1")),
    ]
}

fn write_part(path: &Path, part: &Part) -> io::Result<()> {
    match part {
        File(bytes) => fs::write(path, bytes),
        Missing => Ok(()),
        Folder => {
            // Git keeps no empty folder.
            fs::create_dir(path)?;
            fs::write(path.join("folder"), "This folder stands in the place of a file.\n")
        }
    }
}

/// Writes FOLDER/data and FOLDER/stdout.
pub fn write(folder: &Path) -> io::Result<()> {
    let data = fresh_data(folder)?;
    let mut text = String::new();
    for (i, case) in cases().iter().enumerate() {
        let (kind, table, other) = match case {
            Reach(table, target) => ("target", table, target),
            Ask(table, question) => ("question", table, question),
            AskText(table, text) => ("text", table, text),
        };
        let paths = ["table", kind].map(|k| data.join(format!("{:02}.{k}", i + 1)));
        write_part(&paths[0], table)?;
        write_part(&paths[1], other)?;
        // As the program finds them: what cannot be read is empty.
        let [table, other] = paths.map(|p| bytes(&p));
        text += &fields(&[i + 1]);
        text += &match case {
            Reach(..) => reached(Form::Fields, &reach(&table, &other, None)),
            Ask(..) => asked(Form::Fields, &ask(&table, &other, None)),
            AskText(..) => asked(Form::Fields, &ask_text(&table, &other, None)),
        };
    }
    fs::write(folder.join("stdout"), text)
}
