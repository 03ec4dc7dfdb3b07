//! Document 01's sample and all its worked examples, starred and not, as document 02 changed them; the folders of examples/.

use engine::answer::{ask, ask_text, reach};
use engine::class::{class_of_contents, class_of_matrix, contents_of_class, list_of, matrix_of_class, Classes};
use engine::graph::{Graph, Method};
use engine::print::{asked, reached, replayed, Form};
use engine::read::{read_question, read_table, read_target, Refusal};
use engine::replay::{replay, Replayed};
use engine::trials::partly_stuck;
use std::fs;
use std::path::Path;

/// Lines with single spaces, set in columns: twelve for the identifier of a table's line 2, else six.
fn file(lines: &[&str]) -> Vec<u8> {
    let mut text = String::new();
    for line in lines {
        let fields: Vec<&str> = line.split(' ').collect();
        match fields[..] {
            ["2", identifier] => text.push_str(&format!("     2{identifier:>12}")),
            _ => fields.iter().for_each(|field| text.push_str(&format!("{field:>6}"))),
        }
        text.push('\n');
    }
    text.into_bytes()
}

const SAMPLE: [&str; 16] = [
    "1 2 1 3 2 2",
    "2 0",
    "3 1",
    "3 1",
    "4 1",
    "5 1 1 1 3 1",
    "5 1 2 1 3 1",
    "6 1 1 2",
    "7 2 1 2 3 1",
    "8 1 2 1",
    "8 2 3 1",
    "6 2 2 3",
    "7 2 1 2 1 1",
    "7 2 1 2 3 1",
    "8 1 1 1",
    "8 2 2 1",
];

fn sample() -> Vec<u8> {
    file(&SAMPLE)
}

fn refusal(number: u32, file: u32, line: u32) -> Refusal {
    Refusal { number, file, line }
}

const METHODS: [Option<Method>; 3] = [None, Some(Method::Pool), Some(Method::Class)];

#[test]
fn the_printout() {
    for method in METHODS {
        let answer = reach(&sample(), &file(&["4 3"]), method);
        let expected = [
            "     1     2     3\n",
            "     0     0     1           0           0\n",
            "     1     1     2           1           0           1\n",
            "     2     2     3           1           2           2\n",
        ];
        assert_eq!(reached(Form::Fields, &answer), expected.concat());
        let a = answer.unwrap();
        assert_eq!(a.words[0], 16_513);
        assert_eq!(a.words[1..].iter().sum::<u32>(), 0);
        assert_eq!((a.steps, a.count), (2, 3));
        assert_eq!(
            (a.least[0], a.least[7], a.least[14], a.least[1], a.least[10_783]),
            (0, 1, 2, 65_535, 65_535)
        );
        assert_eq!((a.link[0], a.link[7], a.link[14], a.link[1]), (0, 0, 7, 65_535));
        assert_eq!(
            a.run,
            [0, 0, 0, 0, 0, 1, 1, 0, 0, 1, 0, 0, 0, 0, 2, 2, 0, 0, 1, 2, 0, 0, 0]
        );
        assert_eq!(replay(&sample(), &a.run), Ok(Replayed::Good));
    }
}

#[test]
fn classes() {
    assert_eq!(Classes::new(5, &[0, 1]).count(), 674);
    assert_eq!(Classes::new(5, &[]).count(), 52);
    assert_eq!(Classes::new(0, &[0, 1]).count(), 1);
    assert_eq!(list_of(&[0], &[0, 7, 7]), [1, 2, 2]);
    assert_eq!(class_of_matrix(2, &[0], &[2, 1, 1, 2]), Err(refusal(10, 0, 0)));
    assert_eq!(class_of_matrix(1, &[], &[0]), Err(refusal(10, 0, 0)));
    assert_eq!(class_of_matrix(1, &[], &[4]), Err(refusal(10, 0, 0)));
    assert_eq!(class_of_matrix(0, &[], &[]), Ok(0));
    assert_eq!(class_of_matrix(usize::MAX, &[], &[0]), Err(refusal(9, 0, 0)));
    assert_eq!(class_of_matrix(6, &[], &[0; 36]), Err(refusal(3, 0, 0)));
    assert_eq!(class_of_contents(2, &[5, 5], &[0, 1]), Err(refusal(4, 0, 0)));
    assert_eq!(contents_of_class(5, &[0, 1], 674), Err(refusal(5, 0, 0)));
    assert_eq!(contents_of_class(3, &[0, 2], 0), Ok(vec![0, 0, 0]));
    let classes = Classes::new(5, &[0, 2]);
    assert!(classes.lists.windows(2).all(|w| w[0] < w[1]));
    assert_eq!(classes.contents(673), [1, 3, 4, 5, 6]);
    for k in 0..674 {
        assert_eq!(classes.number(&classes.contents(k)), k);
    }
    for k in 0..12 {
        let contents = contents_of_class(2, &[0, 2], k);
        if k == 10 {
            assert_eq!(contents, Err(refusal(5, 0, 0)));
            break;
        }
        assert_eq!(class_of_contents(2, &[0, 2], &contents.unwrap()), Ok(k));
        assert_eq!(
            class_of_matrix(2, &[0, 2], &matrix_of_class(2, &[0, 2], k).unwrap()),
            Ok(k)
        );
    }
}

#[test]
fn example_3() {
    // Three registers, no constants, p1 ≠ p2 and r1 ≠ r2; sets r2, p1, p2.
    let bytes = file(&[
        "1 3 0 2 1 1",
        "3 2",
        "4 1",
        "6 1 1 2",
        "7 1 1 2 1 2",
        "7 2 1 2 2 2",
        "8 1 1 2",
        "8 2 2 1",
        "8 3 2 2",
    ]);
    let table = read_table(&bytes).unwrap();
    for method in [Method::Pool, Method::Class] {
        let graph = Graph::new(&table, method);
        let from = graph.classes.number(&[1, 2, 2]);
        for node in (0..graph.nodes()).filter(|&n| graph.configuration[n] == from) {
            let mut lists: Vec<Vec<u32>> = graph
                .successors(node)
                .iter()
                .map(|&m| {
                    assert_eq!(graph.place[m as usize], 2);
                    graph.classes.lists[graph.configuration[m as usize] % graph.classes.count()].clone()
                })
                .collect();
            lists.sort();
            lists.dedup();
            assert_eq!(lists, [[1, 1, 2], [1, 2, 1], [1, 2, 3]]);
        }
    }
}

#[test]
fn equal_registers() {
    for method in METHODS {
        let never = reach(&sample(), &file(&["4 3", "5 1 1 1 1 2"]), method);
        assert_eq!(reached(Form::Fields, &never), "     0     0     3\n");
        assert!(never.unwrap().run.is_empty());
        let shorter: Vec<&str> = SAMPLE.iter().copied().filter(|&l| l != "8 1 1 1").collect();
        let two = reach(&file(&shorter), &file(&["4 3", "5 1 1 1 1 2"]), method).unwrap();
        assert_eq!((two.reached, two.steps), (true, 2));
        assert_eq!(two.moments[2].contents[..2], [2, 2]);
    }
}

#[test]
fn questions() {
    for method in METHODS {
        let yes = ask(&sample(), &file(&["2 1 1", "8 1 0"]), method);
        assert_eq!(asked(Form::Fields, &yes), "     1\n");
        let no = ask(&sample(), &file(&["1 1 0", "8 1 0"]), method);
        assert_eq!(asked(Form::Fields, &no), "     0     0           0           0\n");
        let yes = ask(&sample(), &file(&["1 3 0", "14 1 0"]), method);
        assert_eq!(asked(Form::Fields, &yes), "     1\n");
        let rows = yes.unwrap().rows;
        // Place 3 is configurations 10 to 14.
        assert_eq!(rows[0], 0b11111 << 10);
        assert_eq!(rows.len(), 32 * 337);
    }
}

#[test]
fn habits() {
    // One register holding 5, constant 0, condition register = constant: no step.
    let table = file(&[
        "1 1 1 2 1 1",
        "2 0",
        "3 0",
        "4 1",
        "5 1 1 2 3 1",
        "6 1 1 2",
        "7 1 1 1 3 1",
    ]);
    let answer = reach(&table, &file(&["4 2"]), None).unwrap();
    assert_eq!((answer.reached, answer.count), (false, 1));
    // A register that is not set may hold anything.
    let table = file(&["1 1 1 2 1 1", "2 0", "3 0", "4 1", "5 1 1 1 3 1", "6 1 1 2"]);
    let answer = reach(&table, &file(&["4 2", "5 1 1 2 3 1"]), None);
    assert_eq!(
        reached(Form::Fields, &answer),
        "     1     1     3\n     0     0     1           0\n     1     1     2           1\n"
    );
}

/// Where each of these rows holds, a bit for each of the first 32 configurations.
fn rows_hold(table: &[u8], rows: &[(&str, u32)]) {
    let question: Vec<&str> = rows.iter().map(|row| row.0).collect();
    for method in METHODS {
        let words = ask(table, &file(&question), method).unwrap().rows;
        for (i, (row, holds)) in rows.iter().enumerate() {
            assert_eq!(words[337 * i], *holds, "{row}");
        }
    }
}

/// Where no step exists the segment stays: here at place 1 with other contents than the constant, though an arc leaves
/// that place, and at place 2. Configurations 0 and 2 hold the constant, and a step leads from 0 to 2.
#[test]
fn stuck_at_an_arc() {
    let table = partly_stuck();
    rows_hold(
        &table,
        &[
            ("1 1 0", 0b0011),
            ("1 2 0", 0b1100),
            ("5 1 2", 0),
            ("4 3 0", 0b1111),
            // EX of place 1, of place 2, of nothing, of everything.
            ("6 1 0", 0b0010),
            ("6 2 0", 0b1101),
            ("6 3 0", 0),
            ("6 4 0", 0b1111),
            // AX.
            ("11 1 0", 0b0010),
            ("11 2 0", 0b1101),
            ("11 3 0", 0),
            ("11 4 0", 0b1111),
            // EG.
            ("8 1 0", 0b0010),
            ("8 2 0", 0b1100),
            ("8 3 0", 0),
            ("8 4 0", 0b1111),
            // AF.
            ("14 1 0", 0b0011),
            ("14 2 0", 0b1101),
            ("14 3 0", 0),
            ("14 4 0", 0b1111),
            // E U, EF and AG are what they are without the stay.
            ("7 1 2", 0b1101),
            ("12 2 0", 0b1101),
            ("13 1 0", 0b0010),
        ],
    );
    let no = ask(&table, &file(&["1 2 0", "14 1 0"]), None);
    assert_eq!(asked(Form::Fields, &no), "     0     1           1\n");
    // Nothing else sees the stay.
    for method in [Method::Pool, Method::Class] {
        let graph = Graph::new(&read_table(&table).unwrap(), method);
        for node in 0..graph.nodes() {
            let next: Vec<usize> = graph
                .successors(node)
                .iter()
                .map(|&m| graph.configuration[m as usize])
                .collect();
            let expected: &[usize] = if graph.configuration[node] == 0 { &[2] } else { &[] };
            assert_eq!(next, expected);
        }
    }
    let answer = reach(&table, &file(&["4 2"]), None).unwrap();
    assert_eq!((answer.steps, answer.count), (1, 3));
    assert_eq!(answer.least[..4], [0, 0, 1, 65_535]);
    assert_eq!(answer.link[..4], [0, 1, 0, 65_535]);
    let stay = [5, 0, 0, 0, 0, 0, 0, 0, 0, 5, 0, 0, 0, 0];
    assert_eq!(replay(&table, &stay), Ok(Replayed::Bad(1)));
}

/// An arc that can never be met counts for nothing: the segment stays wherever it is.
#[test]
fn arcs_never_met() {
    for never in [
        &["7 1 1 2 1 1"][..],
        &["7 2 1 1 1 1", "7 2 1 2 1 1"],
        &["7 2 1 1 3 1", "7 2 1 1 3 2"],
    ] {
        let head = ["1 1 2 2 1 1", "2 0", "2 7", "3 1", "4 1", "6 1 1 2"];
        let table = file(&[&head, never].concat());
        rows_hold(
            &table,
            &[
                ("1 1 0", 0b000111),
                ("6 1 0", 0b000111),
                ("11 1 0", 0b000111),
                ("8 1 0", 0b000111),
                ("14 1 0", 0b000111),
                ("4 1 0", 0b111000),
                ("6 6 0", 0b111000),
                ("14 6 0", 0b111000),
            ],
        );
    }
}

/// The sample without its second arc stops at place 2, translated: AF place 3 is no.
#[test]
fn stopped_short() {
    let stopped: Vec<&str> = ["1 2 1 3 2 1"]
        .into_iter()
        .chain(SAMPLE[1..11].iter().copied())
        .collect();
    for method in METHODS {
        let no = ask(&file(&stopped), &file(&["1 3 0", "14 1 0"]), method);
        assert_eq!(asked(Form::Fields, &no), "     0     0           0           0\n");
        let yes = ask(&file(&stopped), &file(&["1 2 0", "8 1 0", "14 2 0"]), method);
        assert_eq!(asked(Form::Fields, &yes), "     1\n");
        let never = reach(&file(&stopped), &file(&["4 3"]), method);
        assert_eq!(reached(Form::Fields, &never), "     0     0     2\n");
    }
}

/// What a folder's page says is printed for its files is printed.
#[test]
fn folders() {
    let examples = Path::new(env!("CARGO_MANIFEST_DIR")).join("../examples");
    for name in ["own-revision", "mended", "machine-translated", "stopped"] {
        let part = |file: &str| fs::read(examples.join(name).join(file)).expect("a file");
        let (table, page) = (part("table.txt"), String::from_utf8(part("README.md")).expect("a page"));
        for printout in [
            reached(Form::Fields, &reach(&table, &part("target.txt"), None)),
            asked(Form::Fields, &ask_text(&table, &part("question_text.txt"), None)),
        ] {
            assert!(
                page.contains(&format!("prints:\n\n```\n{printout}```\n")),
                "{name}:\n{printout}"
            );
        }
    }
}

#[test]
fn limits() {
    // 5 registers pass, 6 are 3.
    assert!(read_table(&file(&["1 5 0 1 1 0", "3 0", "4 1"])).is_ok());
    assert_eq!(
        read_table(&file(&["1 6 0 1 1 0", "3 0", "4 1"])).unwrap_err(),
        refusal(3, 1, 1)
    );
    // 8 conditions pass, 9 are 6; the ninth with a wrong value too, with a wrong layout 2.
    let start = ["1 1 0 1 1 0", "3 0", "4 1"];
    let eight: Vec<&str> = start.iter().copied().chain(["5 1 1 1 1 1"; 8]).collect();
    assert!(read_table(&file(&eight)).is_ok());
    for (ninth, number) in [
        ("5 1 1 1 1 1", 6),
        ("5 9 9 9 9 9", 6),
        ("5 1 1 1 1", 2),
        ("5 1 1 1 1 01", 2),
    ] {
        let lines: Vec<&str> = eight.iter().copied().chain([ninth]).collect();
        assert_eq!(read_table(&file(&lines)).unwrap_err(), refusal(number, 1, 12));
    }
    let arc: Vec<&str> = ["1 1 0 1 1 1", "3 1", "4 1", "6 1 1 1"]
        .into_iter()
        .chain(["7 1 1 1 2 1"; 9])
        .collect();
    assert!(read_table(&file(&arc[..12])).is_ok());
    assert_eq!(read_table(&file(&arc)).unwrap_err(), refusal(6, 1, 13));
    // In a target 9 conditions are 1; 32 rows pass, 33 are 1.
    let table = read_table(&sample()).unwrap();
    let target: Vec<&str> = ["4 1"].into_iter().chain(["5 1 1 1 1 1"; 9]).collect();
    assert!(read_target(&table, &file(&target[..9])).is_ok());
    assert_eq!(read_target(&table, &file(&target)).unwrap_err(), refusal(1, 2, 0));
    assert!(read_question(&table, &file(&["1 1 0"; 32])).is_ok());
    assert_eq!(
        read_question(&table, &file(&["1 1 0"; 33])).unwrap_err(),
        refusal(1, 2, 0)
    );
    // A run of 0 steps.
    let none = reach(&sample(), &file(&["4 1"]), None);
    assert_eq!(
        reached(Form::Fields, &none),
        "     1     0     3\n     0     0     1           0           0\n"
    );
    assert_eq!(none.unwrap().run, [0; 5]);
}

#[test]
fn refusals_of_tables() {
    let cases: [(&[&str], Refusal); 33] = [
        (&[], refusal(2, 1, 1)),
        (&["1 0 0 1 1 0"], refusal(2, 1, 2)),
        (&["1 0 0 1 1 0", "3 0"], refusal(2, 1, 3)),
        (&["2 0 0 1 1 0"], refusal(2, 1, 1)),
        (&["1 0 3 0 1 0"], refusal(3, 1, 1)),
        (&["1 0 0 0 1 0"], refusal(3, 1, 1)),
        (&["1 0 0 17 1 0"], refusal(3, 1, 1)),
        (&["1 0 0 1 0 0"], refusal(3, 1, 1)),
        (&["1 0 0 1 1 65"], refusal(3, 1, 1)),
        (&["1 0 2 1 1 0", "2 1", "2 1"], refusal(4, 1, 3)),
        (&["1 0 2 1 1 0", "2 1", "2 0"], refusal(4, 1, 3)),
        (&["1 0 2 1 1 0", "2 1", "3 0"], refusal(2, 1, 3)),
        (&["1 0 0 1 1 0", "3 4", "4 9"], refusal(5, 1, 2)),
        (&["1 0 0 1 1 0", "3 0", "4 0"], refusal(5, 1, 3)),
        (&["1 0 0 1 1 0", "3 0", "4 2"], refusal(5, 1, 3)),
        (&["1 0 0 1 1 0", "3 0", "4 1", "4 1"], refusal(2, 1, 4)),
        (&["1 1 0 1 1 0", "3 3", "4 1", "5 2 1 1 1 1"], refusal(5, 1, 4)),
        (&["1 1 0 1 1 0", "3 3", "4 1", "5 1 2 1 1 1"], refusal(5, 1, 4)),
        (&["1 1 0 1 1 0", "3 3", "4 1", "5 1 1 3 1 1"], refusal(5, 1, 4)),
        (&["1 1 0 1 1 0", "3 3", "4 1", "5 1 1 0 1 1"], refusal(5, 1, 4)),
        (&["1 1 0 1 1 0", "3 3", "4 1", "5 1 1 1 3 1"], refusal(5, 1, 4)),
        (&["1 1 0 1 1 0", "3 3", "4 1", "5 1 1 2 1 1"], refusal(7, 1, 0)),
        (&["1 0 1 1 1 0", "2 7", "3 3", "4 1", "5 3 1 2 3 1"], refusal(7, 1, 0)),
        (&["1 1 0 1 1 0", "3 3", "4 1", "6 1 1 1"], refusal(2, 1, 4)),
        (&["1 1 0 1 1 1", "3 3", "4 1"], refusal(2, 1, 4)),
        (&["1 1 0 1 1 1", "3 3", "4 1", "6 2 9 9"], refusal(5, 1, 4)),
        (
            &["1 1 0 1 1 1", "3 3", "4 1", "6 1 1 1", "5 1 1 1 1 1"],
            refusal(2, 1, 5),
        ),
        (
            &["1 1 0 1 1 1", "3 1", "4 1", "6 1 1 1", "7 2 2 1 1 1"],
            refusal(5, 1, 5),
        ),
        (
            &["1 1 0 1 1 1", "3 1", "4 1", "6 1 1 1", "8 1 1 1", "7 2 1 1 1 1"],
            refusal(2, 1, 6),
        ),
        (
            &["1 1 0 1 1 1", "3 1", "4 1", "6 1 1 1", "8 1 1 1", "8 1 2 2"],
            refusal(5, 1, 6),
        ),
        (
            &["1 1 0 1 1 1", "3 1", "4 1", "6 1 1 1", "8 1 1 1", "8 1 2 1"],
            refusal(4, 1, 6),
        ),
        (
            &["1 2 0 1 1 1", "3 1", "4 1", "6 1 1 1", "8 2 1 1", "8 1 2 1"],
            refusal(4, 1, 6),
        ),
        (
            &["1 2 0 1 1 1", "3 1", "4 1", "6 1 1 1", "8 0 1 1", "8 1 2 1"],
            refusal(5, 1, 5),
        ),
    ];
    for (lines, expected) in cases {
        assert_eq!(read_table(&file(lines)).unwrap_err(), expected, "{lines:?}");
    }
}

#[test]
fn layout() {
    let good = file(&["1 0 0 1 1 0", "3 0", "4 1"]);
    assert!(read_table(&good).is_ok());
    let line = |l| Err(refusal(2, 1, l));
    let changed = |at: usize, byte: u8| {
        let mut bytes = good.clone();
        bytes[at] = byte;
        read_table(&bytes).map(|_| ())
    };
    for byte in [0, 9, 13, b'+', b'-', b'0', b'x', 0xff] {
        assert_eq!(changed(4, byte), line(1));
        assert_eq!(changed(36 + 1 + 6, byte), line(2));
    }
    assert_eq!(changed(36, b' '), line(1));
    let ending = |extra: &[u8]| {
        let mut bytes = good.clone();
        bytes.extend(extra);
        read_table(&bytes).map(|_| ())
    };
    assert_eq!(read_table(&good[..good.len() - 1]).map(|_| ()), line(3));
    assert_eq!(ending(b"\n"), line(4));
    assert_eq!(ending(b" "), line(4));
    assert_eq!(ending(&vec![b' '; 40_000 - good.len()]), line(4));
    assert_eq!(ending(&vec![b' '; 40_001 - good.len()]), Err(refusal(1, 1, 0)));
}

/// A table with these lines 2.
fn with_constants(count: usize, lines: &str) -> Result<Vec<u32>, Refusal> {
    let text = format!("     1     1{count:6}     1     1     0\n{lines}     3     0\n     4     1\n");
    read_table(text.as_bytes()).map(|t| t.constants)
}

#[test]
fn identifiers() {
    let one = |number: &str| with_constants(1, &format!("     2{number:>12}\n"));
    for number in [
        0,
        9,
        999_999,
        1_000_000,
        999_999_999,
        1_000_000_000,
        u32::MAX - 1,
        u32::MAX,
    ] {
        assert_eq!(one(&number.to_string()), Ok(vec![number]));
    }
    // Beyond 32 bits: the layout is right, and the number is not taken for what 32 bits leave of it.
    for number in ["4294967296", "4294967303", "9999999999", "10000000000", "999999999999"] {
        assert_eq!(one(number), Err(refusal(5, 1, 2)), "{number}");
        // 5 before 4, whatever stands before.
        for before in ["0", "5", "4294967295"] {
            let lines = format!("     2{before:>12}\n     2{number:>12}\n");
            assert_eq!(with_constants(2, &lines), Err(refusal(5, 1, 3)), "{lines}");
        }
        // 2 before 5: no byte 10, a third field of either width, a field too wide, a line too many.
        for line in [
            format!("     2{number:>12}"),
            format!("     2{number:>12}     0\n"),
            format!("     2{number:>12}           0\n"),
            format!("     2{number:>13}\n"),
        ] {
            assert_eq!(with_constants(1, &line), Err(refusal(2, 1, 2)), "{line}");
        }
        assert_eq!(
            with_constants(0, &format!("     2{number:>12}\n")),
            Err(refusal(2, 1, 2))
        );
        assert_eq!(
            with_constants(1, &format!("     2           1\n     2{number:>12}\n")),
            Err(refusal(2, 1, 3))
        );
    }
    let two = |a: u32, b: u32| with_constants(2, &format!("     2{a:12}\n     2{b:12}\n"));
    assert_eq!(two(u32::MAX - 1, u32::MAX), Ok(vec![u32::MAX - 1, u32::MAX]));
    assert_eq!(two(u32::MAX, u32::MAX - 1), Err(refusal(4, 1, 3)));
    assert_eq!(two(u32::MAX, u32::MAX), Err(refusal(4, 1, 3)));
    // The old width, and what is no number right-justified in twelve columns.
    for line in [
        "     2     7\n",
        "     2999999\n",
        "     2          07\n",
        "     2          -7\n",
        "     2          +7\n",
        "     27           \n",
        "     2     7     7\n",
        "     2            \n",
        "     21000000000000\n",
        "     2          7\n",
        "     2            7\n",
    ] {
        assert_eq!(with_constants(1, line), Err(refusal(2, 1, 2)), "{line}");
    }
    // No other line is wider than before; a question's row of kind 2 is no line 2.
    let wide = b"     1     0     0     1     1     0\n     3           0\n     4     1\n";
    assert_eq!(read_table(wide).unwrap_err(), refusal(2, 1, 2));
    let table = read_table(&sample()).unwrap();
    assert!(read_question(&table, b"     2     1     2\n").is_ok());
    assert_eq!(
        read_question(&table, b"     2     1           2\n").unwrap_err(),
        refusal(2, 2, 1)
    );
    for line in ["     2           7\n", "     2     7\n"] {
        let target = format!("     4     3\n{line}");
        assert_eq!(read_target(&table, target.as_bytes()).unwrap_err(), refusal(2, 2, 2));
    }
}

/// Constants as large as can be: no marker of the engine's own is taken for one of them.
#[test]
fn largest_constants() {
    let table = file(&[
        "1 2 2 3 2 2",
        "2 4294967294",
        "2 4294967295",
        "3 1",
        "3 2",
        "4 1",
        "5 1 1 1 3 2",
        "5 1 2 2 3 1",
        "5 1 2 2 3 2",
        "6 1 1 2",
        "7 2 1 2 3 1",
        "7 2 1 2 3 2",
        "7 2 1 2 1 2",
        "8 1 2 1",
        "6 2 2 3",
        "7 2 1 1 3 2",
        "8 1 2 1",
        "8 2 3 1",
    ]);
    for method in METHODS {
        let answer = reach(&table, &file(&["4 3"]), method);
        // Register 2 is free after arc 1: the first constant comes first in the order of classes.
        let expected = [
            "     1     2     6\n",
            "     0     0     1  4294967295           0\n",
            "     1     1     2           1  4294967294           1\n",
            "     2     2     3  4294967295  4294967294  4294967295           0\n",
        ];
        assert_eq!(reached(Form::Fields, &answer), expected.concat());
        assert_eq!(replay(&table, &answer.unwrap().run), Ok(Replayed::Good));
        let no = ask(&table, &file(&["3 1 2", "13 1 0"]), method);
        assert_eq!(asked(Form::Fields, &no), "     0     5  4294967295           0\n");
    }
}

#[test]
fn refusals_of_the_other_file() {
    let table = read_table(&sample()).unwrap();
    let question: [(&[&str], Refusal); 14] = [
        (&[], refusal(2, 2, 1)),
        (&["1 1"], refusal(2, 2, 1)),
        (&["1 1 0 0"], refusal(2, 2, 1)),
        (&["0 1 0"], refusal(5, 2, 1)),
        (&["15 1 0"], refusal(5, 2, 1)),
        (&["1 4 0"], refusal(5, 2, 1)),
        (&["1 1 1"], refusal(5, 2, 1)),
        (&["2 1 3"], refusal(5, 2, 1)),
        (&["3 1 2"], refusal(5, 2, 1)),
        (&["4 9 5"], refusal(8, 2, 1)),
        (&["1 1 0", "4 1 5"], refusal(5, 2, 2)),
        (&["1 1 0", "5 1 2"], refusal(8, 2, 2)),
        (&["1 1 0", "5 0 9"], refusal(8, 2, 2)),
        (&["1 1 0", "8 1 0", "14 999999 0"], refusal(8, 2, 3)),
    ];
    for (lines, expected) in question {
        assert_eq!(read_question(&table, &file(lines)).unwrap_err(), expected, "{lines:?}");
    }
    let target: [(&[&str], Refusal); 6] = [
        (&[], refusal(2, 2, 1)),
        (&["4 4"], refusal(5, 2, 1)),
        (&["5 1 1 1 1 1"], refusal(2, 2, 1)),
        (&["4 3", "4 3"], refusal(2, 2, 2)),
        (&["4 3", "5 2 1 1 1 1"], refusal(5, 2, 2)),
        (&["4 3", "5 1 1 1 3 2"], refusal(5, 2, 2)),
    ];
    for (lines, expected) in target {
        assert_eq!(read_target(&table, &file(lines)).unwrap_err(), expected, "{lines:?}");
    }
    // A target that no contents meet is not refused.
    let never = reach(&sample(), &file(&["4 3", "5 1 1 2 1 1"]), None);
    assert_eq!(reached(Form::Fields, &never), "     0     0     3\n");
    // The table's refusals, 7 among them, come before the other file's 1.
    let bad = file(&["1 1 0 1 1 0", "3 3", "4 1", "5 1 1 2 1 1"]);
    assert_eq!(
        reached(Form::Fields, &reach(&bad, &[b'x'; 999], None)),
        "     2     7     1     0\n"
    );
    assert_eq!(
        asked(Form::Digest, &ask(&sample(), &[b'x'; 609], None)),
        "code 101\nrefusal 1 2 0\n"
    );
}

#[test]
fn replayer() {
    let run = reach(&sample(), &file(&["4 3"]), None).unwrap().run;
    let judge = |at: usize, x: u32| {
        let mut list = run.clone();
        list[at] = x;
        replay(&sample(), &list).unwrap()
    };
    assert_eq!(replay(&sample(), &run[..5]), Ok(Replayed::Good));
    assert_eq!(judge(0, 1), Replayed::Bad(0));
    assert_eq!(judge(4, 1), Replayed::Bad(0));
    assert_eq!(judge(5, 0), Replayed::Bad(1));
    assert_eq!(judge(5, 2), Replayed::Bad(1));
    assert_eq!(judge(5, 3), Replayed::Bad(1));
    assert_eq!(judge(5, u32::MAX), Replayed::Bad(1));
    assert_eq!(judge(7, 1), Replayed::Bad(1));
    assert_eq!(judge(13, 1), Replayed::Bad(1));
    assert_eq!(judge(14, 1), Replayed::Bad(2));
    assert_eq!(judge(15, 1), Replayed::Bad(2));
    assert_eq!(judge(18, 2), Replayed::Bad(2));
    for length in [0, 4, 6, 13, 15] {
        let list = vec![0; length];
        assert_eq!(replay(&[], &list), Err(refusal(9, 0, 0)));
        assert_eq!(
            replayed(Form::Fields, &replay(&[], &list)),
            "     2     9     0     0\n"
        );
    }
    assert_eq!(replay(&[], &[0; 5]), Err(refusal(2, 1, 1)));
    assert_eq!(replayed(Form::Fields, &replay(&sample(), &[1; 5])), "     0     0\n");
}
