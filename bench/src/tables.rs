//! The tables, targets and questions that are timed.

/// One case: the files of both calls.
#[derive(Clone)]
pub struct Case {
    pub name: String,
    pub table: Vec<u8>,
    pub target: Vec<u8>,
    pub question: Vec<u8>,
}

fn line(bytes: &mut Vec<u8>, numbers: &[usize]) {
    for n in numbers {
        bytes.extend(format!("{n:6}").bytes());
    }
    bytes.push(10);
}

/// A table's line 2: the identifier stands in twelve columns.
fn constant(bytes: &mut Vec<u8>, identifier: usize) {
    bytes.extend(format!("{:6}{identifier:12}\n", 2).bytes());
}

/// Lines written with single spaces, separated by semicolons, set in columns. Two numbers of which the first is 2 are a
/// constant: a question's rows have three.
pub fn columns(text: &str) -> Vec<u8> {
    let mut bytes = Vec::new();
    for part in text.split(';') {
        let numbers: Vec<usize> = part.split_whitespace().map(|w| w.parse().expect("a number")).collect();
        match numbers[..] {
            [2, identifier] => constant(&mut bytes, identifier),
            _ => line(&mut bytes, &numbers),
        }
    }
    bytes
}

/// `r1`, `p2` or `c1` as term kind and number.
fn term(word: &str) -> [usize; 2] {
    let (kind, number) = word.split_at(1);
    let kind = 1 + "rpc".find(kind).expect("a term");
    [kind, number.parse().expect("a term's number")]
}

/// `r1=c1 r2!=r1` as conditions.
fn conditions(bytes: &mut Vec<u8>, kind: usize, text: &str) {
    for word in text.split_whitespace() {
        let (left, relation, right) = match word.split_once("!=") {
            Some((left, right)) => (left, 2, right),
            None => {
                let (left, right) = word.split_once('=').expect("a condition");
                (left, 1, right)
            }
        };
        let (left, right) = (term(left), term(right));
        line(bytes, &[kind, left[0], left[1], relation, right[0], right[1]]);
    }
}

/// A table in short: an arc is from, to, number of parameters, conditions, and what is set, where `keep` sets all other
/// registers to themselves. Action n has n − 1 parameters.
struct Flow<'a> {
    registers: usize,
    constants: &'a [usize],
    places: usize,
    start: &'a str,
    arcs: &'a [(usize, usize, usize, &'a str, &'a str)],
}

impl Flow<'_> {
    fn write(&self) -> Vec<u8> {
        let mut bytes = Vec::new();
        line(
            &mut bytes,
            &[1, self.registers, self.constants.len(), self.places, 4, self.arcs.len()],
        );
        for &c in self.constants {
            constant(&mut bytes, c);
        }
        for arity in 0..4 {
            line(&mut bytes, &[3, arity]);
        }
        line(&mut bytes, &[4, 1]);
        conditions(&mut bytes, 5, self.start);
        for &(from, to, parameters, when, set) in self.arcs {
            line(&mut bytes, &[6, from, parameters + 1, to]);
            conditions(&mut bytes, 7, when);
            let mut sets: Vec<Option<[usize; 2]>> = vec![None; self.registers];
            for word in set.split_whitespace() {
                if word == "keep" {
                    for (r, slot) in sets.iter_mut().enumerate() {
                        slot.get_or_insert([1, r + 1]);
                    }
                } else {
                    let (register, value) = word.split_once('=').expect("a set");
                    sets[term(register)[1] - 1] = Some(term(value));
                }
            }
            for (r, value) in sets.iter().enumerate() {
                if let Some(value) = value {
                    line(&mut bytes, &[8, r + 1, value[0], value[1]]);
                }
            }
        }
        bytes
    }
}

/// An arc of a table that is put together: from, to, number of parameters, conditions, and what is set.
type Arc = (usize, usize, usize, String, String);

fn arc(from: usize, to: usize, when: &str, set: &str) -> Arc {
    (from, to, 0, when.to_string(), set.to_string())
}

/// Five registers, two constants and sixteen places with these arcs.
fn at_limit(name: &str, start: &str, arcs: &[Arc], target: Vec<u8>, question: &str) -> Case {
    let arcs: Vec<(usize, usize, usize, &str, &str)> = arcs
        .iter()
        .map(|(from, to, n, when, set)| (*from, *to, *n, when.as_str(), set.as_str()))
        .collect();
    let flow = Flow {
        registers: 5,
        constants: &[0, 1],
        places: 16,
        start,
        arcs: &arcs,
    };
    case(name, flow, target, question)
}

/// So many times the same row after these.
fn again(first: &str, row: &str, times: usize) -> String {
    first.to_string() + &format!("; {row}").repeat(times)
}

fn target(place: usize, when: &str) -> Vec<u8> {
    let mut bytes = Vec::new();
    line(&mut bytes, &[4, place]);
    conditions(&mut bytes, 5, when);
    bytes
}

fn case(name: &str, flow: Flow, target: Vec<u8>, question: &str) -> Case {
    Case {
        name: name.to_string(),
        table: flow.write(),
        target,
        question: columns(question),
    }
}

/// Document 01's sample, target place 3, and AF place 3.
pub fn sample() -> Case {
    Case {
        name: "sample".to_string(),
        table: columns(
            "1 2 1 3 2 2; 2 0; 3 1; 3 1; 4 1; 5 1 1 1 3 1; 5 1 2 1 3 1; 6 1 1 2; 7 2 1 2 3 1; 8 1 2 1; 8 2 3 1; \
             6 2 2 3; 7 2 1 2 1 1; 7 2 1 2 3 1; 8 1 1 1; 8 2 2 1",
        ),
        target: columns("4 3"),
        question: columns("1 3 0; 14 1 0"),
    }
}

/// The smallest table: what a call costs before any work.
pub fn smallest() -> Case {
    Case {
        name: "smallest".to_string(),
        table: columns("1 0 0 1 1 0; 3 0; 4 1"),
        target: columns("4 1"),
        question: columns("1 1 0"),
    }
}

/// Nine workflows as a translators' co-operative has them; constant 1 is nobody.
pub fn mix() -> Vec<Case> {
    vec![
        // Translator and reviser: assigned, translated, revised, sent back, delivered.
        case(
            "four eyes",
            Flow {
                registers: 2,
                constants: &[0],
                places: 5,
                start: "r1=c1 r2=c1",
                arcs: &[
                    (1, 2, 1, "p1!=c1", "r1=p1 r2=c1"),
                    (2, 3, 1, "p1=r1", "keep"),
                    (2, 1, 0, "", "r1=c1 r2=c1"),
                    (3, 4, 1, "p1!=c1 p1!=r1", "r2=p1 keep"),
                    (4, 3, 0, "", "r2=c1 keep"),
                    (4, 2, 1, "p1=r2", "keep"),
                    (4, 5, 1, "p1=r2", "keep"),
                ],
            },
            target(5, ""),
            "1 5 0; 2 1 2; 5 1 2; 4 3 0; 13 4 0",
        ),
        // Translator, reviser, proofreader: three different people.
        case(
            "six eyes",
            Flow {
                registers: 3,
                constants: &[0],
                places: 7,
                start: "r1=c1 r2=c1 r3=c1",
                arcs: &[
                    (1, 2, 1, "p1!=c1", "r1=p1 keep"),
                    (2, 3, 1, "p1=r1", "keep"),
                    (3, 4, 1, "p1!=c1 p1!=r1", "r2=p1 keep"),
                    (4, 2, 1, "p1=r2", "keep"),
                    (4, 5, 1, "p1=r2", "keep"),
                    (5, 6, 1, "p1!=c1 p1!=r1 p1!=r2", "r3=p1 keep"),
                    (6, 4, 1, "p1=r3", "keep"),
                    (6, 7, 1, "p1=r3", "keep"),
                    (2, 1, 0, "", "r1=c1 keep"),
                    (4, 3, 0, "", "r2=c1 keep"),
                    (6, 5, 0, "", "r3=c1 keep"),
                ],
            },
            target(7, "r1!=r2 r2!=r3"),
            "1 7 0; 12 1 0; 13 2 0; 2 1 3; 5 1 4; 12 5 0; 4 6 0; 5 3 7",
        ),
        // Two translators share a document, a reviser who may be neither.
        case(
            "shared document",
            Flow {
                registers: 3,
                constants: &[0],
                places: 6,
                start: "r1=c1 r2=c1 r3=c1",
                arcs: &[
                    (1, 2, 2, "p1!=c1 p2!=c1 p1!=p2", "r1=p1 r2=p2 r3=c1"),
                    (2, 3, 1, "p1=r1", "keep"),
                    (2, 4, 1, "p1=r2", "keep"),
                    (3, 5, 1, "p1=r2", "keep"),
                    (4, 5, 1, "p1=r1", "keep"),
                    (3, 3, 1, "p1!=c1 p1!=r1", "r2=p1 keep"),
                    (4, 4, 1, "p1!=c1 p1!=r2", "r1=p1 keep"),
                    (5, 6, 1, "p1!=c1 p1!=r1 p1!=r2", "r3=p1 keep"),
                    (6, 2, 1, "p1=r3", "r3=c1 keep"),
                ],
            },
            target(6, ""),
            "1 6 0; 14 1 0; 1 2 0; 10 3 2; 13 4 0",
        ),
        // Machine translation first; constant 2 is the engine.
        case(
            "post-editing",
            Flow {
                registers: 2,
                constants: &[0, 7],
                places: 6,
                start: "r1=c1 r2=c1",
                arcs: &[
                    (1, 2, 0, "", "r1=c2 r2=c1"),
                    (1, 2, 1, "p1!=c1 p1!=c2", "r1=p1 r2=c1"),
                    (2, 3, 1, "p1!=c1 p1!=c2 p1!=r1", "r2=p1 keep"),
                    (3, 4, 1, "p1=r2", "keep"),
                    (3, 2, 1, "p1=r2", "r2=c1 keep"),
                    (4, 5, 0, "r1=c2", "keep"),
                    (4, 6, 0, "r1!=c2", "keep"),
                    (5, 6, 1, "p1!=c1 p1!=c2 p1!=r2", "r1=p1 keep"),
                ],
            },
            target(6, "r1!=c2"),
            "3 1 2; 1 6 0; 5 1 2; 4 3 0; 13 4 0; 12 2 0; 13 6 0; 5 5 7",
        ),
        // A client approves; the query register holds who asked.
        case(
            "client review",
            Flow {
                registers: 4,
                constants: &[0],
                places: 8,
                start: "r1=c1 r2=c1 r3=c1 r4=c1",
                arcs: &[
                    (1, 2, 2, "p1!=c1 p2!=c1 p1!=p2", "r1=p1 r4=p2 keep"),
                    (2, 3, 1, "p1=r1", "keep"),
                    (2, 4, 1, "p1=r1", "r3=p1 keep"),
                    (4, 2, 1, "p1=r4", "r3=c1 keep"),
                    (3, 5, 1, "p1!=c1 p1!=r1 p1!=r4", "r2=p1 keep"),
                    (5, 4, 1, "p1=r2", "r3=p1 keep"),
                    (4, 5, 1, "p1=r4 r2!=c1", "r3=c1 keep"),
                    (5, 6, 1, "p1=r2", "keep"),
                    (6, 7, 1, "p1=r4", "keep"),
                    (6, 2, 1, "p1=r4", "r2=c1 keep"),
                    (7, 8, 0, "r1!=r2", "keep"),
                ],
            },
            target(8, "r3=c1"),
            "1 8 0; 12 1 0; 1 4 0; 3 3 1; 4 4 0; 10 3 5; 13 6 0; 2 1 2; 10 1 8; 13 9 0",
        ),
        // Rotating desk: whoever is free takes the next segment.
        case(
            "rotating desk",
            Flow {
                registers: 3,
                constants: &[0],
                places: 4,
                start: "r1=c1",
                arcs: &[
                    (1, 2, 1, "p1!=c1", "r1=p1 r2=r1 r3=r2"),
                    (2, 3, 1, "p1!=c1 p1!=r1", "r1=p1 r2=r1 r3=r2"),
                    (3, 4, 1, "p1!=c1 p1!=r1 p1!=r2", "r1=p1 r2=r1 r3=r2"),
                    (4, 1, 0, "r1!=r3", "r1=c1 r2=r1 r3=r2"),
                    (2, 1, 0, "", "r1=c1 keep"),
                    (3, 1, 0, "", "r1=c1 keep"),
                ],
            },
            target(4, "r1!=r2 r2!=r3 r1!=r3"),
            "1 4 0; 2 1 2; 5 1 2; 12 3 0; 4 4 0",
        ),
        // Complaints: the register of the first translator is forgotten on the way.
        case(
            "complaints",
            Flow {
                registers: 3,
                constants: &[0],
                places: 6,
                start: "r1!=c1 r2=c1 r3=c1",
                arcs: &[
                    (1, 2, 1, "p1!=c1", "r1=r1 r2=p1 r3=c1"),
                    (2, 3, 1, "p1!=c1 p1!=r1 p1!=r2", "r1=r1 r2=r2 r3=p1"),
                    (3, 4, 0, "", "r2=r2 r3=r3"),
                    (3, 5, 1, "p1=r3", "keep"),
                    (4, 5, 1, "p1=r2", "keep"),
                    (5, 6, 0, "r1!=r3", "keep"),
                    (5, 2, 0, "r1=r3", "r3=c1 keep"),
                ],
            },
            target(6, "r1=r2"),
            "1 6 0; 14 1 0; 2 1 2; 5 1 3; 12 4 0",
        ),
        // A certified translation: two constants, a notary who may not be translator or reviser.
        case(
            "certified",
            Flow {
                registers: 4,
                constants: &[0, 4_294_967_295],
                places: 10,
                start: "r1=c1 r2=c1 r3=c1 r4=c1",
                arcs: &[
                    (1, 2, 1, "p1!=c1 p1!=c2", "r1=p1 keep"),
                    (2, 3, 1, "p1=r1", "keep"),
                    (3, 4, 1, "p1!=c1 p1!=c2 p1!=r1", "r2=p1 keep"),
                    (4, 5, 1, "p1=r2", "keep"),
                    (4, 2, 1, "p1=r2", "r2=c1 keep"),
                    (5, 6, 1, "p1!=c1 p1!=c2 p1!=r1 p1!=r2", "r3=p1 keep"),
                    (6, 7, 1, "p1=r3", "keep"),
                    (6, 3, 1, "p1=r3", "r3=c1 r2=c1 keep"),
                    (7, 8, 0, "", "r4=c2 keep"),
                    (7, 9, 1, "p1!=c1 p1!=c2 p1!=r3", "r4=p1 keep"),
                    (8, 10, 1, "p1=r1", "keep"),
                    (9, 10, 1, "p1=r4", "keep"),
                    (9, 7, 0, "", "r4=c1 keep"),
                    (2, 1, 0, "", "r1=c1 keep"),
                    (4, 3, 0, "", "r2=c1 keep"),
                    (6, 5, 0, "", "r3=c1 keep"),
                ],
            },
            target(10, "r4!=c2"),
            "1 10 0; 12 1 0; 13 2 0; 2 1 2; 2 1 3; 9 4 5; 5 1 6; 12 7 0; 4 8 0; 5 3 9; 14 1 0; 9 10 11",
        ),
        // Rush jobs: several may pick up at once, anyone may take over.
        case(
            "rush jobs",
            Flow {
                registers: 4,
                constants: &[0],
                places: 9,
                start: "r1=c1 r2=c1 r3=c1 r4=c1",
                arcs: &[
                    (1, 2, 1, "p1!=c1", "r1=p1 keep"),
                    (1, 3, 2, "p1!=c1 p2!=c1 p1!=p2", "r1=p1 r2=p2 keep"),
                    (
                        1,
                        4,
                        3,
                        "p1!=c1 p2!=c1 p3!=c1 p1!=p2 p1!=p3 p2!=p3",
                        "r1=p1 r2=p2 r3=p3 keep",
                    ),
                    (2, 3, 1, "p1!=c1 p1!=r1", "r2=p1 keep"),
                    (3, 4, 1, "p1!=c1 p1!=r1 p1!=r2", "r3=p1 keep"),
                    (2, 5, 1, "p1=r1", "keep"),
                    (3, 5, 1, "p1=r1", "keep"),
                    (4, 5, 1, "p1=r1", "keep"),
                    (5, 6, 1, "p1!=c1 p1!=r1", "r4=p1 keep"),
                    (6, 7, 1, "p1=r4", "keep"),
                    (6, 5, 0, "", "r4=c1 keep"),
                    (7, 8, 0, "r4=r2", "keep"),
                    (7, 8, 0, "r4=r3", "keep"),
                    (7, 9, 0, "r4!=r2 r4!=r3", "keep"),
                    (8, 9, 1, "p1!=c1 p1!=r4 p1!=r1", "r4=p1 keep"),
                    (9, 1, 0, "", "r1=c1 r2=c1 r3=c1 r4=c1"),
                    (2, 2, 1, "p1!=c1", "r1=p1 keep"),
                    (3, 3, 1, "p1!=c1 p1!=r1", "r2=p1 keep"),
                    (4, 4, 1, "p1!=c1 p1!=r1 p1!=r2", "r3=p1 keep"),
                    (5, 5, 1, "p1!=c1", "r1=p1 keep"),
                ],
            },
            target(9, "r4!=r1"),
            "1 9 0; 2 1 4; 5 1 2; 12 3 0; 4 4 0; 1 1 0; 12 6 0; 13 7 0; 5 5 8",
        ),
    ]
}

/// How the arcs of a table at every limit look.
#[derive(Clone, Copy, PartialEq, Eq)]
pub enum Worst {
    /// No conditions, no registers set: each step leads to every class.
    Free,
    /// No conditions, all registers set, three of them to the parameters.
    Set,
    /// No conditions, four registers kept, one set to a parameter.
    Keep,
    /// Eight conditions that hold for fresh parameters only.
    Fresh,
    /// Eight conditions that hold always.
    Idle,
    /// The same, each about the last parameter: none is known to hold before all three are chosen.
    Late,
}

impl Worst {
    pub const ALL: [Worst; 6] = [
        Worst::Free,
        Worst::Set,
        Worst::Keep,
        Worst::Fresh,
        Worst::Idle,
        Worst::Late,
    ];
}

const LATE: &str = "p3=p3 p3=p3 p3=p3 p3=p3 p3=p3 p3=p3 p3=p3 p3=p3";

/// Five registers, two constants, sixteen places, 64 arcs of three parameters, four from each place. The target has
/// contents that none meet, so that all is looked at; the question needs every step.
pub fn worst(kind: Worst) -> Case {
    sized(kind, 5, 64, 3)
}

/// The same with fewer registers, arcs or parameters.
pub fn sized(kind: Worst, registers: usize, arcs: usize, parameters: usize) -> Case {
    spread(kind, registers, arcs, parameters, 16)
}

/// The same with fewer places too, over which the arcs are spread.
pub fn spread(kind: Worst, registers: usize, arcs: usize, parameters: usize, places: usize) -> Case {
    let when = match kind {
        Worst::Fresh => "p1!=c1 p1!=c2 p1!=r1 p1!=r2 p1!=r3 p1!=r4 p1!=r5 p1!=p2",
        Worst::Idle => "p1=p1 p2=p2 p3=p3 r1=r1 r2=r2 r3=r3 r4=r4 r5=r5",
        Worst::Late => LATE,
        _ => "",
    };
    let mut set = String::new();
    for r in 1..=registers {
        let kept = r > parameters || (kind == Worst::Keep && r > 1);
        if kind != Worst::Free {
            let (term, number) = if kept { ("r", r) } else { ("p", r) };
            set.push_str(&format!("r{r}={term}{number} "));
        }
    }
    let list: Vec<(usize, usize, usize, &str, &str)> = (0..arcs)
        .map(|i| {
            let from = i % places + 1;
            let to = (i * 7 + i / places) % places + 1;
            (from, to, parameters, when, set.as_str())
        })
        .collect();
    let name = match kind {
        Worst::Free => "free",
        Worst::Set => "set",
        Worst::Keep => "keep",
        Worst::Fresh => "fresh",
        Worst::Idle => "idle",
        Worst::Late => "late",
    };
    let fewer = if places < 16 {
        format!(", {places} places")
    } else {
        String::new()
    };
    let impossible = if registers > 0 { "r1!=r1" } else { "c1=c2" };
    case(
        &format!("{name} {registers} registers, {arcs} arcs, {parameters} parameters{fewer}"),
        Flow {
            registers,
            constants: &[3, 9],
            places,
            start: "",
            arcs: &list,
        },
        target(places, impossible),
        "1 1 0; 12 1 0; 8 2 0; 14 1 0; 11 4 0; 7 2 5",
    )
}

/// A counter over the classes of five registers, fifteen places passed between two counts: 6,672 steps. A digit goes
/// from low (constant 1) to the leading digit's value, to a value of its own, to high (constant 2).
fn counter() -> Vec<Arc> {
    let mut arcs: Vec<Arc> = Vec::new();
    let mut count = |digit: usize, when: &str, value: &str| {
        let mut when = when.to_string();
        let mut set = format!("r{digit}={value} ");
        for lighter in digit + 1..=5 {
            when.push_str(&format!(" r{lighter}=c2"));
            set.push_str(&format!("r{lighter}=c1 "));
        }
        arcs.push((1, 2, 1, when, set + "keep"));
    };
    count(1, "r1=c1 p1!=c1 p1!=c2", "p1");
    count(1, "r1!=c1 r1!=c2", "c2");
    for d in 2..=5 {
        count(d, &format!("r{d}=c1 r1!=c1 r1!=c2"), "r1");
        count(d, &format!("r{d}=r1 r1!=c2 p1!=r1 p1!=c1 p1!=c2"), "p1");
        count(d, &format!("r{d}=c1 r1=c2 p1!=c1 p1!=c2"), "p1");
        count(d, &format!("r{d}!=c1 r{d}!=c2 r{d}!=r1"), "c2");
    }
    for place in 2..=16 {
        arcs.push(arc(place, place % 16 + 1, "", "keep"));
    }
    arcs
}

/// The counter's start: every digit low. Its target, and row 11 of its question: every digit high.
const LOW: &str = "r1=c1 r2=c1 r3=c1 r4=c1 r5=c1";
const HIGH: &str = "r1=c2 r2=c2 r3=c2 r4=c2 r5=c2";
const HIGH_ROWS: &str = "1 1 0; 3 1 2; 3 2 2; 3 3 2; 3 4 2; 3 5 2; 5 1 2; 5 3 7; 5 4 8; 5 5 9; 5 6 10";

/// The longest shortest run that is known.
pub fn long_run() -> Case {
    let question = again(HIGH_ROWS, "12 11 0", 1);
    at_limit("long shortest run", LOW, &counter(), target(1, HIGH), &question)
}

/// Arcs from place 1 to a place that lower the list: from each list to the one before it, and to earlier ones only.
fn lower(to: usize) -> Vec<Arc> {
    let mut arcs = Vec::new();
    for i in 1..=5 {
        let kept: String = (1..i).map(|r| format!("r{r}=r{r} ")).collect();
        arcs.push(arc(1, to, &format!("r{i}!=c1"), &format!("{kept}r{i}=c1")));
        arcs.push(arc(1, to, &format!("r{i}!=c1 r{i}!=c2"), &format!("{kept}r{i}=c2")));
        // To the block of an earlier register: of a later block than all registers up to that one.
        for j in 1..i {
            let mut when = format!("r{j}!=c1 r{j}!=c2 r{i}!=c1 r{i}!=c2");
            for m in 1..=j {
                when.push_str(&format!(" r{i}!=r{m}"));
            }
            arcs.push(arc(1, to, &when, &format!("{kept}r{i}=r{j}")));
        }
    }
    arcs
}

/// The configurations of the first places in one falling order, the last one stuck: a step lowers the place, or from place
/// 1 the list.
fn falling(places: usize) -> Vec<Arc> {
    let mut arcs = lower(places);
    for place in 2..=places {
        arcs.push(arc(place, place - 1, "", "keep"));
    }
    arcs
}

/// These arcs, of which none leads from place 1 to place 1. The configuration that is stuck there alone has EG of place 1;
/// the question is `rows` rows of EG of all others.
fn rounds(name: String, arcs: &[Arc], rows: usize) -> Case {
    let question = again("1 1 0; 8 1 0; 4 2 0", "8 3 0", rows);
    at_limit(&name, "", arcs, target(1, LOW), &question)
}

/// All 10,784 configurations in one falling order. So each round of EG of the others takes away one configuration only,
/// and `rows` rows need 10,783 rounds each.
pub fn many_rounds(rows: usize) -> Case {
    rounds(format!("{rows} rows of 10,783 rounds"), &falling(16), rows)
}

/// The configurations of the first three places in one falling order, and steps from all others to all of these. So 2,021
/// rounds of EG take away one configuration each, and after each all 8,762 others have lost a step.
pub fn many_losses(rows: usize) -> Case {
    let mut arcs = falling(3);
    for place in 4..=16 {
        for to in 1..=3 {
            arcs.push(arc(place, to, "", ""));
        }
    }
    rounds(format!("{rows} rows of 2,021 rounds, 8,762 losses each"), &arcs, rows)
}

/// `many_rounds` with 29 arcs more that never fit and come first, two into most places. A search backward meets each
/// configuration once and leaves it after looking in vain through every arc into its place, these among them; rounds read
/// their rows each time something leaves that place.
pub fn padded(rows: usize) -> Case {
    let mut arcs: Vec<Arc> = (0..29).map(|i| never(i * 5 % 16 + 1, i % 16 + 1)).collect();
    arcs.extend(falling(16));
    rounds(format!("{rows} rows of 10,783 rounds, 29 arcs in vain"), &arcs, rows)
}

fn never(from: usize, to: usize) -> Arc {
    arc(from, to, "r1!=r1", "keep")
}

/// The configurations of places 1 to 11 in one falling order, 7,414 of them, with a step from the last one to place 13,
/// where the segment is stuck. Place 12 has steps to all of these, behind 22 arcs that never fit: whoever looks for a step
/// that is left looks through those first, for 674 configurations after each of 7,414 rounds. The question is `rows` rows
/// of AF place 13: EG of all other places, turned round.
pub fn vain_first(rows: usize) -> Case {
    let mut arcs: Vec<Arc> = (0..22).map(|i| never(12, i % 11 + 1)).collect();
    arcs.extend(falling(11));
    arcs.push(arc(1, 13, LOW, "keep"));
    arcs.extend((1..=11).map(|to| arc(12, to, "", "")));
    let name = format!("{rows} rows of 7,414 rounds, 22 arcs in vain first");
    let question = again("1 13 0", "14 1 0", rows);
    at_limit(&name, "", &arcs, target(13, ""), &question)
}

/// The longest run's table with `rows` rows of EF of its end: rounds of EF add one or a few configurations each.
pub fn far_ends(rows: usize) -> Case {
    let question = again(HIGH_ROWS, "12 11 0", rows);
    let name = format!("{rows} rows of EF at the end of the long run");
    at_limit(&name, LOW, &counter(), target(1, HIGH), &question)
}

/// The longest run's table with 31 arcs more of three parameters, which fail only at their eighth condition and come
/// first: each step of the run looks through them in vain.
pub fn fails_late() -> Case {
    let when = LATE[..LATE.len() - 5].to_string() + "p3!=p3";
    let mut arcs: Vec<Arc> = (0..31)
        .map(|i| (i % 16 + 1, (i + 1) % 16 + 1, 3, when.clone(), "keep".to_string()))
        .collect();
    arcs.extend(counter());
    let question = again(HIGH_ROWS, "12 11 0", 1);
    at_limit(
        "long shortest run, 31 arcs that fail late",
        LOW,
        &arcs,
        target(1, HIGH),
        &question,
    )
}

/// What the sixteen arcs into place 1 do that fit.
#[derive(Clone, Copy, PartialEq, Eq)]
pub enum Star {
    /// Nothing is set: a step to each configuration of place 1.
    Wide,
    /// All registers are set to constant 1: a step to one configuration, which all have in common.
    Narrow,
}

/// 64 arcs into place 1: first 48 that never fit, three from each place, then one from each place that fits always. A
/// search backward finds 10,110 configurations from one and the same, each after looking through those 48 again, where
/// lists of predecessors have the steps only: 10,784 of them, if narrow. The question is `rows` times this row about place
/// 1; `row` is 12 for EF, or 8 for EG, which is asked of all configurations.
pub fn star(star: Star, row: usize, rows: usize) -> Case {
    let (name, set) = match star {
        Star::Wide => ("wide", ""),
        Star::Narrow => ("narrow", "r1=c1 r2=c1 r3=c1 r4=c1 r5=c1"),
    };
    let mut arcs: Vec<Arc> = (0..48).map(|i| never(i % 16 + 1, 1)).collect();
    arcs.extend((1..=16).map(|from| arc(from, 1, "", set)));
    let (first, kind) = if row == 8 { ("2 1 1", "EG") } else { ("1 1 0", "EF") };
    let question = again(first, &format!("{row} 1 0"), rows);
    at_limit(
        &format!("{rows} rows of {kind} on a {name} star"),
        "",
        &arcs,
        target(1, "r1!=r1"),
        &question,
    )
}

/// Thirty arcs of one kind from place 1 to place 2 and thirty back, which keep three registers and leave two open: few
/// patterns, each of many classes, so that one look tells what many others will find. Place 4 leads to 3 and that to 5.
/// The question is `rows` rows of EF place 1, or of EG of all places but 5, which loses 3 and then 4.
pub fn parallel(row: usize, rows: usize) -> Case {
    let some = "r1=r1 r4=r4 r5=r5";
    let mut arcs: Vec<Arc> = (0..60).map(|i| arc(1 + i % 2, 2 - i % 2, "", some)).collect();
    arcs.extend([arc(4, 3, "", "keep"), arc(3, 5, "", "keep")]);
    let (question, kind) = if row == 8 {
        (again("1 5 0; 4 1 0", "8 2 0", rows), "EG")
    } else {
        (again("1 1 0", &format!("{row} 1 0"), rows), "EF")
    };
    at_limit(
        &format!("{rows} rows of {kind}, 60 arcs of one kind"),
        "",
        &arcs,
        target(1, "r1!=r1"),
        &question,
    )
}

/// Ten places in a ring, each with an arc to the next that keeps all registers, and five that leave one open; or, `alone`,
/// twelve places with the first kind only, which makes 674 rings of twelve configurations. Place 14 leads to 13 and that to
/// 15. The question is `rows` rows of EG of all places but 15, which loses 13 and then 14.
pub fn ring(alone: bool, rows: usize) -> Case {
    let (places, name) = if alone { (12, "alone") } else { (10, "and wider ones") };
    let mut arcs = vec![];
    for from in 1..=places {
        let to = from % places + 1;
        arcs.push(arc(from, to, "", "keep"));
        for open in 1..=5 {
            let kept: Vec<String> = (1..=5).filter(|r| *r != open).map(|r| format!("r{r}=r{r}")).collect();
            if !alone {
                arcs.push(arc(from, to, "", &kept.join(" ")));
            }
        }
    }
    arcs.extend([arc(14, 13, "", "keep"), arc(13, 15, "", "keep")]);
    at_limit(
        &format!("{rows} rows of EG on rings, {name}"),
        "",
        &arcs,
        target(1, "r1!=r1"),
        &again("1 15 0; 4 1 0", "8 2 0", rows),
    )
}

/// A table at every limit with `rows` rows of this kind. `Worst::Set` has a row of steps for each class,
/// `Worst::Free` all steps that there can be.
pub fn at_limits(kind: Worst, row: usize, rows: usize) -> Case {
    asked(worst(kind), row, rows)
}

/// Of a table of these families, `rows` rows about place 1: of EG (8), AX (11), EF (12) or AF (14); or of EX (6) about all
/// configurations, so that every step counts.
pub fn asked(c: Case, row: usize, rows: usize) -> Case {
    let kind = match row {
        6 => "EX",
        8 => "EG",
        11 => "AX",
        12 => "EF",
        _ => "AF",
    };
    let first = if row == 6 { "2 1 1" } else { "1 1 0" };
    let question = again(first, &format!("{row} 1 0"), rows);
    with_question(c, &format!("{rows} rows of {kind}"), &question)
}

fn with_question(c: Case, name: &str, question: &str) -> Case {
    let family = c.name.split(' ').next().expect("a name");
    Case {
        name: format!("{family}: {name}"),
        question: columns(question),
        ..c
    }
}

/// A table at every limit with EX and AX in turns of a set that has about one configuration in each word of 32: what goes
/// by words gains least there.
pub fn spaced(kind: Worst, rows: usize) -> Case {
    let turns: String = (0..rows)
        .map(|i| if i % 2 == 0 { "; 6 3 0" } else { "; 11 3 0" })
        .collect();
    let question = "3 4 1; 3 5 1; 5 1 2".to_string() + &turns;
    with_question(worst(kind), &format!("{rows} rows of EX and AX, spaced"), &question)
}

/// A table at every limit with AF of each place: sixteen searches through different sets.
pub fn each_place(kind: Worst) -> Case {
    let places: Vec<String> = (1..=16).map(|l| format!("1 {l} 0")).collect();
    let rows: Vec<String> = (1..=16).map(|l| format!("14 {l} 0")).collect();
    let question = [places, rows].concat().join("; ");
    with_question(worst(kind), "16 rows of AF, a place each", &question)
}

/// A question as text, and the number of the refusal that it gets, if it gets one.
pub struct Text {
    pub name: String,
    pub text: Vec<u8>,
    pub refused: Option<u32>,
}

fn written(name: &str, text: String, refused: Option<u32>) -> Text {
    Text {
        name: name.to_string(),
        text: text.into_bytes(),
        refused,
    }
}

/// Questions to the sample as text: document 02's own, and one of 32 rows with every operator.
pub fn sample_texts() -> Vec<Text> {
    vec![
        written("sample, AG!(L3&r1=r2)", "AG!(L3&r1=r2)".to_string(), None),
        written(
            "sample, 32 rows",
            "(EX(L1|L2)>(AXE(r1=c1UL2)|(EG!r1=r2&(AFL3>((AG(L3>!r1=c1)&EF(r1=r2|r2=c1))>!(L1&L2))))))".to_string(),
            None,
        ),
    ]
}

/// Texts of 400 bytes that are read to their end and turned back there, the deepest nestings among them.
pub fn long_texts() -> Vec<Text> {
    let nested = |open: &str, atom: &str, close: &str, times: usize| {
        let text = open.repeat(times) + atom + &close.repeat(times);
        "!".repeat(400 - text.len()) + &text
    };
    vec![
        written("399 times !, then x", "!".repeat(399) + "x", Some(11)),
        written("398 times !, L1", nested("!", "L1", "", 398), Some(12)),
        written("199 times AG, L1", nested("AG", "L1", "", 199), Some(12)),
        written("400 times (", "(".repeat(400), Some(11)),
        written("200 times E(", "E(".repeat(200), Some(11)),
        written("79 brackets on the left", nested("(", "L1", "&L1)", 79), Some(12)),
        written("79 brackets on the right", nested("(L1|", "L1", ")", 79), Some(12)),
        written("66 times E( U ) on the left", nested("E(", "L1", "UL1)", 66), Some(12)),
        written(
            "39 times r11=r12, in brackets",
            nested("(r11=r12>", "L1", ")", 39),
            Some(12),
        ),
    ]
}
