//! The sample of boards, damaged sheets and demand lists kept as records, and
//! all else in the repository that holds a plan.

use crate::model::branch::{BRANCHES, Branch, Counts};
use crate::rng::Rng;
use crate::{Limits, board, r#gen, lanes, model, shown, text};
use std::path::{Path, PathBuf};
use std::{fs, io};

pub const BOARD_SEED: u64 = 1;
pub const DAMAGED_SEED: u64 = 2;
pub const LANES_SEED: u64 = 3;
/// How often the sample is to meet each branch at least.
const EACH: usize = 6;
const TINY: usize = 250;
const PROGRAM: usize = 150;
/// Damaged sheets of each way; of those meant for refusals 2 to 6; and lists.
const EACH_WAY: usize = 15;
const EACH_LATER_WAY: usize = 22;
const LISTS: usize = 240;

/// Document 01's example (a).
pub const EXAMPLE_A: &str = "P\t0\t10
N\t1\t0\t1\t0\t2\t2\t0\t20\t0\t0\t0\t-
N\t2\t0\t0\t0\t2\t2\t0\t10\t8\t0\t10\t-
N\t3\t0\t0\t0\t2\t2\t0\t0\t8\t0\t20\t-
W\t1\t5\t2\t1
W\t1\t5\t3\t1
";

/// Sheets, and the branches they meet together.
pub struct Sample {
    pub sheets: Vec<Vec<u8>>,
    pub counts: Counts,
}

impl Sample {
    fn take(&mut self, sheet: Vec<u8>, counts: &Counts) {
        self.counts.add(counts);
        self.sheets.push(sheet);
    }
}

fn branches(sheet: &[u8]) -> Counts {
    let board = board::parse(sheet, &Limits::PROGRAM).expect("a generated board is accepted");
    model::run(&board).1
}

/// Example (a), the empty sheet, boards that meet each branch often enough,
/// then the first ones of each size.
pub fn boards() -> Sample {
    let mut sample = Sample {
        sheets: Vec::new(),
        counts: Counts::default(),
    };
    for sheet in [EXAMPLE_A.as_bytes().to_vec(), Vec::new()] {
        let counts = branches(&sheet);
        sample.take(sheet, &counts);
    }
    for (size, goal) in [("tiny", TINY), ("program", PROGRAM)] {
        let most = sample.sheets.len() + goal;
        let mut rest = Vec::new();
        for i in 0..4_000 {
            let sheet = r#gen::sheet(BOARD_SEED, i, size).expect("the size is known");
            let counts = branches(&sheet);
            let rare = |(b, _): &(Branch, &str)| counts.of(*b) > 0 && sample.counts.of(*b) < EACH;
            if sample.sheets.len() < most && BRANCHES.iter().any(rare) {
                sample.take(sheet, &counts);
            } else if counts.of(Branch::LevelAtBase) > 0 || i % 8 == 0 {
                rest.push((sheet, counts));
            }
        }
        for (sheet, counts) in rest {
            if sample.sheets.len() < most {
                sample.take(sheet, &counts);
            }
        }
    }
    sample
}

/// The refusal table's own examples, a sheet of one byte too many and one that
/// just fits, and each way of damage.
pub fn damaged() -> Vec<Vec<u8>> {
    let node = "N\t1\t0\t0\t0\t1\t1\t0\t0\t0\t0\t0\t0\n";
    let mut sheets: Vec<Vec<u8>> = vec![
        b"P\t07\t0\n".to_vec(),
        b"P\t0\t0\n".repeat(9),
        b"P\t0\t1000001\n".to_vec(),
        format!("P\t0\t0\n{node}{node}").into_bytes(),
        b"C\t9\t-\n".to_vec(),
        b"P\t0\t0\nN\t1\t0\t0\t0\t1\t1\t0\t-\t-\t0\t0\t-\n".to_vec(),
        of_size(65_536),
        of_size(65_537),
    ];
    for way in 0..r#gen::damaged::WAYS - 1 {
        let mut taken = 0;
        let mut accepted = 0;
        for i in 0.. {
            let rng = &mut Rng::for_item(DAMAGED_SEED, 1_000 * way as u64 + i);
            let other = (i % 5 == 4).then(|| rng.below(17));
            let sheet = r#gen::damaged::sheet_of(rng, way, other);
            let plain = |b: &u8| b.is_ascii_graphic() || b"\t\n\r ".contains(b);
            if !text::can_stand(&sheet) || !sheet.iter().all(plain) {
                continue;
            }
            // A few that only come close are kept too.
            let fine = board::parse(&sheet, &Limits::PROGRAM).is_ok();
            if fine && accepted == 3 {
                continue;
            }
            accepted += usize::from(fine);
            sheets.push(sheet);
            taken += 1;
            let goal = if way < 12 { EACH_WAY } else { EACH_LATER_WAY };
            if taken == goal {
                break;
            }
        }
    }
    sheets
}

/// One W record too many to be read, in just so many bytes.
fn of_size(size: usize) -> Vec<u8> {
    let mut sheet = b"W\t1\t1\t2\t10\n".repeat(size / 11 + 1);
    sheet.truncate(size - 1);
    sheet.push(b'\n');
    sheet
}

/// Demand lists, those around 512 and 513 lanes among them.
pub fn lists() -> Vec<Vec<u32>> {
    let mut lists = vec![
        Vec::new(),
        vec![0, 2, 1, 0, 2, 4, 1, 1],
        vec![0, 2, 1, 0, 3, 5, 1, 1],
        [0, 0, 1, 0].repeat(512),
        [0, 0, 1, 0].repeat(513),
        [0, 0, 1, 0, 5].to_vec(),
    ];
    let mut long = 0;
    for i in 0.. {
        let list = r#gen::lanes::list(&mut Rng::for_item(LANES_SEED, i));
        // Long lists weigh much: eight of them, none of thousands.
        if list.len() > 4_000 || (list.len() > 400 && long == 8) {
            continue;
        }
        long += usize::from(list.len() > 400);
        lists.push(list);
        if lists.len() == LISTS {
            break;
        }
    }
    lists
}

/// Who answers: the original or the second model.
pub type Answer = fn(&[u8], &Limits) -> String;

/// Cases as one stream: sheet, `%%plan`, answer, `%%`.
fn cases(sheets: &[Vec<u8>], answer: Answer) -> Vec<u8> {
    let mut stream = Vec::new();
    for sheet in sheets {
        text::add(&mut stream, sheet, "%%plan");
        let plan = answer(sheet, &Limits::PROGRAM);
        text::add(&mut stream, plan.as_bytes(), "%%");
    }
    stream
}

/// A list, ` % `, its answer, a line each.
fn list_cases(lists: &[Vec<u32>]) -> String {
    let case = |l: &Vec<u32>| format!("{} % {}\n", lanes::line_of(l), lanes::answer(l));
    lists.iter().map(case).collect()
}

/// How often the boards meet each branch and the damaged sheets each refusal.
fn tallies(boards: &Sample, damaged: &[Vec<u8>]) -> String {
    let mut out = String::new();
    for (branch, words) in BRANCHES {
        out += &format!("{}\t{words}\n", boards.counts.of(*branch));
    }
    let mut refused = [0; 7];
    let mut by_size = 0;
    for sheet in damaged {
        match board::parse(sheet, &Limits::PROGRAM) {
            Ok(_) => refused[0] += 1,
            Err(r) if r.number == 2 && r.line == 0 => by_size += 1,
            Err(r) => refused[r.number as usize] += 1,
        }
    }
    out += &format!("{}\tdamaged and yet accepted\n", refused[0]);
    for (number, n) in refused.iter().enumerate().skip(1) {
        out += &format!("{n}\trefused with {number}\n");
    }
    out + &format!("{by_size}\trefused with 2 by size\n")
}

/// A file, and what it has to hold.
pub type Made = (PathBuf, Vec<u8>);

/// Every file of the repository at `root` that holds an answer: the sample of
/// records, the plan beside each example, what the program prints, and the
/// documents and tests that show lines of a plan.
pub fn files(root: &Path, answer: Answer) -> io::Result<Vec<Made>> {
    let mut made = sample(&root.join("records"), answer);
    // The gate's replay reads the first two as its own data: the same files once more.
    let data = root.join("crates/program_replay/data");
    let read = made[..2].to_vec();
    made.extend(
        read.into_iter()
            .map(|(path, text)| (data.join(path.file_name().unwrap_or_default()), text)),
    );
    for folder in ["examples", "examples/readings"] {
        for entry in fs::read_dir(root.join(folder))? {
            let sheet = entry?.path();
            if sheet.extension().is_some_and(|e| e == "sheet") {
                made.push(answered(&sheet, sheet.with_extension("plan"), answer)?);
            }
        }
    }
    let program = root.join("crates/program");
    made.push(answered(
        &program.join("stdin"),
        program.join("stdout"),
        answer,
    )?);
    for (name, text) in shown::TEXTS {
        let path = root.join(name);
        let shown = shown::anew(&fs::read_to_string(&path)?, *text, answer);
        made.push((path, shown.into_bytes()));
    }
    Ok(made)
}

/// The answer to a file's sheet, and the file that it belongs into.
fn answered(sheet: &Path, into: PathBuf, answer: Answer) -> io::Result<Made> {
    let answer = answer(&fs::read(sheet)?, &Limits::PROGRAM);
    Ok((into, answer.into_bytes()))
}

/// The files of the sample.
fn sample(folder: &Path, answer: Answer) -> Vec<Made> {
    let (boards, damaged) = (boards(), damaged());
    let tallies = tallies(&boards, &damaged).into_bytes();
    vec![
        (folder.join("boards.txt"), cases(&boards.sheets, answer)),
        (folder.join("damaged.txt"), cases(&damaged, answer)),
        (folder.join("lanes.txt"), list_cases(&lists()).into_bytes()),
        (folder.join("branches.txt"), tallies),
    ]
}
