//! Sheets with something wrong: each refusal, each field, cut anywhere,
//! random bytes; and a few that only come close.

use super::{mood::Mood, random_board};
use crate::rng::Rng;
use crate::text;

/// A sheet's lines as fields, the letter first.
type Lines = Vec<Vec<String>>;

/// How many ways there are to damage a sheet.
pub const WAYS: usize = 19;

/// A damaged sheet; one in eight is damaged twice.
pub fn sheet(rng: &mut Rng) -> Vec<u8> {
    loop {
        let way = rng.below(WAYS);
        let other = rng.chance(12).then(|| rng.below(WAYS));
        let made = sheet_of(rng, way, other);
        if text::can_stand(&made) {
            return made;
        }
    }
}

/// A sheet damaged in one way, or in two.
pub fn sheet_of(rng: &mut Rng, way: usize, other: Option<usize>) -> Vec<u8> {
    let size = if rng.chance(70) { "tiny" } else { "program" };
    let mood = Mood::new(rng, size).expect("these sizes are known");
    let board = random_board(rng, &mood).sheet();
    let mut lines = lines_of(&board);
    damage_lines(rng, way, &mut lines);
    if let Some(other) = other {
        damage_lines(rng, other, &mut lines);
    }
    let mut bytes = bytes_of(&lines);
    damage_bytes(rng, way, &mut bytes);
    bytes
}

fn lines_of(sheet: &[u8]) -> Lines {
    let text = String::from_utf8_lossy(sheet).into_owned();
    let fields = |l: &str| l.split('\t').map(str::to_string).collect();
    text.lines().map(fields).collect()
}

fn bytes_of(lines: &Lines) -> Vec<u8> {
    let mut out = Vec::new();
    for line in lines {
        out.extend_from_slice(line.join("\t").as_bytes());
        out.push(b'\n');
    }
    out
}

/// A line of this letter, if there is one.
fn line_of(rng: &mut Rng, lines: &Lines, letter: &str) -> Option<usize> {
    let found: Vec<usize> = (0..lines.len())
        .filter(|i| lines[*i][0] == letter)
        .collect();
    (!found.is_empty()).then(|| found[rng.below(found.len())])
}

fn damage_lines(rng: &mut Rng, way: usize, lines: &mut Lines) {
    if lines.is_empty() {
        return;
    }
    let at = rng.below(lines.len());
    let field = 1 + rng.below(lines[at].len().max(2) - 1);
    match way {
        5 => field_count(rng, &mut lines[at]),
        6 => {
            let to = rng.below(lines.len());
            lines.swap(at, to);
        }
        7 => half_a_pair(rng, lines),
        8 => set(lines, at, field, "-"),
        9 => {
            let forms = [
                "00",
                "01",
                "-0",
                "+1",
                "12345678901",
                " 1",
                "1 ",
                "",
                "a",
                "--1",
                "1.0",
                "-",
                "-00",
                "0x1",
                "1e3",
                "-12345678901",
                "\r",
                "１",
            ];
            let form = forms[rng.below(forms.len())];
            set(lines, at, field, form);
        }
        10 => lines.insert(at, vec![String::new()]),
        11 => {
            let letters = ["Q", "p", "NN", "", " P", "T", "n", "W W", "0"];
            lines[at][0] = letters[rng.below(letters.len())].to_string();
        }
        12 => over_its_most(rng, lines),
        13 => {
            let over = [
                "1000001",
                "-1000001",
                "65536",
                "1001",
                "64",
                "6",
                "3",
                "4",
                "2",
                "-1",
                "0",
                "9999999999",
                "-9999999999",
                "4294967296",
                "4294967295",
                "2147483648",
                "-2147483649",
                "1000000",
                "-1000000",
                "65535",
            ];
            let form = over[rng.below(over.len())];
            set(lines, at, field, form);
        }
        14 => id_twice(rng, lines),
        15 => not_there(rng, lines),
        16 => {
            if let Some(i) = line_of(rng, lines, "N") {
                set(lines, i, 8, "-");
                set(lines, i, 9, "-");
                set(lines, i, 10, "0");
                set(lines, i, 11, "5");
            }
        }
        _ => {}
    }
}

fn set(lines: &mut Lines, at: usize, field: usize, text: &str) {
    if let Some(f) = lines[at].get_mut(field) {
        *f = text.to_string();
    }
}

fn field_count(rng: &mut Rng, line: &mut Vec<String>) {
    let at = rng.below(line.len());
    match rng.below(4) {
        0 => {
            line.pop();
        }
        1 => line.push("0".to_string()),
        2 => line.push(String::new()),
        _ => {
            line.remove(at);
        }
    }
}

fn half_a_pair(rng: &mut Rng, lines: &mut Lines) {
    if let Some(i) = line_of(rng, lines, "N") {
        let field = 8 + rng.below(4);
        let missing = lines[i].get(field).is_some_and(|f| f == "-");
        set(lines, i, field, if missing { "0" } else { "-" });
    }
}

/// Fills a section to the program's most, or to one or two over it.
fn over_its_most(rng: &mut Rng, lines: &mut Lines) {
    let letters = ["P", "N", "C", "F", "X", "W"];
    let most = crate::Limits::PROGRAM.records;
    let section = rng.below(6);
    let Some(from) = line_of(rng, lines, letters[section]) else {
        return;
    };
    let have = lines.iter().filter(|l| l[0] == letters[section]).count();
    let goal = most[section] + rng.below(3);
    let last = lines.iter().rposition(|l| l[0] == letters[section]);
    let end = last.map_or(0, |l| l + 1);
    for k in have..goal {
        let mut line = lines[from].clone();
        // A new id for the records that need one of their own.
        if matches!(section, 1..=3) && line.len() > 1 {
            line[1] = (900_000 + k).to_string();
        }
        if section == 2 && line.len() > 2 {
            line[2] = lines[from][1].clone();
        }
        lines.insert(end + k - have, line);
    }
}

fn id_twice(rng: &mut Rng, lines: &mut Lines) {
    let pairs = [("N", "N"), ("F", "N"), ("F", "F"), ("C", "C"), ("N", "F")];
    let (to, from) = pairs[rng.below(pairs.len())];
    let ends = (line_of(rng, lines, to), line_of(rng, lines, from));
    if let (Some(to), Some(from)) = ends {
        let id = lines[from].get(1).cloned().unwrap_or_default();
        set(lines, to, 1, &id);
    }
}

fn not_there(rng: &mut Rng, lines: &mut Lines) {
    let letter = ["N", "C", "F", "P", "N"][rng.below(5)];
    let Some(i) = line_of(rng, lines, letter) else {
        return;
    };
    let count = lines.iter().filter(|l| l[0] == "P").count();
    match letter {
        // A page that is not there; one page fewer; a top chip that is none.
        "N" if rng.chance(50) => set(lines, i, 10, &count.to_string()),
        "N" => set(lines, i, 2, "0"),
        "P" => {
            lines.remove(i);
        }
        "C" => {
            let own = lines[i].get(1).cloned().unwrap_or_default();
            let parents = ["999998", "-", &own];
            let parent = parents[rng.below(3)].to_string();
            set(lines, i, 2, &parent);
        }
        _ => set(lines, i, 2, "999998"),
    }
}

fn damage_bytes(rng: &mut Rng, way: usize, bytes: &mut Vec<u8>) {
    const LIKELY: &[u8] = b"\t\n -0123456789PNCFXWELRBUT+\r\0\x7f\xff%";
    let at = rng.below(bytes.len().max(1));
    let any = rng.number() as u8;
    let byte = if rng.chance(70) {
        rng.pick(LIKELY)
    } else {
        any
    };
    match way {
        0 => bytes.truncate(at),
        1 if !bytes.is_empty() => bytes[at] = byte,
        2 => bytes.insert(at.min(bytes.len()), byte),
        3 if !bytes.is_empty() => {
            bytes.remove(at);
        }
        4 => {
            let wild = rng.chance(30);
            let len = rng.below(120);
            *bytes = (0..len)
                .map(|_| {
                    if wild {
                        rng.number() as u8
                    } else {
                        rng.pick(LIKELY)
                    }
                })
                .collect();
        }
        17 => {
            bytes.pop();
        }
        18 if rng.below(40) == 0 => *bytes = by_size(rng),
        _ => {}
    }
}

/// A sheet of 65,536 bytes or one more: pages enough for a 2 by count too.
fn by_size(rng: &mut Rng) -> Vec<u8> {
    let size = 65_536 + rng.below(2);
    let mut bytes = b"P\t0\t10\n".repeat(size / 7 + 1);
    bytes.truncate(size);
    if rng.chance(50) {
        bytes[size - 1] = b'\n';
    }
    bytes
}
