//! The blocks of docs/RULES.md and the boards under examples/, each with its
//! answer, byte for byte; and what the documents name is there.

use panzhyqur::{Buffers, Limits, PageBox, calls, check_sheet};
use std::collections::BTreeSet;
use std::fs;
use std::path::{Path, PathBuf};

fn root() -> PathBuf {
    PathBuf::from(env!("CARGO_MANIFEST_DIR")).join("..")
}

fn document(name: &str) -> String {
    fs::read_to_string(root().join("docs").join(name)).expect("docs/ stands at the root")
}

/// What stands under a heading, up to the next.
fn part<'t>(text: &'t str, heading: &str) -> &'t str {
    let behind = text.split(heading).nth(1).expect("the heading is there");
    behind.split("\n## ").next().expect("a first part")
}

/// The crate's answers to sheets.
struct Router {
    buffers: Buffers,
    said: Vec<u8>,
}

impl Router {
    fn new() -> Self {
        let buffers = Buffers::for_limits(&Limits::PROGRAM);
        let said = vec![0; buffers.answer_room()];
        Self { buffers, said }
    }

    /// The text that the library writes, which is also that of the plan or
    /// refusal as a value. The program's limits are held to, so that the
    /// program says the same.
    fn answer(&mut self, sheet: &[u8]) -> String {
        let limits = [Limits::LIBRARY, Limits::PROGRAM].map(|most| check_sheet(sheet, &most));
        assert_eq!(limits[0], limits[1], "within the program's limits");
        let told = match self.buffers.route(sheet) {
            Ok(plan) => plan.to_string(),
            Err(refusal) => refusal.sheet(),
        };
        let text = self.buffers.answer(sheet, &mut self.said);
        assert_eq!(text, Some(told.as_bytes()));
        told
    }
}

/// The fenced blocks of a document: the words behind the fence, and the lines.
fn blocks(text: &str) -> Vec<(&str, String)> {
    let (mut blocks, mut inside) = (Vec::new(), None::<(&str, String)>);
    for line in text.lines() {
        match (line.strip_prefix("```"), &mut inside) {
            (Some(tag), None) => inside = Some((tag, String::new())),
            (Some(_), Some(_)) => blocks.extend(inside.take()),
            (None, Some((_, lines))) => *lines += &format!("{line}\n"),
            (None, None) => {}
        }
    }
    assert!(inside.is_none(), "a block without an end");
    blocks
}

/// The blocks with a tag, each with the block of the other tag behind it.
fn pairs(asked: &str, answered: &str) -> Vec<(String, String)> {
    let rules = document("RULES.md");
    let blocks = blocks(&rules);
    let of = |tag: &str| blocks.iter().filter(|b| b.0 == tag).count();
    assert_eq!(of(asked), of(answered));
    let pairs: Vec<(String, String)> = (blocks.windows(2))
        .filter(|two| two[0].0 == asked && two[1].0 == answered)
        .map(|two| (two[0].1.clone(), two[1].1.clone()))
        .collect();
    assert_eq!(pairs.len(), of(asked));
    pairs
}

#[test]
fn sheets_of_the_rules() {
    let mut router = Router::new();
    let pairs = pairs("sheet", "plan");
    assert_eq!(pairs.len(), 3);
    for (sheet, plan) in pairs {
        let [sheet, plan] = [sheet, plan].map(|text| text.replace(' ', "\t"));
        assert_eq!(router.answer(sheet.as_bytes()), plan, "{sheet}");
    }
}

/// The boxes, asked of the first board.
#[test]
fn boxes_of_the_rules() {
    let sheet = pairs("sheet", "plan").remove(0).0.replace(' ', "\t");
    let mut buffers = Buffers::for_limits(&Limits::PROGRAM);
    let pairs = pairs("box", "hits");
    assert_eq!(pairs.len(), 1);
    for (asked, told) in pairs {
        let numbers: Vec<i32> = (asked.split_whitespace())
            .map(|n| n.parse().expect("a number"))
            .collect();
        let page_box = PageBox {
            page: numbers[0] as u32,
            x: (numbers[1], numbers[2]),
            y: (numbers[3], numbers[4]),
        };
        let hits = buffers
            .hits(sheet.as_bytes(), &page_box)
            .expect("the board is accepted");
        assert_eq!(hits.to_string(), told.replace(' ', "\t"));
    }
}

/// One list of demands through the lane call.
fn lanes(list: &str) -> String {
    let numbers = list
        .split_whitespace()
        .map(|n| n.parse().expect("a number"));
    let list: Vec<u32> = numbers.collect();
    let count = list.len() / 4;
    let mut lanes = vec![0; count];
    let [mut work, mut spare] = [(); 2].map(|()| vec![[0; 8]; count]);
    let told = calls::allocate_lanes(&list, &mut lanes, &mut work, &mut spare);
    if told.refusal > 0 {
        return format!("E {} {}", told.refusal, told.place);
    }
    let each = lanes.iter().map(|lane| format!(" {lane}"));
    told.count.to_string() + &each.collect::<String>()
}

#[test]
fn demands_of_the_rules() {
    let pairs = pairs("demands", "lanes");
    assert_eq!(pairs.len(), 1);
    for (lists, answers) in pairs {
        let told: Vec<String> = lists.lines().map(lanes).collect();
        assert_eq!(told, answers.lines().collect::<Vec<_>>());
    }
}

/// The files with an ending in a folder and in the folders inside it.
fn files(folder: &Path, ending: &str) -> Vec<PathBuf> {
    let mut found = Vec::new();
    for entry in fs::read_dir(folder).expect("the folder is there") {
        let path = entry.expect("an entry").path();
        if path.is_dir() {
            found.extend(files(&path, ending));
        } else if path.extension().is_some_and(|e| e == ending) {
            found.push(path);
        }
    }
    found.sort();
    found
}

#[test]
fn boards_of_the_examples() {
    let folder = root().join("examples");
    let sheets = files(&folder, "sheet");
    assert!(sheets.len() >= 40, "{} sheets", sheets.len());
    let beside = |file: &PathBuf| file.with_extension("sheet");
    let plans: Vec<PathBuf> = files(&folder, "plan").iter().map(beside).collect();
    assert_eq!(plans, sheets, "a plan beside each sheet");
    let mut router = Router::new();
    for file in sheets {
        let sheet = fs::read(&file).expect("a sheet can be read");
        let plan = fs::read_to_string(file.with_extension("plan")).expect("and so can its plan");
        assert_eq!(router.answer(&sheet), plan, "{}", file.display());
    }
}

/// The rules' numbers that a text names: one of their letters, then digits.
fn numbers(text: &str) -> BTreeSet<String> {
    let is_number = |word: &&str| {
        let digits = word.strip_prefix(|c| "SECLGDTVRKWPH".contains(c));
        digits.is_some_and(|d| !d.is_empty() && d.bytes().all(|b| b.is_ascii_digit()))
    };
    let words = text.split(|c: char| !c.is_ascii_alphanumeric() && c != '_');
    words.filter(is_number).map(str::to_string).collect()
}

/// The rules, each with the number that its line begins with.
fn rules() -> BTreeSet<String> {
    let text = document("RULES.md");
    let begins = text.lines().filter_map(|line| line.strip_prefix("- **"));
    let begins: Vec<&str> = begins.filter_map(|rest| rest.split("**").next()).collect();
    let rules: BTreeSet<String> = begins.iter().map(|n| n.to_string()).collect();
    assert_eq!(rules.len(), begins.len(), "each number once");
    // A letter's numbers follow one another from 1.
    let mut last = String::from("-0");
    for number in begins {
        let (letter, n) = number.split_at(1);
        let next = match last.strip_prefix(letter).map(|n| n.parse::<usize>()) {
            Some(n) => n.expect("a number") + 1,
            None => 1,
        };
        assert_eq!(n, next.to_string(), "behind {last}");
        last = number.to_string();
    }
    rules
}

#[test]
fn numbers_of_the_rules() {
    let rules = rules();
    for name in ["RULES.md", "ARCHITECTURE.md", "DECISIONS.md"] {
        let unknown: Vec<String> = (numbers(&document(name)).difference(&rules))
            .cloned()
            .collect();
        assert!(unknown.is_empty(), "{name} names {unknown:?}");
    }
    // The table of ARCHITECTURE.md has every rule, and no blank cell.
    let text = document("ARCHITECTURE.md");
    let mut found = BTreeSet::new();
    let table = part(&text, "## Where a rule is found");
    for line in table.lines().filter(|line| line.starts_with("| ")) {
        let cells: Vec<&str> = line.trim_matches('|').split(" | ").collect();
        assert_eq!(cells.len(), 4, "{line}");
        assert!(cells.iter().all(|cell| !cell.trim().is_empty()), "{line}");
        found.extend(numbers(cells[0]));
    }
    let missing: Vec<&String> = rules.difference(&found).collect();
    assert!(missing.is_empty(), "without a row: {missing:?}");
}

/// The words that a text has in backquotes.
fn quoted(text: &str) -> BTreeSet<String> {
    let words = text.split('`').skip(1).step_by(2);
    words.map(str::to_string).collect()
}

/// The boards of the readings are those that the table of DECISIONS.md names, no
/// more and no fewer, and the names in brackets of RULES.md are among them.
#[test]
fn boards_that_are_named() {
    let sheets = files(&root().join("examples/readings"), "sheet");
    let name = |file: &PathBuf| format!("{}", file.file_stem().expect("a name").display());
    let boards: BTreeSet<String> = sheets.iter().map(name).collect();
    let text = document("DECISIONS.md");
    let table = part(&text, "## Readings of document 01");
    let names = quoted(table);
    let names = names.iter().filter_map(|word| word.strip_suffix(".sheet"));
    assert_eq!(names.map(str::to_string).collect::<BTreeSet<_>>(), boards);
    let rules = document("RULES.md");
    for brackets in rules.split("(`").skip(1) {
        let brackets = format!("`{}", brackets.split(')').next().expect("a part"));
        let is_name = |word: &String| word.bytes().all(|b| b == b'-' || b.is_ascii_lowercase());
        for name in quoted(&brackets).into_iter().filter(is_name) {
            assert!(boards.contains(&name), "{name}");
        }
    }
}
