//! The board sheet, read from document 01 (rules S and E of `docs/RULES.md`):
//! refusals 1 to 7. (8 needs the lanes: see `harness`.)

use std::collections::HashSet;

/// Most records of each section, in the order P, N, C, F, X, W, and the most
/// bytes where the program reads the sheet.
#[derive(Clone, Debug)]
pub struct Limits {
    pub records: [usize; 6],
    pub bytes: Option<usize>,
}

impl Limits {
    pub const LIBRARY: Limits = Limits {
        records: [64, 4_096, 256, 4_096, 4_096, 8_192],
        bytes: None,
    };
    pub const PROGRAM: Limits = Limits {
        records: [8, 48, 8, 24, 24, 56],
        bytes: Some(65_536),
    };
}

/// The most lanes a page may open.
pub const LANE_MOST: i32 = 512;

/// Why a board is turned away: the condition's number and the line it names.
#[derive(Clone, Copy, Debug, PartialEq, Eq)]
pub struct Refusal {
    pub number: u32,
    pub line: usize,
}

impl Refusal {
    pub fn new(number: u32, line: usize) -> Self {
        Self { number, line }
    }

    pub fn line_of_text(&self) -> String {
        format!("E\t{}\t{}\n", self.number, self.line)
    }
}

#[derive(Clone, Debug, PartialEq, Eq)]
pub struct Page {
    pub min_y: Option<i32>,
    pub z: i32,
}

pub const KIND_CHIP: u8 = 2;
pub const KIND_INPUT: u8 = 3;
pub const KIND_COERCE: u8 = 5;
pub const CLASS_STORAGE: u8 = 1;
pub const CLASS_INLINE_ONLY: u8 = 2;

#[derive(Clone, Debug, PartialEq, Eq)]
pub struct Node {
    pub id: u32,
    pub kind: u8,
    pub class: u8,
    pub pin: bool,
    pub half: (i32, i32),
    pub rotation: u8,
    /// x and y.
    pub at: Option<(i32, i32)>,
    /// Page and down.
    pub row: Option<(usize, i32)>,
    pub line: Option<u32>,
}

#[derive(Clone, Debug, PartialEq, Eq)]
pub struct Chip {
    pub id: u32,
    pub parent: Option<u32>,
}

/// A node inside a chip.
#[derive(Clone, Debug, PartialEq, Eq)]
pub struct Inner {
    pub id: u32,
    pub chip: u32,
    pub class: u8,
}

/// A node with its port.
#[derive(Clone, Copy, Debug, PartialEq, Eq, Hash, PartialOrd, Ord)]
pub struct Port {
    pub node: u32,
    pub port: u16,
}

#[derive(Clone, Copy, Debug, PartialEq, Eq, Hash)]
pub struct Wire {
    pub source: Port,
    pub target: Port,
}

#[derive(Clone, Debug, Default, PartialEq, Eq)]
pub struct Board {
    pub pages: Vec<Page>,
    pub nodes: Vec<Node>,
    pub chips: Vec<Chip>,
    pub inners: Vec<Inner>,
    pub execs: Vec<Port>,
    pub wires: Vec<Wire>,
}

/// One field's rule: its range, and whether `-` may stand there.
type Field = (i64, i64, bool);

const MILLION: i64 = 1_000_000;
const ID: Field = (0, MILLION, false);
const PORT: Field = (0, 65_535, false);
const CLASS: Field = (0, 2, false);
const HALF: Field = (1, 1_000, false);
const COORDINATE: Field = (-MILLION, MILLION, false);
const MAYBE: Field = (-MILLION, MILLION, true);

const LETTERS: [u8; 6] = *b"PNCFXW";
const FIELDS: [&[Field]; 6] = [
    &[MAYBE, COORDINATE],
    &[
        ID,
        (0, 5, false),
        CLASS,
        (0, 1, false),
        HALF,
        HALF,
        (0, 3, false),
        MAYBE,
        MAYBE,
        (0, 63, true),
        MAYBE,
        (0, MILLION, true),
    ],
    &[ID, (0, MILLION, true)],
    &[ID, ID, CLASS],
    &[ID, PORT],
    &[ID, PORT, ID, PORT],
];
/// S3: where x is missing so is y, where page is missing so is down.
const PAIRS: [(usize, usize); 2] = [(7, 8), (9, 10)];
const SECTION_N: usize = 1;

/// One line as read: its section and its fields, `None` for `-`.
struct Row {
    section: usize,
    fields: Vec<Option<i64>>,
}

/// Reads a sheet. E9: a refusal is tried on all lines before the next one.
pub fn parse(text: &[u8], limits: &Limits) -> Result<Board, Refusal> {
    if limits.bytes.is_some_and(|most| text.len() > most) {
        return Err(Refusal::new(2, 0));
    }
    let rows = read_rows(text).map_err(|line| Refusal::new(1, line))?;
    refuse(2, over_its_most(&rows, &limits.records))?;
    refuse(3, out_of_range(&rows))?;
    let board = board_of(&rows);
    refuse(4, id_twice(&board))?;
    refuse(5, not_there(&board))?;
    refuse(6, row_without_placement(&board))?;
    Ok(board)
}

fn refuse(number: u32, line: Option<usize>) -> Result<(), Refusal> {
    match line {
        Some(line) => Err(Refusal::new(number, line)),
        None => Ok(()),
    }
}

/// Refusal 1: every line read, or the first line that can't be.
fn read_rows(text: &[u8]) -> Result<Vec<Row>, usize> {
    let mut rows = Vec::new();
    let mut section = 0;
    let mut rest = text;
    while !rest.is_empty() {
        let line = rows.len() + 1;
        let end = rest.iter().position(|b| *b == b'\n').ok_or(line)?;
        let row = read_line(&rest[..end]).ok_or(line)?;
        if row.section < section {
            return Err(line);
        }
        section = row.section;
        rows.push(row);
        rest = &rest[end + 1..];
    }
    Ok(rows)
}

fn read_line(line: &[u8]) -> Option<Row> {
    let mut parts = line.split(|b| *b == b'\t');
    let letter = parts.next()?;
    let section = LETTERS.iter().position(|l| letter == [*l])?;
    let rules = FIELDS[section];
    let mut fields = Vec::with_capacity(rules.len());
    for part in parts {
        fields.push(read_field(part)?);
    }
    let complete = fields.len() == rules.len()
        && rules.iter().zip(&fields).all(|(r, f)| r.2 || f.is_some())
        && (section != SECTION_N
            || PAIRS
                .iter()
                .all(|(a, b)| fields[*a].is_some() == fields[*b].is_some()));
    complete.then_some(Row { section, fields })
}

/// A number, or `Some(None)` for `-` alone; `None` when it can't be read.
fn read_field(part: &[u8]) -> Option<Option<i64>> {
    let (negative, digits) = match part {
        b"-" => return Some(None),
        [b'-', digits @ ..] => (true, digits),
        digits => (false, digits),
    };
    let zero_led = digits.first() == Some(&b'0') && (digits.len() > 1 || negative);
    if digits.is_empty() || digits.len() > 10 || zero_led {
        return None;
    }
    let mut n = 0_i64;
    for d in digits {
        if !d.is_ascii_digit() {
            return None;
        }
        n = n * 10 + i64::from(d - b'0');
    }
    Some(Some(if negative { -n } else { n }))
}

/// Refusal 2: the first line past its own section's most.
fn over_its_most(rows: &[Row], most: &[usize; 6]) -> Option<usize> {
    let mut seen = [0; 6];
    for (i, row) in rows.iter().enumerate() {
        seen[row.section] += 1;
        if seen[row.section] > most[row.section] {
            return Some(i + 1);
        }
    }
    None
}

/// Refusal 3.
fn out_of_range(rows: &[Row]) -> Option<usize> {
    let fits = |(rule, field): (&Field, &Option<i64>)| match field {
        Some(n) => rule.0 <= *n && *n <= rule.1,
        None => true,
    };
    let bad = |row: &Row| !FIELDS[row.section].iter().zip(&row.fields).all(fits);
    rows.iter().position(bad).map(|i| i + 1)
}

/// The records of rows whose numbers are all in range.
fn board_of(rows: &[Row]) -> Board {
    let mut board = Board::default();
    for row in rows {
        let num = |i: usize| row.fields[i].unwrap_or(0);
        let id = |i: usize| num(i) as u32;
        let port = |i: usize| Port {
            node: id(i),
            port: num(i + 1) as u16,
        };
        match LETTERS[row.section] {
            b'P' => board.pages.push(Page {
                min_y: row.fields[0].map(|n| n as i32),
                z: num(1) as i32,
            }),
            b'N' => board.nodes.push(node_of(row)),
            b'C' => board.chips.push(Chip {
                id: id(0),
                parent: row.fields[1].map(|n| n as u32),
            }),
            b'F' => board.inners.push(Inner {
                id: id(0),
                chip: id(1),
                class: num(2) as u8,
            }),
            b'X' => board.execs.push(port(0)),
            _ => board.wires.push(Wire {
                source: port(0),
                target: port(2),
            }),
        }
    }
    board
}

fn node_of(row: &Row) -> Node {
    let num = |i: usize| row.fields[i].unwrap_or(0);
    let pair = |i: usize| row.fields[i].map(|a| (a as i32, num(i + 1) as i32));
    Node {
        id: num(0) as u32,
        kind: num(1) as u8,
        class: num(2) as u8,
        pin: num(3) == 1,
        half: (num(4) as i32, num(5) as i32),
        rotation: num(6) as u8,
        at: pair(7),
        row: pair(9).map(|(page, down)| (page as usize, down)),
        line: row.fields[11].map(|n| n as u32),
    }
}

impl Board {
    /// The lines on which each section starts, less one.
    pub fn line_starts(&self) -> [usize; 6] {
        let mut starts = [0; 6];
        for (i, count) in self.counts().iter().enumerate().take(5) {
            starts[i + 1] = starts[i] + count;
        }
        starts
    }

    pub fn counts(&self) -> [usize; 6] {
        [
            self.pages.len(),
            self.nodes.len(),
            self.chips.len(),
            self.inners.len(),
            self.execs.len(),
            self.wires.len(),
        ]
    }
}

/// E4: the first line whose id an earlier N or F has, or of a C an earlier C.
fn id_twice(board: &Board) -> Option<usize> {
    let [_, n, c, f, _, _] = board.line_starts();
    let nodes = board
        .nodes
        .iter()
        .enumerate()
        .map(|(i, r)| (n + i + 1, r.id));
    let inners = board
        .inners
        .iter()
        .enumerate()
        .map(|(i, r)| (f + i + 1, r.id));
    let chips = board
        .chips
        .iter()
        .enumerate()
        .map(|(i, r)| (c + i + 1, r.id));
    let first = first_repeat(nodes.chain(inners));
    let second = first_repeat(chips);
    first.into_iter().chain(second).min()
}

fn first_repeat(ids: impl Iterator<Item = (usize, u32)>) -> Option<usize> {
    let mut seen = HashSet::new();
    for (line, id) in ids {
        if !seen.insert(id) {
            return Some(line);
        }
    }
    None
}

/// E5: the first line that names what is not there.
fn not_there(board: &Board) -> Option<usize> {
    let [_, n, c, f, _, _] = board.line_starts();
    let no_page = |r: &Node| r.row.is_some_and(|(page, _)| page >= board.pages.len());
    if let Some(i) = board.nodes.iter().position(no_page) {
        return Some(n + i + 1);
    }
    let body_chips: HashSet<u32> = (board.nodes.iter())
        .filter(|r| r.kind == KIND_CHIP)
        .map(|r| r.id)
        .collect();
    let mut earlier = HashSet::new();
    for (i, chip) in board.chips.iter().enumerate() {
        let there = match chip.parent {
            Some(parent) => earlier.contains(&parent),
            None => body_chips.contains(&chip.id),
        };
        if !there {
            return Some(c + i + 1);
        }
        earlier.insert(chip.id);
    }
    let no_chip = |r: &Inner| !earlier.contains(&r.chip);
    let inner = board.inners.iter().position(no_chip);
    inner.map(|i| f + i + 1)
}

/// Refusal 6.
fn row_without_placement(board: &Board) -> Option<usize> {
    let [_, n, ..] = board.line_starts();
    let bad = |r: &Node| r.row.is_some() && r.at.is_none();
    board.nodes.iter().position(bad).map(|i| n + i + 1)
}

/// The lengths of the buffers lent for a board.
#[derive(Clone, Copy, Debug, PartialEq, Eq)]
pub struct Lent {
    pub rerouters: usize,
    pub bus_wires: usize,
    pub suppressed: usize,
    pub pages: usize,
    /// Numbers of 32 bits of work space.
    pub work: usize,
}

impl Lent {
    /// Just what document 01 asks for.
    pub fn for_board(board: &Board) -> Self {
        let wires = board.wires.len();
        let records: usize = board.counts().iter().sum();
        Self {
            rerouters: 5 * wires,
            bus_wires: 6 * wires,
            suppressed: wires,
            pages: board.pages.len(),
            work: 96 * records,
        }
    }
}

/// Refusal 7: a lent buffer is shorter than named, whatever would be needed.
pub fn too_short(board: &Board, lent: &Lent) -> Option<Refusal> {
    let asked = Lent::for_board(board);
    let short = lent.rerouters < asked.rerouters
        || lent.bus_wires < asked.bus_wires
        || lent.suppressed < asked.suppressed
        || lent.pages < asked.pages
        || lent.work < asked.work;
    short.then_some(Refusal::new(7, 0))
}
