//! Lines that can be read and are at fault all the same (E2 to E8), and what is
//! at fault beside the sheet.

use super::Found;
use super::sheet::{
    AT, BODY, CHIP, INNER, KIND, LINK, Line, PAGE, ROW, Record, SECTIONS, counts, read, records,
};
use super::shown::grouped;
use crate::buffers::Limits;
use crate::calls::{HIT_NUMBERS, MARK_ROWS};
use crate::types::Kind;

/// A count as it is told.
fn told(count: usize) -> String {
    grouped(i64::try_from(count).unwrap_or(i64::MAX))
}

/// `1 wire`, `2 wires`.
fn so_many(count: usize, what: &str) -> String {
    let s = if count == 1 { "" } else { "s" };
    format!("{} {what}{s}", told(count))
}

/// The pages of a sheet by their numbers.
fn pages_told(count: usize) -> String {
    match count {
        0 => "the sheet has no pages".to_string(),
        1 => "the sheet has 1 page (0)".to_string(),
        2 => "the sheet has 2 pages (0 and 1)".to_string(),
        n => format!("the sheet has {} pages (0 to {})", told(n), told(n - 1)),
    }
}

/// A sheet longer than the program takes (E13). Other limits of length are the
/// caller's own.
pub(super) fn too_long(sheet: &[u8]) -> Option<Found> {
    let most = Limits::PROGRAM.bytes?;
    let (length, most) = (sheet.len() > most).then(|| (told(sheet.len()), told(most)))?;
    let words = format!("the sheet has {length} bytes; the program takes at most {most}");
    Some(Found::on_sheet(words))
}

/// The lengths that a sheet asks for (S15, S16, H7). Which one was not met the
/// refusal does not say.
pub(super) fn too_short(sheet: &[u8]) -> Option<Found> {
    let counts = counts(sheet)?;
    let (pages, wires) = (counts[PAGE], counts[LINK]);
    let all = counts.iter().sum();
    let words = format!(
        "a lent buffer is too short, or what lay_mini_bus is handed leaves too little room; \
         {}, {} and {} ask for {} rows of rerouters, {} of bus wires, {} of ports, \
         {} of page answers, {} of records and of each table, {} of marks; \
         a click for {} numbers of hits; an answer in text for {} bytes",
        so_many(wires, "wire"),
        so_many(pages, "page"),
        so_many(all, "record"),
        told(5 * wires),
        told(6 * wires),
        told(wires),
        told(pages),
        told(all),
        told(MARK_ROWS * all),
        told(HIT_NUMBERS * wires),
        told(128 * (pages + 12 * wires + 1)),
    );
    Some(Found::on_sheet(words))
}

/// The box itself is not on the sheet: its pages are.
pub(super) fn bad_box(sheet: &[u8]) -> Option<Found> {
    let pages = pages_told(counts(sheet)?[PAGE]);
    let words = format!(
        "the box's page is not on the board, or a range of it ends under its start; {pages}"
    );
    Some(Found::on_sheet(words))
}

/// The most records of a section.
fn most(limits: &Limits, section: usize) -> usize {
    let l = limits;
    [l.pages, l.nodes, l.chips, l.inner, l.execs, l.wires][section]
}

/// Which record of its section the line is, and how many there are. Under which
/// limits the sheet was read the refusal does not say.
pub(super) fn over_most(sheet: &[u8], line: &Line) -> Option<Found> {
    let section = read(line)?.section;
    let [program, library] = [&Limits::PROGRAM, &Limits::LIBRARY].map(|l| most(l, section));
    let (mut place, mut all) = (0, 0);
    for (number, record) in records(sheet) {
        if record.section == section {
            all += 1;
            place += usize::from(number <= line.number);
        }
    }
    if place <= program {
        return None;
    }
    let letter = char::from(SECTIONS[section].letter);
    let words = format!(
        "{letter} record {} of {}: more than may be; the program takes {}, the library {}",
        told(place),
        told(all),
        told(program),
        told(library),
    );
    Some(Found::at(0..1, words))
}

/// The first number out of range.
pub(super) fn out_of_range(line: &Line) -> Option<Found> {
    let record = read(line)?;
    for (rule, place) in SECTIONS[record.section].fields.iter().zip(1..) {
        let Some(n) = record.get(place) else {
            continue;
        };
        let bound = match n {
            n if n < rule.least => format!("under {}", grouped(rule.least)),
            n if n > rule.most => format!("over {}", grouped(rule.most)),
            _ => continue,
        };
        let meaning = match rule.meaning {
            "" => String::new(),
            meaning => format!(" ({meaning})"),
        };
        let words = format!("{} {n} is {bound}{meaning}", rule.name);
        return Some(Found::on_field(line.bytes, place, words));
    }
    None
}

/// The earlier line with the id: for N and F one of these two, for C a C.
pub(super) fn id_twice(sheet: &[u8], line: &Line) -> Option<Found> {
    let own = read(line)?;
    let same = |other: &Record| match own.section {
        CHIP => other.section == CHIP,
        _ => own.is_node() && other.is_node(),
    };
    let before = records(sheet).take_while(|(number, _)| *number < line.number);
    let (first, _) = { before }.find(|(_, other)| same(other) && other.id() == own.id())?;
    let words = format!("id {} stands already on line {first}", own.id()?);
    Some(Found::on_field(line.bytes, 1, words))
}

/// What an N, a C or an F names and the sheet lacks.
pub(super) fn not_there(sheet: &[u8], line: &Line) -> Option<Found> {
    let record = read(line)?;
    let (place, words) = match record.section {
        BODY => (ROW, no_page(sheet, &record)?),
        CHIP if record.get(2).is_some() => (2, no_parent(sheet, line, &record)?),
        CHIP => (1, no_brick(sheet, &record)?),
        INNER => (2, no_chip(sheet, &record)?),
        _ => return None,
    };
    Some(Found::on_field(line.bytes, place, words))
}

fn no_page(sheet: &[u8], node: &Record) -> Option<String> {
    let page = node.get(ROW)?;
    let is_page = |(_, record): &(usize, Record)| record.section == PAGE;
    let count = records(sheet).filter(is_page).count();
    let there = usize::try_from(page).is_ok_and(|page| page < count);
    (!there).then(|| format!("page {page} is not there, {}", pages_told(count)))
}

/// The first line of a section with an id.
fn line_of(sheet: &[u8], section: usize, id: i64) -> Option<(usize, Record)> {
    records(sheet).find(|(_, record)| record.section == section && record.id() == Some(id))
}

fn no_parent(sheet: &[u8], line: &Line, chip: &Record) -> Option<String> {
    let parent = chip.get(2)?;
    match line_of(sheet, CHIP, parent) {
        Some((number, _)) if number < line.number => None,
        Some((number, _)) if number == line.number => {
            Some(format!("chip {parent} is its own parent"))
        }
        Some((number, _)) => Some(format!(
            "parent {parent} is the chip of line {number}; a parent stands on an earlier line"
        )),
        None => Some(format!("parent {parent} is not there: no C has that id")),
    }
}

fn no_brick(sheet: &[u8], chip: &Record) -> Option<String> {
    let id = chip.id()?;
    let due = "a chip without parent needs an N with its id and kind 2";
    let bricks = || {
        let body = records(sheet).filter(|(_, r)| r.section == BODY);
        body.filter(|(_, r)| r.id() == Some(id))
    };
    let chip = i64::from(Kind::Chip.number());
    if bricks().any(|(_, r)| r.get(KIND) == Some(chip)) {
        return None;
    }
    Some(match bricks().next() {
        Some((number, brick)) => {
            let kind = brick.get(KIND)?;
            format!("the N with id {id}, on line {number}, has kind {kind}; {due}")
        }
        None => format!("no N has id {id}; {due}"),
    })
}

fn no_chip(sheet: &[u8], inner: &Record) -> Option<String> {
    let chip = inner.get(2)?;
    match (line_of(sheet, CHIP, chip), line_of(sheet, BODY, chip)) {
        (Some(_), _) => None,
        (None, None) => Some(format!("chip {chip} is not there: no C has that id")),
        (None, Some((number, _))) => Some(format!(
            "chip {chip} is not there: no C has that id; line {number} is an N with it"
        )),
    }
}

/// A row and no place.
pub(super) fn row_unplaced(line: &Line) -> Option<Found> {
    let node = read(line)?;
    if node.section != BODY || node.get(AT).is_some() {
        return None;
    }
    let (page, down) = (node.get(ROW)?, node.get(ROW + 1)?);
    let words =
        format!("the node has a row (page {page}, down {down}) and no place: x and y are -");
    let fields: Vec<_> = super::sheet::ranges(line.bytes).collect();
    Some(Found::at(fields[AT].start..fields[AT + 1].end, words))
}

/// The page of the line: only one with min_y has lanes.
pub(super) fn too_many_lanes(sheet: &[u8], line: &Line) -> Option<Found> {
    let record = read(line)?;
    if record.section != PAGE || record.get(1).is_none() {
        return None;
    }
    // Pages are the first lines of a sheet that can be read.
    counts(sheet)?;
    let page = line.number - 1;
    let words = format!("page {page} would need a 513th lane; a page has at most 512");
    Some(Found::at(0..1, words))
}
