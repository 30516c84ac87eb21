//! One sheet through `check_sheet` and `read_sheet`: refusals 1 to 3, and the
//! rows where it is accepted.

use crate::calls::{self, Counts, MISSING, RecordRow, SheetNumbers};
use oracle::{Board, Limits};

/// A coordinate is held with this added.
const ORIGIN: i32 = 2_000_000;
/// What lent rows hold before a call.
const OLD: RecordRow = [0xA5A5_A5A5; 16];

fn row(numbers: &[u32]) -> RecordRow {
    let mut row = [0; 16];
    row[..numbers.len()].copy_from_slice(numbers);
    row
}

fn held(c: Option<i32>) -> u32 {
    c.map_or(MISSING, |c| (c + ORIGIN) as u32)
}

/// The rows of a board's records.
fn rows_of(b: &Board) -> Vec<RecordRow> {
    let mut rows = Vec::new();
    let page = |p: &oracle::board::Page| row(&[0, held(p.min_y), held(Some(p.z))]);
    rows.extend(b.pages.iter().map(page));
    rows.extend(b.nodes.iter().map(|n| {
        row(&[
            1,
            n.id,
            u32::from(n.kind),
            u32::from(n.class),
            u32::from(n.pin),
            n.half.0 as u32,
            n.half.1 as u32,
            u32::from(n.rotation),
            held(n.at.map(|a| a.0)),
            held(n.at.map(|a| a.1)),
            n.row.map_or(MISSING, |r| r.0 as u32),
            held(n.row.map(|r| r.1)),
            n.line.unwrap_or(MISSING),
        ])
    }));
    let chip = |c: &oracle::board::Chip| row(&[2, c.id, c.parent.unwrap_or(MISSING)]);
    rows.extend(b.chips.iter().map(chip));
    let inner = |f: &oracle::board::Inner| row(&[3, f.id, f.chip, u32::from(f.class)]);
    rows.extend(b.inners.iter().map(inner));
    rows.extend(b.execs.iter().map(|x| row(&[4, x.node, u32::from(x.port)])));
    let wire = |w: &oracle::board::Wire| {
        let (a, b) = (w.source, w.target);
        row(&[5, a.node, u32::from(a.port), b.node, u32::from(b.port)])
    };
    rows.extend(b.wires.iter().map(wire));
    rows
}

/// In words, what is not as it has to be; empty where nothing is.
pub fn faults(text: &[u8], limits: &Limits) -> Vec<String> {
    let fault = |what: String| vec![format!("reading: {what}")];
    let most = Counts {
        records: limits.records,
    };
    let unbounded = Limits {
        bytes: None,
        ..limits.clone()
    };
    let wanted = oracle::board::parse(text, &unbounded);
    let checked = calls::check_sheet(text, most);
    let lines = text.iter().filter(|b| **b == b'\n').count();
    let mut lent = vec![OLD; lines + 3];
    let read = calls::read_sheet(text, most, &mut lent);
    if read != checked {
        return fault(format!("checked {checked:?}, read {read:?}"));
    }
    let refused = |refusal: usize, line: usize| SheetNumbers {
        refusal,
        line,
        counts: Counts::default(),
    };
    if let Err(r) = &wanted
        && r.number <= 3
    {
        let same = checked == refused(r.number as usize, r.line);
        return match same && lent.iter().all(|r| *r == OLD) {
            true => Vec::new(),
            false => fault(format!("wanted {r:?}, got {checked:?}")),
        };
    }
    if (checked.refusal, checked.line) != (0, 0) || lent[lines..].iter().any(|r| *r != OLD) {
        return fault(format!("wanted no refusal of 1 to 3, got {checked:?}"));
    }
    if let Ok(board) = &wanted
        && (lent[..lines] != rows_of(board)[..] || checked.counts.records != board.counts())
    {
        return fault("the rows or counts differ".to_string());
    }
    if lines > 0 {
        let mut short = vec![OLD; lines - 1];
        let answer = calls::read_sheet(text, most, &mut short);
        if answer != refused(7, 0) || short.iter().any(|r| *r != OLD) {
            return fault(format!("one row too few: {answer:?}"));
        }
    }
    Vec::new()
}
