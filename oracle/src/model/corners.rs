//! Corners, over the wires in order.

use super::branch::Branch;
use super::{Feed, SIZE, STAGGER_STEP, UNPLACED, Work, rerouter_cell};
use crate::board::{CLASS_INLINE_ONLY, KIND_COERCE, Node};
use crate::facts::{cell, overlap};
use crate::plan::*;
use std::collections::HashMap;

/// The two bricks and the sink's page and row of a wire that may turn a corner.
struct Turn<'a> {
    source: &'a Node,
    sink: &'a Node,
    row: (usize, usize),
    y: i32,
    sink_x: i32,
}

pub fn lay(work: &mut Work) {
    let mut levels: HashMap<u32, Vec<i32>> = HashMap::new();
    for wire in 0..work.facts.board.wires.len() {
        let turn = match turn(work, wire) {
            Ok(turn) => turn,
            Err(Some(branch)) => {
                work.counts.met(branch);
                continue;
            }
            Err(None) => continue,
        };
        let taken = levels.entry(turn.sink.id).or_default();
        let Some((level, branch)) = level(work, &turn, taken) else {
            work.counts.met(Branch::CornerBlocked);
            continue;
        };
        work.counts.met(branch);
        taken.push(level);
        corner(work, wire, &turn, level);
    }
}

/// The wire's turn, or the condition by which it is passed over.
fn turn<'a>(work: &Work<'a>, wire: usize) -> Result<Turn<'a>, Option<Branch>> {
    let facts = work.facts;
    let w = &facts.board.wires[wire];
    if w.source.port == 0 || w.target.port == 0 || w.source.node == w.target.node {
        return Err(None);
    }
    if work.suppressed.contains(&w.target) {
        return Err(Some(Branch::CornerSuppressed));
    }
    let usable = |id: u32| facts.class(id).is_some_and(|c| c != CLASS_INLINE_ONLY);
    if !usable(w.source.node) || !usable(w.target.node) {
        return Err(Some(Branch::CornerInline));
    }
    let ends = (facts.body(w.source.node), facts.body(w.target.node));
    if ends.1.is_none_or(|n| n.rotation != 1) {
        return Err(Some(Branch::CornerRotation));
    }
    // A node inside a chip has neither line nor row.
    let (Some(source), Some(sink)) = ends else {
        return Err(Some(Branch::CornerNoLine));
    };
    let (Some(a), Some(b)) = (source.line, sink.line) else {
        return Err(Some(Branch::CornerNoLine));
    };
    if a != b {
        return Err(Some(Branch::CornerTwoLines));
    }
    let (Some(above), Some(row)) = (source.row, sink.row) else {
        return Err(Some(Branch::CornerNoRow));
    };
    if above.0 != row.0 {
        return Err(Some(Branch::CornerTwoPages));
    }
    if above.1 >= row.1 {
        return Err(Some(Branch::CornerNotAbove));
    }
    let (Some((_, y)), Some((sink_x, sink_y))) = (source.at, sink.at) else {
        return Err(None);
    };
    if y <= sink_y {
        return Err(Some(Branch::CornerNotRight));
    }
    let row = facts.row(sink).ok_or(None)?;
    Ok(Turn {
        source,
        sink,
        row,
        y,
        sink_x,
    })
}

/// K5, K6: the lowest level that is unused and clear, or of the clear ones the
/// least loaded.
fn level(work: &Work, turn: &Turn, taken: &[i32]) -> Option<(i32, Branch)> {
    let end = cell(turn.sink, (turn.sink_x, 0)).1;
    let cells = &work.row_cells[&turn.row];
    let clear = |l: &i32| {
        let c = rerouter_cell(*l, turn.y);
        cells.iter().all(|other| !overlap(*other, c))
    };
    let levels = || {
        (0..)
            .map(|k| turn.sink_x + STAGGER_STEP * k)
            .take_while(|l| l + SIZE <= end)
    };
    if let Some(l) = levels().find(|l| !taken.contains(l) && clear(l)) {
        let lowest = l == turn.sink_x;
        let branch = if lowest {
            Branch::CornerLowest
        } else {
            Branch::CornerHigher
        };
        return Some((l, branch));
    }
    let load = |l: &i32| taken.iter().filter(|t| *t == l).count();
    let least = levels().filter(clear).min_by_key(|l| (load(l), *l));
    least.map(|l| (l, Branch::CornerShared))
}

fn corner(work: &mut Work, wire: usize, turn: &Turn, level: i32) {
    let w = work.facts.board.wires[wire];
    let page = turn.row.0;
    let info = &work.facts.board.pages[page];
    work.counts
        .met_if(info.min_y.is_none(), Branch::CornerNoMinY);
    let coerce = turn.source.kind == KIND_COERCE || turn.sink.kind == KIND_COERCE;
    work.counts.met_if(coerce, Branch::CornerCoerce);
    let booked = rerouter_cell(level, turn.y);
    work.row_cells.entry(turn.row).or_default().push(booked);
    let port = Feed {
        end: End::Port(w.source),
        depth: 0,
    };
    let brick = Rerouter {
        x: level,
        y: turn.y,
        z: info.z,
        rotation: 2,
        role: 1,
        part: PART_CORNER,
        colour: turn.source.id,
        page,
        lane: None,
        depth: UNPLACED,
    };
    let feed = work.place(port, brick);
    work.deliver(feed, wire);
}
