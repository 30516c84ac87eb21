//! A second router, written from document 01's rules alone. It is compared
//! with the original on every board that `soak` runs, and counts branches.

pub mod branch;
mod corners;
mod emit;
mod levels;

use crate::board::{Board, LANE_MOST, Refusal};
use crate::facts::{Cell, Facts, Group, Passed, cell, worthy};
use crate::plan::*;
use branch::{Branch, Counts};
use std::collections::{HashMap, HashSet};

/// A rerouter is so wide and so high.
const SIZE: i32 = 2;
/// Levels of a row stand so far apart.
const STAGGER_STEP: i32 = 2;
/// Lanes stand so far apart, and the last one so far from the page.
const LANE_PITCH: i32 = 2;
const BUS_BAND_GUTTER: i32 = 6;
/// Taps and source that lie closer are not laid.
const MIN_LANE_TRAVEL: i32 = 6;
/// Source and gate-side rerouters stand so far to the left.
const TAP_RESERVE: i32 = 5;
/// Stands for the depth of a rerouter until it is placed.
const UNPLACED: usize = 0;

fn rerouter_cell(x: i32, y: i32) -> Cell {
    (x, x + SIZE, y, y + SIZE)
}

/// A group with a demand, and its lane.
struct Lane {
    group: usize,
    rows: Vec<usize>,
    lane: usize,
}

/// What is booked and written as the board is laid.
struct Work<'a> {
    facts: &'a Facts<'a>,
    groups: &'a [Group],
    plan: Plan,
    row_cells: HashMap<(usize, usize), Vec<Cell>>,
    row_top: HashMap<(usize, usize), i32>,
    suppressed: HashSet<crate::board::Port>,
    delivered: HashSet<usize>,
    counts: Counts,
}

/// The end on which more can hang, and how many rerouters lie behind it.
#[derive(Clone, Copy)]
struct Feed {
    end: End,
    depth: usize,
}

impl Work<'_> {
    /// A rerouter, which gets its depth here, and the one bus wire that feeds it.
    fn place(&mut self, feed: Feed, brick: Rerouter) -> Feed {
        let end = End::Bus(self.plan.rerouters.len());
        let depth = feed.depth + 1;
        self.plan.rerouters.push(Rerouter { depth, ..brick });
        self.plan.bus_wires.push(BusWire {
            from: feed.end,
            to: end,
            delivery: None,
        });
        Feed { end, depth }
    }

    fn deliver(&mut self, feed: Feed, wire: usize) {
        let w = self.facts.board.wires[wire];
        self.plan.bus_wires.push(BusWire {
            from: feed.end,
            to: End::Port(w.target),
            delivery: Some((wire, feed.depth)),
        });
        let again = !self.suppressed.insert(w.target);
        if again {
            let wires = &self.facts.board.wires;
            let equal = self.delivered.iter().any(|d| wires[*d] == w);
            self.counts.met(Branch::FanIn);
            self.counts.met_if(equal, Branch::EqualWire);
        }
        self.delivered.insert(wire);
    }

    /// Books a cell of a row if it is clear.
    fn book(&mut self, at: (usize, usize), cell: Cell) -> bool {
        let cells = self.row_cells.entry(at).or_default();
        let clear = cells.iter().all(|c| !crate::facts::overlap(*c, cell));
        if clear {
            cells.push(cell);
        }
        clear
    }
}

fn new_work<'a>(facts: &'a Facts<'a>, groups: &'a [Group]) -> Work<'a> {
    Work {
        facts,
        groups,
        plan: Plan::default(),
        row_cells: HashMap::new(),
        row_top: HashMap::new(),
        suppressed: HashSet::new(),
        delivered: HashSet::new(),
        counts: Counts::default(),
    }
}

/// The corner pass alone, on a bus that is handed in.
pub fn turn(board: &Board, handed: &Handed) -> Vec<Corner> {
    let facts = Facts::new(board);
    let mut work = new_work(&facts, &[]);
    bricks(&mut work);
    for b in &handed.beside {
        let cells = work.row_cells.entry((b.page, b.row)).or_default();
        cells.push(rerouter_cell(b.x, b.y));
    }
    work.suppressed.extend(&handed.suppressed);
    corners::lay(&mut work);
    let wires = work.plan.bus_wires.iter().filter_map(|b| b.delivery);
    (work.plan.rerouters.iter().zip(wires))
        .map(|(brick, (wire, _))| Corner {
            brick: brick.clone(),
            wire,
        })
        .collect()
}

/// The plan by document 01's rules, or refusal 8, and the branches met.
pub fn run(board: &Board) -> (Result<Plan, Refusal>, Counts) {
    let facts = Facts::new(board);
    let groups = facts.groups();
    let mut work = new_work(&facts, &groups);
    count_wires(&mut work);
    bricks(&mut work);
    let pages: Vec<Vec<Lane>> = (0..board.pages.len())
        .map(|p| demands(&mut work, p))
        .collect();
    if let Some(p) = work.plan.pages.iter().position(|a| a.lanes > LANE_MOST) {
        return (Err(Refusal::new(8, p + 1)), work.counts);
    }
    let mut laid = 0;
    for (page, lanes) in pages.iter().enumerate() {
        let lanes: Vec<&Lane> = lanes.iter().filter(|l| is_laid(&mut work, l)).collect();
        laid += lanes.len();
        let (stops, mut claims) = levels::stops(&mut work, page, &lanes);
        for (lane, stops) in lanes.iter().zip(&stops) {
            emit::lane(&mut work, page, lane, stops, &mut claims);
        }
    }
    corners::lay(&mut work);
    finish(work, laid)
}

fn finish(mut work: Work, laid: usize) -> (Result<Plan, Refusal>, Counts) {
    let wires = &work.facts.board.wires;
    for (i, w) in wires.iter().enumerate() {
        let shadowed = !work.delivered.contains(&i) && work.suppressed.contains(&w.target);
        work.counts.met_if(shadowed, Branch::Shadowed);
    }
    let mut plan = work.plan;
    plan.suppressed = work.suppressed.into_iter().collect();
    plan.suppressed.sort_unstable();
    let delivered = work.delivered.len();
    plan.totals = [
        plan.rerouters.len(),
        plan.bus_wires.len(),
        delivered,
        wires.len() - delivered,
        laid,
    ];
    (Ok(plan), work.counts)
}

fn count_wires(work: &mut Work) {
    let facts = work.facts;
    let board = facts.board;
    let nested: HashSet<u32> = (board.chips.iter())
        .filter(|c| c.parent.is_some())
        .map(|c| c.id)
        .collect();
    let in_nested: HashSet<u32> = (board.inners.iter())
        .filter(|f| nested.contains(&f.chip))
        .map(|f| f.id)
        .collect();
    for (i, w) in board.wires.iter().enumerate() {
        let counts = &mut work.counts;
        match facts.tap(i) {
            Err(Passed::PortZero) => counts.met(Branch::PortZero),
            Err(Passed::OneNode) => counts.met(Branch::OneNode),
            Err(Passed::NoAnchor) => counts.met(Branch::NoAnchor),
            Err(Passed::Exec) => counts.met(Branch::Exec),
            Err(Passed::InlineOnly) => counts.met(Branch::InlineOnly),
            Err(Passed::Coerce) => counts.met(Branch::Coerce),
            Err(Passed::NoRow) => counts.met(Branch::NoRow),
            Ok(tap) => {
                let exec = facts.is_exec(w.target);
                let from = facts.body(tap.source_anchor);
                counts.met_if(tap.enters, Branch::EntersChip);
                counts.met_if(tap.leaves, Branch::LeavesChip);
                counts.met_if(exec && tap.enters, Branch::ExecIntoChip);
                counts.met_if(exec && from.is_some_and(worthy), Branch::ExecFromWorthy);
                let ends = [w.source.node, w.target.node];
                let deep = ends.iter().any(|e| in_nested.contains(e));
                counts.met_if(deep, Branch::NestedChip);
                let away = from.and_then(|n| n.row).is_some_and(|r| r.0 != tap.page);
                counts.met_if(away, Branch::OtherPage);
            }
        }
    }
}

/// Every N with a row books its cell there and may raise the row's top.
fn bricks(work: &mut Work) {
    for n in &work.facts.board.nodes {
        if let (Some(row), Some(at)) = (work.facts.row(n), n.at) {
            let cell = cell(n, at);
            work.row_cells.entry(row).or_default().push(cell);
            let top = work.row_top.entry(row).or_insert(cell.1);
            *top = (*top).max(cell.1);
        }
    }
}

/// The demands of a page with their lanes, and the page's answer.
fn demands(work: &mut Work, page: usize) -> Vec<Lane> {
    let mut lanes = Vec::new();
    let counts = &mut work.counts;
    for (group, g) in work.groups.iter().enumerate() {
        if g.page != page {
            continue;
        }
        if work.facts.board.pages[page].min_y.is_none() {
            counts.met(Branch::NoMinY);
            continue;
        }
        let rows = g.rows();
        let by_source = work.facts.body(g.source_anchor).is_some_and(worthy);
        if rows.len() < 2 {
            counts.met_if(by_source, Branch::OneRowWorthy);
            counts.met_if(g.crosses && !by_source, Branch::OneRowCrosses);
        }
        if rows.len() >= 2 || g.crosses || by_source {
            let lane = 0;
            lanes.push(Lane { group, rows, lane });
        } else {
            counts.met(Branch::NoDemand);
        }
    }
    let count = pack(work, &mut lanes) as i32;
    let band = if count == 0 {
        0
    } else {
        LANE_PITCH * count + BUS_BAND_GUTTER
    };
    let lanes_open = PageAnswer { lanes: count, band };
    work.plan.pages.push(lanes_open);
    lanes
}

/// L2, L3: the order of packing, then first fit.
fn pack(work: &mut Work, lanes: &mut [Lane]) -> usize {
    let groups = work.groups;
    let mut order: Vec<usize> = (0..lanes.len()).collect();
    order.sort_by_key(|i| {
        let l = &lanes[*i];
        let span = l.rows[l.rows.len() - 1] - l.rows[0];
        let taps = &groups[l.group].taps;
        (usize::MAX - span, usize::MAX - taps.len(), taps[0].wire)
    });
    let mut last_rows: Vec<usize> = Vec::new();
    for i in order {
        let l = &mut lanes[i];
        let first = l.rows[0];
        let last = l.rows[l.rows.len() - 1];
        match last_rows.iter().position(|end| *end < first) {
            Some(lane) => {
                work.counts.met(Branch::LaneShared);
                l.lane = lane;
                last_rows[lane] = last;
            }
            None => {
                work.counts.met_if(last_rows.len() == 1, Branch::SecondLane);
                l.lane = last_rows.len();
                last_rows.push(last);
            }
        }
    }
    last_rows.len()
}

/// T1: the source is unplaced, or it and the taps lie far enough apart.
fn is_laid(work: &mut Work, lane: &Lane) -> bool {
    let g = &work.groups[lane.group];
    let Some((x, _)) = work.facts.body(g.source_anchor).and_then(|n| n.at) else {
        work.counts.met(Branch::SourceUnplaced);
        return true;
    };
    let xs = || g.taps.iter().map(|t| t.x).chain([x]);
    let range = xs().max().unwrap_or(x) - xs().min().unwrap_or(x);
    work.counts.met_if(range < MIN_LANE_TRAVEL, Branch::NotLaid);
    range >= MIN_LANE_TRAVEL
}
