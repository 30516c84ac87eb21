//! V1: stops and levels of one page. Its rerouters come after all of them.

use super::branch::Branch;
use super::{Lane, SIZE, STAGGER_STEP, Work};
use crate::facts::Group;
use std::collections::HashMap;

/// A kept stop: its row, its level, and whether it took the level over.
pub struct Stop {
    pub row: usize,
    pub level: i32,
    pub shares: bool,
}

/// The x spans claimed in each lane's column.
pub type Claims = HashMap<usize, Vec<(i32, i32)>>;

/// Claims two units from `at` in a lane's column, if they are free.
pub fn claim(claims: &mut Claims, lane: usize, at: i32) -> bool {
    let column = claims.entry(lane).or_default();
    let free = column.iter().all(|(lo, hi)| at + SIZE <= *lo || *hi <= at);
    if free {
        column.push((at, at + SIZE));
    }
    free
}

fn is_free(claims: &Claims, lane: usize, at: i32) -> bool {
    claims
        .get(&lane)
        .is_none_or(|c| c.iter().all(|(lo, hi)| at + SIZE <= *lo || *hi <= at))
}

/// The rows of a lane with the x at which each stop begins.
fn bases(work: &mut Work, lane: &Lane) -> Vec<(usize, i32)> {
    let group: &Group = &work.groups[lane.group];
    let wires = &work.facts.board.wires;
    let mut out: Vec<(usize, i32)> = Vec::new();
    for row in &lane.rows {
        let on_row = group.taps.iter().filter(|t| t.row == *row);
        let first = on_row.min_by_key(|t| (t.y, t.x, wires[t.wire].target));
        let Some(first) = first else { continue };
        let x = match out.last() {
            Some((_, before)) if (first.x - before).abs() < 2 => {
                work.counts.met(Branch::StopShares);
                *before
            }
            _ => first.x,
        };
        out.push((*row, x));
    }
    out
}

/// The kept stops of each lane in order, and the columns' claims.
pub fn stops(work: &mut Work, page: usize, lanes: &[&Lane]) -> (Vec<Vec<Stop>>, Claims) {
    let mut used: HashMap<usize, Vec<i32>> = HashMap::new();
    let mut claims = Claims::new();
    let mut out = Vec::new();
    for lane in lanes {
        let mut kept: Vec<Stop> = Vec::new();
        let mut last_base = None;
        for (row, base) in bases(work, lane) {
            let on_row = used.entry(row).or_default();
            if last_base == Some(base) {
                work.counts.met(Branch::TakenOver);
                let level = kept[kept.len() - 1].level;
                let shares = true;
                kept.push(Stop { row, level, shares });
                on_row.push(level);
                continue;
            }
            let top = work.row_top[&(page, row)] - 2;
            match find(work, on_row, &mut claims, lane.lane, base, top) {
                Some(level) => {
                    let shares = false;
                    kept.push(Stop { row, level, shares });
                    on_row.push(level);
                    last_base = Some(base);
                }
                None => work.counts.met(Branch::Dropped),
            }
        }
        work.counts.met_if(kept.is_empty(), Branch::AllDropped);
        out.push(kept);
    }
    (out, claims)
}

/// The level of a stop, claimed at once, or none.
fn find(
    work: &mut Work,
    on_row: &[i32],
    claims: &mut Claims,
    lane: usize,
    base: i32,
    top: i32,
) -> Option<i32> {
    let levels = || {
        (0..)
            .map(|k| base + STAGGER_STEP * k)
            .take_while(|l| *l <= top)
    };
    let open = |l: &i32| is_free(claims, lane, *l);
    if let Some(l) = levels().filter(open).find(|l| !on_row.contains(l)) {
        let branch = if l == base {
            Branch::LevelAtBase
        } else {
            Branch::LevelAbove
        };
        work.counts.met(branch);
        claim(claims, lane, l);
        return Some(l);
    }
    let load = |l: &i32| on_row.iter().filter(|u| *u == l).count();
    if let Some(l) = levels().filter(open).min_by_key(|l| (load(l), *l)) {
        work.counts.met(Branch::LeastLoaded);
        claim(claims, lane, l);
        return Some(l);
    }
    if claim(claims, lane, base) {
        work.counts.met(Branch::LastResort);
        return Some(base);
    }
    None
}
