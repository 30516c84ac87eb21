//! The rerouters of one lane.

use super::branch::Branch;
use super::levels::{Claims, Stop, claim};
use super::rerouter_cell;
use super::{BUS_BAND_GUTTER, Feed, LANE_PITCH, Lane, SIZE, TAP_RESERVE, UNPLACED, Work};
use crate::facts::{Group, Tap};
use crate::plan::*;

/// What all rerouters of one lane share.
struct Common {
    page: usize,
    z: i32,
    colour: u32,
    lane: usize,
    lane_y: i32,
    chain: u8,
}

impl Common {
    fn in_lane(&self, x: i32, rotation: u8, part: u8) -> Rerouter {
        Rerouter {
            x,
            y: self.lane_y,
            z: self.z,
            rotation,
            role: 0,
            part,
            colour: self.colour,
            page: self.page,
            lane: Some(self.lane as i32),
            depth: UNPLACED,
        }
    }

    fn beside_row(&self, x: i32, y: i32, rotation: u8, part: u8) -> Rerouter {
        Rerouter {
            y,
            role: if part == PART_SOURCE { 2 } else { 0 },
            lane: None,
            ..self.in_lane(x, rotation, part)
        }
    }
}

pub fn lane(work: &mut Work, page: usize, lane: &Lane, stops: &[Stop], claims: &mut Claims) {
    let group = &work.groups[lane.group];
    let info = &work.facts.board.pages[page];
    let source = work.facts.body(group.source_anchor).and_then(|n| n.at);
    let up = source.is_some_and(|(x, _)| group.taps.iter().all(|t| t.x > x));
    work.counts.met_if(up, Branch::ChainUp);
    let back = work.plan.pages[page].lanes - lane.lane as i32;
    let common = Common {
        page,
        z: info.z,
        colour: group.source_anchor,
        lane: lane.lane,
        lane_y: info.min_y.expect("a page with lanes has min_y")
            - BUS_BAND_GUTTER
            - LANE_PITCH * back,
        chain: if up { 3 } else { 1 },
    };
    let port = Feed {
        end: End::Port(group.source),
        depth: 0,
    };
    let mut hang = port;
    if let Some(at) = source {
        hang = head(work, group, &common, port, at, claims);
        let alone = stops.is_empty() && hang.depth > 0;
        work.counts.met_if(alone, Branch::HeadAlone);
    }
    let mut tap = port;
    for stop in stops {
        if stop.shares {
            work.counts.met(Branch::BrickShared);
        } else {
            (hang, tap) = pair(work, &common, hang, stop.level, claims);
        }
        row(work, group, &common, tap, stop);
    }
}

/// The head and the source rerouter before it; the end on which to hang on.
fn head(
    work: &mut Work,
    group: &Group,
    common: &Common,
    port: Feed,
    (x, y): (i32, i32),
    claims: &mut Claims,
) -> Feed {
    if !claim(claims, common.lane, x) {
        work.counts.met(Branch::HeadLost);
        return port;
    }
    let anchor = work.facts.body(group.source_anchor);
    let stands = anchor.and_then(|n| work.facts.row(n));
    let mut feed = port;
    if let Some((page, row)) = stands {
        if page != common.page {
            work.counts.met(Branch::HeadElsewhere);
        } else if work.book((page, row), rerouter_cell(x, y - TAP_RESERVE)) {
            work.counts.met(Branch::SourcePlaced);
            let source = common.beside_row(x, y - TAP_RESERVE, 2, PART_SOURCE);
            feed = work.place(feed, source);
        } else {
            work.counts.met(Branch::SourceLost);
        }
    }
    work.counts.met(Branch::HeadPlaced);
    work.place(feed, common.in_lane(x, common.chain, PART_HEAD))
}

/// A link, if its span is free, and a tap: where the chain hangs, and the tap.
fn pair(
    work: &mut Work,
    common: &Common,
    mut hang: Feed,
    level: i32,
    claims: &mut Claims,
) -> (Feed, Feed) {
    if claim(claims, common.lane, level + SIZE) {
        work.counts.met(Branch::LinkPlaced);
        hang = work.place(hang, common.in_lane(level + SIZE, common.chain, PART_LINK));
    } else {
        work.counts.met(Branch::LinkLost);
        let on = match hang.end {
            End::Port(_) => Branch::TapOnPort,
            End::Bus(_) => Branch::TapOnChain,
        };
        work.counts.met(on);
    }
    let tap = work.place(hang, common.in_lane(level, 0, PART_TAP));
    (hang, tap)
}

/// R10, R11: one row's gate-sides and deliveries, in the order of T2.
fn row(work: &mut Work, group: &Group, common: &Common, tap: Feed, stop: &Stop) {
    let wires = &work.facts.board.wires;
    let mut taps: Vec<&Tap> = group.taps.iter().filter(|t| t.row == stop.row).collect();
    taps.sort_by_key(|t| (t.y, t.x, wires[t.wire].target));
    let mut end = tap;
    let mut column = None;
    for t in taps {
        work.counts.met_if(column == Some(t.y), Branch::SameColumn);
        if column != Some(t.y) {
            column = Some(t.y);
            let (x, y) = (stop.level, t.y - TAP_RESERVE);
            if work.book((common.page, stop.row), rerouter_cell(x, y)) {
                work.counts.met(Branch::GateSide);
                end = work.place(end, common.beside_row(x, y, 0, PART_GATE_SIDE));
            } else {
                work.counts.met(Branch::GateSideLost);
            }
        }
        work.deliver(end, t.wire);
    }
}
