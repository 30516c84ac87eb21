//! A plan's bus wires as runs: which source each belongs to, and where it is
//! drawn, so that no two runs lie on top of each other.

use super::layout::{Layout, Point, UNIT};
use super::style;
use crate::plan::Plan;
use crate::types::{BusWire, End, Part, PortRef};
use crate::way::Feeders;
use std::collections::HashMap;

/// All that one source port feeds.
#[derive(Clone, Copy, Debug)]
pub(super) struct Run {
    pub source: PortRef,
    /// Its colour and dashes.
    pub style: usize,
}

/// A line on a page, with up to two bends.
#[derive(Clone, Debug)]
pub(super) struct Piece {
    pub page: usize,
    /// From its source to its target: two to four.
    pub points: Vec<Point>,
    /// Its source, or its target, is not on the page.
    pub stub: Option<Stub>,
}

#[derive(Clone, Copy, Debug, PartialEq, Eq)]
pub(super) enum Stub {
    From,
    To,
}

pub(super) struct Runs {
    pub runs: Vec<Run>,
    /// Of each rerouter, `None` only in a plan that is broken.
    pub of_rerouter: Vec<Option<usize>>,
    /// Of each bus wire.
    pub pieces: Vec<Option<Piece>>,
}

/// How long a stub is in each direction.
const STUB: i64 = 3 * UNIT / 2;

impl Runs {
    pub fn of(plan: &Plan, layout: &Layout) -> Self {
        let mut runs = Self {
            runs: Vec::new(),
            of_rerouter: Vec::new(),
            pieces: Vec::new(),
        };
        let mut numbers = HashMap::new();
        for root in Feeders::of(plan).roots() {
            let number = root.map(|source| {
                *numbers.entry(source).or_insert_with(|| {
                    runs.runs.push(Run { source, style: 0 });
                    runs.runs.len() - 1
                })
            });
            runs.of_rerouter.push(number);
        }
        let styles = style::styles(plan, &runs.of_rerouter, runs.runs.len());
        for (run, style) in runs.runs.iter_mut().zip(styles) {
            run.style = style;
        }
        let its_runs: Vec<_> = plan.wires.iter().map(|b| runs.of_bus_wire(b)).collect();
        let pieces = plan.wires.iter().map(|b| piece(plan, layout, b));
        runs.pieces = pieces.collect();
        part_runs(&mut runs.pieces, &its_runs);
        runs
    }

    /// The run that a bus wire is part of.
    pub fn of_bus_wire(&self, bus_wire: &BusWire) -> Option<usize> {
        let rerouter = match (bus_wire.target, bus_wire.source) {
            (End::Bus(number), _) | (_, End::Bus(number)) => number,
            _ => return None,
        };
        *self.of_rerouter.get(rerouter)?
    }
}

/// Where a bus wire is drawn, all runs in the middle of their column or level;
/// nowhere in a plan that names what is not there.
fn piece(plan: &Plan, layout: &Layout, bus_wire: &BusWire) -> Option<Piece> {
    let rerouter = |n: usize| plan.nodes.get(n);
    let middle = |rerouter| layout.middle(rerouter);
    let (page, points, stub) = match (bus_wire.source, bus_wire.target) {
        (End::Node(port), End::Bus(to)) => {
            let to = rerouter(to)?;
            match layout.port_on(port, true, to.page) {
                Some(port) => (to.page, departure(port, middle(to), to.part), None),
                None => {
                    let points = vec![middle(to).moved(STUB, -STUB), middle(to)];
                    (to.page, points, Some(Stub::From))
                }
            }
        }
        (End::Bus(from), End::Node(port)) => {
            let from = rerouter(from)?;
            match layout.port_on(port, false, from.page) {
                Some(port) => (from.page, approach(middle(from), port), None),
                None => {
                    let points = vec![middle(from), middle(from).moved(STUB, STUB)];
                    (from.page, points, Some(Stub::To))
                }
            }
        }
        (End::Bus(from), End::Bus(to)) => {
            let (from, to) = (rerouter(from)?, rerouter(to)?);
            (from.page == to.page).then_some(())?;
            (from.page, vec![middle(from), middle(to)], None)
        }
        (End::Node(_), End::Node(_)) => return None,
    };
    Some(Piece { page, points, stub })
}

/// From a port to a brick of a lane: along the level of a source rerouter to
/// the lane's column, and in it to the brick. To any other brick it is straight.
fn departure(port: Point, end: Point, part: Part) -> Vec<Point> {
    if !matches!(part, Part::Head | Part::Link | Part::Tap) {
        return vec![port, end];
    }
    let up = port.moved(0, -UNIT);
    let beside = Point {
        right: end.right,
        ..up
    };
    vec![port, up, beside, end]
}

/// A delivery from afar goes along its level until it is near the port.
fn approach(from: Point, port: Point) -> Vec<Point> {
    const NEAR: i64 = 2 * UNIT;
    let away = port.right - from.right;
    if away.abs() <= 3 * NEAR {
        return vec![from, port];
    }
    let near = Point {
        right: port.right - NEAR * away.signum(),
        ..from
    };
    vec![from, near, port]
}

impl Piece {
    /// The straight stretches that other runs may lie on, too: all but those at
    /// a port. Each by the place of its first point.
    fn stretches(&self) -> impl Iterator<Item = (usize, Stretch)> + '_ {
        let pairs = self.points.windows(2).enumerate();
        let whole = self.points.len() == 2;
        // A departure begins at a port, an approach ends at one.
        let free = move |k: usize| whole || (self.points.len() == 4) == (k > 0);
        pairs
            .filter(move |(k, _)| self.stub.is_none() && free(*k))
            .filter_map(|(k, pair)| Some((k, stretch(self.page, pair[0], pair[1])?)))
    }
}

/// A column or a level of a page: whether it is upright, the page, its place.
type Axis = (bool, usize, i64);

/// A range along an axis.
type Stretch = (Axis, i64, i64);

fn stretch(page: usize, a: Point, b: Point) -> Option<Stretch> {
    let (axis, from, to) = match (a.right == b.right, a.down == b.down) {
        (true, true) => return None,
        (true, _) => ((true, page, a.right), a.down, b.down),
        (_, true) => ((false, page, a.down), a.right, b.right),
        _ => return None,
    };
    Some((axis, from.min(to), from.max(to)))
}

/// Runs that share a stretch of a column or of a level go side by side in it.
fn part_runs(pieces: &mut [Option<Piece>], runs: &[Option<usize>]) {
    let mut ranges: HashMap<(Axis, usize), (i64, i64)> = HashMap::new();
    for (piece, run) in pieces.iter().zip(runs) {
        let (Some(piece), Some(run)) = (piece, run) else {
            continue;
        };
        for (_, (axis, low, high)) in piece.stretches() {
            let range = ranges.entry((axis, *run)).or_insert((low, high));
            *range = (range.0.min(low), range.1.max(high));
        }
    }
    let mut sorted: Vec<Shared> = ranges.into_iter().collect();
    sorted.sort_unstable_by_key(|((axis, run), range)| (*axis, *range, *run));
    let mut offsets = HashMap::new();
    for axis in sorted.chunk_by(|a, b| a.0.0 == b.0.0) {
        offsets.extend(side_by_side(axis));
    }
    for (piece, run) in pieces.iter_mut().zip(runs) {
        let (Some(piece), Some(run)) = (piece, run) else {
            continue;
        };
        let stretches: Vec<_> = piece.stretches().collect();
        for (k, (axis, ..)) in stretches {
            let offset = offsets.get(&(axis, *run)).copied().unwrap_or_default();
            let (right, down) = if axis.0 { (offset, 0) } else { (0, offset) };
            for point in &mut piece.points[k..k + 2] {
                *point = point.moved(right, down);
            }
        }
    }
}

/// The range of an axis that a run needs.
type Shared = ((Axis, usize), (i64, i64));

/// Offsets from the middle of an axis: each stretch, by its start, gets the
/// lowest track whose last stretch ends before it.
fn side_by_side(axis: &[Shared]) -> Vec<((Axis, usize), i64)> {
    // More than this many lines in two units can't be told apart anyway.
    const MOST: usize = 15;
    let mut ends: Vec<i64> = Vec::new();
    let mut tracks = Vec::new();
    for (key, (low, high)) in axis {
        let free = ends.iter().position(|end| end < low);
        let track = match free {
            Some(track) => track,
            None if ends.len() < MOST => {
                ends.push(*high);
                ends.len() - 1
            }
            None => tracks.len() % MOST,
        };
        ends[track] = ends[track].max(*high);
        tracks.push((*key, track as i64));
    }
    let count = ends.len() as i64;
    let step = (14 / count).clamp(1, 5);
    let offset = |track| step * track - step * (count - 1) / 2;
    tracks
        .iter()
        .map(|(key, track)| (*key, offset(*track)))
        .collect()
}
