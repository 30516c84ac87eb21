//! Demand 3, checked clause by clause on a board and a finished plan, and the
//! depths of request 2. It knows nothing of how plans are made: only document
//! 01's words of demand 3, and which wires make a group.

use crate::board::{Board, Port};
use crate::depths::{self, Fault, arrivals, way_back};
use crate::facts::{Facts, Group};
use crate::plan::*;
use crate::plan_read;
use std::collections::HashMap;

struct Case<'a> {
    board: &'a Board,
    plan: &'a Plan,
    facts: Facts<'a>,
    groups: Vec<Group>,
    /// The group of each wire that is in one.
    group_of: HashMap<usize, usize>,
    /// What arrives at each rerouter.
    arrivals: Vec<Vec<End>>,
}

type Clause = fn(&Case) -> Option<String>;

/// Each clause of demand 3 by its name.
pub const CLAUSES: [&str; 11] = [
    "ends", "feeder", "names", "target", "source", "twice", "sum", "distance", "corner", "bound",
    "overlap",
];
const CHECKS: [Clause; 11] = [
    ends, feeder, names, target, source, twice, sum, distance, corner, bound, overlap,
];

/// The clauses that a plan sheet breaks on a board: of demand 3, and of depths.
pub fn check_sheet(board: &Board, plan: &[u8]) -> Vec<Fault> {
    match plan_read::read(plan) {
        Ok(plan) => check(board, &plan),
        Err(line) => vec![Fault {
            clause: "sheet",
            what: format!("plan line {line} does not fit"),
        }],
    }
}

/// The clauses that a plan breaks on a board: of demand 3, and of depths.
pub fn check(board: &Board, plan: &Plan) -> Vec<Fault> {
    let facts = Facts::new(board);
    let groups = facts.groups();
    let mut group_of = HashMap::new();
    for (i, g) in groups.iter().enumerate() {
        group_of.extend(g.taps.iter().map(|t| (t.wire, i)));
    }
    let case = Case {
        board,
        plan,
        facts,
        groups,
        group_of,
        arrivals: arrivals(plan.rerouters.len(), &plan.bus_wires),
    };
    let broken =
        |(clause, check): (&'static str, Clause)| check(&case).map(|what| Fault { clause, what });
    let mut faults: Vec<Fault> = CLAUSES.into_iter().zip(CHECKS).filter_map(broken).collect();
    let depths: Vec<usize> = plan.rerouters.iter().map(|r| r.depth).collect();
    faults.extend(depths::check(&depths, &plan.bus_wires));
    faults
}

impl Case<'_> {
    /// The bus wires that end at a port, with the numbers of their records.
    fn deliveries(&self) -> impl Iterator<Item = (usize, &BusWire, Port)> {
        let all = self.plan.bus_wires.iter().enumerate();
        all.filter_map(|(i, b)| match b.to {
            End::Port(p) => Some((i, b, p)),
            End::Bus(_) => None,
        })
    }

    fn part(&self, end: End) -> Option<u8> {
        match end {
            End::Bus(r) => self.plan.rerouters.get(r).map(|r| r.part),
            End::Port(_) => None,
        }
    }
}

/// Bus wires name rerouters that are there.
fn ends(case: &Case) -> Option<String> {
    let there = |e: End| !matches!(e, End::Bus(r) if r >= case.plan.rerouters.len());
    let bad = |b: &BusWire| !there(b.from) || !there(b.to);
    let i = case.plan.bus_wires.iter().position(bad)?;
    Some(format!("bus wire {i} names a rerouter that is not there"))
}

/// W7: one bus wire and no more arrives at each rerouter, and it leaves a port
/// or an earlier rerouter.
fn feeder(case: &Case) -> Option<String> {
    let bad = |(r, from): (usize, &Vec<End>)| match from[..] {
        [End::Port(_)] => None,
        [End::Bus(f)] if f < r => None,
        _ => Some(r),
    };
    let r = case.arrivals.iter().enumerate().find_map(bad)?;
    Some(format!("rerouter {r} is fed by {:?}", case.arrivals[r]))
}

/// A delivery names a wire of the board, and no other bus wire names one; it
/// leaves a rerouter. T counts the records and the deliveries.
fn names(case: &Case) -> Option<String> {
    for (i, b) in case.plan.bus_wires.iter().enumerate() {
        let ends_at_port = matches!(b.to, End::Port(_));
        let leaves_bus = matches!(b.from, End::Bus(_));
        let fits = match b.delivery {
            Some((wire, _)) => ends_at_port && leaves_bus && wire < case.board.wires.len(),
            None => !ends_at_port,
        };
        if !fits {
            return Some(format!("bus wire {i} names {:?}", b.delivery));
        }
    }
    let [rerouters, bus_wires, deliveries, direct, _] = case.plan.totals;
    let named = case
        .plan
        .bus_wires
        .iter()
        .filter(|b| b.delivery.is_some())
        .count();
    let right = rerouters == case.plan.rerouters.len()
        && bus_wires == case.plan.bus_wires.len()
        && deliveries == named
        && direct + named == case.board.wires.len();
    (!right).then(|| format!("totals {:?}", case.plan.totals))
}

/// W9: a delivery's target is its wire's.
fn target(case: &Case) -> Option<String> {
    let bad = |(i, b, to): (usize, &BusWire, Port)| {
        let wire = case.board.wires.get(b.delivery?.0)?;
        (wire.target != to).then_some(i)
    };
    let i = case.deliveries().find_map(bad)?;
    Some(format!("bus wire {i} ends at another port than its wire"))
}

/// W9: the port that the way back comes to is its wire's source.
fn source(case: &Case) -> Option<String> {
    let bad = |(i, b, _): (usize, &BusWire, Port)| {
        let wire = case.board.wires.get(b.delivery?.0)?;
        let back = way_back(&case.arrivals, b.from).map(|(port, _)| port);
        (back != Some(wire.source)).then_some(i)
    };
    let i = case.deliveries().find_map(bad)?;
    Some(format!(
        "bus wire {i} does not lead back to its wire's source"
    ))
}

/// W10: a wire has one delivery at most.
fn twice(case: &Case) -> Option<String> {
    let mut seen = vec![false; case.board.wires.len()];
    for b in &case.plan.bus_wires {
        if let Some((wire, _)) = b.delivery
            && let Some(seen) = seen.get_mut(wire)
            && std::mem::replace(seen, true)
        {
            return Some(format!("wire {wire} is delivered twice"));
        }
    }
    None
}

/// W11: the counts add up.
fn sum(case: &Case) -> Option<String> {
    let right = case.plan.rerouters.len() + case.deliveries().count();
    let have = case.plan.bus_wires.len();
    (have != right).then(|| format!("{have} bus wires, not {right}"))
}

/// W9: the distance stored, counted again.
fn distance(case: &Case) -> Option<String> {
    let bad = |(i, b, _): (usize, &BusWire, Port)| {
        let (_, stored) = b.delivery?;
        let counted = way_back(&case.arrivals, b.from).map(|(_, d)| d);
        (counted != Some(stored)).then(|| format!("bus wire {i}: {counted:?}, not {stored}"))
    };
    case.deliveries().find_map(bad)
}

/// W12: the distance of a delivery that leaves a corner.
fn corner(case: &Case) -> Option<String> {
    let bad = |(i, b, _): (usize, &BusWire, Port)| {
        let (_, stored) = b.delivery?;
        let through = case.part(b.from) == Some(PART_CORNER);
        (through && stored != 1).then(|| format!("bus wire {i}: {stored} through a corner"))
    };
    case.deliveries().find_map(bad)
}

/// W13: the bound on the distance of any other.
fn bound(case: &Case) -> Option<String> {
    let bad = |(i, b, _): (usize, &BusWire, Port)| {
        let (wire, stored) = b.delivery?;
        if case.part(b.from) == Some(PART_CORNER) {
            return None;
        }
        let Some(group) = case.group_of.get(&wire).map(|g| &case.groups[*g]) else {
            return Some(format!("bus wire {i}: wire {wire} is in no group"));
        };
        let row = case.facts.tap(wire).ok()?.row;
        let rows = group.rows().iter().filter(|r| **r <= row).count();
        let most = 3 + rows + group.columns(row);
        (stored > most).then(|| format!("bus wire {i}: {stored} is over {most}"))
    };
    case.deliveries().find_map(bad)
}

/// W14: lane bricks lie apart.
fn overlap(case: &Case) -> Option<String> {
    let mut near: HashMap<(usize, i32, i32), Vec<usize>> = HashMap::new();
    let bricks = &case.plan.rerouters;
    for (i, r) in bricks.iter().enumerate() {
        if !matches!(r.part, PART_HEAD | PART_LINK | PART_TAP) {
            continue;
        }
        let (bx, by) = (r.x.div_euclid(2), r.y.div_euclid(2));
        for (dx, dy) in (-1..=1).flat_map(|dx| (-1..=1).map(move |dy| (dx, dy))) {
            for j in near.get(&(r.page, bx + dx, by + dy)).into_iter().flatten() {
                let other = &bricks[*j];
                if (r.x - other.x).abs() < 2 && (r.y - other.y).abs() < 2 {
                    return Some(format!("rerouters {j} and {i} overlap"));
                }
            }
        }
        near.entry((r.page, bx, by)).or_default().push(i);
    }
    None
}
