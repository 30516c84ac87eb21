//! Request 2, the depth beside each rerouter. The original has none, so a depth
//! is held against the bus wires of the very bus that it stands in, each clause
//! by itself.

use crate::board::Port;
use crate::plan::{BusWire, End};

/// A clause that does not hold, and where.
#[derive(Clone, Debug, PartialEq, Eq)]
pub struct Fault {
    pub clause: &'static str,
    pub what: String,
}

struct Bus<'a> {
    depths: &'a [usize],
    wires: &'a [BusWire],
    arrivals: Vec<Vec<End>>,
}

type Clause = fn(&Bus) -> Option<String>;

/// Each clause by its name.
pub const CLAUSES: [&str; 3] = ["depth", "step", "leaves"];
const CHECKS: [Clause; 3] = [depth, step, leaves];

/// The clauses that a bus breaks whose rerouters have these depths.
pub fn check(depths: &[usize], wires: &[BusWire]) -> Vec<Fault> {
    let bus = Bus {
        depths,
        wires,
        arrivals: arrivals(depths.len(), wires),
    };
    let broken =
        |(clause, check): (&'static str, Clause)| check(&bus).map(|what| Fault { clause, what });
    CLAUSES.into_iter().zip(CHECKS).filter_map(broken).collect()
}

/// What arrives at each of so many rerouters.
pub fn arrivals(rerouters: usize, wires: &[BusWire]) -> Vec<Vec<End>> {
    let mut arrivals = vec![Vec::new(); rerouters];
    for b in wires {
        if let End::Bus(to) = b.to
            && to < rerouters
        {
            arrivals[to].push(b.from);
        }
    }
    arrivals
}

/// The way back from an end: its port and the rerouters on it. `None` where it
/// comes to no port.
pub fn way_back(arrivals: &[Vec<End>], from: End) -> Option<(Port, usize)> {
    let mut at = from;
    for passed in 0..=arrivals.len() {
        match at {
            End::Port(p) => return Some((p, passed)),
            End::Bus(r) => at = *arrivals.get(r)?.first()?,
        }
    }
    None
}

/// The first rerouter whose depth is not as it has to be.
fn first_unlike(bus: &Bus, due: impl Fn(usize) -> Option<usize>) -> Option<String> {
    let unlike = |(r, stored): (usize, &usize)| {
        let due = due(r);
        (due != Some(*stored)).then(|| format!("rerouter {r}: {due:?}, not {stored}"))
    };
    bus.depths.iter().enumerate().find_map(unlike)
}

/// A depth is the count of rerouters on the way back, its own included.
fn depth(bus: &Bus) -> Option<String> {
    first_unlike(bus, |r| {
        way_back(&bus.arrivals, End::Bus(r)).map(|(_, passed)| passed)
    })
}

/// A depth is 1 where a port feeds the rerouter, else one more than its
/// feeder's.
fn step(bus: &Bus) -> Option<String> {
    first_unlike(bus, |r| match bus.arrivals[r].first()? {
        End::Port(_) => Some(1),
        End::Bus(feeder) => bus.depths.get(*feeder)?.checked_add(1),
    })
}

/// A delivery's distance is the depth of the rerouter that it leaves.
fn leaves(bus: &Bus) -> Option<String> {
    let bad = |(i, b): (usize, &BusWire)| {
        let (_, distance) = b.delivery?;
        let depth = match b.from {
            End::Bus(r) => bus.depths.get(r),
            End::Port(_) => None,
        };
        (depth != Some(&distance)).then(|| format!("bus wire {i}: {depth:?}, not {distance}"))
    };
    bus.wires.iter().enumerate().find_map(bad)
}
