//! The way of a wire through a plan, in words.

use crate::plan::Plan;
use crate::types::{End, PortRef};
use std::fmt;

/// The way of a delivered wire. Its `Display` is a line of words:
/// `wire 0: 1.5 > 0 > 1 > 2 > 3 > 4 > 2.1`, that is source node and port, the
/// rerouters by number, target node and port.
#[derive(Clone, Debug, PartialEq, Eq)]
pub struct Way {
    pub wire: usize,
    pub source: PortRef,
    pub rerouters: Vec<usize>,
    pub target: PortRef,
}

impl fmt::Display for Way {
    fn fmt(&self, f: &mut fmt::Formatter<'_>) -> fmt::Result {
        let (source, target) = (self.source, self.target);
        write!(f, "wire {}: ", self.wire)?;
        write!(f, "{}.{} > ", source.node_id.0, source.port.0)?;
        for number in &self.rerouters {
            write!(f, "{number} > ")?;
        }
        write!(f, "{}.{}", target.node_id.0, target.port.0)
    }
}

impl Plan {
    /// The way of a wire that a bus wire delivers; `None` for a direct wire.
    ///
    /// A plan that was read from text may be broken. Where the way back from the
    /// delivery does not end at a port this is `None` too.
    pub fn way(&self, wire: usize) -> Option<Way> {
        let (last, target) = self.wires.iter().find_map(|b| delivered(b, wire))?;
        let feeders = Feeders::of(self);
        // A way that does not repeat itself passes each rerouter once.
        let mut back = Vec::new();
        let mut at = last;
        while back.len() <= self.nodes.len() {
            match at {
                End::Node(source) => return Some(Way::from_back(wire, source, back, target)),
                End::Bus(number) => {
                    back.push(number);
                    at = feeders.feeder(number)?;
                }
            }
        }
        None
    }

    /// The ways of all delivered wires, by wire number. Where two deliveries
    /// name one wire, which only a broken plan has, the first of them counts.
    ///
    /// Takes time in proportion to the plan and to what it gives back.
    pub fn ways(&self) -> Vec<Way> {
        let feeders = Feeders::of(self);
        let roots = feeders.roots();
        let mut deliveries: Vec<_> = (self.wires.iter())
            .filter_map(|b| Some((b.delivery?.wire, b.source, b.target)))
            .filter_map(|(wire, last, target)| match target {
                End::Node(target) => Some((wire, last, target)),
                End::Bus(_) => None,
            })
            .collect();
        deliveries.sort_by_key(|(wire, ..)| *wire);
        deliveries.dedup_by_key(|(wire, ..)| *wire);
        let way = |(wire, last, target)| {
            let source = match last {
                End::Node(port) => port,
                End::Bus(number) => (*roots.get(number)?)?,
            };
            Some(Way::from_back(wire, source, feeders.back(last), target))
        };
        deliveries.into_iter().filter_map(way).collect()
    }
}

/// Where a delivery of a wire comes from and which port it goes to.
fn delivered(bus_wire: &crate::types::BusWire, wire: usize) -> Option<(End, PortRef)> {
    match (bus_wire.delivery, bus_wire.target) {
        (Some(delivery), End::Node(target)) if delivery.wire == wire => {
            Some((bus_wire.source, target))
        }
        _ => None,
    }
}

impl Way {
    /// The rerouters as they were met from the target back to the source.
    fn from_back(wire: usize, source: PortRef, mut back: Vec<usize>, target: PortRef) -> Self {
        back.reverse();
        Self {
            wire,
            source,
            rerouters: back,
            target,
        }
    }
}

/// What feeds each rerouter: where the first bus wire to it comes from.
pub(crate) struct Feeders(Vec<Option<End>>);

impl Feeders {
    pub(crate) fn of(plan: &Plan) -> Self {
        let mut feeders = vec![None; plan.nodes.len()];
        for bus_wire in &plan.wires {
            if let End::Bus(number) = bus_wire.target
                && let Some(feeder @ None) = feeders.get_mut(number)
            {
                *feeder = Some(bus_wire.source);
            }
        }
        Self(feeders)
    }

    fn feeder(&self, number: usize) -> Option<End> {
        *self.0.get(number)?
    }

    /// The rerouters from an end back to its port. The caller knows that there
    /// is one ([`roots`](Self::roots)), so this ends.
    fn back(&self, last: End) -> Vec<usize> {
        let mut back = Vec::new();
        let mut at = Some(last);
        while let Some(End::Bus(number)) = at {
            back.push(number);
            at = self.feeder(number);
        }
        back
    }

    /// The port that each rerouter's way back ends at; `None` where it runs in
    /// a circle or to nothing. Each rerouter is gone through once.
    pub(crate) fn roots(&self) -> Vec<Option<PortRef>> {
        let mut roots: Vec<Option<PortRef>> = vec![None; self.0.len()];
        let mut seen = vec![false; self.0.len()];
        let mut trail = Vec::new();
        for start in 0..self.0.len() {
            let mut at = Some(End::Bus(start));
            let root = loop {
                match at {
                    Some(End::Node(port)) => break Some(port),
                    Some(End::Bus(n)) if n < seen.len() && !seen[n] => {
                        seen[n] = true;
                        trail.push(n);
                        at = self.feeder(n);
                    }
                    // On this trail it is a circle, on an earlier one known.
                    Some(End::Bus(n)) => break roots.get(n).copied().flatten(),
                    None => break None,
                }
            };
            for n in trail.drain(..) {
                roots[n] = root;
            }
        }
        roots
    }
}
