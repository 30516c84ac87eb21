//! What of a plan is inside a box on a page.

use crate::calls::{self, HIT_FIELDS};
use crate::plan::{OrDash, PlanView, case, maybe};
use crate::types::{BusNodeId, Part};
use std::fmt;

/// A page of the board, and on it a range of x and one of y, each from its
/// start to its end. Start and end may be the same.
#[derive(Clone, Copy, Debug, Default, PartialEq, Eq, Hash)]
pub struct PageBox {
    pub page: u32,
    pub x: (i32, i32),
    pub y: (i32, i32),
}

impl PageBox {
    /// The box as the library takes it.
    pub(crate) fn numbers(&self) -> calls::PageBox {
        calls::PageBox {
            page: self.page,
            x0: self.x.0 as u32,
            x1: self.x.1 as u32,
            y0: self.y.0 as u32,
            y1: self.y.1 as u32,
        }
    }
}

/// A rerouter inside a box.
#[derive(Clone, Copy, Debug, PartialEq, Eq, Hash)]
pub struct RerouterHit {
    /// Its place among the plan's nodes.
    pub number: BusNodeId,
    pub part: Part,
    /// The lane of a head, link or tap.
    pub lane: Option<usize>,
}

/// What is inside a box, read from the buffers as it is walked. Nothing is
/// copied and nothing is allocated. Its `Display` has a line for each: `R`,
/// number, part and lane or `-` of a rerouter, `B` and number of a bus wire.
#[derive(Clone, Copy, Debug)]
pub struct Hits<'a> {
    /// Number, part and lane of each.
    pub(crate) rerouters: &'a [u32],
    pub(crate) wires: &'a [u32],
    pub(crate) plan: PlanView<'a>,
}

fn rerouter_hit(fields: &[u32]) -> RerouterHit {
    RerouterHit {
        number: fields[0] as usize,
        part: case(fields[1]),
        lane: maybe(fields[2]),
    }
}

impl<'a> Hits<'a> {
    /// The rerouters of the page whose 2 by 2 overlaps the box, by rising
    /// number. Touching is a miss; a range that ends where it starts hits where
    /// it lies strictly inside.
    pub fn rerouters(&self) -> impl ExactSizeIterator<Item = RerouterHit> + Clone + use<'a> {
        self.rerouters.chunks_exact(HIT_FIELDS).map(rerouter_hit)
    }

    /// The bus wires between two rerouters of the page whose straight run, from
    /// the x and y of the one to those of the other, meets the box, edges
    /// included: their places among the plan's wires, rising.
    pub fn wires(&self) -> impl ExactSizeIterator<Item = usize> + Clone + use<'a> {
        self.wires.iter().map(|number| *number as usize)
    }

    pub fn is_empty(&self) -> bool {
        self.rerouters.is_empty() && self.wires.is_empty()
    }

    /// The plan, as `route` leaves it in the buffers.
    pub fn plan(&self) -> PlanView<'a> {
        self.plan
    }
}

impl fmt::Display for Hits<'_> {
    fn fmt(&self, f: &mut fmt::Formatter<'_>) -> fmt::Result {
        for RerouterHit { number, part, lane } in self.rerouters() {
            writeln!(f, "R\t{number}\t{}\t{}", part.number(), OrDash(lane))?;
        }
        for number in self.wires() {
            writeln!(f, "B\t{number}")?;
        }
        Ok(())
    }
}
