//! Request 1, what of a plan is inside a box on a page, from its words: every
//! rerouter and every bus wire is tried by itself.

use crate::board::Refusal;
use crate::plan::{BusWire, End, Plan, Rerouter};

/// A page, and on it x and y, each from its start to its end.
#[derive(Clone, Copy, Debug, Default, PartialEq, Eq)]
pub struct PageBox {
    pub page: u32,
    pub x: (i32, i32),
    pub y: (i32, i32),
}

#[derive(Clone, Copy, Debug, PartialEq, Eq)]
pub struct RerouterHit {
    pub number: usize,
    pub part: u8,
    pub lane: Option<i32>,
}

/// Both by rising number.
#[derive(Clone, Debug, Default, PartialEq, Eq)]
pub struct Hits {
    pub rerouters: Vec<RerouterHit>,
    pub wires: Vec<usize>,
}

/// A rerouter is 2 by 2.
const SIDE: i64 = 2;

/// From, to, in more bits than any sum here needs.
type Range = (i64, i64);

fn range((from, to): (i32, i32)) -> Range {
    (i64::from(from), i64::from(to))
}

/// Half-open ranges, as the original's `cells_overlap` has them: those that
/// touch are apart, and an empty one strictly inside another overlaps it.
fn overlap(a: Range, b: Range) -> bool {
    a.1 > b.0 && b.1 > a.0
}

/// Closed ranges: those that touch meet.
fn meet(a: Range, b: Range) -> bool {
    a.0 <= b.1 && b.0 <= a.1
}

/// From the lower of two coordinates to the higher.
fn between(a: i32, b: i32) -> Range {
    range((a.min(b), a.max(b)))
}

impl PageBox {
    fn is_page_of(&self, r: &Rerouter) -> bool {
        r.page as u64 == u64::from(self.page)
    }

    /// Whether a rerouter's cell overlaps the rectangle.
    pub fn hits_rerouter(&self, r: &Rerouter) -> bool {
        let cell = |low: i32| (i64::from(low), i64::from(low) + SIDE);
        self.is_page_of(r) && overlap(cell(r.x), range(self.x)) && overlap(cell(r.y), range(self.y))
    }

    /// Whether the straight run of a bus wire meets the rectangle.
    pub fn hits_wire(&self, plan: &Plan, wire: &BusWire) -> bool {
        let Some((a, b)) = ends(plan, wire) else {
            return false;
        };
        let straight = a.x == b.x || a.y == b.y;
        straight
            && self.is_page_of(a)
            && self.is_page_of(b)
            && meet(between(a.x, b.x), range(self.x))
            && meet(between(a.y, b.y), range(self.y))
    }
}

/// The two rerouters of a bus wire that has one at either end.
pub fn ends<'a>(plan: &'a Plan, wire: &BusWire) -> Option<(&'a Rerouter, &'a Rerouter)> {
    let (End::Bus(from), End::Bus(to)) = (wire.from, wire.to) else {
        return None;
    };
    Some((plan.rerouters.get(from)?, plan.rerouters.get(to)?))
}

/// Refusal 9: a page not on the board, or a range whose end is under its start.
pub fn refusal(pages: usize, page_box: &PageBox) -> Option<Refusal> {
    let PageBox { page, x, y } = *page_box;
    let not_there = u64::from(page) >= pages as u64;
    (not_there || x.1 < x.0 || y.1 < y.0).then_some(Refusal::new(9, 0))
}

/// What of a finished plan is inside a box, or refusal 9.
pub fn find(plan: &Plan, page_box: &PageBox) -> Result<Hits, Refusal> {
    if let Some(refusal) = refusal(plan.pages.len(), page_box) {
        return Err(refusal);
    }
    let mut hits = Hits::default();
    for (number, r) in plan.rerouters.iter().enumerate() {
        if page_box.hits_rerouter(r) {
            let (part, lane) = (r.part, r.lane);
            hits.rerouters.push(RerouterHit { number, part, lane });
        }
    }
    for (number, wire) in plan.bus_wires.iter().enumerate() {
        if page_box.hits_wire(plan, wire) {
            hits.wires.push(number);
        }
    }
    Ok(hits)
}

impl Hits {
    /// The list as 32-bit numbers: three a rerouter, then one a wire.
    pub fn numbers(&self) -> Vec<u32> {
        let mut list = Vec::new();
        for hit in &self.rerouters {
            let lane = hit.lane.unwrap_or(-1);
            list.extend([hit.number as u32, u32::from(hit.part), lane as u32]);
        }
        list.extend(self.wires.iter().map(|number| *number as u32));
        list
    }
}
