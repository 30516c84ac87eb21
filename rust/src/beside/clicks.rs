//! `find_hits` beside the oracle's reading of its words on the original's plan.

use super::boxes::Click;
use super::room::{Room, Way};
use super::truth::{Truth, numbers};
use super::typed::as_theirs;
use crate::calls::{self, HIT_NUMBERS, HitsNumbers};
use crate::{Buffers, hits};
use oracle::board::Refusal;
use oracle::hits::{self as theirs, Hits, PageBox};
use oracle::plan::{Plan, Rerouter};
use std::fmt;

/// Buffers for `find_hits`, and for `route` beside it.
#[derive(Default)]
pub struct Rooms {
    clicked: Room,
    routed: Room,
}

/// What has to come of a click.
#[derive(Clone, Debug, PartialEq, Eq)]
pub struct Due {
    pub report: HitsNumbers,
    /// What has to stand in front of the hit buffer.
    pub list: Vec<u32>,
    /// The hit buffer alone is too short.
    pub short_of_hits: bool,
}

/// What is inside a box, and the refusals 1 to 6, 8 and 9.
fn found(truth: &Truth, page_box: &PageBox) -> Result<Hits, Refusal> {
    match &truth.plan {
        Ok(plan) => theirs::find(plan, page_box),
        Err(refusal) => Err(*refusal),
    }
}

impl Due {
    /// Refusals 1 to 6, then 7 for any buffer that is too short, 8, 9.
    pub fn of(truth: &Truth, click: &Click) -> Self {
        let first = truth.refusal(&click.lending.rows, true, true);
        let early = first.filter(|refusal| refusal.number <= 7);
        let short = truth.lines.wires > 0 && click.more < 0;
        let late = || match short {
            true => Err(Refusal::new(7, 0)),
            false => found(truth, &click.page_box),
        };
        let hits = early.map_or_else(late, Err);
        let report = match (&hits, &truth.plan) {
            (Ok(hits), Ok(plan)) => {
                let plan = numbers(plan);
                HitsNumbers {
                    refusal: 0,
                    place: 0,
                    hit_rerouters: hits.rerouters.len(),
                    hit_wires: hits.wires.len(),
                    rerouters: plan.rerouters,
                    bus_wires: plan.bus_wires,
                    ports: plan.ports,
                    groups: plan.groups,
                }
            }
            (Err(refusal), _) | (_, Err(refusal)) => HitsNumbers {
                refusal: refusal.number as usize,
                place: refusal.line,
                ..HitsNumbers::default()
            },
        };
        Self {
            report,
            list: hits.map(|hits| hits.numbers()).unwrap_or_default(),
            short_of_hits: early.is_none() && short,
        }
    }
}

fn numbers_of(page_box: &PageBox) -> calls::PageBox {
    typed(page_box).numbers()
}

fn typed(page_box: &PageBox) -> hits::PageBox {
    let PageBox { page, x, y } = *page_box;
    hits::PageBox { page, x, y }
}

impl Rooms {
    /// See [`Room::anew`].
    pub fn anew() -> Self {
        Self {
            clicked: Room::anew(),
            routed: Room::anew(),
        }
    }

    /// In words, what is not as it has to be on one click; empty where nothing
    /// is. On a plan the four output buffers have to be what `route` makes of
    /// the same content, whole; on a refusal all has to be as it was.
    pub fn faults(&mut self, sheet: &[u8], truth: &Truth, click: &Click, due: &Due) -> Vec<String> {
        let page_box = numbers_of(&click.page_box);
        let clicked = (self.clicked).click(sheet, &click.lending, page_box, click.more);
        let mut faults: Vec<String> = (clicked.found.spoilt.iter())
            .map(|what| format!("written: {what}"))
            .collect();
        if clicked.answer != due.report {
            faults.push(format!(
                "answers: {:?}, not {:?}",
                clicked.answer, due.report
            ));
        }
        let named = clicked.before.len() >= HIT_NUMBERS * truth.lines.wires;
        if due.report.refusal == 0 && !named {
            faults.push("a short hit buffer is accepted".to_string());
        }
        let mut content = clicked.before;
        match content.get_mut(..due.list.len()) {
            Some(front) => front.copy_from_slice(&due.list),
            None => faults.push("the list is longer than its buffer".to_string()),
        }
        if clicked.after != content {
            let front = clicked.after.get(..due.list.len().max(3));
            faults.push(format!("hits: {front:?}.., not {:?}", due.list));
        }
        if due.report.refusal == 0 {
            let (lending, room) = (&click.lending, &self.clicked);
            let routed = self.routed.call_like(room, sheet, lending, Way::Route);
            faults.extend(truth.faults(&routed, lending));
            if routed != clicked.found {
                faults.push("another plan than that of route".to_string());
            }
            let unlike = self.clicked.unlike(&self.routed);
            faults.extend(unlike.iter().map(|name| format!("route's {name}")));
        }
        faults
    }
}

/// The typed call on the same box, with buffers that are used again.
pub fn typed_faults(
    buffers: &mut Buffers,
    sheet: &[u8],
    truth: &Truth,
    page_box: &PageBox,
) -> Vec<String> {
    let due = found(truth, page_box);
    let told = match (buffers.hits(sheet, &typed(page_box)), &due) {
        (Ok(hits), Ok(due)) => {
            let same = |(ours, theirs): (hits::RerouterHit, &theirs::RerouterHit)| {
                let lane = theirs.lane.map(|lane| lane as usize);
                let part = u32::from(theirs.part);
                (ours.number, ours.part.number(), ours.lane) == (theirs.number, part, lane)
            };
            let list = hits.rerouters().len() == due.rerouters.len()
                && hits.rerouters().zip(&due.rerouters).all(same)
                && hits.wires().eq(due.wires.iter().copied())
                && hits.is_empty() == due.numbers().is_empty();
            let plan = hits.plan().to_string();
            let right = truth.is_like(&plan) && truth.broken(&plan).is_empty();
            match (list, right) {
                (false, _) => Some("the hits"),
                (_, false) => Some("the plan after the hits"),
                _ => None,
            }
        }
        (Err(ours), Err(theirs)) => (as_theirs(ours) != *theirs).then_some("the refusal of a box"),
        _ => Some("a box accepted by one of two"),
    };
    told.map(|what| format!("typed: {what}"))
        .into_iter()
        .collect()
}

/// What came of the clicks.
#[derive(Clone, Debug, Default)]
pub struct ClickTally {
    pub clicks: usize,
    /// Accepted on a plan with rerouters.
    pub on_plans: usize,
    /// Lists with a hit, and without.
    pub lists: usize,
    pub empty: usize,
    pub rerouters: usize,
    pub wires: usize,
    /// Rerouters that a box only touches; that a box with an empty range hits.
    pub touched: usize,
    pub in_empty: usize,
    /// Bus wires that a box meets at its edge alone; that have no length.
    pub at_edge: usize,
    pub no_length: usize,
    /// Refused with 7 for the hit buffer alone; of these with an 8 besides.
    pub short: usize,
    pub short_and_crowded: usize,
    /// Refused with 9 for the page, and for a range on a page that is there;
    /// boxes at fault that get an earlier refusal.
    pub no_page: usize,
    pub no_range: usize,
    pub bad_and_refused: usize,
}

impl ClickTally {
    pub fn add(&mut self, truth: &Truth, click: &Click, due: &Due) {
        self.clicks += 1;
        let page_box = &click.page_box;
        let pages = truth.lines.pages;
        let bad = theirs::refusal(pages, page_box).is_some();
        match due.report.refusal {
            0 => {
                let hit = !due.list.is_empty();
                self.lists += usize::from(hit);
                self.empty += usize::from(!hit);
                self.rerouters += due.report.hit_rerouters;
                self.wires += due.report.hit_wires;
                if let Ok(plan) = &truth.plan {
                    self.on_plans += usize::from(!plan.rerouters.is_empty());
                    self.add_hits(plan, page_box);
                }
            }
            9 if page_box.page as usize >= pages => self.no_page += 1,
            9 => self.no_range += 1,
            _ => self.bad_and_refused += usize::from(bad),
        }
        if due.short_of_hits {
            self.short += 1;
            let crowded = matches!(&truth.plan, Err(refusal) if refusal.number == 8);
            self.short_and_crowded += usize::from(crowded);
        }
    }

    fn add_hits(&mut self, plan: &Plan, page_box: &PageBox) {
        let PageBox { page, x, y } = *page_box;
        let wider = PageBox {
            page,
            x: (x.0.saturating_sub(1), x.1.saturating_add(1)),
            y: (y.0.saturating_sub(1), y.1.saturating_add(1)),
        };
        let is_empty = x.0 == x.1 || y.0 == y.1;
        let touched = |r: &Rerouter| wider.hits_rerouter(r) && !page_box.hits_rerouter(r);
        self.touched += plan.rerouters.iter().filter(|r| touched(r)).count();
        let hit = plan.rerouters.iter().filter(|r| page_box.hits_rerouter(r));
        self.in_empty += if is_empty { hit.count() } else { 0 };
        let narrower = PageBox {
            page,
            x: (x.0.saturating_add(1), x.1.saturating_sub(1)),
            y: (y.0.saturating_add(1), y.1.saturating_sub(1)),
        };
        for wire in plan
            .bus_wires
            .iter()
            .filter(|w| page_box.hits_wire(plan, w))
        {
            self.at_edge += usize::from(!narrower.hits_wire(plan, wire));
            let same = |(a, b): (&Rerouter, &Rerouter)| (a.x, a.y) == (b.x, b.y);
            self.no_length += usize::from(theirs::ends(plan, wire).is_some_and(same));
        }
    }
}

impl fmt::Display for ClickTally {
    fn fmt(&self, f: &mut fmt::Formatter<'_>) -> fmt::Result {
        let Self {
            clicks,
            on_plans,
            lists,
            empty,
            rerouters,
            wires,
            touched,
            in_empty,
            at_edge,
            no_length,
            short,
            short_and_crowded,
            no_page,
            no_range,
            bad_and_refused,
        } = self;
        write!(
            f,
            "  boxes {clicks}, accepted on plans with rerouters {on_plans}; lists with hits {lists}, empty {empty}; rerouters hit {rerouters}, bus wires {wires}
  rerouters touched alone {touched}, hit with an empty range {in_empty}; runs met at an edge alone {at_edge}, of no length {no_length}
  7 for the hit buffer alone {short}, a 513th lane besides {short_and_crowded}; 9 for the page {no_page}, for a range {no_range}, a box at fault behind another refusal {bad_and_refused}"
        )
    }
}

#[cfg(test)]
mod tests {
    use super::*;
    use crate::beside::boxes;
    use oracle::rng::Rng;

    /// A list, a count or a refusal that is another than due is told, on every
    /// click with hits.
    #[test]
    fn another_answer_is_told() {
        let sheet = oracle::r#gen::sheet(1, 0, "program").expect("a size of the generator");
        let truth = Truth::of(&sheet);
        let mut rooms = Rooms::default();
        let rng = &mut Rng::new(3);
        let mut tried = 0;
        while tried < 20 {
            let click = boxes::click(rng, &truth);
            let due = Due::of(&truth, &click);
            let told = |rooms: &mut Rooms, alter: fn(&mut Due)| {
                let mut other = due.clone();
                alter(&mut other);
                !rooms.faults(&sheet, &truth, &click, &other).is_empty()
            };
            assert!(!told(&mut rooms, |_| ()), "{click:?}");
            assert!(told(&mut rooms, |due| due.report.refusal ^= 1));
            assert!(told(&mut rooms, |due| due.report.place ^= 1));
            if due.list.is_empty() {
                continue;
            }
            assert!(told(&mut rooms, |due| due.list[0] ^= 1));
            assert!(told(&mut rooms, |due| {
                due.list.pop();
            }));
            assert!(told(&mut rooms, |due| due.report.hit_rerouters += 1));
            assert!(told(&mut rooms, |due| due.report.hit_wires += 1));
            assert!(told(&mut rooms, |due| due.report.rerouters -= 1));
            tried += 1;
        }
    }
}
