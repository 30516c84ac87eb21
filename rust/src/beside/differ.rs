//! Many sheets, or demand lists, of a seed and size through both sides.

use super::both::Both;
use super::boxes;
use super::buses::{self, Case};
use super::clicks::{self, ClickTally};
use super::handed::{self, Cause, Due};
use super::room::{Lending, Reports, Room, Way};
use super::truth::Truth;
use super::{lists, reading, sheets, typed};
use crate::Buffers;
use oracle::plan::Plan;
use oracle::rng::Rng;
use oracle::{Limits, r#gen, lanes, shrink};
use std::fmt;

/// Differences that are shrunk and told of one run.
const TOLD: usize = 3;

/// What came of the sheets of one size.
#[derive(Clone, Debug, Default)]
pub struct Tally {
    /// How many were accepted, and refused by 1 to 9, with the lengths lent.
    pub outcomes: [usize; 10],
    /// Plans with a rerouter, and with a corner.
    laid: usize,
    cornered: usize,
    /// Rerouters by part, from 1.
    parts: [usize; 7],
    totals: [usize; 5],
    pages: usize,
    pages_with_lanes: usize,
    /// How often each of the three calls was refused.
    refused: [usize; 3],
    pub handed: HandedTally,
    pub clicks: ClickTally,
    pub different: usize,
}

/// What came of the buses that were handed to `lay_mini_bus`.
#[derive(Clone, Debug, Default)]
pub struct HandedTally {
    /// Refused with 7: a short buffer, a count above its buffer's length, too
    /// little room; of these by a single row.
    pub causes: [usize; 3],
    pub by_a_row: usize,
    /// Of the last two, with a 513th lane besides.
    pub crowded_too: usize,
    /// Accepted with a buffer filled to its last named row by the bus and all
    /// that may turn.
    pub tight: usize,
    /// Accepted, and a corner was laid; and how many were.
    pub cornered: usize,
    pub corners: usize,
}

/// A difference made small.
pub struct Difference {
    pub item: u64,
    pub small: String,
    pub told: String,
}

/// Who is told of a run as it goes; a closure is told of differences alone.
pub trait Watch {
    fn differs(&mut self, difference: &Difference);

    /// So many items are done, and so many of them differ.
    fn done(&mut self, items: u64, different: usize) {
        let _ = (items, different);
    }
}

impl<F: FnMut(&Difference)> Watch for F {
    fn differs(&mut self, difference: &Difference) {
        self(difference);
    }
}

/// Where the run is to make its buffers.
#[derive(Clone, Copy, Debug, Default, PartialEq, Eq)]
pub enum Memory {
    /// Once, with a guard behind each.
    #[default]
    Reused,
    /// For each sheet anew with just their length.
    Anew,
}

/// Runs items 0 to `count` of a seed and size; `None` where the word names no
/// size. Each difference that is told goes to `watch` as it is found.
pub fn run(
    seed: u64,
    count: u64,
    size: &str,
    memory: Memory,
    watch: &mut dyn Watch,
) -> Option<Tally> {
    let mut tally = Tally::default();
    let mut both = both_of(memory);
    let mut room = room_of(memory);
    let mut rooms = rooms_of(memory);
    for item in 0..count {
        let difference = match size {
            "lanes" => one_list(&mut tally, seed, item),
            "handed" => one_bus(&mut tally, &mut room, seed, item, memory),
            "boxed" => one_clicked(&mut tally, &mut rooms, seed, item, memory),
            _ => one_sheet(&mut tally, &mut both, seed, item, size, memory)?,
        };
        if let Some(difference) = difference {
            watch.differs(&difference);
        }
        watch.done(item + 1, tally.different);
    }
    Some(tally)
}

fn room_of(memory: Memory) -> Room {
    match memory {
        Memory::Reused => Room::default(),
        Memory::Anew => Room::anew(),
    }
}

fn rooms_of(memory: Memory) -> clicks::Rooms {
    match memory {
        Memory::Reused => clicks::Rooms::default(),
        Memory::Anew => clicks::Rooms::anew(),
    }
}

fn both_of(memory: Memory) -> Both {
    match memory {
        Memory::Reused => Both::default(),
        Memory::Anew => Both::anew(),
    }
}

/// Everything that can differ on a sheet.
fn faults(both: &mut Both, sheet: &[u8], lending: &Lending, limits: &Limits) -> Vec<String> {
    all_faults(both, sheet, &Truth::of(sheet), lending, limits)
}

fn all_faults(
    both: &mut Both,
    sheet: &[u8],
    truth: &Truth,
    lending: &Lending,
    limits: &Limits,
) -> Vec<String> {
    let mut faults = reading::faults(sheet, limits);
    let pair = both.call(sheet, lending);
    faults.extend(pair.faults(truth, lending));
    faults.extend(typed::faults(sheet, truth));
    faults
}

fn one_sheet(
    tally: &mut Tally,
    both: &mut Both,
    seed: u64,
    item: u64,
    size: &str,
    memory: Memory,
) -> Option<Option<Difference>> {
    // On the heap with just its length, whatever made it.
    let sheet = sheets::sheet(seed, item, size)?.into_boxed_slice();
    let lending = sheets::lending(seed, item);
    let limits = match item % 3 {
        0 => Limits::LIBRARY,
        _ => Limits::PROGRAM,
    };
    let truth = Truth::of(&sheet);
    tally.add(&truth, &lending);
    let found = all_faults(both, &sheet, &truth, &lending, &limits);
    if found.is_empty() {
        return Some(None);
    }
    tally.different += 1;
    if tally.different > TOLD {
        return Some(None);
    }
    // Each try has buffers of its own: a difference that hangs on what an
    // earlier sheet left in them is told as it is.
    let again = |s: &[u8]| faults(&mut both_of(memory), s, &lending, &limits);
    let small = shrink::sheet(&sheet, |s| !again(s).is_empty());
    let told = format!(
        "{found:?}\nshrunk, {lending:?}: {:?}\noriginal: {}\nlibrary: {:?}",
        again(&small),
        answer(&Truth::of(&small)),
        both_of(memory).call(&small, &lending)
    );
    Some(Some(Difference {
        item,
        small: String::from_utf8_lossy(&small).into_owned(),
        told,
    }))
}

fn answer(truth: &Truth) -> String {
    match &truth.plan {
        Ok(_) => format!("\n{}", truth.sheet()),
        Err(refusal) => format!("{refusal:?}"),
    }
}

/// A bus that is handed to `lay_mini_bus`. It is made from the sheet and the
/// item's number, so that of a smaller sheet it can be made again.
fn one_bus(
    tally: &mut Tally,
    room: &mut Room,
    seed: u64,
    item: u64,
    memory: Memory,
) -> Option<Difference> {
    let case = Case::of(&buses::sheet(seed, item), seed, item);
    let due = Due::of(&case);
    tally.add_handed(&due);
    let found = handed::faults(room, &case, &due);
    if found.is_empty() {
        return None;
    }
    tally.different += 1;
    if tally.different > TOLD {
        return None;
    }
    let again = |s: &[u8]| {
        let case = Case::of(s, seed, item);
        handed::faults(&mut room_of(memory), &case, &Due::of(&case))
    };
    let small = shrink::sheet(&case.sheet, |s| !again(s).is_empty());
    let made = Case::of(&small, seed, item);
    let due = Due::of(&made);
    // The buffers can be made again from the seed: long ones are not shown.
    let content = match made.content.ports.len() {
        0..9 => format!("{:?}", made.content),
        _ => "long buffers".to_string(),
    };
    let told = format!(
        "{found:?}\nshrunk, {:?}, {:?}: {:?}\ndue: {:?}, by {:?}, a 513th lane {}\nhanded: {content}",
        made.held,
        made.lending,
        again(&small),
        due.report,
        due.cause,
        due.crowded
    );
    Some(Difference {
        item,
        small: String::from_utf8_lossy(&small).into_owned(),
        told,
    })
}

/// The boxes on one board. The sheet counts once as different, and the box on
/// which it first is stays while the sheet is shrunk.
fn one_clicked(
    tally: &mut Tally,
    rooms: &mut clicks::Rooms,
    seed: u64,
    item: u64,
    memory: Memory,
) -> Option<Difference> {
    let faults = |rooms: &mut clicks::Rooms, sheet: &[u8], truth: &Truth, click: &boxes::Click| {
        let due = clicks::Due::of(truth, click);
        rooms.faults(sheet, truth, click, &due)
    };
    let sheet = boxes::sheet(seed, item).into_boxed_slice();
    let truth = Truth::of(&sheet);
    let mut buffers = Buffers::for_sheet(&sheet);
    let mut first = None;
    for click in boxes::clicks(&truth, seed, item) {
        tally.add_click(&truth, &click);
        let mut found = faults(rooms, &sheet, &truth, &click);
        let page_box = &click.page_box;
        found.extend(clicks::typed_faults(&mut buffers, &sheet, &truth, page_box));
        if !found.is_empty() {
            first = first.or(Some((click, found)));
        }
    }
    let (click, found) = first?;
    tally.different += 1;
    if tally.different > TOLD {
        return None;
    }
    let again = |s: &[u8]| {
        let truth = Truth::of(s);
        let mut found = faults(&mut rooms_of(memory), s, &truth, &click);
        let mut buffers = Buffers::for_sheet(s);
        let typed = clicks::typed_faults(&mut buffers, s, &truth, &click.page_box);
        found.extend(typed);
        found
    };
    let small = shrink::sheet(&sheet, |s| !again(s).is_empty());
    let truth = Truth::of(&small);
    let told = format!(
        "{found:?}\nshrunk, {click:?}: {:?}\ndue: {:?}\noriginal: {}",
        again(&small),
        clicks::Due::of(&truth, &click),
        answer(&truth)
    );
    Some(Difference {
        item,
        small: String::from_utf8_lossy(&small).into_owned(),
        told,
    })
}

fn one_list(tally: &mut Tally, seed: u64, item: u64) -> Option<Difference> {
    let rng = &mut Rng::for_item(seed, item);
    let list = r#gen::lanes::list(rng);
    // Just enough room, some to spare, or one answer too few.
    let extra = rng.pick(&[0, 0, 0, 1, 3, -1]);
    let answers = (list.len() / 4).saturating_add_signed(extra);
    tally.outcomes[lists::expected(&list, answers).0.refusal] += 1;
    if !lists::differs(&list, extra) {
        return None;
    }
    tally.different += 1;
    if tally.different > TOLD {
        return None;
    }
    let small = shrink::list(&list, |l| lists::differs(l, extra));
    let told = format!(
        "original: {}\nlibrary: {:?}",
        lanes::answer(&small),
        lists::call(&small, small.len() / 4)
    );
    Some(Difference {
        item,
        small: lanes::line_of(&small),
        told,
    })
}

impl Tally {
    fn add(&mut self, truth: &Truth, lending: &Lending) {
        let refusals = |way| Reports::refusals(&truth.reports(lending, way));
        let refusal = refusals(Way::Route)[0].0;
        self.outcomes[refusal] += 1;
        for (sum, (number, _)) in self.refused.iter_mut().zip(refusals(Way::Apart)) {
            *sum += usize::from(number != 0);
        }
        if let (Ok(plan), 0) = (&truth.plan, refusal) {
            self.add_plan(plan);
        }
    }

    fn add_click(&mut self, truth: &Truth, click: &boxes::Click) {
        let due = clicks::Due::of(truth, click);
        self.outcomes[due.report.refusal] += 1;
        self.clicks.add(truth, click, &due);
    }

    fn add_handed(&mut self, due: &Due) {
        self.outcomes[due.report.refusal] += 1;
        let h = &mut self.handed;
        let at_fault = match due.cause {
            None => false,
            Some(Cause::Buffer) => {
                h.causes[0] += 1;
                false
            }
            Some(Cause::Count) => {
                h.causes[1] += 1;
                true
            }
            Some(Cause::Room) => {
                h.causes[2] += 1;
                h.by_a_row += usize::from(due.fit.over == 1);
                true
            }
        };
        h.crowded_too += usize::from(at_fault && due.crowded);
        h.tight += usize::from(due.report.refusal == 0 && due.fit.tight);
        h.cornered += usize::from(due.corners > 0);
        h.corners += due.corners;
    }

    fn add_plan(&mut self, plan: &Plan) {
        let before = self.parts;
        for r in &plan.rerouters {
            self.parts[usize::from(r.part)] += 1;
        }
        self.laid += usize::from(self.parts != before);
        self.cornered += usize::from(self.parts[6] != before[6]);
        for (sum, n) in self.totals.iter_mut().zip(plan.totals) {
            *sum += n;
        }
        self.pages += plan.pages.len();
        self.pages_with_lanes += plan.pages.iter().filter(|p| p.lanes > 0).count();
    }
}

impl fmt::Display for Tally {
    fn fmt(&self, f: &mut fmt::Formatter<'_>) -> fmt::Result {
        let [accepted, refused @ ..] = self.outcomes;
        write!(f, "  accepted {accepted}")?;
        for (i, n) in refused.iter().enumerate().filter(|(_, n)| **n > 0) {
            write!(f, "; refused with {}: {n}", i + 1)?;
        }
        if self.handed.causes != [0; 3] || self.handed.corners > 0 {
            write!(f, "\n{}", self.handed)?;
        }
        if self.clicks.clicks > 0 {
            write!(f, "\n{}", self.clicks)?;
        }
        if self.totals == [0; 5] {
            return Ok(());
        }
        let (laid, cornered) = (self.laid, self.cornered);
        let (pages, with_lanes) = (self.pages, self.pages_with_lanes);
        let [rerouters, bus_wires, deliveries, direct, groups] = self.totals;
        let [_, source, head, link, tap, gate_side, corner] = self.parts;
        let [plan_bus, lay_bus, lay_mini_bus] = self.refused;
        write!(
            f,
            "
  plans with rerouters {laid}, with corners {cornered}; pages {pages}, with lanes {with_lanes}
  rerouters {rerouters}, bus wires {bus_wires}, deliveries {deliveries}, direct {direct}, groups {groups}
  sources {source}, heads {head}, links {link}, taps {tap}, gate-sides {gate_side}, corners {corner}
  of the three calls refused: plan_bus {plan_bus}, lay_bus {lay_bus}, lay_mini_bus {lay_mini_bus}"
        )
    }
}

impl fmt::Display for HandedTally {
    fn fmt(&self, f: &mut fmt::Formatter<'_>) -> fmt::Result {
        let [buffer, count, room] = self.causes;
        let Self {
            by_a_row,
            crowded_too,
            tight,
            cornered,
            corners,
            ..
        } = self;
        write!(
            f,
            "  7 for a short buffer {buffer}, a count over its buffer {count}, too little room {room}, of these by one row {by_a_row}
  counts at fault and a 513th lane {crowded_too}; accepted with not a row to spare {tight}, with corners {cornered}, corners {corners}"
        )
    }
}
