//! Buffers of every length, with a guard behind each, and one sheet through
//! the library with them.

use super::depths;
use crate::buffers::lines_of;
use crate::calls::{self, BusCounts, HIT_NUMBERS, MARK_ROWS, MISSING, Output, TABLES, Work};
use crate::calls::{BusWireRow, PageRow, PortRow, RerouterRow};
use crate::calls::{HitsNumbers, MiniNumbers, PageBox, PagesNumbers, PlanNumbers};
use crate::plan::{BusView, PlanView};

/// Stands in a row after the end of each slice that is lent.
const GUARD: u32 = 0xdead_beef;

/// Output: rerouters, bus wires, suppressed ports, page answers. Work space:
/// records, the tables and among them last the marks.
pub const SLICES: usize = 5 + TABLES;

/// Each slice's length against what document 01 names: rows more or fewer.
pub type Rows = [isize; SLICES];

/// How many lines of a sheet begin with W and with P, and how many there are.
#[derive(Clone, Copy, Debug)]
pub struct Lines {
    pub wires: usize,
    pub pages: usize,
    pub records: usize,
}

impl Lines {
    pub fn of(sheet: &[u8]) -> Self {
        Self {
            wires: lines_of(b'W', sheet),
            pages: lines_of(b'P', sheet),
            records: sheet.iter().filter(|b| **b == b'\n').count(),
        }
    }

    /// The lengths that document 01 names, and rows more or fewer.
    pub fn lengths(&self, rows: &Rows) -> [usize; SLICES] {
        let mut lengths = [self.records; SLICES];
        lengths[..4].copy_from_slice(&[5 * self.wires, 6 * self.wires, self.wires, self.pages]);
        lengths[SLICES - 1] = MARK_ROWS * self.records;
        for (length, more) in lengths.iter_mut().zip(rows) {
            *length = length.saturating_add_signed(*more);
        }
        lengths
    }
}

/// Which calls a sheet goes through.
#[derive(Clone, Copy, Debug, PartialEq, Eq)]
pub enum Way {
    Route,
    /// `plan_bus`, `lay_bus` and `lay_mini_bus`, each whatever the others said;
    /// the last with the counts and the buffers that `lay_bus` left.
    Apart,
}

/// How a call is set up.
#[derive(Clone, Copy, Debug, Default)]
pub struct Lending {
    pub rows: Rows,
    /// What the output buffers and the work space are filled with beforehand;
    /// `None` leaves them as the last sheet left them.
    pub output: Option<u32>,
    pub work: Option<u32>,
}

/// What the calls answer.
#[derive(Clone, Copy, Debug, PartialEq, Eq)]
pub enum Reports {
    Route(PlanNumbers),
    Apart {
        planned: PagesNumbers,
        laid: PlanNumbers,
        turned: MiniNumbers,
    },
}

impl Reports {
    /// Each call's refusal and its place, 0 for none.
    pub fn refusals(&self) -> Vec<(usize, usize)> {
        match self {
            Self::Route(r) => vec![(r.refusal, r.place)],
            Self::Apart {
                planned,
                laid,
                turned,
            } => vec![
                (planned.refusal, planned.place),
                (laid.refusal, laid.place),
                (turned.refusal, turned.place),
            ],
        }
    }

    /// The plan's numbers, where no call was refused.
    pub fn plan(&self) -> Option<PlanNumbers> {
        let accepted = self.refusals().iter().all(|(number, _)| *number == 0);
        accepted.then_some(match self {
            Self::Route(r) => *r,
            Self::Apart { laid, turned, .. } => PlanNumbers {
                rerouters: turned.counts.rerouters,
                bus_wires: turned.counts.bus_wires,
                ports: turned.counts.ports,
                ..*laid
            },
        })
    }

    /// The bus that has to stand in the buffers in the end, and how many groups
    /// were laid; `None` where there is no finished one.
    fn bus(&self) -> Option<(BusCounts, usize)> {
        match self {
            Self::Route(r) => (r.refusal == 0).then(|| (counts_of(r), r.groups)),
            Self::Apart { laid, turned, .. } => {
                (turned.refusal == 0).then_some((turned.counts, laid.groups))
            }
        }
    }
}

/// The counts that `lay_bus` or `route` left: none on a refusal.
fn counts_of(r: &PlanNumbers) -> BusCounts {
    match r.refusal {
        0 => BusCounts {
            rerouters: r.rerouters,
            bus_wires: r.bus_wires,
            ports: r.ports,
        },
        _ => BusCounts::default(),
    }
}

/// A buffer that is used again from sheet to sheet.
#[derive(Default)]
struct Buffer<const N: usize> {
    rows: Vec<[u32; N]>,
    length: usize,
    /// What stood there before the first call, and before the last.
    before: Vec<[u32; N]>,
    laid: Vec<[u32; N]>,
}

impl<const N: usize> Buffer<N> {
    /// Makes room for so many rows and one after them; or just so many, anew.
    fn lend(&mut self, length: usize, fill: Option<u32>, anew: bool) {
        self.length = length;
        if anew {
            self.rows = Vec::new();
            self.rows.reserve_exact(length);
            self.rows.resize(length, [fill.unwrap_or(GUARD); N]);
            return;
        }
        if self.rows.len() < length + 1 {
            self.rows.resize(length + 1, [GUARD; N]);
        }
        if let Some(number) = fill {
            self.rows[..length].fill([number; N]);
        }
        self.rows[length] = [GUARD; N];
    }

    /// The same, and keeps what stands there.
    fn lend_output(&mut self, length: usize, fill: Option<u32>, anew: bool) {
        self.lend(length, fill, anew);
        self.before.clear();
        self.before.extend_from_slice(&self.rows[..length]);
    }

    /// Lends rows with a content that is given, and keeps it.
    fn lend_with(&mut self, content: &[[u32; N]], anew: bool) {
        self.lend(content.len(), None, anew);
        self.rows[..self.length].copy_from_slice(content);
        self.before.clear();
        self.before.extend_from_slice(content);
    }

    fn slice(&mut self) -> &mut [[u32; N]] {
        &mut self.rows[..self.length]
    }

    /// All that was lent, whatever the counts say.
    fn whole(&self) -> &[[u32; N]] {
        &self.rows[..self.length]
    }

    /// Keeps what stands there between two calls.
    fn keep(&mut self) {
        self.laid.clear();
        self.laid.extend_from_slice(&self.rows[..self.length]);
    }

    /// Whether up to a row all is as it was between the calls.
    fn is_kept_to(&self, count: usize) -> bool {
        let laid = self.laid.get(..count);
        laid.is_some_and(|laid| self.whole().starts_with(laid))
    }

    fn is_guarded(&self) -> bool {
        self.rows.get(self.length).is_none_or(|r| *r == [GUARD; N])
    }

    /// Whether from a row on all is as it was.
    fn is_kept_from(&self, count: usize) -> bool {
        count <= self.length && self.rows[count..self.length] == self.before[count..]
    }
}

/// The output buffers and the work space.
#[derive(Default)]
pub struct Room {
    rerouters: Buffer<11>,
    bus_wires: Buffer<6>,
    ports: Buffer<2>,
    answers: Buffer<2>,
    hits: Buffer<1>,
    records: Buffer<16>,
    tables: [Buffer<8>; TABLES],
    anew: bool,
}

/// What `find_hits` reports and leaves in the buffers.
#[derive(Clone, Debug)]
pub struct Clicked {
    pub answer: HitsNumbers,
    /// All but the hits, as `route` would report and leave it.
    pub found: Found,
    /// The hit buffer before the call and after it, whole.
    pub before: Vec<u32>,
    pub after: Vec<u32>,
}

/// What the calls report and leave in the buffers.
#[derive(Clone, Debug, PartialEq, Eq)]
pub struct Found {
    pub reports: Reports,
    pub pages: Vec<PageRow>,
    /// The ports that stood in their buffer after `lay_bus`, where it was called
    /// apart.
    pub laid_ports: Vec<PortRow>,
    /// The plan sheet of what stands in the buffers, empty where there is none.
    pub plan: String,
    /// What was written that must not be, or not in that form.
    pub spoilt: Vec<&'static str>,
}

/// What the three output buffers of a bus hold, whole.
#[derive(Clone, Debug, Default, PartialEq, Eq)]
pub struct Content {
    pub rerouters: Vec<RerouterRow>,
    pub bus_wires: Vec<BusWireRow>,
    pub ports: Vec<PortRow>,
}

/// Faults in words, one a question that is answered with no.
#[derive(Default)]
struct Faults(Vec<&'static str>);

impl Faults {
    fn ask(&mut self, holds: bool, what: &'static str) {
        if !holds {
            self.0.push(what);
        }
    }
}

impl Room {
    /// Buffers that are made anew for each call with just their length and no
    /// guard, so that a tool that watches the heap sees an access outside.
    pub fn anew() -> Self {
        Self {
            anew: true,
            ..Self::default()
        }
    }

    /// A sheet through `route`, or through the three calls.
    pub fn call(&mut self, sheet: &[u8], lending: &Lending, way: Way) -> Found {
        let lines = Lines::of(sheet);
        self.lend_all(&lines.lengths(&lending.rows), lending);
        self.run(sheet, &lines, way)
    }

    /// A sheet and a box through `find_hits`, with so many numbers more or
    /// fewer in the hit buffer than named.
    pub fn click(
        &mut self,
        sheet: &[u8],
        lending: &Lending,
        page_box: PageBox,
        more: isize,
    ) -> Clicked {
        let lines = Lines::of(sheet);
        self.lend_all(&lines.lengths(&lending.rows), lending);
        let length = (HIT_NUMBERS * lines.wires).saturating_add_signed(more);
        self.hits.lend_output(length, lending.output, self.anew);
        let mut hits = std::mem::take(&mut self.hits);
        let list = hits.slice().as_flattened_mut();
        let (out, pages, work) = self.lent();
        let answer = calls::find_hits(sheet, page_box, list, out, pages, work);
        self.hits = hits;
        let numbers = PlanNumbers {
            refusal: answer.refusal,
            place: answer.place,
            rerouters: answer.rerouters,
            bus_wires: answer.bus_wires,
            ports: answer.ports,
            groups: answer.groups,
        };
        Clicked {
            answer,
            found: self.found(&lines, Reports::Route(numbers), Faults::default()),
            before: self.hits.before.as_flattened().to_vec(),
            after: self.hits.whole().as_flattened().to_vec(),
        }
    }

    /// The same with output buffers of the length and content that another
    /// room's had before its last call.
    pub fn call_like(&mut self, other: &Self, sheet: &[u8], lending: &Lending, way: Way) -> Found {
        let lines = Lines::of(sheet);
        let anew = self.anew;
        self.rerouters.lend_with(&other.rerouters.before, anew);
        self.bus_wires.lend_with(&other.bus_wires.before, anew);
        self.ports.lend_with(&other.ports.before, anew);
        self.answers.lend_with(&other.answers.before, anew);
        self.lend_work(&lines.lengths(&lending.rows), lending.work);
        self.run(sheet, &lines, way)
    }

    /// `lay_mini_bus` alone on a content that is handed in: its answer, what the
    /// buffers hold then, and whether the rows after their ends are whole.
    pub fn turn(
        &mut self,
        sheet: &[u8],
        lending: &Lending,
        content: &Content,
        held: BusCounts,
    ) -> (MiniNumbers, Content, bool) {
        let anew = self.anew;
        self.rerouters.lend_with(&content.rerouters, anew);
        self.bus_wires.lend_with(&content.bus_wires, anew);
        self.ports.lend_with(&content.ports, anew);
        self.answers.lend_output(0, None, anew);
        self.lend_work(&Lines::of(sheet).lengths(&lending.rows), lending.work);
        let (out, _, work) = self.lent();
        let turned = calls::lay_mini_bus(sheet, held, out, work);
        let after = Content {
            rerouters: self.rerouters.whole().to_vec(),
            bus_wires: self.bus_wires.whole().to_vec(),
            ports: self.ports.whole().to_vec(),
        };
        (turned, after, self.is_guarded())
    }

    fn lend_all(&mut self, lengths: &[usize; SLICES], lending: &Lending) {
        let [rerouters, wires, ports, answers, ..] = *lengths;
        let (output, anew) = (lending.output, self.anew);
        self.rerouters.lend_output(rerouters, output, anew);
        self.bus_wires.lend_output(wires, output, anew);
        self.ports.lend_output(ports, output, anew);
        self.answers.lend_output(answers, output, anew);
        self.lend_work(lengths, lending.work);
    }

    fn lend_work(&mut self, lengths: &[usize; SLICES], fill: Option<u32>) {
        let [_, _, _, _, records, tables @ ..] = lengths;
        let anew = self.anew;
        self.records.lend(*records, fill, anew);
        for (table, length) in self.tables.iter_mut().zip(tables) {
            table.lend(*length, fill, anew);
        }
    }

    fn lent(&mut self) -> (Output<'_>, &mut [PageRow], Work<'_>) {
        let out = Output {
            rerouters: self.rerouters.slice(),
            bus_wires: self.bus_wires.slice(),
            ports: self.ports.slice(),
        };
        let work = Work::new(
            self.records.slice(),
            self.tables.each_mut().map(Buffer::slice),
        );
        (out, self.answers.slice(), work)
    }

    fn run(&mut self, sheet: &[u8], lines: &Lines, way: Way) -> Found {
        let mut faults = Faults::default();
        let reports = match way {
            Way::Route => {
                let (out, pages, work) = self.lent();
                Reports::Route(calls::route(sheet, out, pages, work))
            }
            Way::Apart => self.one_by_one(sheet, &mut faults),
        };
        self.found(lines, reports, faults)
    }

    /// The three calls, and what may be written by each: a call that is refused
    /// leaves all as it was before it.
    fn one_by_one(&mut self, sheet: &[u8], faults: &mut Faults) -> Reports {
        let (_, pages, work) = self.lent();
        let planned = calls::plan_bus(sheet, pages, work);
        let none = BusCounts::default();
        let kept = self.answers.is_kept_from(planned.pages) && self.is_bus_kept_from(none);
        faults.ask(kept, "more than the page answers, by plan_bus");
        self.answers.keep();

        let (out, _, work) = self.lent();
        let laid = calls::lay_bus(sheet, out, work);
        let held = counts_of(&laid);
        let kept = self.is_bus_kept_from(held) && self.answers.is_kept_to(self.answers.length);
        faults.ask(kept, "more than its bus, by lay_bus");
        self.rerouters.keep();
        self.bus_wires.keep();
        self.ports.keep();

        let (out, _, work) = self.lent();
        let turned = calls::lay_mini_bus(sheet, held, out, work);
        // On a plan the ports are a set that is written anew.
        let [rerouters, bus_wires, ports] = match turned.refusal {
            0 => [held.rerouters, held.bus_wires, 0],
            _ => [
                self.rerouters.length,
                self.bus_wires.length,
                self.ports.length,
            ],
        };
        let kept = self.rerouters.is_kept_to(rerouters)
            && self.bus_wires.is_kept_to(bus_wires)
            && self.ports.is_kept_to(ports)
            && self.answers.is_kept_to(self.answers.length);
        faults.ask(kept, "what was handed in, by lay_mini_bus");
        Reports::Apart {
            planned,
            laid,
            turned,
        }
    }

    /// Whether from these counts on all is as it was before the first call.
    fn is_bus_kept_from(&self, counts: BusCounts) -> bool {
        self.rerouters.is_kept_from(counts.rerouters)
            && self.bus_wires.is_kept_from(counts.bus_wires)
            && self.ports.is_kept_from(counts.ports)
    }

    fn is_guarded(&self) -> bool {
        self.rerouters.is_guarded()
            && self.bus_wires.is_guarded()
            && self.ports.is_guarded()
            && self.answers.is_guarded()
            && self.hits.is_guarded()
            && self.records.is_guarded()
            && self.tables.iter().all(Buffer::is_guarded)
    }

    /// Which of the four output buffers are another room's, whole, rows behind
    /// the counts too: the names of those that are not.
    pub fn unlike(&self, other: &Self) -> Vec<&'static str> {
        let mut faults = Faults::default();
        let same = self.rerouters.whole() == other.rerouters.whole();
        faults.ask(same, "rerouters");
        let same = self.bus_wires.whole() == other.bus_wires.whole();
        faults.ask(same, "bus wires");
        faults.ask(self.ports.whole() == other.ports.whole(), "ports");
        let same = self.answers.whole() == other.answers.whole();
        faults.ask(same, "page answers");
        faults.0
    }

    fn found(&self, lines: &Lines, reports: Reports, mut faults: Faults) -> Found {
        let bus = reports.bus();
        let (pages, left, laid_ports) = match reports {
            Reports::Route(r) if r.refusal == 0 => (lines.pages, counts_of(&r), &[][..]),
            Reports::Route(_) => (0, BusCounts::default(), &[][..]),
            Reports::Apart { planned, laid, .. } => {
                let held = counts_of(&laid);
                let ports = self.ports.laid.get(..held.ports).unwrap_or(&[]);
                (planned.pages, bus.map_or(held, |(counts, _)| counts), ports)
            }
        };
        let kept = self.is_bus_kept_from(left) && self.answers.is_kept_from(pages);
        faults.ask(kept, "the rest of an output buffer");
        faults.ask(self.is_guarded(), "a row after the end of a slice");
        let mut found = Found {
            reports,
            pages: Vec::new(),
            laid_ports: laid_ports.to_vec(),
            plan: String::new(),
            spoilt: Vec::new(),
        };
        if kept {
            found.pages = self.answers.rows[..pages].to_vec();
        }
        if let (Some((counts, groups)), true) = (bus, kept) {
            let rows = &self.rerouters.rows[..counts.rerouters];
            let bus_wires = &self.bus_wires.rows[..counts.bus_wires];
            let in_lane = |r: &RerouterRow| r[8] != MISSING;
            let right = rows.iter().all(|r| in_lane(r) == (r[9] == MISSING));
            faults.ask(right, "a rerouter's row");
            let right = depths::faults(0, rows, bus_wires).is_empty();
            faults.ask(right, "a rerouter's depth");
            let plan = PlanView {
                bus: BusView {
                    rerouters: rows,
                    bus_wires,
                    ports: &self.ports.rows[..counts.ports],
                    laid: groups,
                },
                pages: &found.pages,
                wires: lines.wires,
            };
            found.plan = plan.to_string();
        }
        found.spoilt = faults.0;
        found
    }
}

#[cfg(test)]
mod tests {
    use super::*;
    use crate::beside::truth::Truth;

    /// One number that is altered in the buffers is found, wherever it stands.
    #[test]
    fn an_altered_number_is_found() {
        let sheet = oracle::r#gen::sheet(1, 0, "program").expect("a size of the generator");
        let lines = Lines::of(&sheet);
        let lending = Lending::default();
        let truth = Truth::of(&sheet);
        let mut room = Room::default();
        let found = room.call(&sheet, &lending, Way::Route);
        assert_eq!(truth.faults(&found, &lending), Vec::<String>::new());
        let report = found.reports.plan().expect("the sheet is accepted");
        let mut apart = Room::default();
        let found = apart.call_like(&room, &sheet, &lending, Way::Apart);
        assert_eq!(truth.faults(&found, &lending), Vec::<String>::new());
        assert_eq!(found.reports.plan(), Some(report));
        assert!(room.unlike(&apart).is_empty());
        let mut alter = |place: fn(&mut Room, usize) -> &mut u32, row: usize| {
            *place(&mut room, row) ^= 1;
            let found = room.found(&lines, Reports::Route(report), Faults::default());
            assert!(!truth.faults(&found, &lending).is_empty(), "row {row}");
            // What stands after the end of a slice is no part of it.
            let after = found.spoilt == ["a row after the end of a slice"];
            assert_eq!(room.unlike(&apart).is_empty(), after, "row {row}");
            *place(&mut room, row) ^= 1;
        };
        assert!(report.rerouters > 0 && report.ports > 0);
        for row in [0, report.rerouters - 1, report.rerouters, 5 * lines.wires] {
            alter(|room, row| &mut room.rerouters.rows[row][1], row);
            alter(|room, row| &mut room.rerouters.rows[row][10], row);
        }
        for row in [0, report.bus_wires - 1, report.bus_wires, 6 * lines.wires] {
            alter(|room, row| &mut room.bus_wires.rows[row][0], row);
        }
        for row in [0, report.ports - 1, report.ports, lines.wires] {
            alter(|room, row| &mut room.ports.rows[row][1], row);
        }
        for row in [0, lines.pages - 1, lines.pages] {
            alter(|room, row| &mut room.answers.rows[row][0], row);
        }
        alter(|room, row| &mut room.records.rows[row][0], lines.records);
        alter(
            |room, row| &mut room.tables[TABLES - 1].rows[row][0],
            MARK_ROWS * lines.records,
        );
    }
}
