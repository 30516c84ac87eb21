//! Buffers that are lent to the calls and used again from board to board.

use crate::calls::{self, BusCounts, Counts, HIT_FIELDS, HIT_NUMBERS, MARK_ROWS, Output};
use crate::calls::{BusWireRow, PageRow, PortRow, RecordRow, RerouterRow, TableRow};
use crate::calls::{TABLES, Work};
use crate::hits::{Hits, PageBox};
use crate::plan::{BusView, PlanView, pages_of};
use crate::refusal::{Reason, Refusal};
use crate::types::PageBus;

/// The most records of each section, and the most bytes of a sheet where there
/// is such a limit.
#[derive(Clone, Copy, Debug, PartialEq, Eq)]
pub struct Limits {
    pub pages: usize,
    pub nodes: usize,
    pub chips: usize,
    pub inner: usize,
    pub execs: usize,
    pub wires: usize,
    pub bytes: Option<usize>,
}

impl Limits {
    /// What every call takes.
    pub const LIBRARY: Self = Self {
        pages: 64,
        nodes: 4_096,
        chips: 256,
        inner: 4_096,
        execs: 4_096,
        wires: 8_192,
        bytes: None,
    };

    /// What the program takes.
    pub const PROGRAM: Self = Self {
        pages: 8,
        nodes: 48,
        chips: 8,
        inner: 24,
        execs: 24,
        wires: 56,
        bytes: Some(65_536),
    };

    fn counts(&self) -> Counts {
        let Self {
            pages,
            nodes,
            chips,
            inner,
            execs,
            wires,
            bytes: _,
        } = *self;
        Counts {
            records: [pages, nodes, chips, inner, execs, wires],
        }
    }

    /// How many records there may be in all.
    pub fn records(&self) -> usize {
        self.counts().records.iter().sum()
    }
}

/// Refusals 1 to 3 of a sheet under limits, which may be lower than the
/// library's; or how many records of each section it has. The length is tested
/// first of all: a longer sheet gives 2 and line 0 (E13).
pub fn check_sheet(sheet: &[u8], limits: &Limits) -> Result<[usize; 6], Refusal> {
    if limits.bytes.is_some_and(|most| sheet.len() > most) {
        return Err(Refusal {
            reason: Reason::OverMost,
            line: 0,
        });
    }
    let told = calls::check_sheet(sheet, limits.counts());
    match Refusal::of(told.refusal, told.line) {
        Some(refusal) => Err(refusal),
        None => Ok(told.counts.records),
    }
}

/// Output buffers and work space. Made once and used again, so that a call
/// allocates nothing.
///
/// A call that is refused leaves the outputs as they were.
#[derive(Clone, Debug)]
pub struct Buffers {
    rerouters: Box<[RerouterRow]>,
    bus_wires: Box<[BusWireRow]>,
    ports: Box<[PortRow]>,
    pages: Box<[PageRow]>,
    hits: Box<[u32]>,
    records: Box<[RecordRow]>,
    /// The tables of work space, the marks last.
    tables: [Box<[TableRow]>; TABLES],
    held: Held,
}

/// What stands in the outputs.
#[derive(Clone, Copy, Debug, Default)]
struct Held {
    bus: BusCounts,
    laid: usize,
    pages: usize,
    /// The wires of the board that was last accepted.
    wires: usize,
}

fn rows<const N: usize>(length: usize) -> Box<[[u32; N]]> {
    vec![[0; N]; length].into_boxed_slice()
}

/// The marks are the last table.
const MARKS: usize = TABLES - 1;

impl Buffers {
    /// Enough for every board within limits: for the library's 11.2 MiB.
    pub fn for_limits(limits: &Limits) -> Self {
        Self::for_counts(limits.pages, limits.wires, limits.records())
    }

    /// Just enough for a sheet, and for every one with no more lines that
    /// begin with P, with W, and in all.
    pub fn for_sheet(sheet: &[u8]) -> Self {
        let records = sheet.iter().filter(|b| **b == b'\n').count();
        Self::for_counts(lines_of(b'P', sheet), lines_of(b'W', sheet), records)
    }

    /// The lengths that document 01 names.
    fn for_counts(pages: usize, wires: usize, records: usize) -> Self {
        Self {
            rerouters: rows(5 * wires),
            bus_wires: rows(6 * wires),
            ports: rows(wires),
            pages: rows(pages),
            hits: vec![0; HIT_NUMBERS * wires].into_boxed_slice(),
            records: rows(records),
            tables: std::array::from_fn(|k| match k {
                MARKS => rows(MARK_ROWS * records),
                _ => rows(records),
            }),
            held: Held::default(),
        }
    }

    fn lent(&mut self) -> (Output<'_>, &mut [PageRow], &mut [u32], Work<'_>) {
        let out = Output {
            rerouters: &mut self.rerouters,
            bus_wires: &mut self.bus_wires,
            ports: &mut self.ports,
        };
        let tables = self.tables.each_mut().map(|table| &mut table[..]);
        let work = Work::new(&mut self.records, tables);
        (out, &mut self.pages, &mut self.hits, work)
    }

    /// Lanes and band of every page of a sheet's board.
    pub fn plan_bus(
        &mut self,
        sheet: &[u8],
    ) -> Result<impl ExactSizeIterator<Item = PageBus> + Clone + '_, Refusal> {
        let (_, pages, _, work) = self.lent();
        let told = calls::plan_bus(sheet, pages, work);
        accepted(told.refusal, told.place)?;
        self.held.pages = told.pages;
        self.held.wires = wires_of(sheet);
        Ok(pages_of(&self.pages[..told.pages]))
    }

    /// The gutter's lanes laid as rerouters and bus wires, in place of the bus
    /// that the buffers hold.
    pub fn lay_bus(&mut self, sheet: &[u8]) -> Result<BusView<'_>, Refusal> {
        let (out, _, _, work) = self.lent();
        let told = calls::lay_bus(sheet, out, work);
        accepted(told.refusal, told.place)?;
        self.hold(sheet, told.rerouters, told.bus_wires, told.ports);
        self.held.laid = told.groups;
        Ok(self.bus())
    }

    /// Corners on top of the bus that the buffers hold: that of [`lay_bus`] on
    /// the same board, or after [`clear`] none. On another board's bus it is
    /// refused with 7 where that leaves too little room, and else goes on from
    /// it.
    ///
    /// [`lay_bus`]: Self::lay_bus
    /// [`clear`]: Self::clear
    pub fn lay_mini_bus(&mut self, sheet: &[u8]) -> Result<BusView<'_>, Refusal> {
        let held = self.held.bus;
        let (out, _, _, work) = self.lent();
        let told = calls::lay_mini_bus(sheet, held, out, work);
        accepted(told.refusal, told.place)?;
        let counts = told.counts;
        self.hold(sheet, counts.rerouters, counts.bus_wires, counts.ports);
        Ok(self.bus())
    }

    /// The three calls in order, over one reading of the sheet.
    pub fn route(&mut self, sheet: &[u8]) -> Result<PlanView<'_>, Refusal> {
        let (out, pages, _, work) = self.lent();
        let told = calls::route(sheet, out, pages, work);
        accepted(told.refusal, told.place)?;
        self.hold(sheet, told.rerouters, told.bus_wires, told.ports);
        self.held.laid = told.groups;
        self.held.pages = pages_of_sheet(sheet);
        Ok(self.plan())
    }

    /// What of a board's plan is inside a box: a member's click on its page. The
    /// buffers hold the plan afterwards, as [`route`](Self::route) leaves it.
    ///
    /// A box on a page that the board lacks, or with a range that ends under its
    /// start, is refused with [`Reason::BadBox`] and line 0, after all else.
    pub fn hits(&mut self, sheet: &[u8], page_box: &PageBox) -> Result<Hits<'_>, Refusal> {
        let (out, pages, hits, work) = self.lent();
        let told = calls::find_hits(sheet, page_box.numbers(), hits, out, pages, work);
        accepted(told.refusal, told.place)?;
        self.hold(sheet, told.rerouters, told.bus_wires, told.ports);
        self.held.laid = told.groups;
        self.held.pages = pages_of_sheet(sheet);
        let (rerouters, behind) = self.hits.split_at(HIT_FIELDS * told.hit_rerouters);
        Ok(Hits {
            rerouters,
            wires: &behind[..told.hit_wires],
            plan: self.plan(),
        })
    }

    /// The plan sheet of a sheet's board, or the E line that turns it away, in
    /// front of `said`, as the library itself writes it; `None` where not even
    /// an E line fits. [`answer_room`](Self::answer_room) bytes are enough. The
    /// buffers hold no plan afterwards.
    pub fn answer<'s>(&mut self, sheet: &[u8], said: &'s mut [u8]) -> Option<&'s [u8]> {
        self.clear();
        let (out, pages, _, work) = self.lent();
        let count = calls::answer(sheet, said, out, pages, work);
        (count > 0).then(|| &said[..count])
    }

    /// Bytes for the answer to every sheet that these buffers have room for:
    /// 128 for each of the lines that it may have.
    pub fn answer_room(&self) -> usize {
        128 * (self.pages.len() + 12 * self.ports.len() + 1)
    }

    fn hold(&mut self, sheet: &[u8], rerouters: usize, bus_wires: usize, ports: usize) {
        self.held.bus = BusCounts {
            rerouters,
            bus_wires,
            ports,
        };
        self.held.wires = wires_of(sheet);
    }

    /// The bus that the buffers hold.
    pub fn bus(&self) -> BusView<'_> {
        let held = &self.held;
        BusView {
            rerouters: &self.rerouters[..held.bus.rerouters],
            bus_wires: &self.bus_wires[..held.bus.bus_wires],
            ports: &self.ports[..held.bus.ports],
            laid: held.laid,
        }
    }

    /// The plan that the buffers hold: of [`route`](Self::route), or once the
    /// three calls have run on one board.
    pub fn plan(&self) -> PlanView<'_> {
        PlanView {
            bus: self.bus(),
            pages: &self.pages[..self.held.pages],
            wires: self.held.wires,
        }
    }

    /// Forgets the bus and the pages that the buffers hold.
    pub fn clear(&mut self) {
        self.held = Held::default();
    }
}

fn accepted(refusal: usize, line: usize) -> Result<(), Refusal> {
    Refusal::of(refusal, line).map_or(Ok(()), Err)
}

/// The pages of an accepted sheet: its first lines.
fn pages_of_sheet(sheet: &[u8]) -> usize {
    let lines = sheet.split(|b| *b == b'\n');
    lines.take_while(|line| line.first() == Some(&b'P')).count()
}

/// The wires of an accepted sheet: its last lines, so that where they begin is
/// found by halves.
fn wires_of(sheet: &[u8]) -> usize {
    let line_of = |at: usize| {
        let before = sheet[..at].iter().rposition(|b| *b == b'\n');
        before.map_or(0, |end| end + 1)
    };
    let (mut low, mut high) = (0, sheet.len());
    while low < high {
        let start = line_of(low.midpoint(high));
        if sheet[start] == b'W' {
            high = start;
        } else {
            let length = sheet[start..].iter().position(|b| *b == b'\n');
            low = length.map_or(sheet.len(), |n| start + n + 1);
        }
    }
    // Counted in bytes, of which a machine adds many at once: no chunk has more
    // lines than a byte holds.
    let lines = |chunk: &[u8]| chunk.iter().map(|b| u8::from(*b == b'\n')).sum::<u8>();
    sheet[low..]
        .chunks(240)
        .map(|chunk| usize::from(lines(chunk)))
        .sum()
}

/// How many lines of a sheet begin with a letter: of an accepted sheet, how
/// many records of that section there are.
pub(crate) fn lines_of(letter: u8, sheet: &[u8]) -> usize {
    let first = usize::from(sheet.first() == Some(&letter));
    let begins = |(end, start): (&u8, &u8)| *end == b'\n' && *start == letter;
    let pairs = sheet.iter().zip(sheet.iter().skip(1));
    first + pairs.filter(|pair| begins(*pair)).count()
}

#[cfg(test)]
mod tests {
    use super::*;

    #[test]
    fn lines_are_counted() {
        assert_eq!(lines_of(b'W', b""), 0);
        assert_eq!(lines_of(b'W', b"W"), 1);
        assert_eq!(lines_of(b'W', b"P\t0\t0\nW\t1\nWW\n W\n"), 2);
        assert_eq!(lines_of(b'P', b"P\t0\t0\nW\t1\nWW\n W\n"), 1);
    }

    #[test]
    fn wires_and_pages_are_found() {
        let sections = ["P\t0\t0\n", "N\t1\n", "X\t1\t2\n", "W\t1\t1\t2\t1\n"];
        let few = [0, 1, 2, 3, 9];
        for pages in few {
            for nodes in few {
                for execs in few {
                    for wires in few {
                        let counts = [pages, nodes, execs, wires];
                        let parts = sections.iter().zip(counts);
                        let sheet: String = parts.map(|(line, n)| line.repeat(n)).collect();
                        assert_eq!(wires_of(sheet.as_bytes()), wires);
                        assert_eq!(pages_of_sheet(sheet.as_bytes()), pages);
                    }
                }
            }
        }
    }

    #[test]
    fn lengths_are_the_named_ones() {
        let buffers = Buffers::for_limits(&Limits::LIBRARY);
        assert_eq!(Limits::LIBRARY.records(), 20_800);
        assert_eq!(buffers.rerouters.len(), 40_960);
        assert_eq!(buffers.bus_wires.len(), 49_152);
        assert_eq!(buffers.ports.len(), 8_192);
        assert_eq!(buffers.pages.len(), 64);
        assert_eq!(buffers.hits.len(), 172_032);
        let work =
            16 * buffers.records.len() + 8 * buffers.tables.iter().map(|t| t.len()).sum::<usize>();
        assert_eq!(work, 96 * 20_800);
    }
}
