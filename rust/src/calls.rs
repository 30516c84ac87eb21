//! The calls as the proved library has them: a sheet's text, lent slices of
//! rows of numbers, an answer in numbers. [`Buffers`](crate::Buffers) is the
//! same with types; this is for a caller that lends slices of its own.
//!
//! Every call takes any text and slices of any length: none has a condition,
//! so none can be called wrongly. The library decides each refusal before it
//! writes, so on a refusal the output slices are as they were; and what stands
//! behind the counts is as it was on a plan too. Work space is left as it
//! falls.
//!
//! These declarations are the only ones in Rust; `include/panzhyqur.h` has them
//! for C. The linker knows names alone: `tests/c.rs` compares both with the
//! Rattle source (`crates/panzhyqur/src/`), argument by argument.

/// x, y, z, rotation, role, part, colour, page, lane, row, depth.
pub type RerouterRow = [u32; 11];
/// From, its port, to, its port, a delivery's wire and distance.
pub type BusWireRow = [u32; 6];
/// Node and port.
pub type PortRow = [u32; 2];
/// Lanes and band.
pub type PageRow = [u32; 2];
/// Section and fields of a record.
pub type RecordRow = [u32; 16];
/// A row of a table of work space.
pub type TableRow = [u32; 8];

/// Stands in a row for a number that is missing, and for the port of an end
/// that is a rerouter.
pub const MISSING: u32 = u32::MAX;

/// The answer of `allocate_lanes`: the refusal's number, 0 for none, its
/// place, and the count of lanes.
#[repr(C)]
#[derive(Clone, Copy, Debug, Default, PartialEq, Eq)]
pub struct LaneReport {
    pub refusal: usize,
    pub place: usize,
    pub count: usize,
}

/// The answer of `plan_bus`: the refusal's number, 0 for none, its place, and
/// how many pages have their answer.
#[repr(C)]
#[derive(Clone, Copy, Debug, Default, PartialEq, Eq)]
pub struct PagesNumbers {
    pub refusal: usize,
    pub place: usize,
    pub pages: usize,
}

/// The answer of `lay_bus` and `route`: the refusal's number, 0 for none, its
/// place, how many rerouters, bus wires and suppressed ports stand in the
/// slices, and how many groups were laid.
#[repr(C)]
#[derive(Clone, Copy, Debug, Default, PartialEq, Eq)]
pub struct PlanNumbers {
    pub refusal: usize,
    pub place: usize,
    pub rerouters: usize,
    pub bus_wires: usize,
    pub ports: usize,
    pub groups: usize,
}

/// How many rerouters, bus wires and suppressed ports stand in the slices.
#[repr(C)]
#[derive(Clone, Copy, Debug, Default, PartialEq, Eq)]
pub struct BusCounts {
    pub rerouters: usize,
    pub bus_wires: usize,
    pub ports: usize,
}

/// The answer of `lay_mini_bus`: refusal, place, and the counts after it.
#[repr(C)]
#[derive(Clone, Copy, Debug, Default, PartialEq, Eq)]
pub struct MiniNumbers {
    pub refusal: usize,
    pub place: usize,
    pub counts: BusCounts,
}

/// A page, and on it a range of x and one of y, in two's complement.
#[repr(C)]
#[derive(Clone, Copy, Debug, Default, PartialEq, Eq)]
pub struct PageBox {
    pub page: u32,
    pub x0: u32,
    pub x1: u32,
    pub y0: u32,
    pub y1: u32,
}

/// The answer of `find_hits`: the refusal's number, 0 for none, its place, how
/// many rerouters and bus wires are hit, and what `route` answers of the plan.
#[repr(C)]
#[derive(Clone, Copy, Debug, Default, PartialEq, Eq)]
pub struct HitsNumbers {
    pub refusal: usize,
    pub place: usize,
    pub hit_rerouters: usize,
    pub hit_wires: usize,
    pub rerouters: usize,
    pub bus_wires: usize,
    pub ports: usize,
    pub groups: usize,
}

/// How many records of each section: P, N, C, F, X, W.
#[repr(C)]
#[derive(Clone, Copy, Debug, Default, PartialEq, Eq)]
pub struct Counts {
    pub records: [usize; 6],
}

/// A refusal and its line, 0 for none, and how many records of each section.
#[repr(C)]
#[derive(Clone, Copy, Debug, Default, PartialEq, Eq)]
pub struct SheetNumbers {
    pub refusal: usize,
    pub line: usize,
    pub counts: Counts,
}

/// What a bus is written to, with the lengths of S15 for W wires: 5W, 6W, W.
#[derive(Debug, Default)]
pub struct Output<'a> {
    pub rerouters: &'a mut [RerouterRow],
    pub bus_wires: &'a mut [BusWireRow],
    pub ports: &'a mut [PortRow],
}

/// So many numbers of the hit buffer are lent for a wire.
pub const HIT_NUMBERS: usize = 21;

/// A rerouter hit is so many of them: number, part and lane.
pub const HIT_FIELDS: usize = 3;

/// How many tables of work space there are beside the records.
pub const TABLES: usize = 6;

/// So many rows of marks are lent for a record.
pub const MARK_ROWS: usize = 5;

/// Work space, 96 numbers for each record: a row in every slice, in `marks`
/// five. What stands in it does not matter.
#[derive(Debug, Default)]
pub struct Work<'a> {
    pub records: &'a mut [RecordRow],
    pub facts: &'a mut [TableRow],
    pub taps: &'a mut [TableRow],
    pub groups: &'a mut [TableRow],
    pub demands: &'a mut [TableRow],
    pub keys: &'a mut [TableRow],
    pub marks: &'a mut [TableRow],
}

impl<'a> Work<'a> {
    /// Work space from its records and its tables, in the order of the fields:
    /// the marks are the last.
    pub fn new(records: &'a mut [RecordRow], tables: [&'a mut [TableRow]; TABLES]) -> Self {
        let [facts, taps, groups, demands, keys, marks] = tables;
        Self {
            records,
            facts,
            taps,
            groups,
            demands,
            keys,
            marks,
        }
    }
}

/// A function of the library: numbers by value, and slices that pass as a
/// pointer and a length each, `&` before `&mut`.
macro_rules! declare {
    ($(fn $name:ident(& $read:ty $(, @ $value:ty)? $(, &mut $row:ty)*) -> $answer:ty;)*) => {
        unsafe extern "C" {
            $(fn $name(_: *const $read, _: usize $(, _: $value)? $(, _: *mut $row, _: usize)*) -> $answer;)*
        }
    };
}

declare! {
    fn pz_allocate_lanes(&u32, &mut u32, &mut TableRow, &mut TableRow) -> LaneReport;
    fn pz_check_sheet(&u8, @Counts) -> SheetNumbers;
    fn pz_read_sheet(&u8, @Counts, &mut RecordRow) -> SheetNumbers;
    fn pz_plan_bus(
        &u8, &mut PageRow, &mut RecordRow, &mut TableRow, &mut TableRow, &mut TableRow, &mut TableRow, &mut TableRow,
        &mut TableRow
    ) -> PagesNumbers;
    fn pz_lay_bus(
        &u8, &mut RerouterRow, &mut BusWireRow, &mut PortRow, &mut RecordRow, &mut TableRow, &mut TableRow,
        &mut TableRow, &mut TableRow, &mut TableRow, &mut TableRow
    ) -> PlanNumbers;
    fn pz_lay_mini_bus(
        &u8, @BusCounts, &mut RerouterRow, &mut BusWireRow, &mut PortRow, &mut RecordRow, &mut TableRow, &mut TableRow,
        &mut TableRow, &mut TableRow, &mut TableRow, &mut TableRow
    ) -> MiniNumbers;
    fn pz_route(
        &u8, &mut RerouterRow, &mut BusWireRow, &mut PortRow, &mut PageRow, &mut RecordRow, &mut TableRow,
        &mut TableRow, &mut TableRow, &mut TableRow, &mut TableRow, &mut TableRow
    ) -> PlanNumbers;
    fn pz_find_hits(
        &u8, @PageBox, &mut u32, &mut RerouterRow, &mut BusWireRow, &mut PortRow, &mut PageRow, &mut RecordRow,
        &mut TableRow, &mut TableRow, &mut TableRow, &mut TableRow, &mut TableRow, &mut TableRow
    ) -> HitsNumbers;
    fn pz_answer(
        &u8, &mut u8, &mut RerouterRow, &mut BusWireRow, &mut PortRow, &mut PageRow, &mut RecordRow, &mut TableRow,
        &mut TableRow, &mut TableRow, &mut TableRow, &mut TableRow, &mut TableRow
    ) -> usize;
}

/// One such call.
macro_rules! call {
    ($name:ident($read:expr $(, @ $value:expr)? $(, &mut $slice:expr)*)) => {
        // SAFETY: the pointers and lengths are those of live slices, and no two
        // `&mut` slices overlap. The library is proved for every content and
        // every length, has no condition of its own, and keeps no pointer.
        unsafe { $name($read.as_ptr(), $read.len() $(, $value)? $(, $slice.as_mut_ptr(), $slice.len())*) }
    };
}

/// One with the slices of work space behind the others.
macro_rules! call_with {
    ($work:ident; $name:ident($read:expr $(, @ $value:expr)? $(, &mut $slice:expr)*)) => {
        call!($name(
            $read $(, @ $value)? $(, &mut $slice)*, &mut $work.records, &mut $work.facts, &mut $work.taps,
            &mut $work.groups, &mut $work.demands, &mut $work.keys, &mut $work.marks
        ))
    };
}

/// Lanes for demands of four numbers each: first row, last row, consumers,
/// order. `work` and `spare` need a row for each demand.
pub fn allocate_lanes(
    demands: &[u32],
    lanes: &mut [u32],
    work: &mut [TableRow],
    spare: &mut [TableRow],
) -> LaneReport {
    call!(pz_allocate_lanes(
        demands, &mut lanes, &mut work, &mut spare
    ))
}

/// Refusals 1 to 3 of a sheet, or how many records it has.
pub fn check_sheet(text: &[u8], most: Counts) -> SheetNumbers {
    call!(pz_check_sheet(text, @most))
}

/// The same, and the records as rows of numbers.
pub fn read_sheet(text: &[u8], most: Counts, rows: &mut [RecordRow]) -> SheetNumbers {
    call!(pz_read_sheet(text, @most, &mut rows))
}

/// The lanes and the band of every page.
pub fn plan_bus(text: &[u8], pages: &mut [PageRow], work: Work) -> PagesNumbers {
    call_with!(work; pz_plan_bus(text, &mut pages))
}

/// The gutter's lanes laid as rerouters and bus wires.
pub fn lay_bus(text: &[u8], out: Output, work: Work) -> PlanNumbers {
    let o = out;
    call_with!(work; pz_lay_bus(text, &mut o.rerouters, &mut o.bus_wires, &mut o.ports))
}

/// Corners on top of what the slices hold: rows handed in stay as they are,
/// their depths too, whatever these are.
pub fn lay_mini_bus(text: &[u8], held: BusCounts, out: Output, work: Work) -> MiniNumbers {
    let o = out;
    call_with!(work; pz_lay_mini_bus(text, @held, &mut o.rerouters, &mut o.bus_wires, &mut o.ports))
}

/// The three calls in order, over one reading of the sheet.
pub fn route(text: &[u8], out: Output, pages: &mut [PageRow], work: Work) -> PlanNumbers {
    let o = out;
    call_with!(work; pz_route(text, &mut o.rerouters, &mut o.bus_wires, &mut o.ports, &mut pages))
}

/// `route`, and what of its plan is inside a box: in front of `hits` number,
/// part and lane of each rerouter, [`MISSING`] for no lane, by rising number;
/// behind them the numbers of the bus wires, rising. The named length of `hits`
/// is [`HIT_NUMBERS`] a wire.
pub fn find_hits(
    text: &[u8],
    page_box: PageBox,
    hits: &mut [u32],
    out: Output,
    pages: &mut [PageRow],
    work: Work,
) -> HitsNumbers {
    let o = out;
    call_with!(work; pz_find_hits(
        text, @page_box, &mut hits, &mut o.rerouters, &mut o.bus_wires, &mut o.ports, &mut pages
    ))
}

/// `route`, and its plan sheet or the E line in front of `said`: how many bytes
/// were written there, 0 where not even an E line fits. A plan sheet has at
/// most P + 12 W + 1 lines and is asked for 128 bytes for each, else it is a 7.
pub fn answer(
    text: &[u8],
    said: &mut [u8],
    out: Output,
    pages: &mut [PageRow],
    work: Work,
) -> usize {
    let o = out;
    call_with!(work; pz_answer(text, &mut said, &mut o.rerouters, &mut o.bus_wires, &mut o.ports, &mut pages))
}
