//! What the library has to answer: the oracle's reader, then the original's
//! three calls, and refusal 7 from the lengths lent.

use super::room::{Found, Lending, Lines, Reports, Rows, Way};
use crate::calls::{
    BusCounts, MARK_ROWS, MiniNumbers, PageRow, PagesNumbers, PlanNumbers, PortRow,
};
use oracle::board::{self, Board, Lent, Limits, Refusal};
use oracle::plan::{End, PART_CORNER, PageAnswer, Plan, older_fields};
use oracle::{check3, harness};
use std::collections::BTreeSet;

/// A sheet's board, or its refusal by 1 to 6; and the board's plan, or its
/// refusal by 8.
pub struct Truth {
    pub board: Result<Board, Refusal>,
    pub plan: Result<Plan, Refusal>,
    pub(super) lines: Lines,
    /// As the original says it: without depths.
    plan_sheet: String,
}

impl Truth {
    pub fn of(sheet: &[u8]) -> Self {
        let board = board::parse(sheet, &Limits::LIBRARY);
        let plan = match &board {
            Ok(board) => harness::run_plan(board),
            Err(refusal) => Err(*refusal),
        };
        Self {
            lines: Lines::of(sheet),
            plan_sheet: plan
                .as_ref()
                .map(|plan| older_fields(&plan.sheet()))
                .unwrap_or_default(),
            board,
            plan,
        }
    }

    /// The plan sheet without depths, which the original does not have; empty on
    /// a refusal.
    pub fn sheet(&self) -> &str {
        &self.plan_sheet
    }

    /// Whether a plan sheet is the original's but for its depths: these are held
    /// against the sheet's own bus wires, in [`broken`](Self::broken).
    pub fn is_like(&self, plan: &str) -> bool {
        older_fields(plan) == self.plan_sheet
    }

    /// The refusal that is due from a call which is lent page answers, or the
    /// buffers of a bus, or both: 1 to 8.
    pub(super) fn refusal(&self, rows: &Rows, pages: bool, bus: bool) -> Option<Refusal> {
        let short = match &self.board {
            Ok(board) => too_short(board, &self.lines, rows, pages, bus),
            Err(refusal) => Some(*refusal),
        };
        short.or(self.plan.as_ref().err().copied())
    }

    /// What the calls have to answer.
    pub fn reports(&self, lending: &Lending, way: Way) -> Reports {
        let refusal = |pages, bus| {
            let refusal = self.refusal(&lending.rows, pages, bus);
            refusal.map_or((0, 0), |r| (r.number as usize, r.line))
        };
        // A plan that no call is to lay is as none.
        let plan = self.plan.as_ref().ok();
        let whole = plan.map(numbers).unwrap_or_default();
        let corners = plan.map_or(0, corners);
        match way {
            Way::Route => Reports::Route(match refusal(true, true) {
                (0, _) => whole,
                (refusal, place) => refused(refusal, place),
            }),
            Way::Apart => {
                let (number, place) = refusal(true, false);
                let planned = PagesNumbers {
                    refusal: number,
                    place,
                    pages: if number == 0 { self.lines.pages } else { 0 },
                };
                let (number, place) = refusal(false, true);
                let (laid, turned) = match number {
                    // Each corner has two bus wires and a port of its own.
                    0 => (
                        PlanNumbers {
                            rerouters: whole.rerouters - corners,
                            bus_wires: whole.bus_wires - 2 * corners,
                            ports: whole.ports - corners,
                            ..whole
                        },
                        BusCounts {
                            rerouters: whole.rerouters,
                            bus_wires: whole.bus_wires,
                            ports: whole.ports,
                        },
                    ),
                    _ => (refused(number, place), BusCounts::default()),
                };
                let turned = MiniNumbers {
                    refusal: number,
                    place,
                    counts: turned,
                };
                Reports::Apart {
                    planned,
                    laid,
                    turned,
                }
            }
        }
    }

    /// The ports that `lay_bus` has to leave: those to which the bus wires
    /// before the first corner deliver.
    fn laid_ports(&self, laid: &PlanNumbers) -> Vec<PortRow> {
        let Ok(plan) = &self.plan else {
            return Vec::new();
        };
        let port = |end: &End| match end {
            End::Port(p) => Some([p.node, u32::from(p.port)]),
            End::Bus(_) => None,
        };
        let wires = plan.bus_wires.iter().take(laid.bus_wires);
        let ports: BTreeSet<PortRow> = wires.filter_map(|b| port(&b.to)).collect();
        ports.into_iter().collect()
    }

    /// In words, what is not as it has to be; empty where nothing is.
    pub fn faults(&self, found: &Found, lending: &Lending) -> Vec<String> {
        let mut faults: Vec<String> = (found.spoilt.iter())
            .map(|what| format!("written: {what}"))
            .collect();
        let way = match found.reports {
            Reports::Route(_) => Way::Route,
            Reports::Apart { .. } => Way::Apart,
        };
        let due = self.reports(lending, way);
        if found.reports != due {
            faults.push(format!("answers: {:?}, not {due:?}", found.reports));
        }
        let (pages, bus) = match due {
            Reports::Route(r) => (r.refusal == 0, r.refusal == 0),
            Reports::Apart {
                planned,
                laid,
                turned,
            } => {
                if found.laid_ports != self.laid_ports(&laid) {
                    faults.push(format!("ports after lay_bus: {:?}", found.laid_ports));
                }
                (planned.refusal == 0, turned.refusal == 0)
            }
        };
        let answers = if pages { self.answers() } else { Vec::new() };
        if found.pages != answers {
            faults.push(format!("pages: {:?}, not {answers:?}", found.pages));
        }
        let sheet = match (bus, pages) {
            (false, _) => "",
            (true, true) => &self.plan_sheet,
            // `plan_bus` alone is refused, for its page answers: the plan has
            // all but these, which stand in front.
            (true, false) => {
                let front = self.plan_sheet.split_inclusive('\n');
                let front = front.take_while(|line| line.starts_with('L'));
                &self.plan_sheet[front.map(str::len).sum()..]
            }
        };
        if older_fields(&found.plan) != sheet {
            faults.push("plan sheet: another than the original's".to_string());
        }
        faults
    }

    fn answers(&self) -> Vec<PageRow> {
        let answer = |p: &PageAnswer| [p.lanes as u32, p.band as u32];
        match &self.plan {
            Ok(plan) => plan.pages.iter().map(answer).collect(),
            Err(_) => Vec::new(),
        }
    }

    /// The clauses that a plan sheet breaks: of demand 3, and of depths.
    pub fn broken(&self, plan: &str) -> Vec<String> {
        let Ok(board) = &self.board else {
            return Vec::new();
        };
        (check3::check_sheet(board, plan.as_bytes()).iter())
            .map(|f| format!("check3 {}: {}", f.clause, f.what))
            .collect()
    }
}

/// Refusal 7, where slices of these lengths bring it. Of the work space only
/// the rows of the shortest slice count, of the marks a fifth.
pub fn too_short(
    board: &Board,
    lines: &Lines,
    rows: &Rows,
    pages: bool,
    bus: bool,
) -> Option<Refusal> {
    let [
        rerouters,
        bus_wires,
        suppressed,
        lent_pages,
        work @ ..,
        marks,
    ] = lines.lengths(rows);
    let rows = work.into_iter().min().unwrap_or(0);
    let mut lent = Lent {
        work: 96 * rows.min(marks / MARK_ROWS),
        ..Lent::for_board(board)
    };
    if pages {
        lent.pages = lent_pages;
    }
    if bus {
        lent.rerouters = rerouters;
        lent.bus_wires = bus_wires;
        lent.suppressed = suppressed;
    }
    board::too_short(board, &lent)
}

fn refused(refusal: usize, place: usize) -> PlanNumbers {
    PlanNumbers {
        refusal,
        place,
        ..PlanNumbers::default()
    }
}

pub(super) fn numbers(plan: &Plan) -> PlanNumbers {
    PlanNumbers {
        rerouters: plan.rerouters.len(),
        bus_wires: plan.bus_wires.len(),
        ports: plan.suppressed.len(),
        groups: plan.totals[4],
        ..PlanNumbers::default()
    }
}

fn corners(plan: &Plan) -> usize {
    let corner = |r: &&oracle::plan::Rerouter| r.part == PART_CORNER;
    plan.rerouters.iter().filter(corner).count()
}
