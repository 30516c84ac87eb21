//! `lay_mini_bus` on a bus that is handed in, whatever it holds and whatever
//! its counts say: the rule by which it refuses, in words of its own, and the
//! corners that the oracle lays on the same bus.

use super::buses::Case;
use super::depths;
use super::room::{Content, Lines, Room};
use super::truth::too_short;
use crate::calls::{BusCounts, MISSING, MiniNumbers, PortRow, RerouterRow};
use oracle::board::{Board, CLASS_INLINE_ONLY, Node, Port, Refusal, Wire};
use oracle::facts::Facts;
use oracle::plan::{Beside, Corner, Handed};
use oracle::{harness, model};
use std::collections::{BTreeSet, HashMap, HashSet};

/// No corner stands further out: x, and the y of a source, are within a
/// million, a brick's end two thousand above.
const FURTHEST: i32 = 1_010_000;

/// What gives a 7.
#[derive(Clone, Copy, Debug, PartialEq, Eq)]
pub enum Cause {
    /// A buffer is shorter than document 01 names.
    Buffer,
    /// A count is above its buffer's length.
    Count,
    /// No room for a corner for each wire that may turn.
    Room,
}

/// How far the counts are from the room that there is.
#[derive(Clone, Copy, Debug, Default, PartialEq, Eq)]
pub struct Fit {
    /// Rows too many, over the three buffers.
    pub over: usize,
    /// Whether a buffer is filled to its last named row.
    pub tight: bool,
}

/// What has to come of a case.
#[derive(Clone, Debug)]
pub struct Due {
    pub report: MiniNumbers,
    /// The output buffers afterwards, whole.
    pub content: Content,
    /// The cause of a 7; and whether the board would else be refused with 8.
    pub cause: Option<Cause>,
    pub crowded: bool,
    pub fit: Fit,
    pub corners: usize,
    /// In words, where the original and the oracle's model differ.
    pub faults: Vec<String>,
}

/// Whether a wire passes all the tests of the corner pass but two: that its
/// target is not suppressed, and that a level is found. A node inside a chip
/// has no rotation, no line and no row.
fn may_turn(nodes: &HashMap<u32, &Node>, w: &Wire) -> bool {
    let ends = (nodes.get(&w.source.node), nodes.get(&w.target.node));
    let (Some(source), Some(sink)) = ends else {
        return false;
    };
    let has_ports = w.source.port != 0 && w.target.port != 0;
    let inline = [source, sink].map(|n| n.class == CLASS_INLINE_ONLY);
    let of_a_line = source.line.is_some() && source.line == sink.line;
    let down = match (source.row, sink.row) {
        (Some((page, down)), Some((other, below))) => page == other && down < below,
        _ => false,
    };
    let right = match (source.at, sink.at) {
        (Some((_, y)), Some((_, sink_y))) => y > sink_y,
        _ => false,
    };
    has_ports
        && source.id != sink.id
        && inline == [false; 2]
        && sink.rotation == 1
        && of_a_line
        && down
        && right
}

/// The wires of a board that turn where no port is suppressed.
pub fn turners(board: &Board) -> Vec<Wire> {
    let nodes: HashMap<u32, &Node> = board.nodes.iter().map(|n| (n.id, n)).collect();
    let wires = board.wires.iter().filter(|w| may_turn(&nodes, w));
    wires.copied().collect()
}

fn port_row(p: Port) -> PortRow {
    [p.node, u32::from(p.port)]
}

/// How many of these wires may turn on a bus with such suppressed ports.
pub fn turning(turners: &[Wire], suppressed: &[PortRow]) -> usize {
    let suppressed: HashSet<&PortRow> = suppressed.iter().collect();
    let open = |w: &&Wire| !suppressed.contains(&port_row(w.target));
    turners.iter().filter(open).count()
}

/// Counts against the room of W wires, of which `turning` may turn: a rerouter,
/// two bus wires and a port each.
pub fn fit(wires: usize, turning: usize, held: BusCounts) -> Fit {
    let sums = [
        (held.rerouters.saturating_add(turning), 5 * wires),
        (held.bus_wires.saturating_add(2 * turning), 6 * wires),
        (held.ports.saturating_add(turning), wires),
    ];
    let over = |(sum, room): &(usize, usize)| sum.saturating_sub(*room);
    Fit {
        over: sums.iter().map(over).fold(0, usize::saturating_add),
        tight: wires > 0 && sums.iter().any(|(sum, room)| sum == room),
    }
}

/// What gives a 7 on a board that no refusal of 1 to 6 turns away. It is tried
/// before 8, so a board with a 513th lane and counts at fault gives 7.
fn cause(board: &Board, case: &Case) -> (Option<Cause>, Fit) {
    let Case { content, held, .. } = case;
    let lines = Lines::of(&case.sheet);
    if too_short(board, &lines, &case.lending.rows, false, true).is_some() {
        return (Some(Cause::Buffer), Fit::default());
    }
    let above = held.rerouters > content.rerouters.len()
        || held.bus_wires > content.bus_wires.len()
        || held.ports > content.ports.len();
    if above {
        return (Some(Cause::Count), Fit::default());
    }
    let turning = turning(&turners(board), &content.ports[..held.ports]);
    let fit = fit(board.wires.len(), turning, *held);
    ((fit.over > 0).then_some(Cause::Room), fit)
}

impl Due {
    pub fn of(case: &Case) -> Self {
        let mut due = Self {
            report: MiniNumbers::default(),
            content: case.content.clone(),
            cause: None,
            crowded: false,
            fit: Fit::default(),
            corners: 0,
            faults: Vec::new(),
        };
        let refused = |r: Refusal| MiniNumbers {
            refusal: r.number as usize,
            place: r.line,
            counts: BusCounts::default(),
        };
        let board = match &case.board {
            Ok(board) => board,
            Err(refusal) => {
                due.report = refused(*refusal);
                return due;
            }
        };
        let crowded = harness::plan_pages(&harness::prepare(board)).err();
        due.crowded = crowded.is_some();
        (due.cause, due.fit) = cause(board, case);
        match (due.cause, crowded) {
            (Some(_), _) => due.report = refused(Refusal::new(7, 0)),
            (None, Some(refusal)) => due.report = refused(refusal),
            (None, None) => due.turn(board, case.held),
        }
        due
    }

    /// The corners on top of the bus.
    fn turn(&mut self, board: &Board, held: BusCounts) {
        let handed = handed(&self.content, held);
        let corners = harness::turn(board, &handed);
        if corners != model::turn(board, &handed) {
            self.faults.push("the original and the model".to_string());
        }
        self.corners = corners.len();
        self.report.counts = written(&mut self.content, board, held, &corners);
    }
}

/// The bus in the buffers as the corner pass reads it: coordinates are signed,
/// a rerouter without a row stands beside none, and ports that no wire can have
/// are no wire's.
fn handed(content: &Content, held: BusCounts) -> Handed {
    let beside = |r: &RerouterRow| {
        let (x, y) = (r[0] as i32, r[1] as i32);
        let near = |c: i32| (-FURTHEST..=FURTHEST).contains(&c);
        let stands = near(x) && near(y) && r[9] != MISSING;
        stands.then_some(Beside {
            page: r[7] as usize,
            row: r[9] as usize,
            x,
            y,
        })
    };
    let port = |p: &PortRow| {
        let port = u16::try_from(p[1]).ok()?;
        Some(Port { node: p[0], port })
    };
    let rerouters = &content.rerouters[..held.rerouters];
    let ports = &content.ports[..held.ports];
    Handed {
        beside: rerouters.iter().filter_map(beside).collect(),
        suppressed: ports.iter().filter_map(port).collect(),
    }
}

/// Writes corners behind the rows handed in, and the ports as an ascending set:
/// the counts then.
fn written(content: &mut Content, board: &Board, held: BusCounts, corners: &[Corner]) -> BusCounts {
    let facts = Facts::new(board);
    let mut ports: BTreeSet<PortRow> = content.ports[..held.ports].iter().copied().collect();
    let BusCounts {
        rerouters: mut n,
        bus_wires: mut k,
        ..
    } = held;
    for Corner { brick, wire } in corners {
        let w = board.wires[*wire];
        let sink = facts.body(w.target.node).and_then(|sink| facts.row(sink));
        let (_, row) = sink.expect("a sink has a row");
        content.rerouters[n] = [
            brick.x as u32,
            brick.y as u32,
            brick.z as u32,
            u32::from(brick.rotation),
            u32::from(brick.role),
            u32::from(brick.part),
            brick.colour,
            brick.page as u32,
            MISSING,
            row as u32,
            brick.depth as u32,
        ];
        let ([a, a_port], [b, b_port]) = (port_row(w.source), port_row(w.target));
        let here = n as u32;
        content.bus_wires[k] = [a, a_port, here, MISSING, MISSING, MISSING];
        content.bus_wires[k + 1] = [here, MISSING, b, b_port, *wire as u32, 1];
        ports.insert([b, b_port]);
        (n, k) = (n + 1, k + 2);
    }
    for (to, port) in content.ports.iter_mut().zip(&ports) {
        *to = *port;
    }
    BusCounts {
        rerouters: n,
        bus_wires: k,
        ports: ports.len(),
    }
}

/// In words, what is not as it has to be; empty where nothing is.
pub fn faults(room: &mut Room, case: &Case, due: &Due) -> Vec<String> {
    let mut faults = due.faults.clone();
    let (report, after, guarded) = room.turn(&case.sheet, &case.lending, &case.content, case.held);
    if report != due.report {
        faults.push(format!("answer: {report:?}, not {:?}", due.report));
    }
    let content = &due.content;
    let buffers = [
        (after.rerouters != content.rerouters, "rerouters"),
        (after.bus_wires != content.bus_wires, "bus wires"),
        (after.ports != content.ports, "ports"),
        (!guarded, "a row after the end of a slice"),
    ];
    for (_, what) in buffers.into_iter().filter(|(differs, _)| *differs) {
        faults.push(format!("written: {what}"));
    }
    if report.refusal == 0 {
        faults.extend(corner_depths(&after, case.held, report.counts));
    }
    faults
}

/// In words, which clauses on depths the corners break that were laid on top of
/// a bus; what that one's own depths are is as it may be.
fn corner_depths(after: &Content, held: BusCounts, counts: BusCounts) -> Vec<String> {
    let corners = after.rerouters.get(held.rerouters..counts.rerouters);
    let wires = after.bus_wires.get(held.bus_wires..counts.bus_wires);
    match (corners, wires) {
        (Some(corners), Some(wires)) => depths::faults(held.rerouters, corners, wires),
        _ => vec!["the counts are not those of the buffers".to_string()],
    }
}
