//! Buses to be handed to `lay_mini_bus`: a sheet, buffers with any content, and
//! counts that fit, that just fit, or that are at fault.

use super::handed::{turners, turning};
use super::room::{Content, Lending, Lines};
use super::sheets;
use crate::calls::{BusCounts, BusWireRow, MISSING, PortRow, RerouterRow};
use oracle::board::{self, Board, KIND_INPUT, Limits, Node, Page, Port, Refusal, Wire};
use oracle::facts::Facts;
use oracle::r#gen;
use oracle::rng::Rng;

/// One call of `lay_mini_bus`.
#[derive(Clone, Debug)]
pub struct Case {
    /// On the heap with just its length, whatever made it.
    pub sheet: Box<[u8]>,
    pub board: Result<Board, Refusal>,
    pub lending: Lending,
    /// Of just the lengths that are lent.
    pub content: Content,
    pub held: BusCounts,
}

/// Sheet `i` of a seed: small boards, some with a page of 512 or 513 lanes
/// more, and damaged ones.
pub fn sheet(seed: u64, i: u64) -> Vec<u8> {
    let rng = &mut Rng::for_item(seed, i);
    match rng.weighted(&[56, 24, 2, 8, 10]) {
        0 => board(rng, "tiny").sheet(),
        1 => board(rng, "program").sheet(),
        2 => board(rng, "medium").sheet(),
        3 => with_lanes(board(rng, "tiny"), 512 + rng.below(2) as u16).sheet(),
        _ => r#gen::damaged::sheet(rng),
    }
}

/// A board of a size, more often than not one with a wire that may turn.
fn board(rng: &mut Rng, size: &str) -> Board {
    let mut made = || r#gen::board(rng.number(), 0, size).expect("a size of the generator");
    for _ in 0..5 {
        let board = made();
        if !turners(&board).is_empty() {
            return board;
        }
    }
    made()
}

/// A page more, on which an Input's ports open a lane each on one row.
pub(super) fn with_lanes(mut board: Board, lanes: u16) -> Board {
    let page = board.pages.len();
    board.pages.push(Page {
        min_y: Some(0),
        z: 0,
    });
    let used =
        |id: u32| board.nodes.iter().any(|n| n.id == id) || board.inners.iter().any(|f| f.id == id);
    let mut free = (1..).filter(|id| !used(*id));
    let [input, sink] = [(); 2].map(|()| free.next().expect("few ids are used"));
    drop(free);
    let brick = |id, kind, row| Node {
        id,
        kind,
        class: 0,
        pin: false,
        half: (1, 1),
        rotation: 0,
        at: Some((40, 8)).filter(|_| kind != KIND_INPUT),
        row,
        line: None,
    };
    board.nodes.push(brick(input, KIND_INPUT, None));
    board.nodes.push(brick(sink, 0, Some((page, 0))));
    for port in 1..=lanes {
        let end = |node| Port { node, port };
        board.wires.push(Wire {
            source: end(input),
            target: end(sink),
        });
    }
    board
}

impl Case {
    /// Case `i` of a seed, on a sheet that need not be the one of that number:
    /// so a difference can be shrunk.
    pub fn of(sheet: &[u8], seed: u64, i: u64) -> Self {
        let rng = &mut Rng::for_item(!seed, i);
        let mut rows = sheets::rows(rng);
        for more in &mut rows[..3] {
            *more += rng.pick(&[0, 0, 0, 0, 1, 2, 5, 40]);
        }
        let lending = Lending {
            rows,
            output: None,
            work: rng.pick(&[None, Some(0), Some(u32::MAX), Some(0xdead_beef)]),
        };
        let board = board::parse(sheet, &Limits::LIBRARY);
        let [rerouters, bus_wires, ports, ..] = Lines::of(sheet).lengths(&rows);
        let numbers = Numbers::of(rng, board.as_ref().ok());
        let content = Content {
            rerouters: (0..rerouters).map(|_| numbers.rerouter(rng)).collect(),
            bus_wires: (0..bus_wires).map(|_| numbers.bus_wire(rng)).collect(),
            ports: (0..ports).map(|_| numbers.port(rng)).collect(),
        };
        let held = held(rng, &numbers, &content);
        Self {
            sheet: sheet.into(),
            board,
            lending,
            content,
            held,
        }
    }
}

/// What random rows are made of: numbers that mean something on the board, or
/// none that do.
struct Numbers {
    wires: Vec<Wire>,
    turners: Vec<Wire>,
    /// For each wire that may turn: page and row of its sink, and where its
    /// corners stand, x from and to, y.
    corners: Vec<[i32; 5]>,
    /// How many rerouters of a hundred stand by such a corner, and how many
    /// ports are targets of a wire.
    near: usize,
    known: usize,
}

/// Any number, those at the ends of its range more often.
fn any(rng: &mut Rng) -> u32 {
    let edges = [0, 1, 2, 63, 64, 65_535, 65_536, 0x7fff_ffff, 0x8000_0000];
    match rng.below(4) {
        0 => rng.pick(&edges),
        1 => MISSING - rng.below(3) as u32,
        2 => rng.below(40) as u32,
        _ => rng.number() as u32,
    }
}

impl Numbers {
    fn of(rng: &mut Rng, board: Option<&Board>) -> Self {
        let none = Board::default();
        let board = board.unwrap_or(&none);
        let facts = Facts::new(board);
        let turners = turners(board);
        let corner = |w: &Wire| {
            let (source, sink) = (facts.body(w.source.node)?, facts.body(w.target.node)?);
            let ((_, y), (x, _)) = (source.at?, sink.at?);
            let (page, row) = facts.row(sink)?;
            Some([page as i32, row as i32, x, x + 2 * sink.half.1, y])
        };
        Self {
            corners: turners.iter().filter_map(corner).collect(),
            turners,
            wires: board.wires.clone(),
            near: rng.pick(&[0, 5, 20, 60]),
            known: rng.pick(&[0, 10, 40, 90]),
        }
    }

    fn rerouter(&self, rng: &mut Rng) -> RerouterRow {
        let mut row: RerouterRow = std::array::from_fn(|_| any(rng));
        if self.corners.is_empty() || !rng.chance(self.near) {
            return row;
        }
        let [page, sink_row, from, to, y] = rng.pick(&self.corners);
        row[0] = rng.range(from - 2, to.min(from + 20)) as u32;
        row[1] = (y + rng.range(-3, 3)) as u32;
        row[7] = page as u32;
        row[9] = sink_row as u32;
        // Now and then on another page, beside another row, or beside none.
        match rng.below(12) {
            0 => row[7] = (page + 1) as u32,
            1 => row[9] = (sink_row + 1) as u32,
            2 => row[9] = MISSING,
            3 => row[0] = any(rng),
            _ => {}
        }
        row
    }

    fn bus_wire(&self, rng: &mut Rng) -> BusWireRow {
        let mut row = [0; 6].map(|_: u32| any(rng));
        if !self.wires.is_empty() && rng.chance(30) {
            // A delivery does not suppress by itself.
            let target = rng.pick(&self.wires).target;
            row[2] = target.node;
            row[3] = u32::from(target.port);
        }
        row
    }

    fn port(&self, rng: &mut Rng) -> PortRow {
        if self.wires.is_empty() || !rng.chance(self.known) {
            return [any(rng), any(rng)];
        }
        let among = match self.turners.is_empty() || rng.chance(50) {
            true => &self.wires,
            false => &self.turners,
        };
        let target = rng.pick(among).target;
        let port = u32::from(target.port);
        // A port that is the same in its low bits alone is another.
        match rng.below(12) {
            0 => [target.node, port + 65_536],
            1 => [target.node + 1, port],
            _ => [target.node, port],
        }
    }
}

/// A count beside the most that there is room for: within it, all of it, a few
/// more, or what no buffer holds.
fn count(rng: &mut Rng, most: usize, length: usize) -> usize {
    match rng.weighted(&[15, 34, 30, 14, 7]) {
        0 => 0,
        1 => rng.below(most + 1),
        2 => most,
        3 => most + 1 + rng.below(2),
        _ => {
            let beyond = [0, 1, 3, 1 << 31, 1 << 32, 1 << 63];
            let at = rng.pick(&[0, most, length]);
            match rng.below(4) {
                0 => length + 1,
                1 => usize::MAX - rng.below(9),
                _ => at.wrapping_add(rng.pick(&beyond)),
            }
        }
    }
}

/// Counts for a content. How many wires may turn hangs on the ports, so these
/// are counted first.
fn held(rng: &mut Rng, numbers: &Numbers, content: &Content) -> BusCounts {
    let wires = numbers.wires.len();
    let turning = |ports: usize| {
        let ports = ports.min(content.ports.len());
        turning(&numbers.turners, &content.ports[..ports])
    };
    // The most ports for which there is room; more of them may leave fewer to
    // turn.
    let most = (0..=wires).rev().find(|u| u + turning(*u) <= wires);
    let ports = count(rng, most.unwrap_or(0), content.ports.len());
    let t = turning(ports);
    BusCounts {
        rerouters: count(rng, 5 * wires - t, content.rerouters.len()),
        bus_wires: count(rng, 6 * wires - 2 * t, content.bus_wires.len()),
        ports,
    }
}
