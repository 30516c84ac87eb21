//! Where a board's bricks and ports stand in a picture.
//!
//! A picture has x upwards and y to the right, as a page reads: its rows one
//! under the other, the gutter to the left of them. A unit of the board is
//! [`UNIT`] of the picture's, so that all numbers stay whole.

use crate::board::{Board, Node};
use crate::plan::Plan;
use crate::types::{End, NodeId, Part, PortRef, Rerouter, Rotation};
use std::collections::{HashMap, HashSet};

pub(super) const UNIT: i64 = 10;

/// A place in the picture: to the right, and down.
#[derive(Clone, Copy, Debug, PartialEq, Eq)]
pub(super) struct Point {
    pub right: i64,
    pub down: i64,
}

impl Point {
    pub fn moved(self, right: i64, down: i64) -> Self {
        Self {
            right: self.right + right,
            down: self.down + down,
        }
    }
}

/// The place of the board that a page's picture counts from. It is 0, 0 but
/// for a page that is far from there: a browser counts in too few digits.
#[derive(Clone, Copy, Debug, Default)]
pub(super) struct Origin {
    pub x: i64,
    pub y: i64,
}

impl Origin {
    /// Where a place of the board is drawn.
    pub fn point(self, x: i64, y: i64) -> Point {
        Point {
            right: UNIT * (y - self.y),
            down: UNIT * (self.x - x),
        }
    }
}

fn origins(board: &Board, plan: &Plan) -> Vec<Origin> {
    const FAR: i64 = 10_000;
    let mut least: Vec<Option<Origin>> = vec![None; board.pages.len()];
    let bricks = board.nodes.iter().filter_map(|n| Some((n.row?.0, n.at?)));
    let rerouters = plan.nodes.iter().map(|r| (r.page, (r.x, r.y)));
    for (page, (x, y)) in bricks.chain(rerouters) {
        let (x, y) = (i64::from(x), i64::from(y));
        if let Some(least) = least.get_mut(page) {
            let least = least.get_or_insert(Origin { x, y });
            (least.x, least.y) = (least.x.min(x), least.y.min(y));
        }
    }
    let origin = |least: Option<Origin>| least.filter(|o| o.x.abs().max(o.y.abs()) > FAR);
    least
        .into_iter()
        .map(|o| origin(o).unwrap_or_default())
        .collect()
}

/// A brick's cell on its page.
#[derive(Clone, Copy, Debug)]
pub(super) struct Cell {
    pub page: usize,
    pub least: Point,
    pub width: i64,
    pub height: i64,
}

/// The cell of a node with a row (C3).
fn cell(node: &Node, origins: &[Origin]) -> Option<Cell> {
    let (page, _) = node.row?;
    let (x, y) = node.at?;
    let turned = matches!(node.rotation, Rotation::Deg90 | Rotation::Deg270);
    let (half_x, half_y) = match turned {
        true => (node.half.1, node.half.0),
        false => node.half,
    };
    let (height, width) = (2 * i64::from(half_x), 2 * i64::from(half_y));
    let origin = origins.get(page)?;
    Some(Cell {
        page,
        least: origin.point(i64::from(x) + height, i64::from(y)),
        width: UNIT * width,
        height: UNIT * height,
    })
}

/// An end of wires, on the brick of its anchor.
#[derive(Clone, Copy, Debug)]
pub(super) struct Port {
    pub port: PortRef,
    /// Wires leave here; else they arrive.
    pub out: bool,
    pub page: usize,
    pub at: Point,
    pub suppressed: bool,
}

pub(super) struct Layout {
    /// By a node's id, the place of its anchor among the board's nodes (G2).
    anchors: HashMap<NodeId, usize>,
    /// Of each page.
    pub origins: Vec<Origin>,
    /// Of each node of the board that has a row.
    pub cells: Vec<Option<Cell>>,
    pub ports: Vec<Port>,
    places: HashMap<(PortRef, bool), usize>,
}

impl Layout {
    pub fn of(board: &Board, plan: &Plan) -> Self {
        let origins = origins(board, plan);
        let mut layout = Self {
            anchors: anchors(board),
            cells: board.nodes.iter().map(|n| cell(n, &origins)).collect(),
            origins,
            ports: Vec::new(),
            places: HashMap::new(),
        };
        layout.place_ports(board, plan);
        layout
    }

    /// The anchor of a node's id, by its place among the board's nodes.
    pub fn anchor(&self, id: NodeId) -> Option<usize> {
        self.anchors.get(&id).copied()
    }

    /// The middle of a rerouter's cell.
    pub fn middle(&self, rerouter: &Rerouter) -> Point {
        let origin = self.origins.get(rerouter.page).copied();
        let (x, y) = (i64::from(rerouter.x), i64::from(rerouter.y));
        origin.unwrap_or_default().point(x + 1, y + 1)
    }

    /// A port on a page.
    pub fn port_on(&self, port: PortRef, out: bool, page: usize) -> Option<Point> {
        let found = &self.ports[*self.places.get(&(port, out))?];
        (found.page == page).then_some(found.at)
    }

    /// A port on whatever page it is.
    pub fn port(&self, port: PortRef, out: bool) -> Option<&Port> {
        self.places.get(&(port, out)).map(|k| &self.ports[*k])
    }

    /// Ports go on the sides that the router's runs come from and leave by:
    /// inputs left, those fed by a corner right, outputs at the lower edge. The
    /// sheet does not say where on a brick a port is.
    fn place_ports(&mut self, board: &Board, plan: &Plan) {
        let cornered = cornered(plan);
        let mut sides: HashMap<(usize, Side), Vec<PortRef>> = HashMap::new();
        let mut put = |layout: &Self, port: PortRef, side: Side| {
            if let Some(anchor) = layout.anchor(port.node_id)
                && layout.cells[anchor].is_some()
            {
                sides.entry((anchor, side)).or_default().push(port);
            }
        };
        for wire in &board.wires {
            put(self, wire.source, Side::Lower);
            let fed_by_corner = cornered.contains(&wire.target);
            put(self, wire.target, Side::input(fed_by_corner));
        }
        let mut sides: Vec<_> = sides.into_iter().collect();
        sides.sort_unstable_by_key(|(key, _)| *key);
        for ((anchor, side), mut ports) in sides {
            ports.sort_unstable();
            ports.dedup();
            let Some(cell) = self.cells[anchor] else {
                continue;
            };
            let count = ports.len() as i64 + 1;
            for (k, port) in (1..).zip(ports) {
                self.places
                    .insert((port, side == Side::Lower), self.ports.len());
                self.ports.push(Port {
                    port,
                    out: side == Side::Lower,
                    page: cell.page,
                    at: side.place(&cell, k, count),
                    suppressed: side != Side::Lower && plan.is_suppressed(port),
                });
            }
        }
    }
}

#[derive(Clone, Copy, PartialEq, Eq, PartialOrd, Ord, Hash)]
enum Side {
    Left,
    Right,
    Lower,
}

impl Side {
    fn input(fed_by_corner: bool) -> Self {
        match fed_by_corner {
            true => Self::Right,
            false => Self::Left,
        }
    }

    /// The k-th of the places that part a side into `count`.
    fn place(self, cell: &Cell, k: i64, count: i64) -> Point {
        let (along, lower) = (cell.width * k / count, cell.height * k / count);
        match self {
            Self::Left => cell.least.moved(0, lower),
            Self::Right => cell.least.moved(cell.width, lower),
            Self::Lower => cell.least.moved(along, cell.height),
        }
    }
}

/// The ports that a corner delivers to.
fn cornered(plan: &Plan) -> HashSet<PortRef> {
    let is_corner = |end| match end {
        End::Bus(n) => plan.nodes.get(n).is_some_and(|r| r.part == Part::Corner),
        End::Node(_) => false,
    };
    let wires = plan.wires.iter().filter(|b| is_corner(b.source));
    let port = |end| match end {
        End::Node(port) => Some(port),
        End::Bus(_) => None,
    };
    wires.filter_map(|b| port(b.target)).collect()
}

fn anchors(board: &Board) -> HashMap<NodeId, usize> {
    let mut anchors = HashMap::new();
    for (k, node) in board.nodes.iter().enumerate() {
        anchors.entry(node.id).or_insert(k);
    }
    // A parent stands on an earlier line, so its top chip is known by then.
    let mut tops: HashMap<NodeId, NodeId> = HashMap::new();
    for chip in &board.chips {
        let top = match chip.parent {
            None => Some(chip.id),
            Some(parent) => tops.get(&parent).copied(),
        };
        if let Some(top) = top {
            tops.entry(chip.id).or_insert(top);
        }
    }
    let inside: Vec<(NodeId, usize)> = (board.inner.iter())
        .filter_map(|f| Some((f.id, *anchors.get(tops.get(&f.chip)?)?)))
        .collect();
    for (id, anchor) in inside {
        anchors.entry(id).or_insert(anchor);
    }
    anchors
}
