//! A board and its plan made ready to be drawn, page by page.

use super::layout::{Layout, Point, UNIT};
use super::runs::{Piece, Runs, Stub};
use crate::board::Board;
use crate::plan::Plan;
use crate::types::{PageBus, PortRef};

/// A wire that no bus wire delivers: a line, or a stub at each end that is on a
/// page.
#[derive(Clone, Debug)]
pub(super) struct Direct {
    pub wire: usize,
    pub piece: Piece,
    /// Its target is suppressed all the same, so the board does not draw it.
    pub unseen: bool,
}

/// What is drawn on one page, by number.
#[derive(Default)]
pub(super) struct OnPage {
    pub nodes: Vec<usize>,
    pub rerouters: Vec<usize>,
    /// Sorted by their run.
    pub bus_wires: Vec<usize>,
    pub directs: Vec<usize>,
    pub ports: Vec<usize>,
    pub bounds: Bounds,
}

pub(super) struct Scene<'a> {
    pub board: &'a Board,
    pub plan: &'a Plan,
    pub layout: Layout,
    pub runs: Runs,
    pub directs: Vec<Direct>,
    pub pages: Vec<OnPage>,
}

impl<'a> Scene<'a> {
    pub fn of(board: &'a Board, plan: &'a Plan) -> Self {
        let layout = Layout::of(board, plan);
        let runs = Runs::of(plan, &layout);
        let mut delivered = vec![false; board.wires.len()];
        for delivery in plan.wires.iter().filter_map(|b| b.delivery) {
            if let Some(by) = delivered.get_mut(delivery.wire) {
                *by = true;
            }
        }
        let directs = directs(board, plan, &layout, &delivered);
        let mut scene = Self {
            board,
            plan,
            layout,
            runs,
            directs,
            pages: Vec::new(),
        };
        scene.pages = scene.on_pages();
        scene
    }

    /// Lanes and band of a page.
    pub fn bus(&self, page: usize) -> PageBus {
        self.plan.pages.get(page).copied().unwrap_or_default()
    }

    fn on_pages(&self) -> Vec<OnPage> {
        let mut pages: Vec<OnPage> = Vec::new();
        pages.resize_with(self.board.pages.len(), OnPage::default);
        for (k, cell) in self.layout.cells.iter().enumerate() {
            if let Some(cell) = cell {
                let page = &mut pages[cell.page];
                page.nodes.push(k);
                page.bounds.add(cell.least);
                page.bounds.add(cell.least.moved(cell.width, cell.height));
            }
        }
        for (k, rerouter) in self.plan.nodes.iter().enumerate() {
            if let Some(page) = pages.get_mut(rerouter.page) {
                page.rerouters.push(k);
                let middle = self.layout.middle(rerouter);
                page.bounds.add(middle.moved(-UNIT, -UNIT));
                page.bounds.add(middle.moved(UNIT, UNIT));
            }
        }
        for (k, piece) in self.runs.pieces.iter().enumerate() {
            let page = piece.as_ref().and_then(|p| pages.get_mut(p.page));
            if let Some(page) = page {
                page.bus_wires.push(k);
            }
        }
        for (k, direct) in self.directs.iter().enumerate() {
            pages[direct.piece.page].directs.push(k);
        }
        for (k, port) in self.layout.ports.iter().enumerate() {
            pages[port.page].ports.push(k);
        }
        for (number, page) in pages.iter_mut().enumerate() {
            let run = |k: &usize| self.runs.of_bus_wire(&self.plan.wires[*k]);
            page.bus_wires.sort_by_key(run);
            page.bounds.close(self.band(number));
        }
        pages
    }

    /// Where a page's gutter begins and ends to the right, where it has one.
    pub fn band(&self, page: usize) -> Option<(i64, i64)> {
        let end = i64::from(self.board.pages.get(page)?.min_y?);
        let width = i64::from(self.bus(page).band_width);
        let origin = self.layout.origins[page];
        let right = |y| origin.point(0, y).right;
        (width > 0).then(|| (right(end - width), right(end)))
    }
}

/// The frame of a page's picture.
#[derive(Clone, Copy, Debug, Default)]
pub(super) struct Bounds {
    corners: Option<(Point, Point)>,
    pub left: i64,
    pub top: i64,
    pub width: i64,
    pub height: i64,
}

/// What is left free around a page.
const MARGIN: i64 = 4 * UNIT;

impl Bounds {
    fn add(&mut self, p: Point) {
        let (a, b) = self.corners.get_or_insert((p, p));
        (a.right, a.down) = (a.right.min(p.right), a.down.min(p.down));
        (b.right, b.down) = (b.right.max(p.right), b.down.max(p.down));
    }

    /// Takes in the gutter and the margin, once all else is added.
    fn close(&mut self, band: Option<(i64, i64)>) {
        let nothing = Point { right: 0, down: 0 };
        let (mut a, mut b) = self.corners.unwrap_or((nothing, nothing));
        if let Some((from, to)) = band {
            (a.right, b.right) = (a.right.min(from), b.right.max(to));
        }
        self.left = a.right - MARGIN;
        self.top = a.down - MARGIN;
        self.width = b.right - a.right + 2 * MARGIN;
        self.height = b.down - a.down + 2 * MARGIN;
    }
}

fn directs(board: &Board, plan: &Plan, layout: &Layout, delivered: &[bool]) -> Vec<Direct> {
    let mut directs = Vec::new();
    for (wire, ends) in board.wires.iter().enumerate() {
        if delivered[wire] {
            continue;
        }
        let unseen = plan.is_suppressed(ends.target);
        for piece in pieces(layout, ends.source, ends.target) {
            directs.push(Direct {
                wire,
                piece,
                unseen,
            });
        }
    }
    directs
}

/// The line of a direct wire, or stubs where its ends are not on one page.
fn pieces(layout: &Layout, source: PortRef, target: PortRef) -> Vec<Piece> {
    const STUB: i64 = UNIT;
    let line = |page, from, to, stub| Piece {
        page,
        points: vec![from, to],
        stub,
    };
    let (source, target) = (layout.port(source, true), layout.port(target, false));
    match (source, target) {
        (Some(a), Some(b)) if a.page == b.page => vec![line(a.page, a.at, b.at, None)],
        (a, b) => {
            let leaves = a.map(|a| line(a.page, a.at, a.at.moved(STUB, STUB), Some(Stub::To)));
            let arrives = b.map(|b| line(b.page, b.at.moved(-STUB, -STUB), b.at, Some(Stub::From)));
            leaves.into_iter().chain(arrives).collect()
        }
    }
}
