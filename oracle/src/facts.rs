//! What document 01 says of a board before anything is laid: rows, cells,
//! anchors and groups. Read from the document, not from the Rust.

use crate::board::*;
use std::collections::{HashMap, HashSet};

/// A half-open cell: x from and to, y from and to.
pub type Cell = (i32, i32, i32, i32);

/// A wire of a group: its target anchor's page, row and place.
#[derive(Clone, Debug)]
pub struct Tap {
    pub wire: usize,
    pub page: usize,
    pub row: usize,
    pub x: i32,
    pub y: i32,
    pub enters: bool,
    pub leaves: bool,
    pub source_anchor: u32,
}

/// Why a wire is in no group.
#[derive(Clone, Copy, Debug, PartialEq, Eq)]
pub enum Passed {
    PortZero,
    OneNode,
    NoAnchor,
    Exec,
    InlineOnly,
    Coerce,
    NoRow,
}

#[derive(Clone, Debug)]
pub struct Group {
    pub page: usize,
    pub source: Port,
    pub source_anchor: u32,
    pub crosses: bool,
    /// In wire order.
    pub taps: Vec<Tap>,
}

impl Group {
    /// W5: the rows of its taps, each once and rising.
    pub fn rows(&self) -> Vec<usize> {
        let mut rows: Vec<usize> = self.taps.iter().map(|t| t.row).collect();
        rows.sort_unstable();
        rows.dedup();
        rows
    }

    /// W5: how many different y its taps have on a row.
    pub fn columns(&self, row: usize) -> usize {
        let on_row = self.taps.iter().filter(|t| t.row == row);
        let mut ys: Vec<i32> = on_row.map(|t| t.y).collect();
        ys.sort_unstable();
        ys.dedup();
        ys.len()
    }
}

pub struct Facts<'a> {
    pub board: &'a Board,
    nodes: HashMap<u32, usize>,
    /// An inner node's top chip and class.
    inners: HashMap<u32, (u32, u8)>,
    execs: HashSet<Port>,
    /// C4: each page's downs, each once and rising: a row is its place here.
    pub downs: Vec<Vec<i32>>,
}

impl<'a> Facts<'a> {
    pub fn new(board: &'a Board) -> Self {
        let nodes = (board.nodes.iter().enumerate()).map(|(i, n)| (n.id, i));
        let tops = top_chips(board);
        let inners = (board.inners.iter()).map(|f| (f.id, (tops[&f.chip], f.class)));
        let mut downs: Vec<Vec<i32>> = vec![Vec::new(); board.pages.len()];
        for n in &board.nodes {
            if let Some((page, down)) = n.row {
                downs[page].push(down);
            }
        }
        for d in &mut downs {
            d.sort_unstable();
            d.dedup();
        }
        Self {
            board,
            nodes: nodes.collect(),
            inners: inners.collect(),
            execs: board.execs.iter().copied().collect(),
            downs,
        }
    }

    pub fn body(&self, id: u32) -> Option<&'a Node> {
        self.nodes.get(&id).map(|i| &self.board.nodes[*i])
    }

    /// G2: an N is its own anchor, an F has that of its chip's top chip.
    pub fn anchor(&self, id: u32) -> Option<&'a Node> {
        self.body(id)
            .or_else(|| self.inners.get(&id).and_then(|(top, _)| self.body(*top)))
    }

    /// The class of a real end, in the body or inside a chip.
    pub fn class(&self, id: u32) -> Option<u8> {
        self.body(id)
            .map(|n| n.class)
            .or_else(|| self.inners.get(&id).map(|(_, class)| *class))
    }

    /// G6: whether an X names a port.
    pub fn is_exec(&self, port: Port) -> bool {
        self.execs.contains(&port)
    }

    /// The page and row in which a body node stands.
    pub fn row(&self, n: &Node) -> Option<(usize, usize)> {
        let (page, down) = n.row?;
        let row = self.downs[page].binary_search(&down).ok()?;
        Some((page, row))
    }

    /// A wire's tap, or why it is passed over.
    pub fn tap(&self, wire: usize) -> Result<Tap, Passed> {
        let w = &self.board.wires[wire];
        if w.source.port == 0 || w.target.port == 0 {
            return Err(Passed::PortZero);
        }
        if w.source.node == w.target.node {
            return Err(Passed::OneNode);
        }
        let anchors = (self.anchor(w.source.node), self.anchor(w.target.node));
        let (Some(from), Some(to)) = anchors else {
            return Err(Passed::NoAnchor);
        };
        let enters = to.id != w.target.node || to.kind == KIND_CHIP;
        let leaves = from.id != w.source.node || from.kind == KIND_CHIP;
        if !enters && !worthy(from) && self.is_exec(w.target) {
            return Err(Passed::Exec);
        }
        let ends = [self.class(w.source.node), self.class(w.target.node)];
        let inline = |class: Option<u8>| class == Some(CLASS_INLINE_ONLY);
        let anchors = [Some(from.class), Some(to.class)];
        if ends.into_iter().chain(anchors).any(inline) {
            return Err(Passed::InlineOnly);
        }
        if from.kind == KIND_COERCE {
            return Err(Passed::Coerce);
        }
        let (Some((page, row)), Some((x, y))) = (self.row(to), to.at) else {
            return Err(Passed::NoRow);
        };
        Ok(Tap {
            wire,
            page,
            row,
            x,
            y,
            enters,
            leaves,
            source_anchor: from.id,
        })
    }

    /// G7: the groups, each where its first wire puts it.
    pub fn groups(&self) -> Vec<Group> {
        let mut groups: Vec<Group> = Vec::new();
        let mut known: HashMap<(usize, Port), usize> = HashMap::new();
        for wire in 0..self.board.wires.len() {
            let Ok(tap) = self.tap(wire) else { continue };
            let source = self.board.wires[wire].source;
            let at = *known.entry((tap.page, source)).or_insert_with(|| {
                groups.push(Group {
                    page: tap.page,
                    source,
                    source_anchor: tap.source_anchor,
                    crosses: false,
                    taps: Vec::new(),
                });
                groups.len() - 1
            });
            groups[at].crosses |= tap.enters || tap.leaves;
            groups[at].taps.push(tap);
        }
        groups
    }
}

/// G1: each chip's top chip.
fn top_chips(board: &Board) -> HashMap<u32, u32> {
    let mut tops = HashMap::new();
    for chip in &board.chips {
        let top = chip.parent.map_or(chip.id, |parent| tops[&parent]);
        tops.insert(chip.id, top);
    }
    tops
}

/// G3: bus-worthy, by kind, pin or class.
pub fn worthy(n: &Node) -> bool {
    n.kind == KIND_INPUT || n.pin || n.class == CLASS_STORAGE
}

/// C3: a placed brick's cell.
pub fn cell(n: &Node, (x, y): (i32, i32)) -> Cell {
    let (hx, hy) = match n.rotation {
        1 | 3 => (n.half.1, n.half.0),
        _ => n.half,
    };
    (x, x + 2 * hx, y, y + 2 * hy)
}

pub fn overlap(a: Cell, b: Cell) -> bool {
    a.0 < b.1 && b.0 < a.1 && a.2 < b.3 && b.2 < a.3
}
