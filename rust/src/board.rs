//! A board as typed records, and its sheet.

use crate::types::{Class, Kind, NodeId, PortRef, Rotation};

/// A page; `PageInfo` of the original.
#[derive(Clone, Copy, Debug, Default, PartialEq, Eq)]
pub struct Page {
    /// `None`, the original's `i32::MAX`, gives the page no lanes.
    pub min_y: Option<i32>,
    pub z: i32,
}

/// A node of the body.
#[derive(Clone, Copy, Debug, PartialEq, Eq)]
pub struct Node {
    pub id: NodeId,
    pub kind: Kind,
    pub class: Class,
    /// Its note is `boundary_pin`.
    pub pin: bool,
    /// Half the brick's size in x and y, before it is turned.
    pub half: (i32, i32),
    pub rotation: Rotation,
    /// x and y of its placement.
    pub at: Option<(i32, i32)>,
    /// Page and down, as the original's `node_row` has them.
    pub row: Option<(usize, i32)>,
    /// As the original's `node_line` has it.
    pub line: Option<u32>,
}

impl Node {
    /// A plain gate of 2 by 2 without place, row or line, for
    /// `Node { at: .., ..Node::new(id) }`.
    pub const fn new(id: NodeId) -> Self {
        Self {
            id,
            kind: Kind::Gate,
            class: Class::Other,
            pin: false,
            half: (1, 1),
            rotation: Rotation::Deg0,
            at: None,
            row: None,
            line: None,
        }
    }
}

/// A chip: at the top a body node of kind Chip, else inside its parent, which
/// stands on an earlier line.
#[derive(Clone, Copy, Debug, PartialEq, Eq)]
pub struct Chip {
    pub id: NodeId,
    pub parent: Option<NodeId>,
}

/// A node inside a chip.
#[derive(Clone, Copy, Debug, PartialEq, Eq)]
pub struct Inner {
    pub id: NodeId,
    pub chip: NodeId,
    pub class: Class,
}

/// An input port of type exec.
pub type Exec = PortRef;

/// A wire of the module.
#[derive(Clone, Copy, Debug, PartialEq, Eq, Hash)]
pub struct Wire {
    pub source: PortRef,
    pub target: PortRef,
}

/// A board's records. Nothing is checked here: the library reads the sheet and
/// names the first line that is at fault, and [`Board::record_at`] says which
/// record that is.
#[derive(Clone, Debug, Default, PartialEq, Eq)]
pub struct Board {
    pub pages: Vec<Page>,
    pub nodes: Vec<Node>,
    pub chips: Vec<Chip>,
    pub inner: Vec<Inner>,
    pub execs: Vec<Exec>,
    pub wires: Vec<Wire>,
}

/// A record of a board, by its place in its section.
#[derive(Clone, Copy, Debug, PartialEq, Eq)]
pub enum Record {
    Page(usize),
    Node(usize),
    Chip(usize),
    Inner(usize),
    Exec(usize),
    Wire(usize),
}

impl Board {
    /// How many records of each section, in the sheet's order.
    pub fn counts(&self) -> [usize; 6] {
        [
            self.pages.len(),
            self.nodes.len(),
            self.chips.len(),
            self.inner.len(),
            self.execs.len(),
            self.wires.len(),
        ]
    }

    /// The record on a line of the board's sheet, from 1.
    pub fn record_at(&self, line: usize) -> Option<Record> {
        const SECTIONS: [fn(usize) -> Record; 6] = [
            Record::Page,
            Record::Node,
            Record::Chip,
            Record::Inner,
            Record::Exec,
            Record::Wire,
        ];
        let mut place = line.checked_sub(1)?;
        for (section, count) in SECTIONS.iter().zip(self.counts()) {
            if place < count {
                return Some(section(place));
            }
            place -= count;
        }
        None
    }

    /// The board's sheet.
    pub fn sheet(&self) -> Vec<u8> {
        let mut sheet = Vec::new();
        self.write_sheet(&mut sheet);
        sheet
    }

    /// Writes the sheet over what `sheet` holds. A buffer that is used again
    /// from board to board grows to the longest and allocates no more.
    pub fn write_sheet(&self, sheet: &mut Vec<u8>) {
        sheet.clear();
        for p in &self.pages {
            Line::new(sheet, b'P').maybe(p.min_y).put(p.z).end();
        }
        for n in &self.nodes {
            write_node(n, Line::new(sheet, b'N'));
        }
        for c in &self.chips {
            let parent = c.parent.map(|p| p.0);
            Line::new(sheet, b'C').put(c.id.0).maybe(parent).end();
        }
        for f in &self.inner {
            let class = f.class.number();
            let line = Line::new(sheet, b'F');
            line.put(f.id.0).put(f.chip.0).put(class).end();
        }
        for x in &self.execs {
            Line::new(sheet, b'X').port(*x).end();
        }
        for w in &self.wires {
            let line = Line::new(sheet, b'W');
            line.port(w.source).port(w.target).end();
        }
    }
}

fn write_node(n: &Node, line: Line) {
    let line = line
        .put(n.id.0)
        .put(n.kind.number())
        .put(n.class.number())
        .put(n.pin)
        .put(n.half.0)
        .put(n.half.1)
        .put(n.rotation.number());
    let line = line.maybe(n.at.map(|a| a.0)).maybe(n.at.map(|a| a.1));
    // A page past every number that can be read is out of range all the same.
    let page = n.row.map(|r| u32::try_from(r.0).unwrap_or(u32::MAX));
    let line = line.maybe(page).maybe(n.row.map(|r| r.1));
    line.maybe(n.line).end();
}

/// A line of a sheet that is being written.
struct Line<'a>(&'a mut Vec<u8>);

impl<'a> Line<'a> {
    fn new(sheet: &'a mut Vec<u8>, letter: u8) -> Self {
        sheet.push(letter);
        Self(sheet)
    }

    /// A field: `write!` would do, at three times the time.
    fn put(self, number: impl Into<i64>) -> Self {
        let number = number.into();
        self.0.push(b'\t');
        if number < 0 {
            self.0.push(b'-');
        }
        let mut digits = [0; 20];
        let mut at = digits.len();
        let mut rest = number.unsigned_abs();
        loop {
            at -= 1;
            digits[at] = b'0' + (rest % 10) as u8;
            rest /= 10;
            if rest == 0 {
                break;
            }
        }
        self.0.extend_from_slice(&digits[at..]);
        self
    }

    /// A field that may be missing.
    fn maybe(self, number: Option<impl Into<i64>>) -> Self {
        match number {
            Some(number) => self.put(number),
            None => {
                self.0.extend_from_slice(b"\t-");
                self
            }
        }
    }

    fn port(self, port: PortRef) -> Self {
        self.put(port.node_id.0).put(port.port.0)
    }

    fn end(self) {
        self.0.push(b'\n');
    }
}

#[cfg(test)]
mod tests {
    use super::*;
    use crate::types::WirePort;

    #[test]
    fn every_field_in_its_place() {
        let port = |node, port| NodeId(node).port(WirePort(port));
        let board = Board {
            pages: vec![
                Page {
                    min_y: None,
                    z: -10,
                },
                Page {
                    min_y: Some(0),
                    z: 7,
                },
            ],
            nodes: vec![
                Node {
                    kind: Kind::Chip,
                    class: Class::InlineOnly,
                    pin: true,
                    half: (1, 1000),
                    rotation: Rotation::Deg270,
                    at: Some((-1_000_000, 1_000_000)),
                    row: Some((63, -5)),
                    line: Some(12),
                    ..Node::new(NodeId(9))
                },
                Node::new(NodeId(1_000_000)),
            ],
            chips: vec![
                Chip {
                    id: NodeId(9),
                    parent: None,
                },
                Chip {
                    id: NodeId(8),
                    parent: Some(NodeId(9)),
                },
            ],
            inner: vec![Inner {
                id: NodeId(3),
                chip: NodeId(8),
                class: Class::Storage,
            }],
            execs: vec![port(9, 4)],
            wires: vec![Wire {
                source: port(3, 1),
                target: port(9, 65_535),
            }],
        };
        let said = "P - -10;P 0 7;N 9 2 2 1 1 1000 3 -1000000 1000000 63 -5 12;\
            N 1000000 0 0 0 1 1 0 - - - - -;C 9 -;C 8 9;F 3 8 1;X 9 4;W 3 1 9 65535;";
        let said = said.replace(' ', "\t").replace(';', "\n");
        assert_eq!(board.sheet(), said.as_bytes());
        let mut again = b"something longer than nothing".to_vec();
        board.write_sheet(&mut again);
        assert_eq!(again, said.as_bytes());
    }

    #[test]
    fn records_by_line() {
        let mut board = Board::default();
        assert_eq!(board.record_at(1), None);
        board.pages.push(Page::default());
        board.nodes.push(Node::new(NodeId(1)));
        board.nodes.push(Node::new(NodeId(2)));
        board.execs.push(PortRef::default());
        let records = (0..6).map(|line| board.record_at(line));
        let said = [
            None,
            Some(Record::Page(0)),
            Some(Record::Node(0)),
            Some(Record::Node(1)),
            Some(Record::Exec(0)),
            None,
        ];
        assert!(records.eq(said));
    }
}
