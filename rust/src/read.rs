//! A board read back from its sheet.

use crate::board::{Board, Chip, Inner, Node, Page, Wire};
use crate::buffers::{Buffers, Limits, check_sheet};
use crate::refusal::{Reason, Refusal};
use crate::stack::with_stack;
use crate::types::{Class, Kind, NodeId, PortRef, Rotation, UnknownNumber, WirePort};

impl Board {
    /// Reads a sheet that the library accepts: [`sheet`](Self::sheet) of what
    /// is read is the same sheet, byte for byte. Any other gets the library's
    /// own refusal, the one that [`route_sheet`](crate::route_sheet) gives: 1 to
    /// 3 by [`check_sheet`], 4 to 6 and 8 by [`Buffers::plan_bus`]. 7 does not
    /// come, since nothing is lent, nor 9, since there is no box.
    ///
    /// Runs on a stack of its own, and allocates at most what a board within
    /// the library's limits needs: a longer sheet is turned away before.
    pub fn read(sheet: &[u8]) -> Result<Self, Refusal> {
        with_stack(|| accept(sheet))?;
        let mut board = Self::default();
        let lines = sheet.split_inclusive(|b| *b == b'\n');
        for (line, text) in (1..).zip(lines) {
            // The library has read the line, so this is no refusal of its own.
            board.push_record(text).ok_or(Refusal {
                reason: Reason::Unreadable,
                line,
            })?;
        }
        Ok(board)
    }

    /// Reads one line of an accepted sheet.
    fn push_record(&mut self, text: &[u8]) -> Option<()> {
        let text = std::str::from_utf8(text).ok()?.strip_suffix('\n')?;
        let (letter, rest) = text.split_once('\t')?;
        let mut fields = Fields(rest.split('\t'));
        let f = &mut fields;
        match letter {
            "P" => self.pages.push(Page {
                min_y: f.maybe()?,
                z: f.must()?,
            }),
            "N" => self.nodes.push(f.node()?),
            "C" => self.chips.push(Chip {
                id: NodeId(f.must()?),
                parent: f.maybe()?.map(NodeId),
            }),
            "F" => self.inner.push(Inner {
                id: NodeId(f.must()?),
                chip: NodeId(f.must()?),
                class: f.case::<Class>()?,
            }),
            "X" => self.execs.push(f.port()?),
            "W" => self.wires.push(Wire {
                source: f.port()?,
                target: f.port()?,
            }),
            _ => return None,
        }
        fields.0.next().is_none().then_some(())
    }
}

/// The library's answer to a sheet: nothing, or why it is turned away.
fn accept(sheet: &[u8]) -> Result<(), Refusal> {
    // First, so that a sheet of a million empty lines asks for no buffers.
    check_sheet(sheet, &Limits::LIBRARY)?;
    Buffers::for_sheet(sheet).plan_bus(sheet).map(|_| ())
}

/// The fields of a line behind its letter.
struct Fields<'a>(std::str::Split<'a, char>);

impl Fields<'_> {
    fn maybe<T: std::str::FromStr>(&mut self) -> Option<Option<T>> {
        match self.0.next()? {
            "-" => Some(None),
            text => text.parse().ok().map(Some),
        }
    }

    fn must<T: std::str::FromStr>(&mut self) -> Option<T> {
        self.maybe()?
    }

    fn case<T: TryFrom<u32, Error = UnknownNumber>>(&mut self) -> Option<T> {
        T::try_from(self.must()?).ok()
    }

    fn port(&mut self) -> Option<PortRef> {
        let node = NodeId(self.must()?);
        Some(node.port(WirePort(self.must()?)))
    }

    fn node(&mut self) -> Option<Node> {
        Some(Node {
            id: NodeId(self.must()?),
            kind: self.case::<Kind>()?,
            class: self.case::<Class>()?,
            pin: self.must::<u32>()? == 1,
            half: (self.must()?, self.must()?),
            rotation: self.case::<Rotation>()?,
            at: self.maybe()?.zip(self.maybe()?),
            row: self.maybe()?.zip(self.maybe()?),
            line: self.maybe()?,
        })
    }
}
