//! The typed side on the same sheet: the board's writer, the calls over
//! [`Buffers`], and the plan read back from its sheet.

use super::truth::Truth;
use crate::types::{Class, Kind, NodeId, PortRef, Rotation, WirePort};
use crate::{Board, Buffers, Chip, Inner, Node, Page, Plan, Wire, refusal};
use oracle::board as theirs;

fn port(p: theirs::Port) -> PortRef {
    NodeId(p.node).port(WirePort(p.port))
}

/// A case from its number on the sheet.
fn case<T: TryFrom<u32>>(number: u8) -> T {
    let made = T::try_from(u32::from(number)).ok();
    made.expect("the reader lets no other number through")
}

/// A board of the oracle's as one of this crate's.
pub fn board_of(board: &theirs::Board) -> Board {
    let page = |p: &theirs::Page| Page {
        min_y: p.min_y,
        z: p.z,
    };
    let node = |n: &theirs::Node| Node {
        id: NodeId(n.id),
        kind: case::<Kind>(n.kind),
        class: case::<Class>(n.class),
        pin: n.pin,
        half: n.half,
        rotation: case::<Rotation>(n.rotation),
        at: n.at,
        row: n.row,
        line: n.line,
    };
    let chip = |c: &theirs::Chip| Chip {
        id: NodeId(c.id),
        parent: c.parent.map(NodeId),
    };
    let inner = |f: &theirs::Inner| Inner {
        id: NodeId(f.id),
        chip: NodeId(f.chip),
        class: case(f.class),
    };
    let wire = |w: &theirs::Wire| Wire {
        source: port(w.source),
        target: port(w.target),
    };
    Board {
        pages: board.pages.iter().map(page).collect(),
        nodes: board.nodes.iter().map(node).collect(),
        chips: board.chips.iter().map(chip).collect(),
        inner: board.inners.iter().map(inner).collect(),
        execs: board.execs.iter().map(|x| port(*x)).collect(),
        wires: board.wires.iter().map(wire).collect(),
    }
}

pub(super) fn as_theirs(refusal: refusal::Refusal) -> theirs::Refusal {
    theirs::Refusal::new(refusal.number(), refusal.line)
}

/// The sheet through `route`, and through the three calls, with buffers that
/// are just long enough.
fn plans(sheet: &[u8]) -> [Result<Plan, refusal::Refusal>; 2] {
    let mut buffers = Buffers::for_sheet(sheet);
    let whole = buffers.route(sheet).map(|plan| plan.to_plan());
    buffers.clear();
    let mut apart = || {
        buffers.plan_bus(sheet).map(|_| ())?;
        buffers.lay_bus(sheet).map(|_| ())?;
        buffers.lay_mini_bus(sheet).map(|_| ())?;
        Ok(buffers.plan().to_plan())
    };
    [whole, apart()]
}

/// What the library itself writes for the sheet.
fn answer(sheet: &[u8]) -> Vec<u8> {
    let mut buffers = Buffers::for_sheet(sheet);
    let mut said = vec![0; buffers.answer_room()];
    let said = buffers.answer(sheet, &mut said);
    said.unwrap_or_default().to_vec()
}

/// In words, what is not as it has to be; empty where nothing is. The library's
/// own text is the one that is compared with the original and checked; the typed
/// plans are compared with it.
pub fn faults(sheet: &[u8], truth: &Truth) -> Vec<String> {
    let said = String::from_utf8_lossy(&answer(sheet)).into_owned();
    let mut faults = match &truth.plan {
        Ok(_) => truth.broken(&said),
        Err(_) => Vec::new(),
    };
    let mut ask = |holds: bool, what: &str| {
        if !holds {
            faults.push(format!("typed: {what}"));
        }
    };
    if let Ok(board) = &truth.board {
        ask(board_of(board).sheet() == sheet, "the board's sheet");
    }
    let right = match &truth.plan {
        Ok(_) => truth.is_like(&said),
        Err(refusal) => said == refusal.line_of_text(),
    };
    ask(right, "the library's own text");
    for plan in plans(sheet) {
        let told = plan.as_ref().map_err(|refusal| as_theirs(*refusal));
        match (told, &truth.plan) {
            (Ok(plan), Ok(_)) => {
                ask(plan.to_string() == said, "the plan");
                let read = said.parse().as_ref() == Ok(plan);
                ask(read, "the plan read from its sheet");
            }
            (Err(ours), Err(theirs)) => ask(ours == *theirs, "the refusal"),
            _ => ask(false, "accepted by one of two"),
        }
    }
    faults
}
