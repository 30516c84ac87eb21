//! Panzhyqur's gutter router for Rust: a safe crate over the static library
//! that Rattle proves.
//!
//! A [`Board`] is written as a sheet, a call reads the sheet and leaves a plan
//! in [`Buffers`], and the plan is walked where it stands. The calls are the
//! original's (`plan_bus`, `lay_bus`, `lay_mini_bus`, `allocate_lanes`),
//! `route`, which is the first three in order, and `hits`, which is `route` and
//! what of the plan is inside a box. What they answer is proved equal to the
//! rules for every text and every length of every buffer; the crate around them
//! passes slices and turns numbers into types.
//!
//! # A board and its plan
//!
//! One stored value is read on two rows of a page. It gets a lane in the page's
//! gutter: a rerouter beside its brick, a head, and for each row a link, a tap
//! and a rerouter beside the reader.
//!
//! ```
//! use panzhyqur::*;
//!
//! let port = |node, port| NodeId(node).port(WirePort(port));
//! let brick = |id, at, down| Node {
//!     half: (2, 2),
//!     at: Some(at),
//!     row: Some((0, down)),
//!     ..Node::new(NodeId(id))
//! };
//! let board = Board {
//!     pages: vec![Page { min_y: Some(0), z: 10 }],
//!     nodes: vec![
//!         Node { class: Class::Storage, ..brick(1, (20, 0), 0) },
//!         brick(2, (10, 8), 10),
//!         brick(3, (0, 8), 20),
//!     ],
//!     wires: vec![
//!         Wire { source: port(1, 5), target: port(2, 1) },
//!         Wire { source: port(1, 5), target: port(3, 1) },
//!     ],
//!     ..Board::default()
//! };
//!
//! let plan = route_sheet(board.sheet())?;
//! assert_eq!(plan.nodes.len(), 8);
//! assert_eq!(plan.nodes[0].part, Part::Source);
//! assert_eq!((plan.nodes[0].x, plan.nodes[0].y), (20, -5));
//! assert!(plan.is_suppressed(port(2, 1)));
//!
//! // Its sheet, with spaces for tabs.
//! let sheet = "\
//! L 0 1 8
//! R 0 20 -5 10 2 2 1 1 0 - 1
//! R 1 20 -8 10 1 0 2 1 0 0 2
//! R 2 12 -8 10 1 0 3 1 0 0 3
//! R 3 10 -8 10 0 0 4 1 0 0 4
//! R 4 10 3 10 0 0 5 1 0 - 5
//! R 5 2 -8 10 1 0 3 1 0 0 4
//! R 6 0 -8 10 0 0 4 1 0 0 5
//! R 7 0 3 10 0 0 5 1 0 - 6
//! B p 1 5 b 0 - - -
//! B b 0 - b 1 - - -
//! B b 1 - b 2 - - -
//! B b 2 - b 3 - - -
//! B b 3 - b 4 - - -
//! B b 4 - p 2 1 0 5
//! B b 2 - b 5 - - -
//! B b 5 - b 6 - - -
//! B b 6 - b 7 - - -
//! B b 7 - p 3 1 1 6
//! U 2 1
//! U 3 1
//! T 8 10 2 0 1
//! ";
//! assert_eq!(plan.to_string().replace('\t', " "), sheet);
//! # Ok::<(), Refusal>(())
//! ```
//!
//! # A server
//!
//! makes its buffers once and allocates nothing from then on:
//!
//! ```
//! use panzhyqur::*;
//!
//! let mut buffers = Buffers::for_limits(&Limits::LIBRARY);
//! let mut sheet = Vec::new();
//! # let saves = [Board::default()];
//! for board in &saves {
//!     board.write_sheet(&mut sheet);
//!     match buffers.route(&sheet) {
//!         Ok(plan) => {
//!             for node in plan.nodes() { /* a brick */ }
//!             for wire in plan.wires() { /* its wire */ }
//!         }
//!         Err(refusal) => eprintln!("{refusal}, {:?}", board.record_at(refusal.line)),
//!     }
//! }
//! ```
//!
//! # A click
//!
//! A member clicks a rectangle on a page of the first board.
//!
//! ```
//! use panzhyqur::*;
//!
//! # let sheet = "P 0 10;N 1 0 1 0 2 2 0 20 0 0 0 -;N 2 0 0 0 2 2 0 10 8 0 10 -;\
//! #     N 3 0 0 0 2 2 0 0 8 0 20 -;W 1 5 2 1;W 1 5 3 1;";
//! # let sheet = sheet.replace(' ', "\t").replace(';', "\n").into_bytes();
//! # let mut buffers = Buffers::for_limits(&Limits::LIBRARY);
//! let page_box = PageBox { page: 0, x: (11, 22), y: (-8, -3) };
//! let hits = buffers.hits(&sheet, &page_box)?;
//! for hit in hits.rerouters() { /* hit.number, hit.part, hit.lane */ }
//! for number in hits.wires() { /* a place among hits.plan().wires() */ }
//!
//! let source = RerouterHit { number: 0, part: Part::Source, lane: None };
//! assert_eq!(hits.rerouters().next(), Some(source));
//! assert_eq!(hits.rerouters().len(), 4);
//! assert!(hits.wires().eq([1, 2, 3, 6]));
//! assert_eq!(hits.plan().nodes().len(), 8);
//!
//! let nowhere = PageBox { page: 1, ..page_box };
//! let refusal = buffers.hits(&sheet, &nowhere).err();
//! assert_eq!(refusal.map(|r| r.reason), Some(Reason::BadBox));
//! # Ok::<(), Refusal>(())
//! ```
//!
//! # The stack
//!
//! The calls keep tables of local numbers on the stack: [`stack::NEED`] bytes,
//! 1 MiB, must be free. A thread that Rust starts has twice that by default. On
//! a thread with less the program stops with Rust's message of an overflown
//! stack. [`stack::with_stack`] runs a closure on a thread with enough;
//! [`route_sheet`] does so itself.

pub mod calls;
pub mod stack;

mod board;
mod buffers;
mod explain;
mod hits;
mod lanes;
mod picture;
mod plan;
mod read;
mod refusal;
mod types;
mod way;

#[doc(hidden)]
pub mod progress;

/// The library beside the original, for the commands and tests of this crate.
#[cfg(feature = "original")]
#[doc(hidden)]
pub mod beside;

pub use board::{Board, Chip, Exec, Inner, Node, Page, Record, Wire};
pub use buffers::{Buffers, Limits, check_sheet};
pub use explain::{Explanation, Warning, warnings};
pub use hits::{Hits, PageBox, RerouterHit};
pub use lanes::{BusDemand, LaneBuffers, allocate_lanes};
pub use plan::{BusView, Plan, PlanView, Totals, UnreadablePlan};
pub use refusal::{LaneRefusal, Reason, Refusal};
pub use types::{
    BusEnd, BusNode, BusNodeId, BusRole, BusWire, Class, Delivery, End, Kind, NodeId, NodeKind,
    NodeRotation, PageBus, Part, PortRef, Rerouter, Role, Rotation, UnknownNumber, WirePort,
};
pub use way::Way;

/// The plan of a board's sheet, with buffers and a stack of its own. A server
/// that routes many boards keeps [`Buffers`] instead.
pub fn route_sheet(sheet: impl AsRef<[u8]>) -> Result<Plan, Refusal> {
    let sheet = sheet.as_ref();
    stack::with_stack(|| {
        let mut buffers = Buffers::for_sheet(sheet);
        buffers.route(sheet).map(|plan| plan.to_plan())
    })
}
