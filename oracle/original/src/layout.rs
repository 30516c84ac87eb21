//! Stand-ins for `layout/mod.rs`, and bus.rs itself.

use crate::ir::Node;

include!(concat!(env!("OUT_DIR"), "/bus.in"));

pub mod code;

pub use bus::{BusEnd, BusLayout, BusNode, BusNodeId, BusRole, BusWire};

#[derive(Copy, Clone, Debug, Default, PartialEq, Eq)]
pub enum NodeRotation {
    #[default]
    Deg0,
    Deg90,
    Deg180,
    Deg270,
}

impl NodeRotation {
    pub fn footprint(self, (x, y): (i32, i32)) -> (i32, i32) {
        match self {
            Self::Deg0 | Self::Deg180 => (x, y),
            Self::Deg90 | Self::Deg270 => (y, x),
        }
    }
}

pub fn brick_half_size(node: &Node) -> (i32, i32) {
    node.half
}
