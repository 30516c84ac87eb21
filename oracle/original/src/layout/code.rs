//! Stand-in for `layout/code.rs`: its constants, read from the file itself,
//! the originals below it, and the three calls in its order.

use crate::collections::HashMap;
use crate::emit::Placement;
use crate::ir::{Module, NodeId};
use crate::layout::{BusLayout, NodeRotation};

include!(concat!(env!("OUT_DIR"), "/constants.in"));
include!(concat!(env!("OUT_DIR"), "/adjacency.in"));
include!(concat!(env!("OUT_DIR"), "/gutter.in"));
include!(concat!(env!("OUT_DIR"), "/nodes.in"));

pub mod pages {
    /// The extents of one page that the gutter reads; `max_y` and `top_x`
    /// serve the pin stack, which is not taken over.
    #[derive(Clone)]
    pub struct PageInfo {
        pub min_y: i32,
        pub z: i32,
    }
}

use gutter::{Body, ChipSubtree, chip_owners, lay_bus, lay_mini_bus, plan_bus};
use pages::PageInfo;

/// A code body with its placements final, pins included.
#[derive(Default)]
pub struct LaidBody {
    pub module: Module,
    pub placements: HashMap<NodeId, Placement>,
    pub rotations: HashMap<NodeId, NodeRotation>,
    pub node_row: HashMap<NodeId, (usize, i32)>,
    pub node_line: HashMap<NodeId, usize>,
    pub page_infos: Vec<PageInfo>,
}

/// What the three calls leave.
pub struct Routed {
    pub band_widths: Vec<i32>,
    pub bus: BusLayout,
    pub laid: usize,
}

impl LaidBody {
    fn body<'a>(&'a self, owners: &'a ChipSubtree) -> Body<'a> {
        Body {
            module: &self.module,
            placements: &self.placements,
            rotations: &self.rotations,
            node_row: &self.node_row,
            page_infos: &self.page_infos,
            owners,
        }
    }
}

/// `lay_mini_bus` without `lay_bus` before it, on a bus that is handed in: the
/// cells of a row are those of the body.
pub fn turn(laid_body: &LaidBody, bus: &mut BusLayout) {
    let owners = chip_owners(&laid_body.module);
    let body = laid_body.body(&owners);
    let mut plan = plan_bus(&body);
    lay_mini_bus(bus, &body, &laid_body.node_line, &mut plan);
}

/// `plan_bus`, then `lay_bus`, then `lay_mini_bus`, as `layout_code` runs them.
/// Where `accept` turns the band widths away nothing more is laid.
pub fn route(laid_body: &LaidBody, accept: impl Fn(&[i32]) -> bool) -> Routed {
    let owners = chip_owners(&laid_body.module);
    let body = laid_body.body(&owners);
    let mut plan = plan_bus(&body);
    let band_widths: Vec<i32> = plan.pages.iter().map(|p| p.band_width).collect();
    if !accept(&band_widths) {
        return Routed {
            band_widths,
            bus: BusLayout::default(),
            laid: 0,
        };
    }
    let (mut bus, laid) = lay_bus(&body, &mut plan);
    lay_mini_bus(&mut bus, &body, &laid_body.node_line, &mut plan);
    Routed {
        band_widths,
        bus,
        laid,
    }
}
