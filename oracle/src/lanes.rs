//! The lane call on its own, and its refusals.

use crate::board::{LANE_MOST, Refusal};
use original::ir::port_registry::WirePort;
use original::ir::{NodeId, PortRef};
use original::layout::bus::{BusDemand, allocate_lanes};

const DEMAND_MOST: usize = 8_192;
const ROW_MOST: u32 = 4_095;
/// Most consumers, and the highest order.
const COUNT_MOST: u32 = 8_192;

/// The lanes, one a demand, and how many lanes are open.
#[derive(Clone, Debug, PartialEq, Eq)]
pub struct Lanes {
    pub lanes: Vec<usize>,
    pub count: usize,
}

/// A list of four numbers a demand as the Rust takes it.
pub fn demands_of(list: &[u32]) -> Vec<BusDemand> {
    let source = PortRef {
        node_id: NodeId(0),
        port: WirePort(1),
    };
    let demand = |d: &[u32]| BusDemand {
        source,
        rows: vec![d[0] as usize, d[1] as usize],
        consumers: d[2] as usize,
        source_order: d[3] as usize,
    };
    list.chunks_exact(4).map(demand).collect()
}

/// The lane call, with room for `answers` lane answers. A refusal's line is
/// the place that document 01 gives it.
pub fn call(list: &[u32], answers: usize) -> Result<Lanes, Refusal> {
    let count = list.len() / 4;
    if !list.len().is_multiple_of(4) {
        return Err(Refusal::new(1, count));
    }
    if count > DEMAND_MOST {
        return Err(Refusal::new(2, DEMAND_MOST));
    }
    let bad = |d: &[u32]| {
        d[0] > ROW_MOST || d[1] > ROW_MOST || d[2] > COUNT_MOST || d[3] > COUNT_MOST || d[1] < d[0]
    };
    if let Some(i) = list.chunks_exact(4).position(bad) {
        return Err(Refusal::new(3, i));
    }
    if answers < count {
        return Err(Refusal::new(7, 0));
    }
    let lanes = allocate_lanes(&demands_of(list));
    if let Some(i) = opener(list, &lanes) {
        return Err(Refusal::new(8, i));
    }
    let count = lanes.iter().max().map_or(0, |l| l + 1);
    Ok(Lanes { lanes, count })
}

/// The demand that opened lane 513: of those the Rust put there, the first in
/// the order of packing.
fn opener(list: &[u32], lanes: &[usize]) -> Option<usize> {
    let there = (0..lanes.len()).filter(|i| lanes[*i] == LANE_MOST as usize);
    there.min_by_key(|i| {
        let d = &list[4 * i..4 * i + 4];
        let span = d[1] - d[0];
        (u32::MAX - span, u32::MAX - d[2], d[3], *i)
    })
}

/// The answer as a line: the count of lanes, then each demand's lane; or `E`,
/// number, place.
pub fn answer(list: &[u32]) -> String {
    match call(list, list.len() / 4) {
        Ok(l) => {
            let mut out = l.count.to_string();
            for lane in &l.lanes {
                out.push(' ');
                out.push_str(&lane.to_string());
            }
            out
        }
        Err(r) => format!("E {} {}", r.number, r.line),
    }
}

/// A list from a line of numbers parted by spaces.
pub fn list_of(line: &str) -> Option<Vec<u32>> {
    line.split_whitespace().map(|n| n.parse().ok()).collect()
}

/// A list as such a line.
pub fn line_of(list: &[u32]) -> String {
    let words: Vec<String> = list.iter().map(u32::to_string).collect();
    words.join(" ")
}
