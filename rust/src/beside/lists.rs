//! Demand lists through the lane call.

use crate::calls::{self, LaneReport};
use crate::{BusDemand, allocate_lanes};
use oracle::lanes;

/// Stands in the answers beforehand: what is not written must still be there.
const UNTOUCHED: u32 = 0xdead_beef;

/// One call of the library: its report and its answers.
pub fn call(list: &[u32], answers: usize) -> (LaneReport, Vec<u32>) {
    let room = list.len() / 4;
    let mut lanes = vec![UNTOUCHED; answers];
    let mut work = vec![[7; 8]; room];
    let mut spare = vec![[9; 8]; room];
    let report = calls::allocate_lanes(list, &mut lanes, &mut work, &mut spare);
    (report, lanes)
}

/// What the library has to report and write.
pub fn expected(list: &[u32], answers: usize) -> (LaneReport, Vec<u32>) {
    let mut written = vec![UNTOUCHED; answers];
    let report = match lanes::call(list, answers) {
        Ok(l) => {
            for (to, lane) in written.iter_mut().zip(&l.lanes) {
                *to = *lane as u32;
            }
            LaneReport {
                refusal: 0,
                place: 0,
                count: l.count,
            }
        }
        Err(r) => LaneReport {
            refusal: r.number as usize,
            place: r.line,
            count: 0,
        },
    };
    (report, written)
}

/// The typed call on a list that ends with a whole demand.
fn typed_differs(list: &[u32]) -> bool {
    if !list.len().is_multiple_of(4) {
        return false;
    }
    let demand = |d: &[u32]| BusDemand {
        first_row: d[0],
        last_row: d[1],
        consumers: d[2],
        source_order: d[3],
    };
    let demands: Vec<BusDemand> = list.chunks_exact(4).map(demand).collect();
    let ours = allocate_lanes(&demands).map_err(|r| (r.number(), r.demand));
    let theirs = lanes::call(list, demands.len());
    ours != theirs.map(|l| l.lanes).map_err(|r| (r.number, r.line))
}

/// Whether a list differs, with so many answers more or fewer than demands.
pub fn differs(list: &[u32], extra: isize) -> bool {
    let answers = (list.len() / 4).saturating_add_signed(extra);
    call(list, answers) != expected(list, answers) || typed_differs(list)
}
