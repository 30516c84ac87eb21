//! The lane call on its own.

use crate::calls::{self, TableRow};
use crate::refusal::LaneRefusal;

/// One value's demand on a page's gutter; `BusDemand` of the original, of
/// whose rows only the first and the last are read.
#[derive(Clone, Copy, Debug, Default, PartialEq, Eq, Hash)]
#[repr(C)]
pub struct BusDemand {
    /// 0 to 4,095.
    pub first_row: u32,
    /// From the first row to 4,095.
    pub last_row: u32,
    /// 0 to 8,192.
    pub consumers: u32,
    /// 0 to 8,192.
    pub source_order: u32,
}

/// Demands as the list of numbers that the library takes.
fn numbers(demands: &[BusDemand]) -> &[u32] {
    const { assert!(size_of::<BusDemand>() == 4 * size_of::<u32>()) };
    const { assert!(align_of::<BusDemand>() == align_of::<u32>()) };
    // SAFETY: a demand is four numbers in order, without padding.
    unsafe { std::slice::from_raw_parts(demands.as_ptr().cast(), 4 * demands.len()) }
}

/// Work space of the lane call, made once and used again.
#[derive(Clone, Debug)]
pub struct LaneBuffers {
    work: Box<[TableRow]>,
    spare: Box<[TableRow]>,
}

impl LaneBuffers {
    /// The most demands of one call.
    pub const MOST: usize = 8_192;

    /// Enough for so many demands.
    pub fn for_demands(count: usize) -> Self {
        let rows = || vec![[0; 8]; count].into_boxed_slice();
        Self {
            work: rows(),
            spare: rows(),
        }
    }

    /// Each demand's lane into `lanes`, in the given order, and how many lanes
    /// are open. On a refusal `lanes` is as it was.
    pub fn allocate_lanes(
        &mut self,
        demands: &[BusDemand],
        lanes: &mut [u32],
    ) -> Result<usize, LaneRefusal> {
        let told = calls::allocate_lanes(numbers(demands), lanes, &mut self.work, &mut self.spare);
        match LaneRefusal::of(told.refusal, told.place) {
            Some(refusal) => Err(refusal),
            None => Ok(told.count),
        }
    }
}

/// Lane index assigned to each demand, parallel to the input slice. Lane 0 is
/// leftmost. Ranges that touch on a row do not share a lane.
///
/// ```
/// use panzhyqur::{BusDemand, allocate_lanes};
///
/// let demand = |first_row, last_row, source_order| BusDemand {
///     first_row,
///     last_row,
///     consumers: 1,
///     source_order,
/// };
/// assert_eq!(allocate_lanes(&[demand(0, 2, 0), demand(2, 4, 1)]), Ok(vec![0, 1]));
/// assert_eq!(allocate_lanes(&[demand(0, 2, 0), demand(3, 5, 1)]), Ok(vec![0, 0]));
/// ```
pub fn allocate_lanes(demands: &[BusDemand]) -> Result<Vec<usize>, LaneRefusal> {
    let mut lanes = vec![0; demands.len()];
    LaneBuffers::for_demands(demands.len()).allocate_lanes(demands, &mut lanes)?;
    Ok(lanes.into_iter().map(|lane| lane as usize).collect())
}
