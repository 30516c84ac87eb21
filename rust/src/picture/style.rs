//! Colours and dashes of runs.

use crate::plan::Plan;
use std::collections::HashMap;

/// Seven of the colours of Okabe and Ito, which people with any kind of colour
/// vision tell apart; the eighth, yellow, is too pale on white.
pub(super) const COLOURS: usize = 7;
/// For print in black and white: each style has dashes, too.
pub(super) const DASHES: usize = 4;
/// 7 and 4 have no common divisor: style k has colour k mod 7 and dashes k mod
/// 4, and two styles in a row differ in both.
pub(super) const STYLES: usize = COLOURS * DASHES;

pub(super) const CSS: &str = include_str!("svg.css");

/// The class of a style.
pub(super) fn class(style: usize) -> String {
    format!("c{} d{}", style % COLOURS, style % DASHES)
}

/// Colours and dashes, a bit each, that a lane of a page has so far.
#[derive(Clone, Copy, Default)]
struct Taken {
    colours: u32,
    dashes: u32,
}

/// A style for each run: as unlike those in its own lanes and in the lanes on
/// either side as may be.
pub(super) fn styles(plan: &Plan, of_rerouter: &[Option<usize>], runs: usize) -> Vec<usize> {
    let mut lanes: Vec<Vec<(usize, usize)>> = vec![Vec::new(); runs];
    for (rerouter, run) in plan.nodes.iter().zip(of_rerouter) {
        if let (Some(lane), Some(run)) = (rerouter.lane, run) {
            let at = (rerouter.page, lane);
            if lanes[*run].last() != Some(&at) {
                lanes[*run].push(at);
            }
        }
    }
    let mut taken: HashMap<(usize, usize), Taken> = HashMap::new();
    let mut styles = Vec::with_capacity(runs);
    for (k, its_lanes) in lanes.iter().enumerate() {
        let mut near = Taken::default();
        for (page, lane) in its_lanes {
            for beside in [lane.checked_sub(1), Some(*lane), lane.checked_add(1)] {
                let found = beside.and_then(|lane| taken.get(&(*page, lane)));
                near.colours |= found.map_or(0, |t| t.colours);
                near.dashes |= found.map_or(0, |t| t.dashes);
            }
        }
        let style = unlike(near, k);
        for at in its_lanes {
            let here = taken.entry(*at).or_default();
            here.colours |= 1 << (style % COLOURS);
            here.dashes |= 1 << (style % DASHES);
        }
        styles.push(style);
    }
    styles
}

/// The style that shares least with what is taken, from the k-th on.
fn unlike(near: Taken, k: usize) -> usize {
    let shared = |style: usize| {
        let colour = near.colours >> (style % COLOURS) & 1;
        let dashes = near.dashes >> (style % DASHES) & 1;
        2 * colour + dashes
    };
    let candidates = (0..STYLES).map(|step| (k + step) % STYLES);
    // The first of equals.
    candidates
        .min_by_key(|style| shared(*style))
        .unwrap_or_default()
}
