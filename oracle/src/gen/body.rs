//! Pages, body nodes, chips and the nodes inside them.

use super::mood::Mood;
use crate::board::*;
use crate::rng::Rng;
use std::collections::HashSet;

const MILLION: i32 = 1_000_000;

pub fn pages(rng: &mut Rng, mood: &Mood, board: &mut Board) {
    for _ in 0..mood.counts[0] {
        let min_y = match rng.below(4) {
            0 => 0,
            1 => rng.range(-30, 30),
            _ => -mood.pitch * mood.columns as i32 / 2,
        };
        board.pages.push(Page {
            min_y: (!rng.chance(mood.page_missing)).then_some(min_y),
            z: rng.pick(&[0, 10, -7, 50, 100]),
        });
    }
}

/// The rows of each page as (down, x), x falling from row to row.
fn rows(rng: &mut Rng, mood: &Mood, pages: usize) -> Vec<Vec<(i32, i32)>> {
    let mut out = Vec::new();
    for _ in 0..pages {
        let (mut down, mut x) = (rng.range(-5, 5), rng.range(-20, 20));
        let mut page = Vec::new();
        for _ in 0..(1 + rng.below(mood.rows)).max(mood.rows / 2) {
            page.push((down, x));
            down += rng.range(1, 12);
            x -= rng.range(mood.fall.0, mood.fall.1);
        }
        out.push(page);
    }
    out
}

/// Distinct ids for `count` records, in the mood's order.
fn ids(rng: &mut Rng, mood: &Mood, count: usize) -> Vec<u32> {
    let mut ids: Vec<u32> = (1..=count as u32).collect();
    if mood.ids == 2 {
        let mut seen = HashSet::new();
        for id in &mut ids {
            while !seen.insert(*id) || *id <= count as u32 {
                *id = rng.range(0, MILLION) as u32;
            }
        }
    }
    if mood.ids > 0 {
        for i in (1..ids.len()).rev() {
            ids.swap(i, rng.below(i + 1));
        }
    }
    ids
}

fn half(rng: &mut Rng, mood: &Mood) -> i32 {
    if rng.below(400) == 0 {
        return rng.pick(&[100, 1_000]);
    }
    if rng.chance(mood.tall) {
        return rng.range(1, mood.tall_half);
    }
    rng.range(1, mood.half)
}

/// 0 with a row, 1 placed without one, 2 not placed.
fn standing(rng: &mut Rng, mood: &Mood, kind: u8) -> usize {
    let is_pin = matches!(kind, KIND_INPUT | 4);
    match (is_pin, mood.friendly) {
        (true, _) => rng.weighted(&[35, 40, 25]),
        (false, true) => rng.weighted(&[96, 2, 2]),
        (false, false) => rng.weighted(&[88, 6, 6]),
    }
}

fn kind_and_class(rng: &mut Rng, mood: &Mood) -> (u8, u8) {
    if mood.corners {
        let kind = rng.weighted(&[85, 3, 4, 4, 2, 4]);
        return (kind as u8, rng.weighted(&[90, 8, 2]) as u8);
    }
    if mood.friendly {
        let kind = rng.weighted(&[68, 5, 12, 11, 3, 1]);
        return (kind as u8, rng.weighted(&[58, 39, 3]) as u8);
    }
    let kind = rng.weighted(&[55, 8, 12, 12, 6, 7]);
    (kind as u8, rng.weighted(&[72, 20, 8]) as u8)
}

pub fn nodes(rng: &mut Rng, mood: &Mood, board: &mut Board) {
    let rows = rows(rng, mood, board.pages.len());
    let total = mood.counts[1] + mood.counts[3];
    let ids = ids(rng, mood, total);
    for id in ids.iter().take(mood.counts[1]) {
        let (kind, class) = kind_and_class(rng, mood);
        // Without a page no node has a row.
        let page = rng.below(rows.len());
        let (down, base) = rows.get(page).map_or((0, 0), |r| rng.pick(r));
        let stands = standing(rng, mood, kind);
        let stray = stands == 1 || rng.chance(mood.stray);
        let x = base
            + if stray {
                rng.range(-12, 12)
            } else {
                rng.range(0, mood.x_spread)
            };
        let column = rng.below(mood.columns) as i32;
        let y = column * mood.pitch + rng.range(0, mood.y_spread);
        let turned = rng.chance(mood.turned);
        board.nodes.push(Node {
            id: *id,
            kind,
            class,
            pin: rng.chance(10),
            half: (half(rng, mood), half(rng, mood)),
            rotation: if turned {
                1
            } else {
                rng.pick(&[0, 0, 0, 2, 3])
            },
            at: (stands < 2).then_some((x, y)),
            row: (stands == 0 && !rows.is_empty()).then_some((page, down)),
            line: (!rng.chance(12)).then(|| rng.below(mood.lines) as u32),
        });
    }
    // The ids left over are the inner nodes'.
    for id in ids.into_iter().skip(mood.counts[1]) {
        board.inners.push(Inner {
            id,
            chip: 0,
            class: rng.weighted(&[75, 15, 10]) as u8,
        });
    }
}

/// Chips of the body's Chip nodes, others nested in them, and an owner for
/// each inner node; without a chip there is no inner node.
pub fn chips(rng: &mut Rng, mood: &Mood, board: &mut Board) {
    let mut tops: Vec<u32> = (board.nodes.iter())
        .filter(|n| n.kind == KIND_CHIP)
        .map(|n| n.id)
        .collect();
    let mut seen: HashSet<u32> = HashSet::new();
    for _ in 0..mood.counts[2] {
        let nested = !board.chips.is_empty() && (tops.is_empty() || rng.chance(40));
        if nested {
            let parent = board.chips[rng.below(board.chips.len())].id;
            // Now and then the id of a body or inner node, which is allowed.
            let id = match rng.below(3) {
                0 if !tops.is_empty() => tops[rng.below(tops.len())],
                1 if !board.nodes.is_empty() => board.nodes[rng.below(board.nodes.len())].id,
                _ => rng.range(0, MILLION) as u32,
            };
            if seen.insert(id) {
                let parent = Some(parent);
                board.chips.push(Chip { id, parent });
            }
        } else if !tops.is_empty() {
            let id = tops.swap_remove(rng.below(tops.len()));
            if seen.insert(id) {
                board.chips.push(Chip { id, parent: None });
            }
        }
    }
    if board.chips.is_empty() {
        board.inners.clear();
    }
    for inner in &mut board.inners {
        inner.chip = board.chips[rng.below(board.chips.len())].id;
    }
}

/// Moves a whole axis to one end of its range.
pub fn push_to_limits(rng: &mut Rng, board: &mut Board) {
    let (to_x, to_y) = (shift(rng), shift(rng));
    let (to_down, to_z) = (shift(rng), shift(rng));
    let moved = |n: i32, by: i32| (n + by).clamp(-MILLION, MILLION);
    for n in &mut board.nodes {
        n.at = n.at.map(|(x, y)| (moved(x, to_x), moved(y, to_y)));
        n.row = n.row.map(|(page, down)| (page, moved(down, to_down)));
    }
    for p in &mut board.pages {
        p.min_y = p.min_y.map(|y| moved(y, to_y));
        p.z = moved(p.z, to_z);
    }
}

fn shift(rng: &mut Rng) -> i32 {
    rng.pick(&[0, MILLION, -MILLION, MILLION - 20, 20 - MILLION])
}
