//! Boxes to be clicked: a sheet, and boxes about the edges of what its plan
//! has.

use super::buses::with_lanes;
use super::room::{Lending, SLICES};
use super::sheets;
use super::truth::Truth;
use oracle::board::Board;
use oracle::hits::{self, PageBox};
use oracle::plan::{Plan, Rerouter};
use oracle::rng::Rng;
use oracle::{r#gen, harness};

/// One call of `find_hits`.
#[derive(Clone, Copy, Debug)]
pub struct Click {
    pub page_box: PageBox,
    pub lending: Lending,
    /// Numbers more or fewer than named in the hit buffer.
    pub more: isize,
}

/// So many lines make a sheet large: it gets fewer boxes.
const LARGE: usize = 1_000;

/// Sheet `i` of a seed: small boards, some larger and some full, some with a
/// page of 512 or 513 lanes more, and damaged ones.
pub fn sheet(seed: u64, i: u64) -> Vec<u8> {
    let rng = &mut Rng::for_item(seed, i);
    match rng.weighted(&[800, 120, 8, 2, 1, 1, 30, 24, 14]) {
        0 => board(rng, "tiny").sheet(),
        1 => board(rng, "program").sheet(),
        2 => board(rng, "medium").sheet(),
        3 => board(rng, "full").sheet(),
        4 => board(rng, "many-lanes").sheet(),
        5 => sheets::to_the_most(rng),
        6 => with_lanes(board(rng, "tiny"), 512 + rng.below(2) as u16).sheet(),
        7 => r#gen::damaged::sheet(rng),
        _ => {
            let sheet = board(rng, "tiny").sheet();
            sheets::scratched(rng, sheet)
        }
    }
}

/// A board of a size, more often than not one that gets rerouters.
fn board(rng: &mut Rng, size: &str) -> Board {
    let mut made = || r#gen::board(rng.number(), 0, size).expect("a size of the generator");
    for _ in 0..3 {
        let board = made();
        let large = board.wires.len() > LARGE;
        if large || harness::run_plan(&board).is_ok_and(|plan| !plan.rerouters.is_empty()) {
            return board;
        }
    }
    made()
}

/// The clicks on sheet `i` of a seed.
pub fn clicks(truth: &Truth, seed: u64, i: u64) -> Vec<Click> {
    let rng = &mut Rng::for_item(!seed, i);
    let count = match truth.lines.records {
        LARGE.. => 3,
        _ => 4 + rng.below(5),
    };
    (0..count).map(|_| click(rng, truth)).collect()
}

/// A click with buffers of any length, most often of just the lengths named.
pub fn click(rng: &mut Rng, truth: &Truth) -> Click {
    let poison = [0, u32::MAX, 0xdead_beef, rng.number() as u32];
    let lending = Lending {
        rows: match rng.below(2) {
            0 => sheets::rows(rng),
            _ => [0; SLICES],
        },
        output: Some(rng.pick(&poison)),
        work: rng.pick(&[None, Some(0), Some(u32::MAX), Some(0xdead_beef)]),
    };
    Click {
        page_box: page_box(rng, truth),
        lending,
        more: rng.pick(&[0, 0, 0, 0, 0, 0, 0, 0, 1, 1, 21, -1, -1, -22]),
    }
}

fn sorted(a: i32, b: i32) -> (i32, i32) {
    (a.min(b), a.max(b))
}

fn some<'a, T>(rng: &mut Rng, from: &'a [T]) -> Option<&'a T> {
    from.get(rng.below(from.len()))
}

/// Numbers at the ends of their range, about 0, and any.
fn far(rng: &mut Rng) -> i32 {
    let (least, most) = (i32::MIN, i32::MAX);
    match rng.below(4) {
        0 => least + rng.range(0, 2),
        1 => most - rng.range(0, 2),
        2 => rng.pick(&[-1, 0, 1, 1_000_000, -1_000_000]),
        _ => rng.number() as i32,
    }
}

/// A box for a sheet's board, which need not have a plan.
fn page_box(rng: &mut Rng, truth: &Truth) -> PageBox {
    let pages = truth.lines.pages;
    let plan = truth.plan.as_ref().ok();
    let near = plan.and_then(|plan| near_something(rng, plan));
    let small = |rng: &mut Rng| sorted(rng.range(-30, 30), rng.range(-30, 30));
    let mut page_box = near.unwrap_or_else(|| PageBox {
        page: rng.below(pages.max(1)) as u32,
        x: small(rng),
        y: small(rng),
    });
    match rng.below(24) {
        0 => page_box.page = rng.below(pages.max(1)) as u32,
        1 => page_box.page = pages as u32 + rng.below(2) as u32,
        2 => page_box.page = rng.pick(&[63, 64, 1 << 31, u32::MAX]),
        3 => page_box.x = turned(rng, page_box.x),
        4 => page_box.y = turned(rng, page_box.y),
        _ => {}
    }
    page_box
}

/// A range whose end is under its start, by a few or by far.
fn turned(rng: &mut Rng, (from, to): (i32, i32)) -> (i32, i32) {
    match rng.below(3) {
        0 => (from, from.saturating_sub(1)),
        1 => (to.max(i32::MIN + 1), to.saturating_sub(1 + rng.range(0, 3))),
        _ => (i32::MAX, i32::MIN),
    }
}

/// A box about what a plan has, where it has any rerouter.
fn near_something(rng: &mut Rng, plan: &Plan) -> Option<PageBox> {
    let brick = some(rng, &plan.rerouters)?;
    let page = brick.page as u32;
    let on = |x, y| PageBox { page, x, y };
    let all = (i32::MIN, i32::MAX);
    Some(match rng.weighted(&[34, 8, 12, 26, 6, 6, 8]) {
        0 => on(about(rng, brick.x), about(rng, brick.y)),
        // Touches the cell, or covers it by one, along one side.
        1 => {
            let beside = |rng: &mut Rng, low: i32| match rng.below(2) {
                0 => (low - rng.range(0, 9), low + rng.range(0, 1)),
                _ => (low + 2 - rng.range(0, 1), low + 2 + rng.range(0, 9)),
            };
            let wide = |low: i32| (low - 4, low + 5);
            match rng.below(2) {
                0 => on(beside(rng, brick.x), wide(brick.y)),
                _ => on(wide(brick.x), beside(rng, brick.y)),
            }
        }
        // From one rerouter to another, which may be of another page.
        2 => {
            let other = some(rng, &plan.rerouters)?;
            let end = |rng: &mut Rng, low: i32| low + rng.range(-1, 3);
            on(
                sorted(end(rng, brick.x), end(rng, other.x)),
                sorted(end(rng, brick.y), end(rng, other.y)),
            )
        }
        3 => return near_a_run(rng, plan),
        4 => match rng.below(3) {
            0 => on(all, all),
            1 => on(all, about(rng, brick.y)),
            _ => on(about(rng, brick.x), all),
        },
        // All rerouters of the page, just so or but for an edge.
        5 => {
            let mine = |r: &&Rerouter| r.page == brick.page;
            let around = |rng: &mut Rng, of: fn(&Rerouter) -> i32| {
                let places = plan.rerouters.iter().filter(mine).map(of);
                let least = places.clone().min().unwrap_or(0);
                let most = places.max().unwrap_or(0);
                sorted(least + rng.range(-1, 2), most + rng.range(-1, 3))
            };
            on(around(rng, |r| r.x), around(rng, |r| r.y))
        }
        _ => {
            let end = |rng: &mut Rng, low: i32| match rng.below(2) {
                0 => far(rng),
                _ => low + rng.range(-1, 3),
            };
            on(
                sorted(end(rng, brick.x), end(rng, brick.x)),
                sorted(end(rng, brick.y), end(rng, brick.y)),
            )
        }
    })
}

/// Start and end about a cell's edges: inside, at them or one beside; often the
/// same number.
fn about(rng: &mut Rng, low: i32) -> (i32, i32) {
    let from = low + rng.range(-1, 3);
    match rng.below(4) {
        0 => (from, from),
        _ => sorted(from, low + rng.range(-1, 3)),
    }
}

/// A box about a bus wire's run: its ends, a point of it, a number beside.
fn near_a_run(rng: &mut Rng, plan: &Plan) -> Option<PageBox> {
    let ends: Vec<(&Rerouter, &Rerouter)> = (plan.bus_wires.iter())
        .filter_map(|wire| hits::ends(plan, wire))
        .collect();
    let (a, b) = some(rng, &ends)?;
    let along = |rng: &mut Rng, a: i32, b: i32| {
        let (low, high) = sorted(a, b);
        let end = |rng: &mut Rng| match rng.below(3) {
            0 => low + rng.range(-1, 1),
            1 => high + rng.range(-1, 1),
            _ => rng.range(low, high),
        };
        let from = end(rng);
        match rng.below(3) {
            0 => (from, from),
            1 => sorted(from, end(rng)),
            _ => sorted(from, from + rng.range(-9, 9)),
        }
    };
    Some(PageBox {
        page: a.page as u32,
        x: along(rng, a.x, b.x),
        y: along(rng, a.y, b.y),
    })
}
