//! Full boards with a name, for timing: a typical one, and those on which a
//! plain search takes longest.

use crate::board::*;
use crate::rng::Rng;

pub(super) fn brick(id: u32, half: (i32, i32), at: (i32, i32), row: (usize, i32)) -> Node {
    Node {
        id,
        kind: 0,
        class: 0,
        pin: false,
        half,
        rotation: 0,
        at: Some(at),
        row: Some(row),
        line: None,
    }
}

pub(super) fn wire(source: (u32, u16), target: (u32, u16)) -> Wire {
    let port = |(node, port): (u32, u16)| Port { node, port };
    Wire {
        source: port(source),
        target: port(target),
    }
}

pub(super) fn page(min_y: i32, z: i32) -> Page {
    let min_y = Some(min_y);
    Page { min_y, z }
}

/// Pages at and around 512 and 513 lanes: one-row values on one row, a few
/// wider ones among them.
pub fn many_lanes(rng: &mut Rng) -> Board {
    let mut board = Board::default();
    for p in 0..1 + rng.below(3) {
        board.pages.push(page(rng.range(-9, 9), p as i32));
        let first = board.nodes.len() as u32 + 1;
        for i in 0..24_u32 {
            let down = if i < 12 { 0 } else { i as i32 % 4 };
            let at = (rng.range(0, 3) - 8 * down, 9 * i as i32);
            let half = (rng.range(1, 30), 1);
            let mut n = brick(first + i, half, at, (p, down));
            if i % 3 == 0 {
                n.class = CLASS_STORAGE;
                n.at = rng.chance(50).then_some((20, 0));
                n.row = None;
            }
            board.nodes.push(n);
        }
        for k in 0..505 + rng.below(12) as u32 {
            let source = (first + 3 * (k % 8), (1 + k / 8) as u16);
            let on_hot_row = first + rng.pick(&[1, 2, 4, 5, 7, 8]);
            board.wires.push(wire(source, (on_hot_row, (1 + k) as u16)));
            if rng.chance(3) {
                let other = first + rng.pick(&[13, 14, 16, 17, 19, 20]);
                board.wires.push(wire(source, (other, (1 + k) as u16)));
            }
        }
    }
    board
}

/// A full board of the typical kind: 4,096 bricks, 8,192 wires.
pub fn full_typical(rng: &mut Rng) -> Board {
    typical(rng, 8, 64)
}

/// A program as the layout draws it: pages of rows of 8 bricks, values from
/// the left neighbour, and stored values read all over the board. Each brick
/// has two wires.
pub fn typical(rng: &mut Rng, pages: u32, rows: u32) -> Board {
    const COLUMNS: u32 = 8;
    let mut board = Board::default();
    for p in 0..pages {
        board.pages.push(page(0, 10 + 50 * p as i32));
    }
    for i in 0..pages * rows * COLUMNS {
        let (p, row, column) = (i / (rows * COLUMNS), i / COLUMNS % rows, i % COLUMNS);
        let down = row as i32 * 12;
        let at = (-down, column as i32 * 16);
        let half = (rng.range(2, 5), rng.range(2, 5));
        let mut n = brick(i + 1, half, at, (p as usize, down));
        n.class = u8::from(column == 0 && row % 2 == 0);
        n.rotation = u8::from(column == 1);
        n.line = Some(p * rows + row / 2);
        board.nodes.push(n);
    }
    let storage: Vec<u32> = (board.nodes.iter())
        .filter(|n| n.class == CLASS_STORAGE)
        .map(|n| n.id)
        .collect();
    for n in board.nodes.clone() {
        let left = if n.id > 1 { n.id - 1 } else { 2 };
        board.wires.push(wire((left, 3), (n.id, 1)));
        let near = rng.chance(70);
        let from = if near {
            // A stored value of the same page.
            let first = (n.id - 1) / (rows * COLUMNS) * (rows / 2);
            storage[first as usize + rng.below(rows as usize / 2)]
        } else {
            storage[rng.below(storage.len())]
        };
        board.wires.push(wire((from, 3), (n.id, 2)));
    }
    board
}

/// 16 pages with one hot row each: 512 values read there, for which the row
/// offers 200 levels.
pub fn hot_rows(rng: &mut Rng) -> Board {
    let mut board = Board::default();
    for p in 0..16 {
        board.pages.push(page(0, p as i32));
        let first = board.nodes.len() as u32 + 1;
        for i in 0..256 {
            let half = if i == 0 { (200, 1) } else { (2, 2) };
            let at = (rng.range(0, 3), i * 8);
            let mut n = brick(first + i as u32, half, at, (p, 0));
            if i >= 240 {
                n.class = CLASS_STORAGE;
                n.at = Some((-50, i * 8));
                n.row = None;
            }
            board.nodes.push(n);
        }
        for k in 0..512_u32 {
            let source = (first + 240 + k % 16, (1 + k / 16) as u16);
            let target = (first + rng.below(240) as u32, (1 + k / 240) as u16);
            board.wires.push(wire(source, target));
        }
    }
    board
}

/// Two values read on 4,094 tall rows of one page: each lane's column is full
/// after a thousand stops.
pub fn tall_lanes(_rng: &mut Rng) -> Board {
    let mut board = Board::default();
    board.pages.push(page(0, 0));
    let last = 4_096;
    for id in 1..=last - 2 {
        // x differs by 2 from row to row, so no stop shares another's brick.
        let x = (id % 2) as i32 * 2;
        board
            .nodes
            .push(brick(id, (1_000, 2), (x, 20), (0, id as i32)));
    }
    for id in last - 1..=last {
        let mut n = brick(id, (2, 2), (-100, 0), (0, 0));
        n.row = None;
        n.class = CLASS_STORAGE;
        board.nodes.push(n);
    }
    for k in 0..8_192_u32 {
        let target = (1 + k % (last - 2), 1 + (k / (last - 2)) as u16);
        let from = if k / (last - 2) == 0 { last - 1 } else { last };
        board.wires.push(wire((from, 1), target));
    }
    board
}

/// 8,192 corners sought on one row that holds 3,000 bricks, at one y where
/// the first thousand corners take every level.
pub fn crowded_corners(rng: &mut Rng) -> Board {
    const SINKS: u32 = 512;
    const SOURCES: u32 = 584;
    let mut board = Board::default();
    board.pages.push(page(0, 0));
    for id in 1..=SINKS {
        let mut n = brick(id, (1, 1_000), (0, -4 * id as i32), (0, 10));
        n.rotation = 1;
        n.line = Some(1);
        board.nodes.push(n);
    }
    for id in SINKS + 1..=SINKS + SOURCES {
        let mut n = brick(id, (1, 1), (2_100, 500), (0, 0));
        n.line = Some(1);
        board.nodes.push(n);
    }
    for id in SINKS + SOURCES + 1..=4_096 {
        let at = (rng.range(0, 2_000), rng.range(-9_000, -3_000));
        board.nodes.push(brick(id, (1, 1), at, (0, 10)));
    }
    for k in 0..8_192_u32 {
        let source = (SINKS + 1 + k % SOURCES, 1 + (k / SOURCES) as u16);
        board
            .wires
            .push(wire(source, (1 + k % SINKS, 1 + (k / SINKS) as u16)));
    }
    board
}
