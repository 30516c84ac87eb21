//! Full boards drawn against the steps of the port: each makes one of them do
//! as much as any board can, or struck a form that the step once had. What is
//! struck is told by the line above each.

use super::nasty::{brick, page, wire};
use crate::board::*;

/// The boards by name.
pub const NAMES: [&str; 13] = [
    "aligned-ports",
    "aligned-groups",
    "aligned-levels",
    "one-exec",
    "deep-chips",
    "one-row",
    "one-lane",
    "one-sink",
    "two-sinks",
    "all-corners",
    "bearing",
    "wide-line",
    "many-sinks",
];

/// The board of a name.
pub fn board(name: &str) -> Option<Board> {
    Some(match name {
        "aligned-ports" => aligned_ports(),
        "aligned-groups" => aligned_groups(),
        "aligned-levels" => aligned_levels(),
        "one-exec" => one_exec(),
        "deep-chips" => deep_chips(),
        "one-row" => one_row(),
        "one-lane" => one_lane(),
        "one-sink" => one_sink(),
        "two-sinks" => two_sinks(),
        "all-corners" => all_corners(),
        "bearing" => bearing(),
        "wide-line" => wide_line(),
        "many-sinks" => many_sinks(),
        _ => return None,
    })
}

fn on_one_page(min_y: i32) -> Board {
    let mut board = Board::default();
    board.pages.push(page(min_y, 0));
    board
}

/// A stored value that stands nowhere.
fn storage(id: u32) -> Node {
    let mut n = brick(id, (1, 1), (0, 0), (0, 0));
    n.class = CLASS_STORAGE;
    n.at = None;
    n.row = None;
    n
}

/// The `k`-th of eight ports which a formula of node and port, linear in
/// `factor` and with 8,192 values, puts together for all nodes.
fn aligned_port(node: u32, k: u32, factor: u32) -> u16 {
    let low = (0..8_192)
        .find(|p| (node + p * factor) % 8_192 == 7)
        .expect("the factor is odd");
    (low + 8_192 * k) as u16
}

/// 8,192 target ports, chosen so that a linear formula of node and port has
/// one value for all.
fn aligned_ports() -> Board {
    let mut board = on_one_page(0);
    board.nodes.push(storage(5_000));
    for id in 1..=1_024 {
        let at = (0, 10 * (id as i32 - 1));
        board.nodes.push(brick(id, (5, 1), at, (0, 0)));
    }
    for id in 1..=1_024 {
        for k in 0..8 {
            let target = (id, aligned_port(id, k, 2_053));
            board.wires.push(wire((5_000, 1), target));
        }
    }
    board
}

/// 8,192 groups whose source nodes and ports are chosen in the same way.
fn aligned_groups() -> Board {
    let mut board = on_one_page(0);
    board.nodes.push(brick(2_000, (1, 1), (0, 0), (0, 0)));
    for id in 1..=1_024 {
        let mut n = storage(id);
        n.class = 0;
        board.nodes.push(n);
    }
    for id in 1..=1_024 {
        for k in 0..8 {
            let to = board.wires.len() as u16 + 1;
            let source = (id, aligned_port(id, k, 1_021));
            board.wires.push(wire(source, (2_000, to)));
        }
    }
    board
}

/// Two values read on 4,094 rows, whose x are chosen so that a linear formula
/// of row and level has one value for all.
fn aligned_levels() -> Board {
    let mut board = on_one_page(0);
    for id in 1..=4_094_u32 {
        let x = (16_384 - 613 * (id - 1) % 16_384) as i32;
        let at = (x % 16_384, 20);
        board.nodes.push(brick(id, (1_000, 2), at, (0, id as i32)));
    }
    board.nodes.extend([storage(5_000), storage(5_001)]);
    for id in 1..=4_094 {
        board.wires.push(wire((5_000, 1), (id, 1)));
        board.wires.push(wire((5_001, 1), (id, 2)));
    }
    board
}

/// 4,096 exec inputs of one node, asked for by every wire.
fn one_exec() -> Board {
    let mut board = on_one_page(0);
    board.nodes.push(brick(1, (1, 1), (0, 0), (0, 0)));
    board.nodes.push(brick(2, (1, 1), (0, 10), (0, 0)));
    for k in 0..4_096 {
        let port = 65_535 - k;
        board.execs.push(Port { node: 2, port });
    }
    for k in 1..=8_192 {
        board.wires.push(wire((1, 1), (2, k)));
    }
    board
}

/// Chips 256 deep, all wires between nodes of the innermost, and ids of which
/// 244 at a time agree in their last twelve bits.
fn deep_chips() -> Board {
    let mut board = on_one_page(0);
    let id = |k: u32| k % 244 * 4_096 + 4_095 - k / 244;
    let mut chip = brick(id(0), (4, 4), (0, 0), (0, 0));
    chip.kind = KIND_CHIP;
    board.nodes.push(chip);
    for k in 1..4_096 {
        let at = (8 * (k as i32 % 64), 0);
        board
            .nodes
            .push(brick(id(k), (1, 1), at, (0, k as i32 % 64)));
    }
    board.chips.push(Chip {
        id: id(0),
        parent: None,
    });
    for k in 1..256 {
        board.chips.push(Chip {
            id: id(k),
            parent: Some(id(k - 1)),
        });
    }
    for k in 4_096..8_192 {
        board.inners.push(Inner {
            id: id(k),
            chip: id(255),
            class: 0,
        });
    }
    for k in 0..8_192 {
        let inner = |n: u32| id(4_096 + n % 4_096);
        let target = (inner(k + 1), (1 + k / 4_096) as u16);
        board
            .wires
            .push(wire((inner(0), 1 + (k % 64) as u16), target));
    }
    board
}

/// 4,095 bricks on one row, and 8,192 rerouters beside it, each at a place of
/// its own.
fn one_row() -> Board {
    let mut board = on_one_page(-1_000_000);
    board.nodes.push(storage(900_000));
    for id in 1..=16 {
        let at = (0, -950_000 + 16_384 * (id as i32 - 1));
        board.nodes.push(brick(id, (1_000, 1), at, (0, 0)));
    }
    for id in 17..=4_095 {
        let at = (-900_000 + 4 * id as i32, -999_000);
        board.nodes.push(brick(id, (1, 1), at, (0, 0)));
    }
    for k in 0..8_192 {
        let (id, value) = (1 + k / 512, 1 + (k % 512) as u16);
        board
            .wires
            .push(wire((900_000, value), (id, 1 + (k % 512) as u16)));
    }
    board
}

/// Two values read on 4,094 rows that are wide enough for every stop to have
/// a level, a tap and a link of its own in its lane's column.
fn one_lane() -> Board {
    let mut board = on_one_page(0);
    for id in 1..=4_094 {
        let at = (-8 * id as i32, 20);
        board.nodes.push(brick(id, (40, 2), at, (0, id as i32)));
    }
    board.nodes.extend([storage(5_000), storage(5_001)]);
    for id in 1..=4_094 {
        board.wires.push(wire((5_000, 1), (id, 1)));
        board.wires.push(wire((5_001, 1), (id, 2)));
    }
    board
}

/// A brick of a row on which corners are sought: half sizes swapped.
fn sink(id: u32, half: (i32, i32), at: (i32, i32)) -> Node {
    let mut n = brick(id, half, at, (0, 10));
    n.rotation = 1;
    n.line = Some(1);
    n
}

fn source(id: u32, y: i32) -> Node {
    let mut n = brick(id, (1, 1), (5_000, y), (0, 0));
    n.line = Some(1);
    n
}

/// 8,192 corners sought by one sink with a thousand levels, on a row of 4,032
/// bricks.
fn one_sink() -> Board {
    sinks_in_turn(1)
}

/// The same by two sinks in turn, so that each corner is another sink's than
/// the one before.
fn two_sinks() -> Board {
    sinks_in_turn(2)
}

fn sinks_in_turn(count: u32) -> Board {
    let mut board = on_one_page(-1_000_000);
    for id in 1..=64 {
        board
            .nodes
            .push(source(id, -100_001 + 16_384 * (id as i32 - 1)));
    }
    for id in 65..65 + count {
        let at = (0, -990_260 + 4 * id as i32);
        board.nodes.push(sink(id, (1, 1_000), at));
    }
    for id in 65 + count..=4_096 {
        let at = (-900_000, -990_264 + 4 * id as i32);
        board.nodes.push(sink(id, (1, 1), at));
    }
    for k in 0..8_192 {
        let from = (1 + k % 64, 1 + (k / 64) as u16);
        let to = (65 + k % count, 1 + (k / count) as u16);
        board.wires.push(wire(from, to));
    }
    board
}

/// 8,192 corners sought by 1,024 sinks of one row, each with a thousand
/// levels; every brick of the row bears on all of them.
fn all_corners() -> Board {
    let mut board = on_one_page(-1_000_000);
    for id in 1..=1_024 {
        board.nodes.push(source(id, 400_001));
    }
    for id in 1_025..=4_096 {
        let at = (0, -994_100 + 4 * id as i32);
        board.nodes.push(sink(id, (1, 1_000), at));
    }
    for id in 1..=1_024 {
        for k in 0..8 {
            let from = (id, aligned_port(id, k, 1_021));
            let to = (1_024 + id, aligned_port(1_024 + id, k, 2_053));
            board.wires.push(wire(from, to));
        }
    }
    board
}

/// 8,192 corners sought by one sink from 64 sources, on a row whose 4,031 other
/// bricks all stand across every line that is asked for and cover the first
/// half of its levels.
fn bearing() -> Board {
    let mut board = on_one_page(-1_000_000);
    for id in 1..=64 {
        board.nodes.push(source(id, 30 * id as i32));
    }
    board.nodes.push(sink(100_000, (1, 1_000), (0, -10)));
    for k in 0..4_031 {
        let at = (-1_000 + (k * 7_919) % 997, -20);
        board
            .nodes
            .push(brick(200_000 + k as u32, (500, 1_000), at, (0, 10)));
    }
    for k in 0..8_192 {
        let from = (1 + k % 64, 1 + (k / 64) as u16);
        board.wires.push(wire(from, (100_000, 1 + k as u16)));
    }
    board
}

/// 8,192 corners on one line, sought by 60 sinks side by side in turn.
fn wide_line() -> Board {
    let mut board = on_one_page(-1_000_000);
    board.nodes.push(source(1, 3_000));
    for k in 0..60 {
        let at = (-60_000 + 2_000 * k as i32, -10);
        board.nodes.push(sink(100_000 + k, (1, 1_000), at));
    }
    for k in 0..4_035 {
        let at = (-900_000 + 4 * k as i32, -20);
        board.nodes.push(brick(200_000 + k, (1, 1), at, (0, 10)));
    }
    for k in 0..8_192 {
        let to = (100_000 + (k * 37) % 60, 1 + (k / 60) as u16);
        board.wires.push(wire((1, 1 + k as u16), to));
    }
    board
}

/// 8,192 corners sought by 4,095 sinks of one row, one source for all.
fn many_sinks() -> Board {
    let mut board = on_one_page(-1_000_000);
    board.nodes.push(source(1, 400_001));
    for k in 0..4_095 {
        let at = (0, -990_000 + 4 * k as i32);
        board.nodes.push(sink(100_000 + k, (1, 1_000), at));
    }
    for k in 0..8_192 {
        let to = (100_000 + k % 4_095, 1 + (k / 4_095) as u16);
        board.wires.push(wire((1, 1 + k as u16), to));
    }
    board
}
