//! Wires and exec inputs.

use super::mood::Mood;
use crate::board::*;
use crate::rng::Rng;

const HUB: usize = 0;
const CORNER: usize = 2;
const EQUAL: usize = 3;
const SAME_TARGET: usize = 4;
const SAME_SOURCE: usize = 5;
const NO_NODE: usize = 6;

fn port(rng: &mut Rng, mood: &Mood) -> u16 {
    match rng.below(60) {
        0 => 0,
        1 => 65_535,
        _ => 1 + rng.below(mood.ports) as u16,
    }
}

/// Any node, seldom one inside a chip.
fn any_end(rng: &mut Rng, mood: &Mood, board: &Board) -> Port {
    let inner = !board.inners.is_empty() && rng.chance(20);
    let node = if inner {
        board.inners[rng.below(board.inners.len())].id
    } else {
        board.nodes[rng.below(board.nodes.len())].id
    };
    let port = port(rng, mood);
    Port { node, port }
}

/// A source of many wires: more often one that earns a lane and has no row.
fn hub(rng: &mut Rng, mood: &Mood, board: &Board) -> Port {
    let any = any_end(rng, mood, board);
    for _ in 0..6 {
        let n = &board.nodes[rng.below(board.nodes.len())];
        if n.row.is_none() && crate::facts::worthy(n) && rng.chance(60) {
            let port = any.port;
            return Port { node: n.id, port };
        }
    }
    any
}

/// Any node, seldom that of `other`.
fn another_end(rng: &mut Rng, mood: &Mood, board: &Board, other: Port) -> Port {
    let mut end = any_end(rng, mood, board);
    for _ in 0..3 {
        if end.node == other.node && !rng.chance(5) {
            end = any_end(rng, mood, board);
        }
    }
    end
}

/// A source that may turn a corner into `sink`, if a few tries find one.
fn corner_source<'a>(rng: &mut Rng, board: &'a Board, sink: &Node) -> Option<&'a Node> {
    let (page, down) = sink.row?;
    let (_, y) = sink.at?;
    for _ in 0..20 {
        let n = &board.nodes[rng.below(board.nodes.len())];
        let above = n.row.is_some_and(|(p, d)| p == page && d < down);
        let right = n.at.is_some_and(|(_, ny)| ny > y);
        let fits = n.class != CLASS_INLINE_ONLY && n.line == sink.line;
        // Now and then one that just fails.
        if (above && right && fits) || rng.below(60) == 0 {
            return Some(n);
        }
    }
    None
}

fn corner_wire(rng: &mut Rng, mood: &Mood, board: &Board) -> Option<Wire> {
    for _ in 0..12 {
        let sink = &board.nodes[rng.below(board.nodes.len())];
        let good = sink.rotation == 1 && sink.line.is_some() && sink.class != CLASS_INLINE_ONLY;
        if !good && rng.below(40) != 0 {
            continue;
        }
        if let Some(source) = corner_source(rng, board, sink) {
            let source = Port {
                node: source.id,
                port: port(rng, mood),
            };
            let target = Port {
                node: sink.id,
                port: port(rng, mood),
            };
            return Some(Wire { source, target });
        }
    }
    None
}

pub fn wires(rng: &mut Rng, mood: &Mood, board: &mut Board) {
    if board.nodes.is_empty() {
        return;
    }
    let hubs: Vec<Port> = (0..mood.hubs).map(|_| hub(rng, mood, board)).collect();
    for _ in 0..mood.counts[5] {
        let source = any_end(rng, mood, board);
        let target = another_end(rng, mood, board, source);
        let hub = rng.pick(&hubs);
        let earlier = match board.wires.len() {
            0 => Wire { source, target },
            n => board.wires[rng.below(n)],
        };
        let wire = match rng.weighted(&mood.ways) {
            HUB => Wire {
                source: hub,
                target: another_end(rng, mood, board, hub),
            },
            CORNER => corner_wire(rng, mood, board).unwrap_or(Wire { source, target }),
            EQUAL => earlier,
            SAME_TARGET => Wire {
                source,
                target: earlier.target,
            },
            SAME_SOURCE => Wire {
                source: earlier.source,
                target,
            },
            NO_NODE => nowhere(rng, Wire { source, target }),
            _ => Wire { source, target },
        };
        board.wires.push(wire);
    }
}

/// One end moved to an id that most likely no node has.
fn nowhere(rng: &mut Rng, mut wire: Wire) -> Wire {
    let node = rng.pick(&[0, 999_999, 1_000_000, 77]);
    if rng.chance(50) {
        wire.source.node = node;
    } else {
        wire.target.node = node;
    }
    wire
}

pub fn execs(rng: &mut Rng, mood: &Mood, board: &mut Board) {
    if board.nodes.is_empty() {
        return;
    }
    for _ in 0..mood.counts[4] {
        let of_wire = !board.wires.is_empty() && rng.chance(70);
        let exec = if of_wire {
            board.wires[rng.below(board.wires.len())].target
        } else {
            any_end(rng, mood, board)
        };
        board.execs.push(exec);
    }
}
