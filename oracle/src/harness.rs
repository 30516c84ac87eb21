//! A board through the Rust original, and its answer as a plan.
//!
//! The fields that document 01 adds are derived from the Rust's answer:
//! README.md says how each is.

use crate::board::{Board, LANE_MOST, Node, Port, Refusal, Wire};
use crate::facts::Facts;
use crate::plan::*;
use original::collections::HashMap;
use original::emit::Placement;
use original::ir::port_registry::WirePort;
use original::ir::{self, GateIO, Module, NodeId, NodeKind, PortRef, PortSpec, Type, gate_class};
use original::layout::code::pages::PageInfo;
use original::layout::code::{self, BUS_BAND_GUTTER, LANE_PITCH, LaidBody, Routed, route};
use original::layout::{BusEnd, BusLayout, BusNode, BusRole, NodeRotation};
use std::sync::Arc;

const KINDS: [NodeKind; 6] = [
    NodeKind::Gate,
    NodeKind::Event,
    NodeKind::Chip,
    NodeKind::Input,
    NodeKind::Output,
    NodeKind::Coerce,
];
const ROTATIONS: [NodeRotation; 4] = [
    NodeRotation::Deg0,
    NodeRotation::Deg90,
    NodeRotation::Deg180,
    NodeRotation::Deg270,
];
/// The gate classes behind each class number; a node's id chooses among them.
const CLASSES: [&[&str]; 3] = [
    &[gate_class::BRANCH, gate_class::MAP_VAR, gate_class::VAR_GET],
    &[
        gate_class::VAR,
        gate_class::ARRAY_VAR,
        gate_class::BUFFER,
        gate_class::BUFFER_TICKS,
    ],
    &[gate_class::LITERAL, gate_class::UNSUPPORTED],
];

fn port_ref(p: Port) -> PortRef {
    PortRef {
        node_id: NodeId(p.node),
        port: WirePort(p.port),
    }
}

fn port_of(p: PortRef) -> Port {
    Port {
        node: p.node_id.0,
        port: p.port.0,
    }
}

fn ir_node(id: u32, kind: u8, class: u8, pin: bool, half: (i32, i32)) -> ir::Node {
    let classes = CLASSES[usize::from(class)];
    ir::Node {
        id: NodeId(id),
        kind: KINDS[usize::from(kind)],
        gate_class: classes[id as usize % classes.len()],
        properties: Arc::default(),
        ports: GateIO::default(),
        source_range: ir::SourceRange::default(),
        note: pin.then_some("boundary_pin"),
        half,
    }
}

/// The module of a board: body nodes, chips in chips, exec inputs, wires.
fn module_of(board: &Board) -> Module {
    let mut module = Module::default();
    for n in &board.nodes {
        let node = ir_node(n.id, n.kind, n.class, n.pin, n.half);
        module.nodes.insert(NodeId(n.id), node);
    }
    for x in &board.execs {
        if let Some(node) = module.nodes.get_mut(&NodeId(x.node)) {
            let name = x.port;
            let ty = Type::Exec;
            node.ports.inputs.push(PortSpec { name, ty });
        }
    }
    for w in &board.wires {
        module.wires.push(ir::Wire {
            source: port_ref(w.source),
            target: port_ref(w.target),
        });
    }
    module.chips = chips_of(board);
    module
}

/// The chip modules, each under its parent. Later chips are closed first: a
/// parent stands on an earlier line.
fn chips_of(board: &Board) -> HashMap<NodeId, Module> {
    let position: HashMap<u32, usize> = (board.chips.iter().enumerate())
        .map(|(i, c)| (c.id, i))
        .collect();
    let mut made: Vec<Module> = board.chips.iter().map(|_| Module::default()).collect();
    for f in &board.inners {
        let node = ir_node(f.id, 0, f.class, false, (1, 1));
        made[position[&f.chip]].nodes.insert(NodeId(f.id), node);
    }
    let mut tops = HashMap::default();
    for (i, chip) in board.chips.iter().enumerate().rev() {
        let child = std::mem::take(&mut made[i]);
        match chip.parent {
            Some(parent) => made[position[&parent]].chips.insert(NodeId(chip.id), child),
            None => tops.insert(NodeId(chip.id), child),
        };
    }
    tops
}

/// The body as the Rust reads it. `z_of` gives each page's z.
fn body_of(board: &Board, z_of: impl Fn(usize) -> i32) -> LaidBody {
    let mut body = LaidBody {
        module: module_of(board),
        ..LaidBody::default()
    };
    for n in &board.nodes {
        let id = NodeId(n.id);
        if let Some((x, y)) = n.at {
            body.placements.insert(id, Placement { x, y, z: 0 });
        }
        if n.rotation != 0 {
            body.rotations
                .insert(id, ROTATIONS[usize::from(n.rotation)]);
        }
        if let Some(row) = n.row {
            body.node_row.insert(id, row);
        }
        if let Some(line) = n.line {
            body.node_line.insert(id, line as usize);
        }
    }
    for (i, page) in board.pages.iter().enumerate() {
        body.page_infos.push(PageInfo {
            min_y: page.min_y.unwrap_or(i32::MAX),
            z: z_of(i),
        });
    }
    body
}

fn lanes_of(band: i32) -> i32 {
    if band == 0 {
        return 0;
    }
    (band - BUS_BAND_GUTTER) / LANE_PITCH
}

/// The body of a board, ready for the Rust: for timing its calls alone.
pub fn prepare(board: &Board) -> LaidBody {
    body_of(board, |page| board.pages[page].z)
}

/// The three calls alone; the count of rerouters keeps them from being idle.
pub fn run_prepared(body: &LaidBody) -> usize {
    route(body, |_| true).bus.nodes.len()
}

/// The lanes and the band of each page, or refusal 8.
fn pages_of(bands: &[i32]) -> Result<Vec<PageAnswer>, Refusal> {
    let answer = |band: &i32| PageAnswer {
        lanes: lanes_of(*band),
        band: *band,
    };
    let pages: Vec<PageAnswer> = bands.iter().map(answer).collect();
    match pages.iter().position(|p| p.lanes > LANE_MOST) {
        Some(page) => Err(Refusal::new(8, page + 1)),
        None => Ok(pages),
    }
}

/// `plan_bus` alone: its page answers, or refusal 8.
pub fn plan_pages(body: &LaidBody) -> Result<Vec<PageAnswer>, Refusal> {
    pages_of(&route(body, |_| false).band_widths)
}

/// The plan of a board, or refusal 8.
///
/// Each page's number is handed to the Rust as that page's z, which it only
/// copies: so a rerouter tells its page. The plan then carries the page's z.
pub fn run_plan(board: &Board) -> Result<Plan, Refusal> {
    let body = body_of(board, |page| page as i32);
    let routed = route(&body, |bands| pages_of(bands).is_ok());
    let pages = pages_of(&routed.band_widths)?;
    Ok(plan_of(board, &body, pages, routed))
}

/// The same with the board's own z: x, y, z, rotation, role and colour of
/// each rerouter, to show that z is copied and nothing else depends on it.
pub fn bare_rerouters(board: &Board) -> Vec<(i32, i32, i32, u8, u8, u32)> {
    let routed = route(&prepare(board), |_| true);
    let bare = |n: &BusNode| {
        let colour = n.color_of.map_or(0, |id| id.0);
        (n.x, n.y, n.z, rotation_of(n), role_of(n), colour)
    };
    routed.bus.nodes.iter().map(bare).collect()
}

/// `lay_mini_bus` alone, on a bus that is handed in. A rerouter beside a row
/// goes in as a brick of that row, of a rerouter's size and without wires: the
/// original keeps the cells of a row to itself, and takes them from its bricks.
pub fn turn(board: &Board, handed: &Handed) -> Vec<Corner> {
    const FIRST_ID: u32 = 2_000_000;
    let downs = Facts::new(board).downs;
    let mut with_bricks = board.clone();
    for (i, b) in handed.beside.iter().enumerate() {
        // Beside a row that no page has there is nothing to meet.
        let down = downs.get(b.page).and_then(|d| d.get(b.row));
        with_bricks.nodes.extend(down.map(|down| Node {
            id: FIRST_ID + i as u32,
            kind: 0,
            class: 0,
            pin: false,
            half: (1, 1),
            rotation: 0,
            at: Some((b.x, b.y)),
            row: Some((b.page, *down)),
            line: None,
        }));
    }
    let body = body_of(&with_bricks, |page| page as i32);
    let mut bus = BusLayout::default();
    let suppressed = handed.suppressed.iter().map(|p| port_ref(*p));
    bus.suppressed
        .extend(suppressed.map(|p| (p.node_id, p.port)));
    code::turn(&body, &mut bus);
    let feeders = feeders(&bus);
    (0..bus.nodes.len())
        .map(|id| corner_of(board, &bus, id, &feeders))
        .collect()
}

/// Corner `id`, whose two bus wires stand at its place. Of equal wires the
/// first turns: its port is suppressed then, and where it finds no level they
/// find none.
fn corner_of(board: &Board, bus: &BusLayout, id: usize, feeders: &[Option<BusEnd>]) -> Corner {
    let n = &bus.nodes[id];
    let page = n.z as usize;
    let ends = [&bus.wires[2 * id], &bus.wires[2 * id + 1]].map(|w| (w.source, w.target));
    let here = BusEnd::Bus(id);
    let turns = |w: &Wire| {
        let [source, target] = [w.source, w.target].map(|p| BusEnd::Node(port_ref(p)));
        ends == [(source, here), (here, target)]
    };
    Corner {
        brick: Rerouter {
            x: n.x,
            y: n.y,
            z: board.pages[page].z,
            rotation: rotation_of(n),
            role: role_of(n),
            part: PART_CORNER,
            colour: n.color_of.map_or(0, |c| c.0),
            page,
            lane: None,
            depth: way_back(feeders, here).1,
        },
        // No such wire would be a fault of the original: let it show.
        wire: board.wires.iter().position(turns).unwrap_or(usize::MAX),
    }
}

fn rotation_of(n: &BusNode) -> u8 {
    ROTATIONS.iter().position(|r| *r == n.rotation).unwrap_or(0) as u8
}

fn role_of(n: &BusNode) -> u8 {
    match n.role {
        BusRole::Gutter => 0,
        BusRole::Line => 1,
        BusRole::Source => 2,
    }
}

/// What arrives at each rerouter.
fn feeders(bus: &BusLayout) -> Vec<Option<BusEnd>> {
    let mut feeders = vec![None; bus.nodes.len()];
    for w in &bus.wires {
        if let BusEnd::Bus(id) = w.target {
            feeders[id] = Some(w.source);
        }
    }
    feeders
}

/// Which part each rerouter is, from its role, rotation, feeder and place.
fn part_of(bus: &BusLayout, body: &LaidBody, id: usize, feeder: Option<BusEnd>) -> u8 {
    let n = &bus.nodes[id];
    let turned = |r: NodeRotation| matches!(r, NodeRotation::Deg90 | NodeRotation::Deg270);
    match (n.role, feeder) {
        (BusRole::Source, _) => PART_SOURCE,
        (BusRole::Line, _) => PART_CORNER,
        (BusRole::Gutter, Some(BusEnd::Bus(f))) if turned(n.rotation) => match bus.nodes[f].role {
            BusRole::Source => PART_HEAD,
            _ => PART_LINK,
        },
        // A chain brick fed by a port is the head where it stands level with
        // its placed source: had the head lost that cell, so had a link.
        (BusRole::Gutter, _) if turned(n.rotation) => {
            let anchor = n.color_of.and_then(|c| body.placements.get(&c));
            match anchor {
                Some(p) if p.x == n.x => PART_HEAD,
                _ => PART_LINK,
            }
        }
        (BusRole::Gutter, Some(BusEnd::Bus(f))) if !turned(bus.nodes[f].rotation) => PART_GATE_SIDE,
        (BusRole::Gutter, _) => PART_TAP,
    }
}

fn plan_of(board: &Board, body: &LaidBody, pages: Vec<PageAnswer>, routed: Routed) -> Plan {
    let bus = &routed.bus;
    let feeders = feeders(bus);
    let mut plan = Plan {
        pages,
        ..Plan::default()
    };
    for (id, n) in bus.nodes.iter().enumerate() {
        let part = part_of(bus, body, id, feeders[id]);
        let page = n.z as usize;
        // R2 turned round: the lane that has this y.
        let in_lane = matches!(part, PART_HEAD | PART_LINK | PART_TAP);
        let offset = || body.page_infos[page].min_y - BUS_BAND_GUTTER - n.y;
        let lane = in_lane.then(|| plan.pages[page].lanes - offset() / LANE_PITCH);
        plan.rerouters.push(Rerouter {
            x: n.x,
            y: n.y,
            z: board.pages[page].z,
            rotation: rotation_of(n),
            role: role_of(n),
            part,
            colour: n.color_of.map_or(0, |c| c.0),
            page,
            lane,
            depth: way_back(&feeders, BusEnd::Bus(id)).1,
        });
    }
    plan.bus_wires = bus_wires_of(board, bus, &feeders);
    plan.suppressed = (bus.suppressed.iter())
        .map(|(node, port)| Port {
            node: node.0,
            port: port.0,
        })
        .collect();
    plan.suppressed.sort_unstable();
    let deliveries = (plan.bus_wires.iter())
        .filter(|b| b.delivery.is_some())
        .count();
    plan.totals = [
        plan.rerouters.len(),
        plan.bus_wires.len(),
        deliveries,
        board.wires.len().saturating_sub(deliveries),
        routed.laid,
    ];
    plan
}

/// The bus wires, each delivery with its wire and distance. Equal wires are
/// delivered in wire order, so the k-th delivery between two ports is the
/// k-th wire between them.
fn bus_wires_of(board: &Board, bus: &BusLayout, feeders: &[Option<BusEnd>]) -> Vec<BusWire> {
    let mut equal: HashMap<(Port, Port), Vec<usize>> = HashMap::default();
    for (i, w) in board.wires.iter().enumerate().rev() {
        equal.entry((w.source, w.target)).or_default().push(i);
    }
    let end_of = |e: BusEnd| match e {
        BusEnd::Bus(id) => End::Bus(id),
        BusEnd::Node(p) => End::Port(port_of(p)),
    };
    let mut out = Vec::with_capacity(bus.wires.len());
    for w in &bus.wires {
        let delivery = match w.target {
            BusEnd::Bus(_) => None,
            BusEnd::Node(target) => {
                let (source, distance) = way_back(feeders, w.source);
                let wires = equal.get_mut(&(source, port_of(target)));
                let wire = wires.and_then(Vec::pop);
                // No such wire would be a fault of the original: let it show.
                Some((wire.unwrap_or(usize::MAX), distance))
            }
        };
        out.push(BusWire {
            from: end_of(w.source),
            to: end_of(w.target),
            delivery,
        });
    }
    out
}

/// The port at the end of the way back, and the rerouters passed: a delivery's
/// distance, and from a rerouter its depth.
fn way_back(feeders: &[Option<BusEnd>], from: BusEnd) -> (Port, usize) {
    let mut at = from;
    let mut distance = 0;
    while let BusEnd::Bus(id) = at {
        distance += 1;
        at = feeders[id].expect("every rerouter is fed");
    }
    match at {
        BusEnd::Node(p) => (port_of(p), distance),
        BusEnd::Bus(_) => unreachable!("the walk ends at a port"),
    }
}
