//! The numbers of a board, its plan and its picture, for the script.

use super::layout::UNIT;
use super::scene::Scene;
use super::svg::part_shape;
use crate::types::{End, Part};
use std::fmt::Write;

/// Writes `const DATA = {..};`, lists of numbers alone. `null` is a number that
/// is missing. The script names the fields in the same order.
pub(super) fn write(out: &mut String, scene: &Scene) {
    out.push_str("const DATA = {\n");
    let _ = writeln!(out, "unit:{UNIT},");
    shapes(out);
    pages(out, scene);
    nodes(out, scene);
    rest_of_board(out, scene);
    plan(out, scene);
    places(out, scene);
    out.push_str("};\n");
}

/// A list under a name.
struct List<'o>(&'o mut String);

impl<'o> List<'o> {
    fn new(out: &'o mut String, name: &str) -> Self {
        let _ = write!(out, "{name}:[");
        Self(out)
    }

    fn put(&mut self, numbers: &[i64]) {
        for number in numbers {
            let _ = write!(self.0, "{number},");
        }
    }

    fn maybe(&mut self, number: Option<impl Into<i64>>) {
        match number {
            Some(number) => self.put(&[number.into()]),
            None => self.0.push_str("null,"),
        }
    }

    fn end(self) {
        self.0.push_str("],\n");
    }
}

fn shapes(out: &mut String) {
    out.push_str("shapes:{");
    for part in Part::ALL {
        let (right, down, rest) = part_shape(*part);
        let _ = write!(out, "{}:[{right},{down},\"{rest}\"],", part.number());
    }
    out.push_str("},\n");
}

fn pages(out: &mut String, scene: &Scene) {
    let mut list = List::new(out, "pages");
    for (page, on_page) in scene.pages.iter().enumerate() {
        let (bus, bounds) = (scene.bus(page), &on_page.bounds);
        list.put(&[bus.lanes_used as i64, i64::from(bus.band_width)]);
        list.put(&[bounds.left, bounds.top, bounds.width, bounds.height]);
        let origin = scene.layout.origins[page];
        list.put(&[origin.x, origin.y]);
        list.maybe(scene.band(page).map(|(from, _)| from));
    }
    list.end();
}

fn nodes(out: &mut String, scene: &Scene) {
    let mut list = List::new(out, "nodes");
    for (n, cell) in scene.board.nodes.iter().zip(&scene.layout.cells) {
        let [kind, class] = [n.kind.number(), n.class.number()].map(i64::from);
        let turn = i64::from(n.rotation.number());
        list.put(&[i64::from(n.id.0), kind, class, i64::from(n.pin), turn]);
        list.maybe(n.at.map(|at| at.0));
        list.maybe(n.at.map(|at| at.1));
        list.maybe(n.row.map(|row| row.1));
        list.maybe(n.line);
        match cell {
            Some(c) => list.put(&[
                c.page as i64,
                c.least.right,
                c.least.down,
                c.width,
                c.height,
            ]),
            None => list.put(&[-1, 0, 0, 0, 0]),
        }
    }
    list.end();
}

fn rest_of_board(out: &mut String, scene: &Scene) {
    let board = scene.board;
    let mut list = List::new(out, "inner");
    for f in &board.inner {
        let [id, chip, class] = [f.id.0, f.chip.0, f.class.number()].map(i64::from);
        let anchor = scene.layout.anchor(f.id).map_or(-1, |k| k as i64);
        list.put(&[id, chip, class, anchor]);
    }
    list.end();
    let mut list = List::new(out, "execs");
    for x in &board.execs {
        list.put(&[i64::from(x.node_id.0), i64::from(x.port.0)]);
    }
    list.end();
    let mut list = List::new(out, "wires");
    for w in &board.wires {
        for end in [w.source, w.target] {
            list.put(&[i64::from(end.node_id.0), i64::from(end.port.0)]);
        }
    }
    list.end();
}

fn plan(out: &mut String, scene: &Scene) {
    let mut list = List::new(out, "rerouters");
    for (r, run) in scene.plan.nodes.iter().zip(&scene.runs.of_rerouter) {
        let [turn, part] = [r.rotation.number(), r.part.number()].map(i64::from);
        let colour = r.color_of.map_or(-1, |id| i64::from(id.0));
        let lane = r.lane.map_or(-1, |lane| lane as i64);
        let run = run.map_or(-1, |run| run as i64);
        list.put(&[i64::from(r.x), i64::from(r.y), turn, part, colour]);
        list.put(&[r.page as i64, lane, i64::from(r.depth), run]);
    }
    list.end();
    let mut list = List::new(out, "runs");
    for run in &scene.runs.runs {
        list.put(&[run.style as i64]);
    }
    list.end();
    let mut list = List::new(out, "buses");
    for (b, piece) in scene.plan.wires.iter().zip(&scene.runs.pieces) {
        for end in [b.source, b.target] {
            match end {
                End::Bus(number) => list.put(&[number as i64, -1]),
                End::Node(port) => list.put(&[i64::from(port.node_id.0), i64::from(port.port.0)]),
            }
        }
        let delivery = b.delivery.map(|d| [d.wire as i64, d.distance as i64]);
        list.put(&delivery.unwrap_or([-1, -1]));
        match piece {
            Some(p) => {
                list.put(&[p.page as i64]);
                // Always four points, the first again and again if there are fewer.
                for k in (0..4).rev() {
                    let at = p.points[(p.points.len() - 1).saturating_sub(k)];
                    list.put(&[at.right, at.down]);
                }
            }
            None => list.put(&[-1, 0, 0, 0, 0, 0, 0, 0, 0]),
        }
    }
    list.end();
}

fn places(out: &mut String, scene: &Scene) {
    let mut list = List::new(out, "ports");
    for p in &scene.layout.ports {
        let [node, port] = [p.port.node_id.0, u32::from(p.port.port.0)].map(i64::from);
        list.put(&[node, port, i64::from(p.out), i64::from(p.suppressed)]);
        list.put(&[p.page as i64, p.at.right, p.at.down]);
    }
    list.end();
    let mut list = List::new(out, "directs");
    for d in &scene.directs {
        let (from, to) = (d.piece.points[0], d.piece.points[1]);
        list.put(&[d.wire as i64, i64::from(d.unseen), d.piece.page as i64]);
        list.put(&[from.right, from.down, to.right, to.down]);
    }
    list.end();
}
