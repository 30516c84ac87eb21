//! The shapes of a page as SVG.
//!
//! Inside an HTML file the shapes of a run, of the bricks of a class and of all
//! direct wires are one path each, so that a browser has few elements to keep;
//! the script there adds labels and says what is pointed at. A bare SVG has an
//! element for each, with its number and its words.

use super::layout::{Cell, Point, UNIT};
use super::runs::Piece;
use super::scene::Scene;
use super::style;
use super::words::{self, Dotted};
use crate::types::{Class, End, Kind, Part, Rotation};
use std::fmt::Write;

/// The shapes of a page, from the back to the front.
pub(super) fn shapes(scene: &Scene, page: usize) -> String {
    let mut out = String::new();
    gutter(scene, page, &mut out);
    let on_page = &scene.pages[page];
    let mut paths = BrickPaths::default();
    for k in &on_page.nodes {
        paths.add(scene, *k);
    }
    paths.write(&mut out);
    for unseen in [false, true] {
        let directs = on_page.directs.iter().map(|k| &scene.directs[*k]);
        let pieces = directs.filter(|d| d.unseen == unseen).map(|d| &d.piece);
        let class = if unseen { "direct unseen" } else { "direct" };
        path(&mut out, class, &lines(pieces));
    }
    runs(scene, page, &mut out, |_, _| String::new());
    ports(scene, page, &mut out);
    out
}

/// A path element, where there is anything to draw.
pub(super) fn path(out: &mut String, class: &str, data: &str) {
    if data.is_empty() {
        return;
    }
    let _ = match class {
        "" => writeln!(out, "<path d=\"{data}\"/>"),
        class => writeln!(out, "<path class=\"{class}\" d=\"{data}\"/>"),
    };
}

/// Lines one after the other.
pub(super) fn lines<'p>(pieces: impl Iterator<Item = &'p Piece>) -> String {
    let mut data = String::new();
    let mut at: Option<Point> = None;
    for piece in pieces {
        for (k, to) in piece.points.iter().enumerate() {
            let first = k == 0;
            let _ = match at {
                Some(from) if from == *to => Ok(()),
                // A piece that does not go on from the last one.
                _ if first => write!(data, "M{} {}", to.right, to.down),
                Some(from) if from.right == to.right => write!(data, "V{}", to.down),
                Some(from) if from.down == to.down => write!(data, "H{}", to.right),
                _ => write!(data, "L{} {}", to.right, to.down),
            };
            at = Some(*to);
        }
    }
    data
}

/// The band, its lanes in stripes, and the lanes' numbers above.
pub(super) fn gutter(scene: &Scene, page: usize, out: &mut String) {
    let Some((from, to)) = scene.band(page) else {
        return;
    };
    let bounds = &scene.pages[page].bounds;
    let (top, height) = (bounds.top + UNIT, bounds.height - 2 * UNIT);
    let width = to - from;
    let _ = writeln!(
        out,
        "<rect class=\"gutter\" x=\"{from}\" y=\"{top}\" width=\"{width}\" height=\"{height}\"/>"
    );
    let lanes = scene.bus(page).lanes_used as i64;
    // Every second one: two lanes side by side differ.
    let mut stripes = String::new();
    for lane in (0..lanes).step_by(2) {
        let left = from + 2 * UNIT * lane;
        let _ = write!(
            stripes,
            "M{left} {top}h{}v{height}h-{}z",
            2 * UNIT,
            2 * UNIT
        );
    }
    path(out, "lane", &stripes);
    for lane in 0..lanes {
        let at = from + 2 * UNIT * lane + UNIT;
        let _ = writeln!(
            out,
            "<text class=\"name\" x=\"{at}\" y=\"{}\" font-size=\"9\">{lane}</text>",
            top - 3
        );
    }
}

/// The outlines of bricks by class, and their marks.
#[derive(Default)]
pub(super) struct BrickPaths {
    classes: [String; 3],
    marks: String,
    turns: String,
}

impl BrickPaths {
    pub fn add(&mut self, scene: &Scene, number: usize) {
        let Some(cell) = &scene.layout.cells[number] else {
            return;
        };
        let node = &scene.board.nodes[number];
        let class = match node.class {
            Class::Other => 0,
            Class::Storage => 1,
            Class::InlineOnly => 2,
        };
        rectangle(&mut self.classes[class], cell, 0);
        mark(&mut self.marks, node.kind, cell);
        if node.pin {
            let at = cell.least.moved(cell.width - 4, 4);
            circle(&mut self.marks, at, 2);
        }
        turn(&mut self.turns, node.rotation, cell);
    }

    pub fn write(&self, out: &mut String) {
        for (class, data) in ["b0", "b1", "b2"].iter().zip(&self.classes) {
            path(out, class, data);
        }
        path(out, "more", &self.marks);
        path(out, "turn", &self.turns);
    }
}

fn rectangle(data: &mut String, cell: &Cell, inset: i64) {
    let at = cell.least.moved(inset, inset);
    let (width, height) = (cell.width - 2 * inset, cell.height - 2 * inset);
    let _ = write!(data, "M{} {}h{width}v{height}h-{width}z", at.right, at.down);
}

fn circle(data: &mut String, at: Point, r: i64) {
    let (left, d) = (at.right - r, 2 * r);
    let _ = write!(
        data,
        "M{left} {}a{r} {r} 0 1 0 {d} 0a{r} {r} 0 1 0-{d} 0z",
        at.down
    );
}

/// What tells the kinds apart besides their names.
fn mark(data: &mut String, kind: Kind, cell: &Cell) {
    let Point { right, down } = cell.least;
    let (width, height) = (cell.width, cell.height);
    let _ = match kind {
        Kind::Gate => Ok(()),
        Kind::Chip => {
            rectangle(data, cell, 2);
            Ok(())
        }
        // A bar on the side that the value comes from, or goes to.
        Kind::Input => write!(data, "M{} {down}v{height}", right + 3),
        Kind::Output => write!(data, "M{} {down}v{height}", right + width - 3),
        Kind::Event => write!(data, "M{right} {}l6-6", down + 6),
        Kind::Coerce => write!(data, "M{right} {}l{width}-{height}", down + height),
    };
}

/// A small arrow head in the upper left, upwards at 0 and a quarter further to
/// the right for each turn.
fn turn(data: &mut String, rotation: Rotation, cell: &Cell) {
    let at = cell.least.moved(5, 5);
    let _ = match rotation {
        Rotation::Deg0 => write!(data, "M{} {}l2 4h-4z", at.right, at.down - 2),
        Rotation::Deg90 => write!(data, "M{} {}l-4 2v-4z", at.right + 2, at.down),
        Rotation::Deg180 => write!(data, "M{} {}l-2-4h4z", at.right, at.down + 2),
        Rotation::Deg270 => write!(data, "M{} {}l4-2v4z", at.right - 2, at.down),
    };
}

/// Each run of a page: a white edge, so that crossings show which is above,
/// and its line; then the rerouters of all runs, so that no line hides one.
/// `more` adds to a run's elements.
pub(super) fn runs(
    scene: &Scene,
    page: usize,
    out: &mut String,
    more: impl Fn(usize, &[usize]) -> String,
) {
    let run_of = |k: usize| scene.runs.of_bus_wire(&scene.plan.wires[k]);
    let bus_wires = &scene.pages[page].bus_wires;
    let mut bricks = String::new();
    for its_wires in bus_wires.chunk_by(|a, b| run_of(*a) == run_of(*b)) {
        let Some(run) = run_of(its_wires[0]) else {
            continue;
        };
        let class = style::class(scene.runs.runs[run].style);
        let pieces = its_wires.iter().map(|k| &scene.runs.pieces[*k]);
        let data = lines(pieces.flatten());
        let start = format!("<g class=\"run {class}\">{}", more(run, its_wires));
        out.push_str(&start);
        path(out, "edge", &data);
        path(out, "line", &data);
        out.push_str("</g>\n");
        bricks.push_str(&start);
        path(&mut bricks, "brick", &its_bricks(scene, its_wires));
        bricks.push_str("</g>\n");
    }
    out.push_str(&bricks);
}

/// The rerouters that some bus wires feed.
fn its_bricks(scene: &Scene, bus_wires: &[usize]) -> String {
    let mut data = String::new();
    for k in bus_wires {
        if let End::Bus(number) = scene.plan.wires[*k].target
            && let Some(rerouter) = scene.plan.nodes.get(number)
        {
            rerouter_shape(&mut data, rerouter.part, scene.layout.middle(rerouter));
        }
    }
    data
}

/// A shape for each part, inside the rerouter's two units: where it starts,
/// from the rerouter's middle, and how it goes on.
pub(super) fn part_shape(part: Part) -> (i64, i64, &'static str) {
    match part {
        Part::Source => (-8, 0, "a8 8 0 1 0 16 0a8 8 0 1 0-16 0z"),
        Part::Head => (-9, 0, "l4-8h10l4 8l-4 8h-10z"),
        Part::Link => (-8, -8, "h16v16h-16z"),
        Part::Tap => (-8, -9, "l18 9l-18 9z"),
        Part::GateSide => (0, -9, "l9 9l-9 9l-9-9z"),
        Part::Corner => (8, -9, "v17h-17z"),
    }
}

pub(super) fn rerouter_shape(data: &mut String, part: Part, at: Point) {
    let (right, down, rest) = part_shape(part);
    let Point { right, down } = at.moved(right, down);
    let _ = write!(data, "M{right} {down}{rest}");
}

/// Inputs as rings, suppressed ones as full dots, outputs as squares.
pub(super) fn ports(scene: &Scene, page: usize, out: &mut String) {
    let [mut outputs, mut open, mut off] = [const { String::new() }; 3];
    for k in &scene.pages[page].ports {
        let port = &scene.layout.ports[*k];
        match (port.out, port.suppressed) {
            (true, _) => {
                let Point { right, down } = port.at;
                let _ = write!(outputs, "M{} {}h4v4h-4z", right - 2, down - 2);
            }
            (false, false) => circle(&mut open, port.at, 2),
            (false, true) => circle(&mut off, port.at, 2),
        }
    }
    path(out, "out", &outputs);
    path(out, "in", &open);
    path(out, "off", &off);
}

/// The words of a run.
pub(super) fn run_words(scene: &Scene, run: usize, its_wires: &[usize]) -> String {
    let wires = its_wires.iter().map(|k| &scene.plan.wires[*k]);
    let rerouters = wires.clone().filter_map(|b| match b.target {
        End::Bus(number) => Some(number),
        End::Node(_) => None,
    });
    let delivered = wires.filter_map(|b| b.delivery);
    format!(
        "run of {}: wires {}; rerouters {}; bus wires {}",
        Dotted(scene.runs.runs[run].source),
        words::list(delivered.map(|d| d.wire)),
        words::list(rerouters),
        words::list(its_wires)
    )
}
