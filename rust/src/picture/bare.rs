//! A page as an SVG of its own, which needs no script: every brick and rerouter
//! with its label, a title with words on each thing, a legend below.

use super::layout::{Point, UNIT};
use super::runs::Stub;
use super::scene::Scene;
use super::style;
use super::svg::{self, BrickPaths};
use super::words::{self, Dotted};
use crate::types::{End, Part};
use std::fmt::Write;

pub(super) fn page(scene: &Scene, page: usize) -> String {
    let bounds = &scene.pages[page].bounds;
    let legend = Legend::of(bounds.width);
    let width = bounds.width.max(legend.width());
    let height = bounds.height + legend.height();
    let mut out = String::new();
    let _ = writeln!(
        out,
        "<svg xmlns=\"http://www.w3.org/2000/svg\" viewBox=\"{} {} {width} {height}\">",
        bounds.left, bounds.top
    );
    let _ = writeln!(out, "<title>{}</title>", heading(scene, page));
    let _ = writeln!(out, "<style>\n{}</style>", style::CSS);
    svg::gutter(scene, page, &mut out);
    bricks(scene, page, &mut out);
    directs(scene, page, &mut out);
    svg::runs(scene, page, &mut out, |run, its_wires| {
        format!("<title>{}</title>\n", svg::run_words(scene, run, its_wires))
    });
    svg::ports(scene, page, &mut out);
    numbers(scene, page, &mut out);
    stubs(scene, page, &mut out);
    let below = bounds.top + bounds.height;
    legend.write(&mut out, bounds.left, below, &heading(scene, page));
    out.push_str("</svg>\n");
    out
}

fn heading(scene: &Scene, page: usize) -> String {
    let (bus, on_page) = (scene.bus(page), &scene.pages[page]);
    format!(
        "Page {page}: bricks: {}, rerouters: {}, lanes: {}, band: {}",
        on_page.nodes.len(),
        on_page.rerouters.len(),
        bus.lanes_used,
        bus.band_width
    )
}

fn text(out: &mut String, at: Point, size: i64, words: &str) {
    let Point { right, down } = at;
    let down = down + size / 3;
    let _ = writeln!(
        out,
        "<text class=\"label\" x=\"{right}\" y=\"{down}\" font-size=\"{size}\">{words}</text>"
    );
}

/// The size at which a line of so many letters fits into a width.
fn fitting(letters: usize, width: i64, most: i64) -> i64 {
    (width * 17 / (10 * letters.max(1) as i64)).clamp(2, most)
}

fn bricks(scene: &Scene, page: usize, out: &mut String) {
    for k in &scene.pages[page].nodes {
        let Some(cell) = &scene.layout.cells[*k] else {
            continue;
        };
        let node = &scene.board.nodes[*k];
        let _ = writeln!(out, "<g><title>{}</title>", words::node(node));
        let mut paths = BrickPaths::default();
        paths.add(scene, *k);
        paths.write(out);
        let name = words::kind(node.kind);
        let class = words::class(node.class);
        let lines = [
            node.id.0.to_string(),
            name.to_string(),
            class.trim().to_string(),
        ];
        let count = lines.iter().filter(|line| !line.is_empty()).count() as i64;
        let middle = cell.least.moved(cell.width / 2, cell.height / 2);
        for (i, line) in lines.iter().filter(|line| !line.is_empty()).enumerate() {
            let size = fitting(line.len(), cell.width - 4, cell.height / (count + 1)).min(14);
            let step = cell.height / (count + 1);
            text(
                out,
                middle.moved(0, (2 * i as i64 + 1 - count) * step / 2),
                size,
                line,
            );
        }
        out.push_str("</g>\n");
    }
}

fn directs(scene: &Scene, page: usize, out: &mut String) {
    for k in &scene.pages[page].directs {
        let direct = &scene.directs[*k];
        let ends = &scene.board.wires[direct.wire];
        let (source, target) = (Dotted(ends.source), Dotted(ends.target));
        let unseen = if direct.unseen { " unseen" } else { "" };
        let _ = write!(
            out,
            "<g class=\"direct{unseen}\"><title>wire {}: {source} &gt; {target}, direct</title>",
            direct.wire
        );
        svg::path(out, "", &svg::lines([&direct.piece].into_iter()));
        out.push_str("</g>\n");
    }
}

fn numbers(scene: &Scene, page: usize, out: &mut String) {
    for k in &scene.pages[page].rerouters {
        let rerouter = &scene.plan.nodes[*k];
        let label = k.to_string();
        // A tap has its room to the left, a corner to the lower right.
        let (right, down, width) = match rerouter.part {
            Part::Tap => (-3, 0, 11),
            Part::Corner => (3, 3, 10),
            Part::GateSide => (0, 0, 11),
            _ => (0, 0, 14),
        };
        let size = fitting(label.len(), width, 9);
        text(
            out,
            scene.layout.middle(rerouter).moved(right, down),
            size,
            &label,
        );
    }
}

/// Where a run comes from, or goes to, if that is not on the page.
fn stubs(scene: &Scene, page: usize, out: &mut String) {
    for k in &scene.pages[page].bus_wires {
        let Some(piece) = &scene.runs.pieces[*k] else {
            continue;
        };
        let bus_wire = &scene.plan.wires[*k];
        let (end, at, word) = match piece.stub {
            Some(Stub::From) => (bus_wire.source, piece.points[0].moved(0, -4), "from"),
            Some(Stub::To) => (bus_wire.target, piece.points[1].moved(0, 4), "to"),
            None => continue,
        };
        if let End::Node(port) = end {
            text(out, at, 6, &format!("{word} {}", Dotted(port)));
        }
    }
}

/// What the shapes mean, in a size that fits the page.
struct Legend {
    size: i64,
}

const PARTS: usize = Part::ALL.len();

impl Legend {
    fn of(width: i64) -> Self {
        Self {
            size: (width / 60).clamp(UNIT, 40 * UNIT),
        }
    }

    fn width(&self) -> i64 {
        self.size * 52
    }

    fn height(&self) -> i64 {
        self.size * 10
    }

    fn line(&self, out: &mut String, at: Point, words: &str) {
        let (Point { right, down }, size) = (at, self.size);
        let _ = writeln!(
            out,
            "<text class=\"say\" x=\"{right}\" y=\"{down}\" font-size=\"{size}\">{words}</text>"
        );
    }

    fn write(&self, out: &mut String, left: i64, top: i64, heading: &str) {
        let size = self.size;
        let start = Point {
            right: left + size,
            down: top + size,
        };
        let lines = [
            format!("{heading}. x grows upwards, y to the right."),
            String::new(),
            "Full dot: suppressed port, fed by a run. Ring: other input. Square: output.".into(),
            "Thick outline: storage. Dashed outline: inline-only. Double: Chip. Bar: Input, Output."
                .into(),
            "Arrow head: how a brick is turned, upwards at 0. Slanted line: Event; across: Coerce.".into(),
            "Thin grey: direct wire; dotted where its port is suppressed all the same.".into(),
        ];
        for (k, line) in (0..).zip(lines) {
            self.line(out, start.moved(0, k * 3 * size / 2), &line);
        }
        for (k, part) in Part::ALL.iter().enumerate() {
            let at = start.moved(size * (52 / PARTS * k) as i64, 3 * size / 2);
            let mut data = String::new();
            svg::rerouter_shape(&mut data, *part, Point { right: 0, down: 0 });
            let (right, down) = (at.right + size / 2, at.down - size / 3);
            let _ = writeln!(
                out,
                "<g class=\"run c3\" transform=\"translate({right} {down}) scale({})\">",
                size as f64 / 20.0
            );
            svg::path(out, "brick", &data);
            out.push_str("</g>\n");
            self.line(out, at.moved(3 * size / 2, 0), words::part(*part));
        }
    }
}
