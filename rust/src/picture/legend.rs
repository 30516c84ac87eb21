//! What the shapes of a picture mean.

use super::layout::Point;
use super::svg;
use super::words;
use crate::types::Part;
use std::fmt::Write;

const BRICK: &str = "M-9-7h18v14h-18z";

/// A shape's classes and paths, and the words for it. An empty path stands for
/// a brick's outline.
type Sample = (&'static [(&'static str, &'static str)], &'static str);

const SAMPLES: [Sample; 14] = [
    (&[("b1", "")], "storage"),
    (&[("b2", "")], "inline-only"),
    (&[("b0", ""), ("more", "M-7-5h14v10h-14z")], "Chip"),
    (&[("b0", ""), ("more", "M-6-7v14")], "Input"),
    (&[("b0", ""), ("more", "M6-7v14")], "Output"),
    (&[("b0", ""), ("more", "M-9-1l6-6")], "Event"),
    (&[("b0", ""), ("more", "M-9 7l18-14")], "Coerce"),
    (
        &[("b0", ""), ("turn", "M0-4l4 8h-8z")],
        "turned 0\u{b0}; to the right: 90\u{b0}",
    ),
    (
        &[("b0", ""), ("more", "M3-3a2 2 0 1 0 4 0a2 2 0 1 0-4 0z")],
        "pin",
    ),
    (
        &[("off", "M-4 0a4 4 0 1 0 8 0a4 4 0 1 0-8 0z")],
        "suppressed port: a run delivers",
    ),
    (
        &[("in", "M-4 0a4 4 0 1 0 8 0a4 4 0 1 0-8 0z")],
        "other input",
    ),
    (&[("out", "M-4-4h8v8h-8z")], "output"),
    (&[("direct", "M-9 0h18")], "direct wire"),
    (
        &[("direct unseen", "M-9 0h18")],
        "direct, and its port is suppressed: not drawn on the board",
    ),
];

const INTRO: &str = "<section><h2>What is what</h2>\n<p>x grows upwards, y to the right; the \
    gutter, left of the bricks, has its lanes in stripes. A run has one colour and dashing for \
    each source port.</p>\n<ul class=\"legend\">\n";

const OUTRO: &str = "</ul><p>A port's place on its brick is chosen here: inputs left, those fed \
    by a corner right, outputs below. A short loose end goes on at another page, or at a node \
    without a place.</p></section>\n";

pub(super) fn write(out: &mut String) {
    out.push_str(INTRO);
    for part in Part::ALL {
        let mut data = String::new();
        svg::rerouter_shape(&mut data, *part, Point { right: 0, down: 0 });
        let shape = format!("<g class=\"run c3\"><path class=\"brick\" d=\"{data}\"/></g>");
        item(out, &shape, words::part(*part));
    }
    for (paths, said) in SAMPLES {
        let mut shape = String::new();
        for (class, data) in paths {
            let data = if data.is_empty() { BRICK } else { data };
            let _ = write!(shape, "<path class=\"{class}\" d=\"{data}\"/>");
        }
        item(out, &shape, said);
    }
    out.push_str(OUTRO);
}

fn item(out: &mut String, shape: &str, said: &str) {
    let _ = writeln!(
        out,
        "<li><svg class=\"icon\" viewBox=\"-10 -10 20 20\">{shape}</svg> {said}</li>"
    );
}
