//! A picture of times over wires.

use std::fmt::Write;

/// A line of the picture: wires and milliseconds.
pub struct Line {
    pub name: String,
    pub points: Vec<(f64, f64)>,
}

const WIDTH: f64 = 720.0;
const HEIGHT: f64 = 440.0;
/// Left, right, above and below the plot.
const EDGE: [f64; 4] = [70.0, 30.0, 30.0, 60.0];
const COLOURS: [&str; 4] = ["#1b6ca8", "#a83232", "#2f8f4e", "#7a4fa3"];

/// Both axes by powers of two and ten, so that growth in proportion is a
/// straight line.
pub fn growth(lines: &[Line]) -> String {
    let all = || lines.iter().flat_map(|l| &l.points);
    let (least, most) = (bounds(all().map(|p| p.0)), bounds(all().map(|p| p.1)));
    let low = 10f64.powf(most.0.log10().floor());
    let high = 10f64.powf(most.1.log10().ceil());
    let x = |wires: f64| place(wires, least) * (WIDTH - EDGE[0] - EDGE[1]) + EDGE[0];
    let y = |time: f64| HEIGHT - EDGE[3] - place(time, (low, high)) * (HEIGHT - EDGE[2] - EDGE[3]);
    let mut out = format!(
        "<svg xmlns=\"http://www.w3.org/2000/svg\" viewBox=\"0 0 {WIDTH} {HEIGHT}\" font-family=\"sans-serif\" font-size=\"12\">\n<rect width=\"{WIDTH}\" height=\"{HEIGHT}\" fill=\"white\"/>\n"
    );
    let mut tick = low;
    while tick <= high * 1.01 {
        let _ = writeln!(
            out,
            "<line x1=\"{}\" x2=\"{}\" y1=\"{3:.1}\" y2=\"{3:.1}\" stroke=\"#ddd\"/><text x=\"{2}\" y=\"{4:.1}\" text-anchor=\"end\">{tick} ms</text>",
            EDGE[0],
            WIDTH - EDGE[1],
            EDGE[0] - 8.0,
            y(tick),
            y(tick) + 4.0
        );
        tick *= 10.0;
    }
    if let Some(line) = lines.first() {
        for (wires, _) in &line.points {
            let _ = writeln!(
                out,
                "<text x=\"{:.1}\" y=\"{}\" text-anchor=\"middle\">{wires}</text>",
                x(*wires),
                HEIGHT - EDGE[3] + 18.0
            );
        }
    }
    for (k, line) in lines.iter().enumerate() {
        let colour = COLOURS[k % COLOURS.len()];
        let spots: Vec<String> = (line.points.iter())
            .map(|p| format!("{:.1},{:.1}", x(p.0), y(p.1)))
            .collect();
        let _ = writeln!(
            out,
            "<polyline points=\"{}\" fill=\"none\" stroke=\"{colour}\" stroke-width=\"2\"/><text x=\"{}\" y=\"{}\" fill=\"{colour}\">{}</text>",
            spots.join(" "),
            EDGE[0] + 12.0,
            EDGE[2] + 16.0 * (k as f64 + 1.0),
            line.name
        );
    }
    let _ = writeln!(
        out,
        "<text x=\"{}\" y=\"{}\" text-anchor=\"middle\">wires</text>\n</svg>",
        WIDTH / 2.0,
        HEIGHT - 16.0
    );
    out
}

fn bounds(values: impl Iterator<Item = f64>) -> (f64, f64) {
    values.fold((f64::MAX, f64::MIN_POSITIVE), |(low, high), v| {
        (low.min(v), high.max(v))
    })
}

/// Where a value stands between two others, by its logarithm.
fn place(value: f64, (low, high): (f64, f64)) -> f64 {
    (value.ln() - low.ln()) / (high.ln() - low.ln())
}

#[cfg(test)]
mod tests {
    use super::*;

    #[test]
    fn lines_stand_within_the_picture() {
        let points = vec![(512.0, 0.2), (8_192.0, 3.5)];
        let name = String::from("route");
        let picture = growth(&[Line { name, points }]);
        assert!(picture.starts_with("<svg") && picture.ends_with("</svg>\n"));
        assert!(picture.contains("points=\"70.0,"));
        assert!(picture.contains(">0.1 ms<") && picture.contains(">10 ms<"));
    }
}
