//! A board written as its sheet.

use crate::board::Board;
use std::fmt::Write;

fn or_dash<T: ToString>(n: Option<T>) -> String {
    n.map_or_else(|| "-".to_string(), |n| n.to_string())
}

impl Board {
    /// The board sheet of these records.
    pub fn sheet(&self) -> Vec<u8> {
        let mut s = String::new();
        for p in &self.pages {
            let _ = writeln!(s, "P\t{}\t{}", or_dash(p.min_y), p.z);
        }
        for n in &self.nodes {
            let _ = writeln!(
                s,
                "N\t{}\t{}\t{}\t{}\t{}\t{}\t{}\t{}\t{}\t{}\t{}\t{}",
                n.id,
                n.kind,
                n.class,
                u8::from(n.pin),
                n.half.0,
                n.half.1,
                n.rotation,
                or_dash(n.at.map(|a| a.0)),
                or_dash(n.at.map(|a| a.1)),
                or_dash(n.row.map(|r| r.0)),
                or_dash(n.row.map(|r| r.1)),
                or_dash(n.line)
            );
        }
        for c in &self.chips {
            let _ = writeln!(s, "C\t{}\t{}", c.id, or_dash(c.parent));
        }
        for f in &self.inners {
            let _ = writeln!(s, "F\t{}\t{}\t{}", f.id, f.chip, f.class);
        }
        for x in &self.execs {
            let _ = writeln!(s, "X\t{}\t{}", x.node, x.port);
        }
        for w in &self.wires {
            let (a, b) = (w.source, w.target);
            let _ = writeln!(s, "W\t{}\t{}\t{}\t{}", a.node, a.port, b.node, b.port);
        }
        s.into_bytes()
    }
}
