//! The plan and the plan sheet.

use crate::board::Port;
use std::fmt::Write;

#[derive(Clone, Debug, PartialEq, Eq)]
pub struct PageAnswer {
    pub lanes: i32,
    pub band: i32,
}

pub const PART_SOURCE: u8 = 1;
pub const PART_HEAD: u8 = 2;
pub const PART_LINK: u8 = 3;
pub const PART_TAP: u8 = 4;
pub const PART_GATE_SIDE: u8 = 5;
pub const PART_CORNER: u8 = 6;

#[derive(Clone, Debug, PartialEq, Eq)]
pub struct Rerouter {
    pub x: i32,
    pub y: i32,
    pub z: i32,
    pub rotation: u8,
    pub role: u8,
    pub part: u8,
    pub colour: u32,
    pub page: usize,
    pub lane: Option<i32>,
    /// 1 where a port feeds it, else one more than that of the rerouter that
    /// does.
    pub depth: usize,
}

#[derive(Clone, Copy, Debug, PartialEq, Eq)]
pub enum End {
    Port(Port),
    Bus(usize),
}

#[derive(Clone, Debug, PartialEq, Eq)]
pub struct BusWire {
    pub from: End,
    pub to: End,
    /// P4: the wire that it delivers, and the distance.
    pub delivery: Option<(usize, usize)>,
}

#[derive(Clone, Debug, Default, PartialEq, Eq)]
pub struct Plan {
    pub pages: Vec<PageAnswer>,
    pub rerouters: Vec<Rerouter>,
    pub bus_wires: Vec<BusWire>,
    /// Ascending, each once.
    pub suppressed: Vec<Port>,
    /// P6: the numbers of the T record.
    pub totals: [usize; 5],
}

/// A rerouter that stands beside a row of a page.
#[derive(Clone, Copy, Debug, PartialEq, Eq)]
pub struct Beside {
    pub page: usize,
    pub row: usize,
    pub x: i32,
    pub y: i32,
}

/// What the corner pass reads of a bus that is handed in.
#[derive(Clone, Debug, Default, PartialEq, Eq)]
pub struct Handed {
    pub beside: Vec<Beside>,
    /// In any order, repeated or not.
    pub suppressed: Vec<Port>,
}

/// A corner and the wire that turns there: the wire's source port feeds it, and
/// it feeds the wire's target.
#[derive(Clone, Debug, PartialEq, Eq)]
pub struct Corner {
    pub brick: Rerouter,
    pub wire: usize,
}

fn end(out: &mut String, end: &End) {
    let _ = match end {
        End::Port(p) => write!(out, "\tp\t{}\t{}", p.node, p.port),
        End::Bus(n) => write!(out, "\tb\t{n}\t-"),
    };
}

impl Plan {
    /// The plan sheet, byte for byte.
    pub fn sheet(&self) -> String {
        let mut s = String::new();
        for (i, p) in self.pages.iter().enumerate() {
            let _ = writeln!(s, "L\t{i}\t{}\t{}", p.lanes, p.band);
        }
        for (i, r) in self.rerouters.iter().enumerate() {
            let _ = write!(
                s,
                "R\t{i}\t{}\t{}\t{}\t{}\t{}\t{}\t{}\t{}\t",
                r.x, r.y, r.z, r.rotation, r.role, r.part, r.colour, r.page
            );
            let _ = match r.lane {
                Some(lane) => write!(s, "{lane}"),
                None => write!(s, "-"),
            };
            let _ = writeln!(s, "\t{}", r.depth);
        }
        for b in &self.bus_wires {
            s.push('B');
            end(&mut s, &b.from);
            end(&mut s, &b.to);
            let _ = match b.delivery {
                Some((wire, distance)) => writeln!(s, "\t{wire}\t{distance}"),
                None => writeln!(s, "\t-\t-"),
            };
        }
        for u in &self.suppressed {
            let _ = writeln!(s, "U\t{}\t{}", u.node, u.port);
        }
        let [r, b, d, direct, laid] = self.totals;
        let _ = writeln!(s, "T\t{r}\t{b}\t{d}\t{direct}\t{laid}");
        s
    }
}

/// A plan sheet without the last field of its R lines, the depth: what the
/// original has.
pub fn older_fields(sheet: &str) -> String {
    let older = |line: &str| match line.rsplit_once('\t') {
        Some((older, _)) if line.starts_with("R\t") => format!("{older}\n"),
        _ => line.to_string(),
    };
    sheet.split_inclusive('\n').map(older).collect()
}
