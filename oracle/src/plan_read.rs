//! A plan sheet read back, for the checker.

use crate::board::Port;
use crate::plan::*;

/// Reads a plan sheet: lines in order L, R, B, U, T, one T at the end, R and L
/// numbered from 0. Otherwise the first line that does not fit.
pub fn read(text: &[u8]) -> Result<Plan, usize> {
    let mut plan = Plan::default();
    let mut section = 0;
    let text = std::str::from_utf8(text).map_err(|_| 0_usize)?;
    for (i, line) in text.split_terminator('\n').enumerate() {
        let fields: Vec<&str> = line.split('\t').collect();
        let at = "LRBUT".find(fields[0]).filter(|_| fields[0].len() == 1);
        let at = at.ok_or(i + 1)?;
        // One T, and nothing behind it.
        if at < section || (at == 4 && section == 4) {
            return Err(i + 1);
        }
        section = at;
        record(&mut plan, &fields).ok_or(i + 1)?;
    }
    let lines = text.split_terminator('\n').count();
    (section == 4).then_some(plan).ok_or(lines)
}

fn record(plan: &mut Plan, fields: &[&str]) -> Option<()> {
    match (fields[0], fields.len()) {
        ("L", 4) => {
            (number::<usize>(fields[1])? == plan.pages.len()).then_some(())?;
            let lanes = number(fields[2])?;
            let band = number(fields[3])?;
            plan.pages.push(PageAnswer { lanes, band });
        }
        ("R", 12) => {
            (number::<usize>(fields[1])? == plan.rerouters.len()).then_some(())?;
            plan.rerouters.push(rerouter(fields)?);
        }
        ("B", 9) => plan.bus_wires.push(BusWire {
            from: end(&fields[1..4])?,
            to: end(&fields[4..7])?,
            delivery: match (fields[7], fields[8]) {
                ("-", "-") => None,
                (wire, distance) => Some((number(wire)?, number(distance)?)),
            },
        }),
        ("U", 3) => plan.suppressed.push(port(&fields[1..])?),
        ("T", 6) => {
            for (i, total) in plan.totals.iter_mut().enumerate() {
                *total = number(fields[1 + i])?;
            }
        }
        _ => return None,
    }
    Some(())
}

fn rerouter(f: &[&str]) -> Option<Rerouter> {
    Some(Rerouter {
        x: number(f[2])?,
        y: number(f[3])?,
        z: number(f[4])?,
        rotation: number(f[5])?,
        role: number(f[6])?,
        part: number(f[7])?,
        colour: number(f[8])?,
        page: number(f[9])?,
        lane: match f[10] {
            "-" => None,
            lane => Some(number(lane)?),
        },
        depth: number(f[11])?,
    })
}

fn port(f: &[&str]) -> Option<Port> {
    let node = number(f[0])?;
    let port = number(f[1])?;
    Some(Port { node, port })
}

fn end(f: &[&str]) -> Option<End> {
    match (f[0], f[2]) {
        ("p", _) => port(&f[1..]).map(End::Port),
        ("b", "-") => number(f[1]).map(End::Bus),
        _ => None,
    }
}

/// A number written just so: no sign but `-`, no leading zero.
fn number<T: std::str::FromStr + ToString>(text: &str) -> Option<T> {
    let n: T = text.parse().ok()?;
    (n.to_string() == text).then_some(n)
}
