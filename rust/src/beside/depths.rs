//! The depths of a bus in rows of numbers, by the oracle's checker.

use crate::calls::{BusWireRow, MISSING, RerouterRow};
use oracle::board::Port;
use oracle::depths;
use oracle::plan::{BusWire, End};

/// In words, which clauses on depths a bus breaks, whose first rerouter has the
/// number `first`; empty where none.
pub fn faults(first: usize, rerouters: &[RerouterRow], wires: &[BusWireRow]) -> Vec<String> {
    let depths: Vec<usize> = rerouters.iter().map(|row| row[10] as usize).collect();
    let wires: Vec<BusWire> = wires.iter().map(|row| bus_wire(first, row)).collect();
    (depths::check(&depths, &wires).iter())
        .map(|f| format!("{}: {}", f.clause, f.what))
        .collect()
}

fn bus_wire(first: usize, row: &BusWireRow) -> BusWire {
    let [from, from_port, to, to_port, wire, distance] = *row;
    let end = |id: u32, port: u32| match port {
        // One in front of the first is none of these, as is one behind the last.
        MISSING => End::Bus((id as usize).wrapping_sub(first)),
        // Which port it is does not matter here.
        port => End::Port(Port {
            node: id,
            port: port as u16,
        }),
    };
    BusWire {
        from: end(from, from_port),
        to: end(to, to_port),
        delivery: (wire != MISSING).then_some((wire as usize, distance as usize)),
    }
}

#[cfg(test)]
mod tests {
    use super::*;
    use crate::Buffers;

    /// Clauses that rows break, by name.
    fn broken(first: usize, rerouters: &[RerouterRow], wires: &[BusWireRow]) -> Vec<String> {
        let name = |fault: String| fault.split(':').next().unwrap_or("").to_string();
        let faults = faults(first, rerouters, wires);
        faults.into_iter().map(name).collect()
    }

    /// Wrong depths in the rows of a plan: one too few or too many, none, any
    /// number, that of another rerouter; and a distance that is not the depth.
    #[test]
    fn wrong_depths_are_told() {
        let sheet = oracle::r#gen::sheet(1, 0, "program").expect("a size of the generator");
        let mut buffers = Buffers::for_sheet(&sheet);
        let plan = buffers.route(&sheet).expect("the sheet is accepted");
        let (rows, wires) = (plan.rerouters.to_vec(), plan.bus_wires.to_vec());
        assert!(faults(0, &rows, &wires).is_empty());
        let depths: Vec<u32> = rows.iter().map(|row| row[10]).collect();
        assert!(depths.iter().any(|depth| *depth > 3));
        for (r, depth) in depths.iter().enumerate() {
            let wrong = [depth - 1, depth + 1, 0, u32::MAX, 0x8000_0000 | depth];
            for wrong in wrong.iter().chain(&depths).filter(|wrong| *wrong != depth) {
                let mut rows = rows.clone();
                rows[r][10] = *wrong;
                let told = broken(0, &rows, &wires);
                assert_eq!(told[..2], ["depth", "step"], "{wrong} at rerouter {r}");
            }
        }
        for (w, row) in wires.iter().enumerate().filter(|(_, w)| w[4] != MISSING) {
            for wrong in [row[5] - 1, row[5] + 1, 0, MISSING] {
                let mut wires = wires.clone();
                wires[w][5] = wrong;
                assert_eq!(broken(0, &rows, &wires), ["leaves"], "{wrong} at wire {w}");
            }
        }
    }

    /// Corners on top of a bus: rerouter 7 between two ports.
    #[test]
    fn rerouters_are_counted_from_the_first() {
        let corner = |depth| [[0, 0, 0, 2, 1, 6, 1, 0, MISSING, 0, depth]];
        let wires = [
            [1, 1, 7, MISSING, MISSING, MISSING],
            [7, MISSING, 2, 1, 0, 1],
        ];
        assert!(broken(7, &corner(1), &wires).is_empty());
        assert_eq!(broken(7, &corner(2), &wires), ["depth", "step", "leaves"]);
        for other in [0, 6, 8] {
            assert!(!broken(other, &corner(1), &wires).is_empty());
        }
    }
}
