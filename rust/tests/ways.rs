//! Ways in words, and boards read back.

#[path = "common/boards.rs"]
mod boards;

use boards::{BROKEN, example, sheet};
use panzhyqur::*;
use std::time::Instant;

#[test]
fn ways_in_words() {
    let (_, plan) = example("a.sheet");
    let told: Vec<String> = plan.ways().iter().map(Way::to_string).collect();
    let said = [
        "wire 0: 1.5 > 0 > 1 > 2 > 3 > 4 > 2.1",
        "wire 1: 1.5 > 0 > 1 > 2 > 5 > 6 > 7 > 3.1",
    ];
    assert_eq!(told, said);
    assert_eq!(
        plan.way(0).map(|way| way.to_string()).as_deref(),
        Some(said[0])
    );
    assert_eq!(plan.way(2), None);
    let (_, plan) = example("kinds.sheet");
    let ways: Vec<Way> = (0..20).filter_map(|wire| plan.way(wire)).collect();
    assert_eq!(plan.ways(), ways);
    assert_eq!(ways.len(), 10);
    let corner = plan.way(9).expect("a delivered wire");
    assert_eq!(corner.to_string(), "wire 9: 7.1 > 32 > 9.2");
}

#[test]
fn ways_of_broken_plans() {
    for short in BROKEN {
        let text = String::from_utf8(sheet(short)).expect("text");
        let plan: Plan = text.parse().expect(short);
        assert_eq!(plan.way(0), None, "{short}");
        assert_eq!(plan.ways(), [], "{short}");
    }
}

/// A circle of many rerouters with as many deliveries: nothing is walked twice.
#[test]
fn ways_of_a_great_circle() {
    let (_, mut plan) = example("a.sheet");
    let (many, one) = (100_000, plan.nodes[0]);
    plan.nodes = vec![one; many];
    let target = NodeId(2).port(WirePort(1));
    let wire = |source, target, delivery| BusWire {
        source,
        target,
        delivery,
    };
    let circle = (0..many).map(|k| wire(End::Bus(k), End::Bus((k + 1) % many), None));
    let deliveries = (0..many).map(|k| {
        let delivery = Delivery {
            wire: k,
            distance: 1,
        };
        wire(End::Bus(k), End::Node(target), Some(delivery))
    });
    plan.wires = circle.chain(deliveries).collect();
    let started = Instant::now();
    assert_eq!(plan.ways(), []);
    assert_eq!(plan.way(77), None);
    assert!(started.elapsed().as_secs() < 5);
}

#[test]
fn boards_read_back() {
    let (board, _) = example("kinds.sheet");
    assert_eq!(Board::read(&board.sheet()), Ok(board));
    assert_eq!(Board::read(b""), Ok(Board::default()));
    let refused = |text: &[u8]| {
        let told = Board::read(text).expect_err("a refusal");
        assert_eq!(route_sheet(text).expect_err("the same"), told);
        (told.number(), told.line)
    };
    assert_eq!(refused(b"P\t0"), (1, 1));
    assert_eq!(refused(&[0, 255, 10, 9]), (1, 1));
    assert_eq!(refused("P\t0\t0\n".repeat(65).as_bytes()), (2, 65));
    assert_eq!(refused(&sheet("P 0 0;P 0 1000001;")), (3, 2));
    assert_eq!(
        refused(&sheet(
            "N 1 0 0 0 1 1 0 - - - - -;N 1 0 0 0 1 1 0 - - - - -;"
        )),
        (4, 2)
    );
    assert_eq!(refused(&sheet("C 1 -;")), (5, 1));
    assert_eq!(refused(&sheet("P 0 0;N 1 0 0 0 1 1 0 - - 0 0 -;")), (6, 2));
    // Turned away before a buffer for its lines is made.
    assert_eq!(
        Board::read(&b"\n".repeat(3_000_000)).map_err(|r| r.line),
        Err(1)
    );
}
