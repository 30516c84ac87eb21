//! What of a plan is inside a box, typed.

use panzhyqur::{Buffers, End, Limits, PageBox, Part, Rerouter, RerouterHit};

fn sheet(short: &str) -> Vec<u8> {
    short.replace(' ', "\t").replace(';', "\n").into_bytes()
}

const A: &str = "P 0 10;N 1 0 1 0 2 2 0 20 0 0 0 -;N 2 0 0 0 2 2 0 10 8 0 10 -;N 3 0 0 0 2 2 0 0 8 0 20 -;W 1 5 2 1;W 1 5 3 1;";

const ALL: (i32, i32) = (i32::MIN, i32::MAX);

#[test]
fn rerouters_and_wires() {
    let sheet = sheet(A);
    let mut buffers = Buffers::for_sheet(&sheet);
    let page_box = PageBox {
        page: 0,
        x: (11, 22),
        y: (-8, -3),
    };
    let hits = buffers.hits(&sheet, &page_box).expect("page 0 is there");
    let hit = |number, part, lane| RerouterHit { number, part, lane };
    let rerouters = [
        hit(0, Part::Source, None),
        hit(1, Part::Head, Some(0)),
        hit(2, Part::Link, Some(0)),
        hit(3, Part::Tap, Some(0)),
    ];
    assert!(hits.rerouters().eq(rerouters));
    assert!(hits.wires().eq([1, 2, 3, 6]));
    assert!(!hits.is_empty());
    let lines = "R\t0\t1\t-\nR\t1\t2\t0\nR\t2\t3\t0\nR\t3\t4\t0\nB\t1\nB\t2\nB\t3\nB\t6\n";
    assert_eq!(hits.to_string(), lines);
}

/// The buffers hold the plan that `route` leaves, after a box without hits too.
#[test]
fn the_plan_is_that_of_route() {
    let sheet = sheet(A);
    let routed = Buffers::for_sheet(&sheet);
    let plan = routed.clone().route(&sheet).expect("a board").to_plan();
    for x in [ALL, (900, 901)] {
        let mut buffers = routed.clone();
        let page_box = PageBox { page: 0, x, y: ALL };
        let hits = buffers.hits(&sheet, &page_box).expect("page 0 is there");
        assert_eq!(hits.is_empty(), x != ALL);
        assert_eq!(hits.plan().to_plan(), plan);
        assert_eq!(buffers.plan().to_plan(), plan);
    }
}

/// Every hit is of the plan that comes with it, one box after another, and none
/// is missing.
#[test]
fn hits_name_the_plan() {
    let sheet = sheet(A);
    let mut buffers = Buffers::for_limits(&Limits::PROGRAM);
    let mut found = [0, 0];
    for x in -3..24 {
        for y in -10..7 {
            let page_box = PageBox {
                page: 0,
                x: (x, x + 1),
                y: (y, y),
            };
            let hits = buffers.hits(&sheet, &page_box).expect("page 0 is there");
            let nodes: Vec<Rerouter> = hits.plan().nodes().collect();
            for hit in hits.rerouters() {
                let node = &nodes[hit.number];
                assert_eq!((node.part, node.lane), (hit.part, hit.lane));
                assert!(node.x <= x && x < node.x + 2);
                assert!(node.y < y && y < node.y + 2);
            }
            let wires: Vec<_> = hits.plan().wires().collect();
            for number in hits.wires() {
                let (End::Bus(from), End::Bus(to)) = (wires[number].source, wires[number].target)
                else {
                    panic!("a bus wire between two rerouters");
                };
                let (a, b) = (&nodes[from], &nodes[to]);
                assert!(a.x.min(b.x) <= x + 1 && x <= a.x.max(b.x));
                assert!(a.y.min(b.y) <= y && y <= a.y.max(b.y));
            }
            found[0] += hits.rerouters().len();
            found[1] += hits.wires().len();
        }
    }
    // Two x and one y for each of the eight rerouters; for each run along x its
    // points and one x before, for each along y its points twice.
    assert_eq!(found, [8 * 2, 10 + 4 + 12 + 4 + 2 * (4 + 12 + 12)]);
}
