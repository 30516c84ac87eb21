//! What is inside a box, on plans made by hand and on those of boards.

mod common;

use common::{PLAN_A, tabs};
use oracle::board::Refusal;
use oracle::hits::{Hits, PageBox, RerouterHit, ends, find};
use oracle::plan::{BusWire, End, PageAnswer, Plan, Rerouter};
use oracle::rng::Rng;
use oracle::{r#gen, plan_read, run_plan};

fn at(page: usize, x: i32, y: i32) -> Rerouter {
    Rerouter {
        x,
        y,
        z: 0,
        rotation: 0,
        role: 0,
        part: 3,
        colour: 1,
        page,
        lane: Some(0),
        depth: 1,
    }
}

/// A plan of so many pages, its rerouters, and bus wires between some.
fn plan(pages: usize, rerouters: Vec<Rerouter>, wires: &[(usize, usize)]) -> Plan {
    let page = PageAnswer { lanes: 1, band: 8 };
    let wire = |&(from, to): &(usize, usize)| BusWire {
        from: End::Bus(from),
        to: End::Bus(to),
        delivery: None,
    };
    Plan {
        pages: vec![page; pages],
        rerouters,
        bus_wires: wires.iter().map(wire).collect(),
        ..Plan::default()
    }
}

fn on(page: u32, x: (i32, i32), y: (i32, i32)) -> PageBox {
    PageBox { page, x, y }
}

/// The numbers of the rerouters, and of the bus wires.
fn hit(plan: &Plan, page_box: PageBox) -> (Vec<usize>, Vec<usize>) {
    let Hits { rerouters, wires } = find(plan, &page_box).expect("the box is on the board");
    (rerouters.iter().map(|r| r.number).collect(), wires)
}

/// Whether a box hits the one rerouter, at 10 and -4.
fn hits_one(x: (i32, i32), y: (i32, i32)) -> bool {
    let one = plan(1, vec![at(0, 10, -4)], &[]);
    match hit(&one, on(0, x, y)).0[..] {
        [] => false,
        [0] => true,
        _ => panic!("one rerouter"),
    }
}

#[test]
fn touching_is_a_miss() {
    let all = (i32::MIN, i32::MAX);
    for (x, is_hit) in [
        ((8, 10), false),
        ((8, 11), true),
        ((11, 30), true),
        ((12, 30), false),
        ((10, 12), true),
        ((9, 13), true),
    ] {
        assert_eq!(hits_one(x, all), is_hit, "x {x:?}");
        let y = (x.0 - 14, x.1 - 14);
        assert_eq!(hits_one(all, y), is_hit, "y {y:?}");
        assert_eq!(hits_one(x, y), is_hit, "x {x:?}, y {y:?}");
    }
    assert!(hits_one(all, all));
    // At a corner, and beside it in one of the two ways.
    assert!(!hits_one((12, 14), (-2, 0)));
    assert!(!hits_one((11, 14), (-2, 0)));
    assert!(hits_one((11, 14), (-3, 0)));
}

#[test]
fn an_empty_range() {
    for (x, is_hit) in [(9, false), (10, false), (11, true), (12, false)] {
        assert_eq!(hits_one((x, x), (-9, 9)), is_hit, "x {x}");
        let y = x - 14;
        assert_eq!(hits_one((0, 30), (y, y)), is_hit, "y {y}");
        assert_eq!(hits_one((x, x), (y, y)), is_hit, "x {x}, y {y}");
    }
    assert!(!hits_one((11, 11), (-4, -4)));
}

/// A run along x from (2, 5) to (12, 5) and one along y from there to (12, -3).
#[test]
fn edges_of_runs() {
    let line = plan(
        1,
        vec![at(0, 2, 5), at(0, 12, 5), at(0, 12, -3)],
        &[(0, 1), (2, 1)],
    );
    let wires = |x, y| hit(&line, on(0, x, y)).1;
    let (first, second, none): (&[usize], &[usize], &[usize]) = (&[0], &[1], &[]);
    // Along the run: its ends count, a number beyond does not.
    assert_eq!(wires((-9, 1), (0, 9)), none);
    assert_eq!(wires((-9, 2), (0, 9)), first);
    assert_eq!(wires((2, 2), (5, 5)), first);
    assert_eq!(wires((7, 7), (5, 5)), first);
    assert_eq!(wires((13, 20), (-9, 9)), none);
    assert_eq!(wires((12, 12), (-9, -4)), none);
    assert_eq!(wires((12, 12), (-9, -3)), second);
    // Across it: both edges of the box count.
    assert_eq!(wires((4, 6), (0, 4)), none);
    assert_eq!(wires((4, 6), (0, 5)), first);
    assert_eq!(wires((4, 6), (5, 9)), first);
    assert_eq!(wires((4, 6), (6, 9)), none);
    assert_eq!(wires((0, 11), (0, 0)), none);
    assert_eq!(wires((0, 12), (0, 0)), second);
    assert_eq!(wires((12, 99), (0, 0)), second);
    assert_eq!(wires((13, 99), (0, 0)), none);
    // Where both end, and with a rerouter that is only touched.
    assert_eq!(hit(&line, on(0, (12, 12), (5, 5))), (vec![], vec![0, 1]));
    assert_eq!(hit(&line, on(0, (4, 6), (0, 5))), (vec![], vec![0]));
    // Runs go between the low corners, not along the cells.
    assert_eq!(hit(&line, on(0, (13, 14), (5, 6))), (vec![1], vec![]));
}

#[test]
fn a_run_of_no_length() {
    let both = plan(1, vec![at(0, 4, 4), at(0, 4, 4)], &[(0, 1)]);
    assert_eq!(hit(&both, on(0, (4, 4), (4, 4))), (vec![], vec![0]));
    assert_eq!(hit(&both, on(0, (5, 5), (5, 5))), (vec![0, 1], vec![]));
    assert_eq!(hit(&both, on(0, (0, 3), (4, 4))), (vec![], vec![]));
    assert_eq!(hit(&both, on(0, (0, 9), (0, 4))), (vec![], vec![0]));
}

#[test]
fn other_pages_and_other_wires() {
    let rerouters = vec![at(0, 0, 0), at(1, 0, 0), at(1, 0, 8), at(1, 8, 16)];
    let mut plan = plan(3, rerouters, &[(0, 1), (1, 0), (1, 2), (2, 3)]);
    let all = (i32::MIN, i32::MAX);
    assert_eq!(hit(&plan, on(0, all, all)), (vec![0], vec![]));
    // The last bus wire has neither x nor y in common.
    assert_eq!(hit(&plan, on(1, all, all)), (vec![1, 2, 3], vec![2]));
    assert_eq!(hit(&plan, on(2, all, all)), (vec![], vec![]));
    // A bus wire that ends at a port has no run.
    let port = oracle::board::Port { node: 1, port: 1 };
    plan.bus_wires[2].to = End::Port(port);
    assert_eq!(hit(&plan, on(1, all, all)), (vec![1, 2, 3], vec![]));
    plan.bus_wires[2].to = End::Bus(2);
    plan.bus_wires[2].from = End::Port(port);
    assert_eq!(hit(&plan, on(1, all, all)), (vec![1, 2, 3], vec![]));
}

#[test]
fn what_is_refused() {
    let two = plan(2, vec![at(1, 0, 0)], &[]);
    let refused = Err(Refusal::new(9, 0));
    for page in [2, 3, 64, 1 << 31, u32::MAX] {
        assert_eq!(find(&two, &on(page, (0, 1), (0, 1))), refused);
    }
    let (low, high) = (i32::MIN, i32::MAX);
    for (x, y) in [
        ((1, 0), (0, 1)),
        ((0, 1), (1, 0)),
        ((high, low), (0, 1)),
        ((0, 1), (0, -1)),
        ((high, high - 1), (low + 1, low)),
    ] {
        assert_eq!(find(&two, &on(1, x, y)), refused, "{x:?}, {y:?}");
    }
    assert!(find(&two, &on(1, (0, 0), (0, 0))).is_ok());
    assert!(find(&two, &on(1, (low, low), (high, high))).is_ok());
    assert_eq!(
        find(&Plan::default(), &on(0, (0, 1), (0, 1))),
        Err(Refusal::new(9, 0))
    );
}

/// Example (a), and the list in numbers.
#[test]
fn an_example() {
    let plan = plan_read::read(tabs(PLAN_A).as_bytes()).expect("a plan sheet");
    let found = find(&plan, &on(0, (9, 13), (-8, -5))).expect("a page of the plan");
    let rerouter = |number, part, lane| RerouterHit { number, part, lane };
    let due = Hits {
        rerouters: vec![rerouter(2, 3, Some(0)), rerouter(3, 4, Some(0))],
        wires: vec![2, 3, 4, 6],
    };
    assert_eq!(found, due);
    assert_eq!(found.numbers(), [2, 3, 0, 3, 4, 0, 2, 3, 4, 6]);
    let found = find(&plan, &on(0, (20, 20), (-5, -5))).expect("a page of the plan");
    assert_eq!(found.numbers(), [1]);
    let found = find(&plan, &on(0, (20, 22), (-5, -3))).expect("a page of the plan");
    assert_eq!(found.numbers(), [0, 1, u32::MAX, 1]);
}

/// The same point by point, in halves. A cell, and a range that has a length,
/// are the halves between their ends; an empty range is its one point; a run is
/// its whole points, ends included.
#[test]
fn point_by_point() {
    let rng = &mut Rng::new(7);
    let (mut rerouters, mut wires) = (0, 0);
    for _ in 0..4_000 {
        let low = |rng: &mut Rng| rng.range(-4, 4);
        let bricks: Vec<Rerouter> = (0..2 + rng.below(5))
            .map(|_| at(rng.below(2), low(rng), low(rng)))
            .collect();
        let some = |rng: &mut Rng| (rng.below(bricks.len()), rng.below(bricks.len()));
        let pairs: Vec<(usize, usize)> = (0..6).map(|_| some(rng)).collect();
        let range = |rng: &mut Rng| {
            let (a, b) = (rng.range(-6, 6), rng.range(-6, 6));
            (a.min(b), a.max(b))
        };
        let page_box = on(rng.below(2) as u32, range(rng), range(rng));
        let plan = plan(2, bricks, &pairs);
        let found = hit(&plan, page_box);
        let page = page_box.page as usize;
        let inner = |(from, to): (i32, i32)| -> Vec<i32> {
            match from == to {
                true => vec![2 * from],
                false => (2 * from + 1..2 * to).collect(),
            }
        };
        let in_cell = |low: i32, p: i32| 2 * low < p && p < 2 * low + 4;
        let cell_hit = |r: &Rerouter| {
            r.page == page
                && inner(page_box.x).iter().any(|p| in_cell(r.x, *p))
                && inner(page_box.y).iter().any(|p| in_cell(r.y, *p))
        };
        let run_hit = |w: &BusWire| {
            let (a, b) = ends(&plan, w).expect("both ends are rerouters");
            let xs = a.x.min(b.x)..=a.x.max(b.x);
            let ys = a.y.min(b.y)..=a.y.max(b.y);
            let points = xs.flat_map(|x| ys.clone().map(move |y| (x, y)));
            let inside = |(x, y): (i32, i32)| {
                let ((x0, x1), (y0, y1)) = (page_box.x, page_box.y);
                x0 <= x && x <= x1 && y0 <= y && y <= y1
            };
            (a.x == b.x || a.y == b.y)
                && (a.page, b.page) == (page, page)
                && points.into_iter().any(inside)
        };
        let due: Vec<usize> = (0..plan.rerouters.len())
            .filter(|n| cell_hit(&plan.rerouters[*n]))
            .collect();
        assert_eq!(found.0, due, "{page_box:?} {plan:?}");
        let due: Vec<usize> = (0..plan.bus_wires.len())
            .filter(|n| run_hit(&plan.bus_wires[*n]))
            .collect();
        assert_eq!(found.1, due, "{page_box:?} {plan:?}");
        rerouters += found.0.len();
        wires += found.1.len();
    }
    assert!(rerouters > 1_000 && wires > 1_000, "{rerouters} {wires}");
}

/// The plans of boards: every bus wire between two rerouters is straight and on
/// one page, so a whole page's box lists all of them, and 21 numbers a wire are
/// more than enough.
#[test]
fn whole_pages_of_boards() {
    let all = (i32::MIN, i32::MAX);
    let mut most = 0.0_f64;
    for i in 0..2_000 {
        let size = if i % 8 == 0 { "program" } else { "tiny" };
        let board = r#gen::board(3, i, size).expect("the size is known");
        let Ok(plan) = run_plan(&board) else { continue };
        let (mut rerouters, mut wires, mut numbers) = (Vec::new(), Vec::new(), 0);
        for page in 0..plan.pages.len() {
            let found = find(&plan, &on(page as u32, all, all)).expect("a page of the plan");
            numbers = numbers.max(found.numbers().len());
            rerouters.extend(found.rerouters.iter().map(|r| r.number));
            wires.extend(found.wires);
        }
        rerouters.sort_unstable();
        wires.sort_unstable();
        assert!(rerouters.into_iter().eq(0..plan.rerouters.len()));
        let inner = |n: &usize| ends(&plan, &plan.bus_wires[*n]).is_some();
        let inner: Vec<usize> = (0..plan.bus_wires.len()).filter(inner).collect();
        assert_eq!(wires, inner);
        assert!(numbers <= 21 * board.wires.len());
        if !board.wires.is_empty() {
            most = most.max(numbers as f64 / board.wires.len() as f64);
        }
    }
    assert!(most > 10.0, "{most}");
}
