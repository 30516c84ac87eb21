//! The corner pass on a bus that is handed in: original and model agree.

use oracle::board::Board;
use oracle::facts::Facts;
use oracle::plan::{Beside, Corner, Handed, Rerouter};
use oracle::rng::Rng;
use oracle::{r#gen, harness, model, run_plan};

/// Suppressed ports of some wires, and rerouters about where others may turn:
/// the sink's row and x, the source's y.
fn handed(rng: &mut Rng, board: &Board) -> Handed {
    let facts = Facts::new(board);
    let mut handed = Handed::default();
    for w in &board.wires {
        if rng.chance(20) {
            handed.suppressed.push(w.target);
        }
        let ends = (facts.body(w.source.node), facts.body(w.target.node));
        let (Some(source), Some(sink)) = ends else {
            continue;
        };
        let places = (facts.row(sink), sink.at, source.at);
        if let (Some((page, row)), Some((x, _)), Some((_, y))) = places {
            handed.beside.push(Beside {
                page,
                row: row + usize::from(rng.chance(10)),
                x: x + rng.range(-2, 6),
                y: y + rng.range(-3, 3),
            });
        }
    }
    handed
}

#[test]
fn original_and_model_agree() {
    let (mut corners, mut fewer) = (0, 0);
    for i in 0..4_000 {
        let size = if i % 4 == 0 { "program" } else { "tiny" };
        let board = r#gen::board(5, i, size).expect("the size is known");
        let handed = handed(&mut Rng::for_item(6, i), &board);
        let turned = model::turn(&board, &handed);
        assert_eq!(harness::turn(&board, &handed), turned, "{size} {i}");
        corners += turned.len();
        let cleared = Handed {
            beside: Vec::new(),
            ..handed
        };
        fewer += usize::from(model::turn(&board, &cleared) != turned);
    }
    assert!(corners > 500 && fewer > 50, "{corners}, {fewer}");
}

/// Where nothing is laid before it, the corner pass is the whole plan.
#[test]
fn without_lanes_it_is_the_plan() {
    let mut corners = 0;
    for i in 0..4_000 {
        let board = r#gen::board(7, i, "tiny").expect("the size is known");
        let plan = run_plan(&board).expect("few lanes");
        if plan.totals[4] > 0 {
            continue;
        }
        let turned = harness::turn(&board, &Handed::default());
        let bricks: Vec<Rerouter> = turned.iter().map(|c| c.brick.clone()).collect();
        assert_eq!(bricks, plan.rerouters, "tiny {i}");
        let named = plan.bus_wires.iter().filter_map(|b| b.delivery);
        let wires = named.map(|(wire, _)| wire);
        assert!(turned.iter().map(|c: &Corner| c.wire).eq(wires), "tiny {i}");
        corners += turned.len();
    }
    assert!(corners > 100, "{corners}");
}
