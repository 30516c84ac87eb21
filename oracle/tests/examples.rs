//! Document 01's worked examples.

mod common;

use common::{EXAMPLE_A, PLAN_A, board_of, says, tabs};
use oracle::plan::PART_TAP;
use oracle::{Limits, answer, lanes, run_plan};

#[test]
fn a_byte_for_byte() {
    for limits in [Limits::LIBRARY, Limits::PROGRAM] {
        let plan = answer(tabs(EXAMPLE_A).as_bytes(), &limits);
        assert_eq!(plan, tabs(PLAN_A));
    }
}

#[test]
fn the_empty_sheet() {
    assert_eq!(answer(b"", &Limits::PROGRAM), "T\t0\t0\t0\t0\t0\n");
}

#[test]
fn b_to_d_lanes() {
    assert_eq!(lanes::answer(&[]), "0");
    assert_eq!(lanes::answer(&[0, 2, 1, 0, 2, 4, 1, 1]), "2 0 1");
    assert_eq!(lanes::answer(&[0, 2, 1, 0, 3, 5, 1, 1]), "1 0 0");
}

/// The x of the taps of one value read on rows whose bricks stand at `xs`.
fn taps(xs: &[i32]) -> Vec<i32> {
    let mut sheet = String::from("P 0 0\nN 1 3 0 0 1 1 0 - - - - -\n");
    for (i, x) in xs.iter().enumerate() {
        let id = i + 2;
        sheet += &format!("N {id} 0 0 0 9 1 0 {x} 20 0 {i} -\n");
    }
    for id in 2..xs.len() + 2 {
        sheet += &format!("W 1 1 {id} 1\n");
    }
    let plan = run_plan(&board_of(&sheet)).expect("the board is laid");
    let taps = plan.rerouters.iter().filter(|r| r.part == PART_TAP);
    taps.map(|r| r.x).collect()
}

#[test]
fn e_to_g_stops() {
    assert_eq!(taps(&[10, 9]), [10]);
    assert_eq!(taps(&[10, 8]), [10, 8]);
    assert_eq!(taps(&[10, 9, 8]), [10, 8]);
}

#[test]
fn h_travel() {
    for (x, laid) in [(5, 0), (6, 1)] {
        let sheet =
            format!("P 0 0\nN 1 0 1 0 1 1 0 0 0 0 0 -\nN 2 0 0 0 1 1 0 {x} 9 0 1 -\nW 1 1 2 1\n");
        let out = says(&sheet, &Limits::LIBRARY);
        assert!(out.ends_with(&format!(" {laid}")), "{out}");
    }
}
