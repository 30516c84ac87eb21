//! Boards from seeds: original, model and checker agree.

use oracle::model::branch::{BRANCHES, Branch, Counts};
use oracle::{Limits, board, r#gen, soak};

fn run(seed: u64, count: u64, size: &str) -> Counts {
    let mut counts = Counts::default();
    for i in 0..count {
        let sheet = r#gen::sheet(seed, i, size).expect("the size is known");
        let outcome = soak::run(&sheet, &Limits::LIBRARY);
        assert!(
            outcome.faults.is_empty(),
            "{size} {i}: {:?}",
            outcome.faults
        );
        counts.add(&outcome.counts);
    }
    counts
}

#[test]
fn small_boards_meet_every_branch() {
    let mut counts = run(3, 4_000, "tiny");
    counts.add(&run(3, 1_500, "program"));
    for (branch, words) in BRANCHES {
        let met = counts.of(*branch) > 0;
        assert_eq!(met, *branch != Branch::LastResort, "{words}");
    }
}

#[test]
fn larger_boards() {
    run(4, 20, "medium");
    run(4, 20, "many-lanes");
    run(4, 4, "full");
    run(4, 1, "full-typical");
    run(4, 1, "full-random");
}

#[test]
fn full_boards_stay_within_the_limits() {
    for size in [&r#gen::BOARD_SIZES[..], &r#gen::worst::NAMES].concat() {
        let sheet = r#gen::sheet(5, 0, size).expect("the size is known");
        assert!(board::parse(&sheet, &Limits::LIBRARY).is_ok(), "{size}");
    }
    for i in 0..500 {
        let sheet = r#gen::sheet(5, i, "program").expect("the size is known");
        assert!(board::parse(&sheet, &Limits::PROGRAM).is_ok());
        assert!(sheet.len() < 65_536);
    }
}

#[test]
fn the_order_of_maps_does_not_matter() {
    for i in 0..300 {
        let board = r#gen::board(6, i, "program").expect("the size is known");
        assert!(soak::is_steady(&board, i * 977 + 1), "board {i}");
    }
}

#[test]
fn damaged_sheets_meet_every_refusal() {
    let mut refused = [0; 9];
    for i in 0..4_000 {
        let sheet = r#gen::sheet(7, i, "damaged").expect("the size is known");
        let outcome = soak::run(&sheet, &Limits::PROGRAM);
        assert!(outcome.faults.is_empty(), "{i}: {:?}", outcome.faults);
        refused[outcome.refused.unwrap_or(0) as usize] += 1;
    }
    for (number, n) in refused.iter().enumerate().take(7) {
        assert!(*n > 0, "no sheet is refused with {number}");
    }
}
