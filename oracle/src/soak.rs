//! One board through everything that can disagree.

use crate::model::branch::Counts;
use crate::{Board, Limits, board, check3, harness, model};

/// What came of one board.
pub struct Outcome {
    /// `None` where the board was accepted, else the refusal's number.
    pub refused: Option<u32>,
    pub totals: [usize; 5],
    pub counts: Counts,
    /// What disagreed, in words; empty where nothing did.
    pub faults: Vec<String>,
}

/// Runs a sheet through the reader, the original, the model and the checker.
pub fn run(sheet: &[u8], limits: &Limits) -> Outcome {
    let mut outcome = Outcome {
        refused: None,
        totals: [0; 5],
        counts: Counts::default(),
        faults: Vec::new(),
    };
    match board::parse(sheet, limits) {
        Ok(board) => {
            if board.sheet() != sheet {
                outcome
                    .faults
                    .push("reader: the board writes another sheet".to_string());
            }
            run_board(&board, &mut outcome);
        }
        Err(refusal) => outcome.refused = Some(refusal.number),
    }
    outcome
}

fn run_board(board: &Board, outcome: &mut Outcome) {
    let plan = harness::run_plan(board);
    let (modelled, counts) = model::run(board);
    outcome.counts = counts;
    if plan != modelled {
        outcome
            .faults
            .push("model: another plan than the original's".to_string());
    }
    match plan {
        Ok(plan) => {
            let faults = check3::check(board, &plan);
            let words = faults
                .iter()
                .map(|f| format!("check3 {}: {}", f.clause, f.what));
            outcome.faults.extend(words);
            outcome.totals = plan.totals;
            if too_long(board, &plan) {
                outcome
                    .faults
                    .push("buffers: more than 5W, 6W or W".to_string());
            }
        }
        Err(refusal) => outcome.refused = Some(refusal.number),
    }
}

fn too_long(board: &Board, plan: &crate::Plan) -> bool {
    let w = board.wires.len();
    plan.rerouters.len() > 5 * w || plan.bus_wires.len() > 6 * w || plan.suppressed.len() > w
}

/// Whether the original gives the same plan whatever order its maps are
/// walked in, and with the pages' own z.
pub fn is_steady(board: &Board, seed: u64) -> bool {
    let plan = harness::run_plan(board);
    original::collections::set_hash_seed(seed);
    let again = harness::run_plan(board);
    let bare = harness::bare_rerouters(board);
    original::collections::set_hash_seed(0);
    let Ok(plan) = plan else {
        return again == plan;
    };
    let same = plan
        .rerouters
        .iter()
        .zip(&bare)
        .all(|(r, b)| (r.x, r.y, r.z, r.rotation, r.role, r.colour) == *b);
    same && plan.rerouters.len() == bare.len() && again.as_ref() == Ok(&plan)
}
