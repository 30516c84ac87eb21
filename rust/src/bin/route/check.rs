//! Demand 3 and the depths on a plan, as the oracle's own reader reads the board.

use oracle::{Limits, board, check3};

/// What is broken, a line each.
pub fn broken(sheet: &[u8], plan: &str) -> Vec<String> {
    match board::parse(sheet, &Limits::LIBRARY) {
        Ok(board) => (check3::check_sheet(&board, plan.as_bytes()).iter())
            .map(|fault| format!("{}: {}", fault.clause, fault.what))
            .collect(),
        Err(refusal) => vec![format!("routed, and yet {refusal:?}")],
    }
}
