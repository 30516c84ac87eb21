//! A large board on which a property holds comes out small.

use oracle::model::branch::Branch;
use oracle::{Limits, board, r#gen, model, shrink};

/// Stands for two sides that differ: a board that drops a stop.
fn drops_a_stop(sheet: &[u8]) -> bool {
    let Ok(board) = board::parse(sheet, &Limits::PROGRAM) else {
        return false;
    };
    model::run(&board).1.of(Branch::Dropped) > 0
}

#[test]
fn boards_come_out_small() {
    let mut tried = 0;
    for i in 0..3_000 {
        let sheet = r#gen::sheet(1, i, "program").expect("the size is known");
        if !drops_a_stop(&sheet) {
            continue;
        }
        let small = shrink::sheet(&sheet, drops_a_stop);
        assert!(drops_a_stop(&small));
        let lines = small.iter().filter(|b| **b == b'\n').count();
        assert!(lines <= 14, "{}", String::from_utf8_lossy(&small));
        tried += 1;
        if tried == 5 {
            return;
        }
    }
    panic!("few boards drop a stop");
}
