//! The boards of docs/DIFFERENCES.md: the lines below each stand in its plan.

mod common;

use common::says;
use oracle::Limits;
use std::path::PathBuf;

#[test]
fn boards_show_what_is_said() {
    let path = PathBuf::from(env!("CARGO_MANIFEST_DIR")).join("../docs/DIFFERENCES.md");
    let text = std::fs::read_to_string(path).expect("the document is there");
    let blocks: Vec<&str> = text.split("```board\n").skip(1).collect();
    assert!(blocks.len() > 20);
    for block in blocks {
        let block = block.split("```").next().unwrap_or(block);
        let (board, lines) = block.split_once("\n\n").expect("a board and lines");
        let plan = says(&format!("{board}\n"), &Limits::PROGRAM);
        for line in lines.lines() {
            let stands = plan.lines().any(|l| l == line);
            assert!(stands, "{line}\nis not in\n{plan}\nof\n{board}");
        }
    }
}
