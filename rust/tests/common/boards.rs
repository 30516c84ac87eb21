//! Boards and plans for the tests of pictures and ways.

use panzhyqur::*;
use std::fs;
use std::path::PathBuf;

pub fn root() -> PathBuf {
    PathBuf::from(env!("CARGO_MANIFEST_DIR")).join("..")
}

pub fn sheet(short: &str) -> Vec<u8> {
    short.replace(' ', "\t").replace(';', "\n").into_bytes()
}

pub fn example(name: &str) -> (Board, Plan) {
    let sheet = fs::read(root().join("examples").join(name)).expect("an example");
    let board = Board::read(&sheet).expect("a board");
    (board, route_sheet(&sheet).expect("a plan"))
}

/// Plans that no board has: circles, numbers that are not there, no feeder.
pub const BROKEN: [&str; 6] = [
    "R 0 0 0 0 0 0 4 1 0 0 1;R 1 0 0 0 0 0 4 1 0 0 1;B b 0 - b 1 - - -;B b 1 - b 0 - - -;B b 1 - p 2 1 0 9;T 2 3 1 0 0;",
    "R 0 0 0 0 0 0 4 1 0 0 1;B b 0 - b 0 - - -;B b 0 - p 2 1 0 9;T 1 2 1 0 0;",
    "R 0 0 0 0 0 0 4 1 0 0 1;B b 7 - b 0 - - -;B b 0 - p 2 1 0 9;T 1 2 1 0 0;",
    "R 0 0 0 0 0 0 4 1 0 0 1;B b 0 - p 2 1 0 9;B p 1 1 b 9 - - -;T 1 2 1 0 0;",
    "B b 5 - p 2 1 0 9;B p 1 1 p 2 1 - -;T 0 2 1 0 0;",
    "R 0 9 9 0 0 0 2 - 99 7 1;B p 1 1 b 0 - - -;B b 0 - b 0 - 0 9;T 1 2 1 0 0;",
];
