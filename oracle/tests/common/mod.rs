//! Sheets written with spaces for tabs.
#![allow(dead_code)]

use oracle::{Board, Limits, answer, board};

pub const EXAMPLE_A: &str = "\
P 0 10
N 1 0 1 0 2 2 0 20 0 0 0 -
N 2 0 0 0 2 2 0 10 8 0 10 -
N 3 0 0 0 2 2 0 0 8 0 20 -
W 1 5 2 1
W 1 5 3 1
";

pub const PLAN_A: &str = "\
L 0 1 8
R 0 20 -5 10 2 2 1 1 0 - 1
R 1 20 -8 10 1 0 2 1 0 0 2
R 2 12 -8 10 1 0 3 1 0 0 3
R 3 10 -8 10 0 0 4 1 0 0 4
R 4 10 3 10 0 0 5 1 0 - 5
R 5 2 -8 10 1 0 3 1 0 0 4
R 6 0 -8 10 0 0 4 1 0 0 5
R 7 0 3 10 0 0 5 1 0 - 6
B p 1 5 b 0 - - -
B b 0 - b 1 - - -
B b 1 - b 2 - - -
B b 2 - b 3 - - -
B b 3 - b 4 - - -
B b 4 - p 2 1 0 5
B b 2 - b 5 - - -
B b 5 - b 6 - - -
B b 6 - b 7 - - -
B b 7 - p 3 1 1 6
U 2 1
U 3 1
T 8 10 2 0 1
";

pub fn tabs(text: &str) -> String {
    text.replace(' ', "\t")
}

pub fn board_of(text: &str) -> Board {
    board::parse(tabs(text).as_bytes(), &Limits::LIBRARY).expect("the board is accepted")
}

/// The answer with spaces for tabs, without the last line end.
pub fn says(text: &str, limits: &Limits) -> String {
    let out = answer(tabs(text).as_bytes(), limits).replace('\t', " ");
    out.trim_end().to_string()
}
