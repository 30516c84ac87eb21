//! Demand lists in, one a line, four numbers a demand, parted by spaces; out,
//! a line each: the count of lanes and each demand's lane, or `E` number place.

use oracle::lanes;
use std::io::{BufRead, Write};

fn main() -> std::io::Result<()> {
    let mut out = std::io::BufWriter::new(std::io::stdout().lock());
    for line in std::io::stdin().lock().lines() {
        match lanes::list_of(&line?) {
            Some(list) => writeln!(out, "{}", lanes::answer(&list))?,
            None => writeln!(out, "not a list of numbers")?,
        }
    }
    out.flush()
}
