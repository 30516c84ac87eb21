//! Board sheets in, parted by a line `%%`; plan sheets or `E` lines out,
//! parted the same way. `--program` takes the program's limits.

use oracle::{Limits, answer, text};
use std::io::{Read, Write};

fn main() -> std::io::Result<()> {
    let program = std::env::args().any(|a| a == "--program");
    let limits = if program {
        Limits::PROGRAM
    } else {
        Limits::LIBRARY
    };
    let mut stream = Vec::new();
    std::io::stdin().read_to_end(&mut stream)?;
    let answers: Vec<Vec<u8>> = (text::sheets(&stream).iter())
        .map(|sheet| answer(sheet, &limits).into_bytes())
        .collect();
    std::io::stdout().write_all(&text::join(&answers))
}
