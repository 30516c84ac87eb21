//! Boards and plans in: a board sheet, a line `%%plan`, its plan sheet; many
//! parted by a line `%%`. Out, a line each: ok, or the clauses that are broken.

use oracle::{Limits, board, check3, text};
use std::io::{Read, Write};

fn main() -> std::io::Result<()> {
    let mut stream = Vec::new();
    std::io::stdin().read_to_end(&mut stream)?;
    let mut out = std::io::BufWriter::new(std::io::stdout().lock());
    let mut bad = 0;
    let mut sheet: Option<Vec<u8>> = None;
    for part in text::parts(&stream) {
        if part.marker == "%%plan" {
            sheet = Some(part.text);
        } else if let Some(sheet) = sheet.take() {
            bad += usize::from(!report(&mut out, &sheet, &part.text)?);
        }
    }
    out.flush()?;
    if bad > 0 {
        std::process::exit(1);
    }
    Ok(())
}

fn report(out: &mut impl Write, sheet: &[u8], plan: &[u8]) -> std::io::Result<bool> {
    let board = match board::parse(sheet, &Limits::LIBRARY) {
        Ok(board) => board,
        Err(refusal) => {
            write!(out, "board refused: {}", refusal.line_of_text())?;
            return Ok(false);
        }
    };
    let faults = check3::check_sheet(&board, plan);
    if faults.is_empty() {
        writeln!(out, "ok")?;
        return Ok(true);
    }
    let words: Vec<String> = (faults.iter())
        .map(|f| format!("{}: {}", f.clause, f.what))
        .collect();
    writeln!(out, "broken: {}", words.join("; "))?;
    Ok(false)
}
