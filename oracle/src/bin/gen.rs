//! gen SEED COUNT SIZE: boards or damaged sheets parted by a line `%%`, or
//! with SIZE lanes a demand list a line.

use oracle::rng::Rng;
use oracle::{r#gen, lanes, text};
use std::io::Write;

const USAGE: &str = "gen SEED COUNT SIZE
SIZE: tiny program medium full many-lanes damaged lanes
      full-typical full-random hot-rows tall-lanes crowded-corners
      aligned-ports aligned-groups aligned-levels one-exec deep-chips one-row
      one-lane one-sink two-sinks all-corners";

fn main() -> std::io::Result<()> {
    let args: Vec<String> = std::env::args().collect();
    let numbers = (
        args.get(1).and_then(|a| a.parse().ok()),
        args.get(2).and_then(|a| a.parse().ok()),
    );
    let (Some(seed), Some(count), Some(size)) = (numbers.0, numbers.1, args.get(3)) else {
        eprintln!("{USAGE}");
        std::process::exit(2);
    };
    let mut out = std::io::BufWriter::new(std::io::stdout().lock());
    if size == "lanes" {
        for i in 0..count {
            let list = r#gen::lanes::list(&mut Rng::for_item(seed, i));
            writeln!(out, "{}", lanes::line_of(&list))?;
        }
        return out.flush();
    }
    let mut sheets = Vec::new();
    for i in 0..count {
        let Some(sheet) = r#gen::sheet(seed, i, size) else {
            eprintln!("{USAGE}");
            std::process::exit(2);
        };
        sheets.push(sheet);
    }
    out.write_all(&text::join(&sheets))?;
    out.flush()
}
