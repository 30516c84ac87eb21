//! timing SEED COUNT SIZE: how long the original takes on boards of a size,
//! by its three calls alone and from sheet to plan sheet. The shortest of
//! three runs each.

use oracle::{Limits, answer, r#gen, harness};
use std::hint::black_box;
use std::time::Instant;

fn best(mut run: impl FnMut()) -> f64 {
    let mut best = f64::MAX;
    for _ in 0..3 {
        let start = Instant::now();
        run();
        best = best.min(start.elapsed().as_secs_f64());
        // Boards that take seconds are run once.
        if best > 1.0 {
            break;
        }
    }
    best * 1e3
}

fn main() {
    let args: Vec<String> = std::env::args().collect();
    let seed = args.get(1).and_then(|a| a.parse::<u64>().ok());
    let count = args.get(2).and_then(|a| a.parse::<u64>().ok());
    let (Some(seed), Some(count), Some(size)) = (seed, count, args.get(3)) else {
        eprintln!("timing SEED COUNT SIZE");
        std::process::exit(2);
    };
    for i in 0..count {
        let Some(board) = r#gen::board(seed, i, size) else {
            eprintln!("no such size: {size}");
            std::process::exit(2);
        };
        let sheet = board.sheet();
        let body = harness::prepare(&board);
        let calls = best(|| {
            black_box(harness::run_prepared(black_box(&body)));
        });
        let whole = best(|| {
            black_box(answer(black_box(&sheet), &Limits::LIBRARY));
        });
        let bytes = sheet.len();
        println!("{size} {i}: {bytes} bytes, calls {calls:.2} ms, sheet to plan {whole:.2} ms");
    }
}
