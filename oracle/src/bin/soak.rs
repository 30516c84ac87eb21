//! soak SEED COUNT SIZE [--branches]: boards of a size through the reader, the
//! original, the model and the checker; counts out. A board on which they
//! differ is shrunk and printed.

use oracle::model::branch::{BRANCHES, Counts};
use oracle::{Limits, board, r#gen, shrink, soak};
use std::time::Instant;

const USAGE: &str = "soak SEED COUNT SIZE [--branches]";

#[derive(Default)]
struct Tally {
    refused: [usize; 9],
    accepted: usize,
    empty: usize,
    totals: [usize; 5],
    counts: Counts,
    faults: usize,
}

fn main() {
    let args: Vec<String> = std::env::args().collect();
    let seed = args.get(1).and_then(|a| a.parse::<u64>().ok());
    let count = args.get(2).and_then(|a| a.parse::<u64>().ok());
    let (Some(seed), Some(count), Some(size)) = (seed, count, args.get(3)) else {
        eprintln!("{USAGE}");
        std::process::exit(2);
    };
    let limits = match size.as_str() {
        "damaged" | "program" => Limits::PROGRAM,
        _ => Limits::LIBRARY,
    };
    let start = Instant::now();
    let mut tally = Tally::default();
    for i in 0..count {
        let Some(sheet) = r#gen::sheet(seed, i, size) else {
            eprintln!("no such size: {size}");
            std::process::exit(2);
        };
        one(&mut tally, &sheet, &limits, seed ^ i);
    }
    print(&tally, size, count, start.elapsed().as_secs_f64());
    if args.iter().any(|a| a == "--branches") {
        for (branch, words) in BRANCHES {
            println!("{:>9}  {words}", tally.counts.of(*branch));
        }
    }
    std::process::exit(i32::from(tally.faults > 0));
}

fn one(tally: &mut Tally, sheet: &[u8], limits: &Limits, seed: u64) {
    let mut outcome = soak::run(sheet, limits);
    // One board in 16 also with maps walked in another order.
    if seed.is_multiple_of(16)
        && let Ok(board) = board::parse(sheet, limits)
        && !soak::is_steady(&board, seed | 1)
    {
        outcome
            .faults
            .push("original: depends on map order or z".to_string());
    }
    match outcome.refused {
        Some(number) => tally.refused[number as usize] += 1,
        None => tally.accepted += 1,
    }
    tally.empty += usize::from(outcome.refused.is_none() && outcome.totals[0] == 0);
    for (sum, n) in tally.totals.iter_mut().zip(outcome.totals) {
        *sum += n;
    }
    tally.counts.add(&outcome.counts);
    if !outcome.faults.is_empty() {
        tally.faults += 1;
        if tally.faults <= 3 {
            let small = shrink::sheet(sheet, |s| !soak::run(s, limits).faults.is_empty());
            println!("differs: {}", outcome.faults.join("; "));
            println!("{}", String::from_utf8_lossy(&small));
        }
    }
}

fn print(tally: &Tally, size: &str, count: u64, seconds: f64) {
    println!("{count} {size} sheets in {seconds:.1} s");
    println!(
        "accepted {}, of them {} without a rerouter",
        tally.accepted, tally.empty
    );
    for (number, n) in tally.refused.iter().enumerate().filter(|(_, n)| **n > 0) {
        println!("refused with {number}: {n}");
    }
    let [r, b, d, direct, laid] = tally.totals;
    println!("rerouters {r}, bus wires {b}, deliveries {d}, direct {direct}, laid groups {laid}");
    println!("boards that differ: {}", tally.faults);
}
