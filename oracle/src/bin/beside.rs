//! beside PROGRAM SEED COUNT SIZE: runs a program that reads a sheet and
//! writes its answer beside the oracle, with the program's limits. A sheet on
//! which the two differ is shrunk and printed with both answers.

use oracle::{Limits, answer, r#gen, shrink};
use std::io::Write;
use std::process::{Command, Stdio};

const USAGE: &str = "beside PROGRAM SEED COUNT SIZE";

/// What the program writes for a sheet; its status has to be 0.
fn run(program: &str, sheet: &[u8]) -> Vec<u8> {
    let mut child = Command::new(program)
        .stdin(Stdio::piped())
        .stdout(Stdio::piped())
        .spawn()
        .expect("the program can be started");
    // A program that stops reading early closes the pipe: not our business.
    let _ = child.stdin.take().expect("piped").write_all(sheet);
    let out = child.wait_with_output().expect("the program ends");
    if out.status.success() {
        out.stdout
    } else {
        format!("ended with {}\n", out.status).into_bytes()
    }
}

fn main() {
    let args: Vec<String> = std::env::args().collect();
    let seed = args.get(2).and_then(|a| a.parse::<u64>().ok());
    let count = args.get(3).and_then(|a| a.parse::<u64>().ok());
    let (Some(program), Some(seed), Some(count), Some(size)) =
        (args.get(1), seed, count, args.get(4))
    else {
        eprintln!("{USAGE}");
        std::process::exit(2);
    };
    let differs =
        |sheet: &[u8]| run(program, sheet) != answer(sheet, &Limits::PROGRAM).into_bytes();
    let mut different = 0;
    for i in 0..count {
        let Some(sheet) = r#gen::sheet(seed, i, size) else {
            eprintln!("no such size: {size}");
            std::process::exit(2);
        };
        if !differs(&sheet) {
            continue;
        }
        different += 1;
        if different <= 3 {
            let small = shrink::sheet(&sheet, differs);
            println!("sheet {i} differs; made small:");
            println!("{}", String::from_utf8_lossy(&small));
            println!("oracle:\n{}", answer(&small, &Limits::PROGRAM));
            println!(
                "program:\n{}",
                String::from_utf8_lossy(&run(program, &small))
            );
        }
    }
    println!("{count} {size} sheets, {different} differ");
    std::process::exit(i32::from(different > 0));
}
