//! differ SEED COUNT SIZE: see USAGE.

use oracle::r#gen::BOARD_SIZES;
use oracle::r#gen::worst::NAMES;
use panzhyqur::beside::differ::{Difference, Memory, Watch, run};
use panzhyqur::beside::sheets;
use panzhyqur::progress::Progress;
use panzhyqur::stack::with_stack;
use std::path::Path;
use std::process::ExitCode;
use std::time::Instant;

const USAGE: &str = "\
differ SEED COUNT SIZE [--anew]: the library beside the original

COUNT sheets of a seed and size go through the library and through the original
behind the oracle's reader. Each goes through `route`, and from the same poison
through `plan_bus`, `lay_bus` and `lay_mini_bus` one after the other, the last
with the counts and buffers that `lay_bus` left. Both are compared with the
original: each call's refusal and line, counts, page answers, the whole plan byte
for byte, what must stay untouched in every buffer, after each call; and with each
other: answers, refusals, every row of the four output buffers. The original has
no depths: those of each plan, in the rows and in the text, are checked against
the plan's own bus wires. Demand 3 is checked on the plan of the three calls. Then
the typed calls, the board's writer and the plan's reader. Slices are just as long
as named, or one a row short or long. What differs is shrunk and printed, and the
status is then 1. On a terminal a line on standard error says how far it is.

SIZE    tiny program medium full many-lanes
        full-typical full-random hot-rows tall-lanes crowded-corners
        aligned-ports aligned-groups aligned-levels one-exec deep-chips one-row
        one-lane one-sink two-sinks all-corners
        damaged scratched to-the-most
        a file that holds a sheet
        lanes   demand lists through the lane call
        handed  `lay_mini_bus` on buffers with any content and counts that fit,
                just fit or are at fault, some with a 513th lane besides: its
                refusals by a model of the rule, its corners by the original,
                whose depth is 1, while those handed in stay whatever they are
        boxed   `find_hits` on boards of every size, most of them tiny, each with
                some boxes about the edges of what its plan has: the hits by the
                oracle's reading of the original's plan, the plan's buffers by
                `route` from the same poison, hit buffers short, exact and long
        all     COUNT each of tiny, damaged, scratched, lanes and handed, a
                quarter of that boxed, a tenth program, a hundredth to-the-most,
                a 400th each of full and many-lanes
--anew  makes the buffers of each sheet anew with just their length";

/// Sizes of `all`, with what COUNT is divided by.
const ALL: [(&str, u64); 10] = [
    ("tiny", 1),
    ("damaged", 1),
    ("scratched", 1),
    ("lanes", 1),
    ("handed", 1),
    ("boxed", 4),
    ("program", 10),
    ("to-the-most", 100),
    ("full", 400),
    ("many-lanes", 400),
];

fn main() -> ExitCode {
    let mut words: Vec<String> = std::env::args().skip(1).collect();
    if words.iter().any(|w| w == "--help") {
        println!("{USAGE}");
        return ExitCode::SUCCESS;
    }
    let given = words.len();
    words.retain(|w| w != "--anew");
    let memory = match given - words.len() {
        0 => Memory::Reused,
        _ => Memory::Anew,
    };
    let [seed, count, size] = &words[..] else {
        return bad("three words are asked for");
    };
    let (Ok(seed), Ok(count)) = (seed.parse::<u64>(), count.parse::<u64>()) else {
        return bad("SEED and COUNT are numbers from 0");
    };
    let one = [(size.as_str(), 1)];
    let runs: &[(&str, u64)] = match size.as_str() {
        "all" => &ALL,
        size if is_known(size) => &one,
        _ => return bad(&format!("no such size: {size}")),
    };
    let different = with_stack(|| {
        let each = runs.iter().map(|(size, part)| {
            let count = count.div_ceil(*part);
            one_run(seed, count, size, memory)
        });
        each.sum::<usize>()
    });
    println!("differ: {different}");
    ExitCode::from(u8::from(different > 0))
}

fn is_known(size: &str) -> bool {
    let listed: [&[&str]; 3] = [&BOARD_SIZES, &NAMES, &sheets::OTHERS];
    listed.iter().any(|list| list.contains(&size)) || Path::new(size).is_file()
}

/// The run of one size, as it is told.
struct Told<'a> {
    seed: u64,
    count: u64,
    size: &'a str,
    progress: Progress,
}

impl Watch for Told<'_> {
    fn differs(&mut self, d: &Difference) {
        let Self { seed, size, .. } = self;
        self.progress.clear();
        println!("{size} {} of seed {seed} differs: {}", d.item, d.told);
        println!("{}", d.small);
    }

    fn done(&mut self, items: u64, different: usize) {
        let Self { count, size, .. } = self;
        let line = || format!("{size}: {items} of {count}, {different} differ");
        self.progress.show(line);
    }
}

fn one_run(seed: u64, count: u64, size: &str, memory: Memory) -> usize {
    let start = Instant::now();
    let mut told = Told {
        seed,
        count,
        size,
        progress: Progress::new(true),
    };
    let tally = run(seed, count, size, memory, &mut told).expect("the size is known");
    told.progress.clear();
    let seconds = start.elapsed().as_secs_f64();
    println!(
        "{count} {size} of seed {seed} in {seconds:.1} s, {} differ",
        tally.different
    );
    println!("{tally}");
    tally.different
}

fn bad(why: &str) -> ExitCode {
    eprintln!("{why}\n\n{USAGE}");
    ExitCode::from(2)
}
