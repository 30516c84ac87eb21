//! soak: boards at a steady pace for as long as asked. See USAGE.

use oracle::rng::Rng;
use oracle::shrink;
use panzhyqur::beside::boxes;
use panzhyqur::beside::clicks::{Due, Rooms};
use panzhyqur::beside::room::{Found, Lending, Room, SLICES, Way};
use panzhyqur::beside::sheets;
use panzhyqur::beside::truth::Truth;
use panzhyqur::progress::Progress;
use panzhyqur::stack::with_stack;
use std::process::ExitCode;
use std::time::{Duration, Instant};

const USAGE: &str = "\
soak [--minutes N] [--per-minute N] [--seed N]: the library at a steady pace

Boards as a server gets them, 200 a minute where nothing else is said, for as
many minutes as asked (1): small ones, damaged ones, full ones. Each goes through
the library with every slice of its named length, then with each slice a row
short, then with each a row long, and every fourth board through the three calls
apart as well; then three boxes through `find_hits`, each with its hit buffer a
number short, exact and a number long. The buffers are used again from save to save and poisoned between
saves. A plan must be the original's byte for byte, its depths those of the way
back through its bus wires; what stands behind its counts and behind every slice
must be the poison; after a refusal all of it must be.

A line a minute, then a summary; on a terminal a line on standard error says how
far the minute is. The first three boards that differ are shrunk and printed, and
the status is then 1.";

/// Boxes of a board, each clicked with hit buffers of these lengths.
const BOXES: usize = 3;
const HIT_BUFFERS: [isize; 3] = [0, -1, 1];

/// Boards that differ and are shrunk and printed.
const TOLD: usize = 3;

/// Sizes of a hundred boards.
const MIX: [(&str, usize); 9] = [
    ("tiny", 38),
    ("program", 25),
    ("damaged", 18),
    ("scratched", 3),
    ("medium", 8),
    ("full", 4),
    ("full-typical", 2),
    ("many-lanes", 1),
    ("to-the-most", 1),
];

#[derive(Default)]
struct Tally {
    boards: usize,
    calls: usize,
    outcomes: [usize; 9],
    rerouters: usize,
    deliveries: usize,
    different: usize,
    /// The longest save with slices of the named lengths, its plan written.
    longest: Duration,
}

fn main() -> ExitCode {
    let mut numbers = [("--minutes", 1), ("--per-minute", 200), ("--seed", 1)];
    let mut words = std::env::args().skip(1);
    while let Some(word) = words.next() {
        if word == "--help" {
            println!("{USAGE}");
            return ExitCode::SUCCESS;
        }
        let known = numbers.iter_mut().find(|(name, _)| *name == word);
        let number = words.next().and_then(|n| n.parse::<u64>().ok());
        let (Some(to), Some(number)) = (known, number) else {
            eprintln!("{word}: no such word, or no number behind it\n\n{USAGE}");
            return ExitCode::from(2);
        };
        to.1 = number;
    }
    let [minutes, per_minute, seed] = numbers.map(|(_, n)| n);
    if per_minute == 0 {
        eprintln!("--per-minute has to be at least 1\n\n{USAGE}");
        return ExitCode::from(2);
    }
    with_stack(|| run(minutes, per_minute, seed))
}

fn run(minutes: u64, per_minute: u64, seed: u64) -> ExitCode {
    println!("{minutes} minutes, {per_minute} boards a minute, seed {seed}");
    let mut room = Room::default();
    let mut rooms = Rooms::default();
    let mut whole = Tally::default();
    let start = Instant::now();
    let pause = Duration::from_secs(60).div_f64(per_minute as f64);
    let mut behind = Duration::ZERO;
    let progress = Progress::new(true);
    for minute in 0..minutes {
        let mut tally = Tally::default();
        for i in minute * per_minute..(minute + 1) * per_minute {
            let due = start + pause.mul_f64(i as f64);
            match due.checked_duration_since(Instant::now()) {
                Some(wait) => std::thread::sleep(wait),
                None => behind = behind.max(due.elapsed()),
            }
            let size = size_of(seed, i);
            let sheet = sheets::sheet(seed, i, size).expect("a size of the generator");
            let rng = &mut Rng::for_item(!seed, i);
            let before = tally.different;
            // What differs is printed where the line stands.
            progress.clear();
            save(&mut tally, &mut room, &sheet, rng, whole.different);
            if tally.different == before {
                click(&mut tally, &mut rooms, &sheet, rng, whole.different);
            }
            let (minute, boards) = (minute + 1, tally.boards);
            progress.show(|| format!("minute {minute} of {minutes}: {boards} of {per_minute}"));
        }
        progress.clear();
        println!("minute {}: {}", minute + 1, tally.line());
        whole.join(&tally);
    }
    println!("whole: {}", whole.line());
    println!(
        "{:.1} minutes, at most {:.1} s behind the pace, memory {}; boards that differ: {}",
        start.elapsed().as_secs_f64() / 60.0,
        behind.as_secs_f64(),
        memory(),
        whole.different
    );
    ExitCode::from(u8::from(whole.different > 0))
}

fn size_of(seed: u64, i: u64) -> &'static str {
    let weights = MIX.map(|(_, weight)| weight);
    MIX[Rng::for_item(seed ^ 0x50a4, i).weighted(&weights)].0
}

/// The lendings of one save: named lengths, each slice short, each long; on
/// some boards again with the calls apart.
fn lendings(rng: &mut Rng) -> Vec<(Lending, Way)> {
    let mut all = Vec::new();
    let ways: &[Way] = match rng.below(4) {
        0 => &[Way::Route, Way::Apart],
        _ => &[Way::Route],
    };
    for way in ways {
        for (more, slices) in [(0, 1), (-1, SLICES), (1, SLICES)] {
            for slice in 0..slices {
                let mut lending = Lending {
                    rows: [0; SLICES],
                    output: Some(rng.number() as u32),
                    work: Some(rng.number() as u32),
                };
                lending.rows[slice] = more;
                all.push((lending, *way));
            }
        }
    }
    all
}

/// One board; `before` differed in the minutes before.
fn save(tally: &mut Tally, room: &mut Room, sheet: &[u8], rng: &mut Rng, before: usize) {
    let truth = Truth::of(sheet);
    tally.boards += 1;
    if let Ok(plan) = &truth.plan {
        tally.rerouters += plan.totals[0];
        tally.deliveries += plan.totals[2];
    }
    let mut told = false;
    for (k, (lending, way)) in lendings(rng).iter().enumerate() {
        let start = Instant::now();
        let found = room.call(sheet, lending, *way);
        let took = start.elapsed();
        tally.calls += found.reports.refusals().len();
        let mut faults = truth.faults(&found, lending);
        if k == 0 {
            tally.longest = tally.longest.max(took);
            tally.outcomes[found.reports.refusals()[0].0.min(8)] += 1;
            // The other plans of the board are the same, or are told.
            faults.extend(broken(&truth, &found));
        }
        if !faults.is_empty() && !told {
            told = true;
            tally.different += 1;
            if before + tally.different <= TOLD {
                tell(sheet, lending, *way, &faults);
            }
        }
    }
}

/// Boxes on one board; `before` differed in the minutes before.
fn click(tally: &mut Tally, rooms: &mut Rooms, sheet: &[u8], rng: &mut Rng, before: usize) {
    let truth = Truth::of(sheet);
    for _ in 0..BOXES {
        let mut click = boxes::click(rng, &truth);
        click.lending.rows = [0; SLICES];
        for more in HIT_BUFFERS {
            click.more = more;
            let due = Due::of(&truth, &click);
            let faults = rooms.faults(sheet, &truth, &click, &due);
            tally.calls += 1;
            if faults.is_empty() {
                continue;
            }
            tally.different += 1;
            if before + tally.different <= TOLD {
                tell_click(sheet, &click, &faults);
            }
            return;
        }
    }
}

fn tell_click(sheet: &[u8], click: &boxes::Click, faults: &[String]) {
    let again = |s: &[u8]| {
        let truth = Truth::of(s);
        Rooms::default().faults(s, &truth, click, &Due::of(&truth, click))
    };
    let small = shrink::sheet(sheet, |s| !again(s).is_empty());
    println!(
        "differs: {faults:?}\nshrunk, {click:?}: {:?}",
        again(&small)
    );
    println!("{}", String::from_utf8_lossy(&small));
}

/// What a whole plan breaks of demand 3, and of depths.
fn broken(truth: &Truth, found: &Found) -> Vec<String> {
    match found.reports.plan() {
        Some(_) => truth.broken(&found.plan),
        None => Vec::new(),
    }
}

fn tell(sheet: &[u8], lending: &Lending, way: Way, faults: &[String]) {
    let again = |s: &[u8]| {
        let found = Room::default().call(s, lending, way);
        let truth = Truth::of(s);
        let mut faults = truth.faults(&found, lending);
        faults.extend(broken(&truth, &found));
        faults
    };
    let small = shrink::sheet(sheet, |s| !again(s).is_empty());
    println!(
        "differs: {faults:?}\nshrunk, {way:?}, {lending:?}: {:?}",
        again(&small)
    );
    println!("{}", String::from_utf8_lossy(&small));
}

/// The memory that the program holds, where the system tells.
fn memory() -> String {
    let status = std::fs::read_to_string("/proc/self/status").unwrap_or_default();
    let line = status.lines().find_map(|l| l.strip_prefix("VmRSS:"));
    line.map_or("not told".to_string(), |l| l.trim().to_string())
}

impl Tally {
    fn line(&self) -> String {
        let [accepted, refused @ ..] = self.outcomes;
        let mut line = format!(
            "{} boards, {} calls, accepted {accepted}",
            self.boards, self.calls
        );
        for (i, n) in refused.iter().enumerate().filter(|(_, n)| **n > 0) {
            line += &format!(", refused with {} {n}", i + 1);
        }
        let longest = self.longest.as_secs_f64() * 1e3;
        line + &format!(
            "; rerouters {}, deliveries {}; longest save {longest:.1} ms; memory {}; {} differ",
            self.rerouters,
            self.deliveries,
            memory(),
            self.different
        )
    }

    fn join(&mut self, other: &Self) {
        self.boards += other.boards;
        self.calls += other.calls;
        for (sum, n) in self.outcomes.iter_mut().zip(other.outcomes) {
            *sum += n;
        }
        self.rerouters += other.rerouters;
        self.deliveries += other.deliveries;
        self.different += other.different;
        self.longest = self.longest.max(other.longest);
    }
}
