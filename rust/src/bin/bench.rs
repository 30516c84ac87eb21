//! bench: the library and the original on the same boards. See USAGE.

use oracle::rng::Rng;
use oracle::{Board, Limits, board, r#gen, harness, lanes};
use original::layout::bus::allocate_lanes;
use panzhyqur::beside::room::{Lending, Room, Way};
use panzhyqur::beside::truth::Truth;
use panzhyqur::beside::{plain, plot, typed};
use panzhyqur::calls::{self, Counts};
use panzhyqur::progress::Progress;
use panzhyqur::stack::with_stack;
use panzhyqur::{self as ours, Buffers, PageBox};
use std::fmt::Write;
use std::hint::black_box;
use std::process::ExitCode;
use std::time::Instant;

const USAGE: &str = "\
bench [--quick] [--seed N] [--into FILE] [--plot FILE]: the library and the original side by side

Times both on the same full boards in one run, the reading of text apart and
together, then the boards that are drawn against the library's own steps, then
boards of 512 to 8,192 wires, typical ones and the worst one, then a click, the
reading of a sheet, the three calls one by one and the lane call alone. The calls
are timed in turn, so that what else runs slows all alike; the shortest run counts.
The plans of the boards are compared too. On a terminal a line on standard error
says which board is timed.

--quick      fewer runs, and without crowded corners, which take the original more
             than a minute (it has one run there, and no comparison: `differ 1 1
             crowded-corners` compares)
--seed N     of the boards (1)
--into FILE  puts the tables between the lines `<!-- tables -->` and
             `<!-- end of tables -->` of a file, else to standard output
--plot FILE  writes the growth as a picture (SVG)";

const BOARDS: [(&str, &str); 5] = [
    ("full-typical", "full, typical"),
    ("full-random", "full, random"),
    ("hot-rows", "hot rows"),
    ("tall-lanes", "tall lanes"),
    (SLOW, "crowded corners"),
];
const SLOW: &str = "crowded-corners";
/// Of the boards drawn against the library's steps, those on which the
/// original takes many seconds.
const TOO_SLOW: [&str; 5] = [
    "one-sink",
    "two-sinks",
    "all-corners",
    "bearing",
    "many-sinks",
];
/// The one of them whose time grows most with its wires.
const WORST: &str = "two-sinks";
/// Wires of the boards that grow, with their pages and rows.
const GROWTH: [(usize, u32, u32); 5] = [
    (512, 1, 32),
    (1_024, 1, 64),
    (2_048, 2, 64),
    (4_096, 4, 64),
    (8_192, 8, 64),
];

/// How often a call is timed: at most so many runs, and no more once they have
/// used so many seconds.
#[derive(Clone, Copy)]
struct Effort {
    rounds: usize,
    seconds: f64,
}

fn main() -> ExitCode {
    let mut quick = false;
    let mut seed = 1;
    let mut into = None;
    let mut plot = None;
    let mut words = std::env::args().skip(1);
    while let Some(word) = words.next() {
        match word.as_str() {
            "--help" => {
                println!("{USAGE}");
                return ExitCode::SUCCESS;
            }
            "--quick" => quick = true,
            "--seed" => match words.next().and_then(|n| n.parse().ok()) {
                Some(given) => seed = given,
                None => return bad("--seed asks for a number"),
            },
            "--into" => match words.next() {
                Some(file) => into = Some(file),
                None => return bad("--into asks for a file"),
            },
            "--plot" => match words.next() {
                Some(file) => plot = Some(file),
                None => return bad("--plot asks for a file"),
            },
            other => return bad(&format!("no such word: {other}")),
        }
    }
    let (tables, lines) = with_stack(|| tables(seed, quick));
    if let Some(file) = plot
        && let Err(why) = std::fs::write(&file, plot::growth(&lines))
    {
        return bad(&format!("{file}: {why}"));
    }
    let Some(file) = into else {
        print!("{tables}");
        return ExitCode::SUCCESS;
    };
    match put_into(&file, &tables) {
        Ok(()) => ExitCode::SUCCESS,
        Err(why) => {
            print!("{tables}");
            eprintln!("{file}: {why}");
            ExitCode::from(2)
        }
    }
}

fn bad(why: &str) -> ExitCode {
    eprintln!("{why}\n\n{USAGE}");
    ExitCode::from(2)
}

fn put_into(file: &str, tables: &str) -> Result<(), String> {
    const MARKS: [&str; 2] = ["<!-- tables -->\n", "<!-- end of tables -->"];
    let text = std::fs::read_to_string(file).map_err(|e| e.to_string())?;
    let parts = text.split_once(MARKS[0]).and_then(|(before, rest)| {
        let (_, after) = rest.split_once(MARKS[1])?;
        Some((before, after))
    });
    let (before, after) = parts.ok_or("the marks are not there")?;
    let whole = format!("{before}{}\n{tables}\n{}{after}", MARKS[0], MARKS[1]);
    std::fs::write(file, whole).map_err(|e| e.to_string())
}

/// The shortest run of each call in milliseconds: all once, then again in turn
/// while they have used less than their time.
fn in_turn<const N: usize>(effort: Effort, mut calls: [&mut dyn FnMut(); N]) -> [f64; N] {
    let mut best = [f64::MAX; N];
    let mut used = [0.0; N];
    for _ in 0..effort.rounds {
        for (i, call) in calls.iter_mut().enumerate() {
            if used[i] < effort.seconds {
                let start = Instant::now();
                call();
                let time = start.elapsed().as_secs_f64();
                best[i] = best[i].min(time * 1e3);
                used[i] += time;
            }
        }
    }
    best
}

/// Milliseconds with three digits that count.
fn ms(time: f64) -> String {
    match time {
        t if t >= 100.0 => format!("{t:.0}"),
        t if t >= 10.0 => format!("{t:.1}"),
        t if t >= 1.0 => format!("{t:.2}"),
        t => format!("{t:.3}"),
    }
}

/// What one board takes.
struct Times {
    /// The board's records as a sheet, by this crate.
    write: f64,
    /// The sheet's text alone: by the library, and by the oracle with the
    /// original's maps.
    read: f64,
    read_to_maps: f64,
    /// From text to plan.
    route: f64,
    /// The three calls alone, their maps built, and from text.
    original: f64,
    original_from_text: f64,
    rerouters: usize,
}

fn times(board: &Board, effort: Effort) -> Times {
    let sheet = board.sheet();
    let body = harness::prepare(board);
    let typed = typed::board_of(board);
    let most = Counts {
        records: Limits::LIBRARY.records,
    };
    let mut text = Vec::new();
    let mut rows = vec![[0; 16]; board.counts().iter().sum()];
    let mut buffers = Buffers::for_limits(&ours::Limits::LIBRARY);
    let maps = |sheet: &[u8]| {
        let board = board::parse(sheet, &Limits::LIBRARY).expect("the board is accepted");
        harness::prepare(&board)
    };
    let [
        write,
        read,
        read_to_maps,
        route,
        original,
        original_from_text,
    ] = in_turn(
        effort,
        [
            &mut || {
                typed.write_sheet(black_box(&mut text));
            },
            &mut || {
                black_box(calls::read_sheet(black_box(&sheet), most, &mut rows));
            },
            &mut || {
                black_box(maps(black_box(&sheet)));
            },
            &mut || {
                black_box(buffers.route(black_box(&sheet)).is_ok());
            },
            &mut || {
                black_box(harness::run_prepared(black_box(&body)));
            },
            &mut || {
                black_box(harness::run_prepared(&maps(black_box(&sheet))));
            },
        ],
    );
    Times {
        write,
        read,
        read_to_maps,
        route,
        original,
        original_from_text,
        rerouters: buffers.bus().nodes().len(),
    }
}

/// Whether the library's plan of a board is the original's.
fn is_same(sheet: &[u8]) -> bool {
    let lending = Lending::default();
    let found = Room::default().call(sheet, &lending, Way::Route);
    Truth::of(sheet).faults(&found, &lending).is_empty()
}

/// The tables, and the lines of the plot.
fn tables(seed: u64, quick: bool) -> (String, Vec<plot::Line>) {
    let effort = if quick {
        Effort {
            rounds: 20,
            seconds: 1.0,
        }
    } else {
        Effort {
            rounds: 50,
            seconds: 5.0,
        }
    };
    let mut out = String::new();
    let _ = writeln!(
        out,
        "Seed {seed}; the shortest of at most {} runs, taken in turn; milliseconds.",
        effort.rounds
    );
    let progress = Progress::new(true);
    let typical = full_boards(&mut out, &progress, seed, quick, effort);
    worst_boards(&mut out, &progress, typical, effort);
    let mut lines = growth(&mut out, &progress, seed, effort);
    progress.step("growth of the worst board");
    lines.push(growth_of_worst(&mut out, effort));
    progress.step("a click");
    a_click(&mut out, seed, effort);
    progress.step("reading a sheet");
    reading(&mut out, seed, effort);
    progress.step("the three calls");
    three_calls(&mut out, seed, effort);
    progress.step("the lane call");
    lane_call(&mut out, seed, effort);
    progress.clear();
    (out, lines)
}

/// Says which board of a table is timed.
fn step(progress: &Progress, table: &str, i: usize, of: usize, board: &str) {
    progress.step(&format!("{table}, {} of {of}: {board}", i + 1));
}

/// The full boards; what `route` takes on the typical one comes back.
fn full_boards(
    out: &mut String,
    progress: &Progress,
    seed: u64,
    quick: bool,
    effort: Effort,
) -> f64 {
    let mut typical = f64::MAX;
    out.push_str(
        "
**Full boards**

| Board | Wires | Rerouters | Ours: write the sheet | read it | `route` less reading | `route` | Original: text to maps | three calls | both | `route` to three calls | Plans |
|---|---|---|---|---|---|---|---|---|---|---|---|
",
    );
    for (i, (size, name)) in BOARDS.into_iter().enumerate() {
        let slow = size == SLOW;
        if slow && quick {
            let _ = writeln!(out, "| {name} | left out | | | | | | | | | | |");
            continue;
        }
        step(progress, "full boards", i, BOARDS.len(), name);
        let board = r#gen::board(seed, 0, size).expect("a size of the generator");
        let sheet = board.sheet();
        let once = Effort {
            rounds: 1,
            seconds: 1.0,
        };
        let t = if slow {
            slow_times(&board, once)
        } else {
            times(&board, effort)
        };
        if size == BOARDS[0].0 {
            typical = t.route;
        }
        let same = match slow {
            true => "not compared here",
            false if is_same(&sheet) => "equal",
            false => "DIFFER",
        };
        let _ = writeln!(
            out,
            "| {name} | {} | {} | {} | {} | {} | {} | {} | {} | {} | {:.2} | {same} |",
            board.wires.len(),
            t.rerouters,
            ms(t.write),
            ms(t.read),
            ms(t.route - t.read),
            ms(t.route),
            ms(t.read_to_maps),
            ms(t.original),
            ms(t.original_from_text),
            t.route / t.original
        );
    }
    typical
}

/// The boards drawn against the library's own steps, beside the typical one.
fn worst_boards(out: &mut String, progress: &Progress, typical: f64, effort: Effort) {
    out.push_str(
        "
**Boards drawn against the library's steps**

| Board | Wires | Rerouters | `route` | to full typical | Original: three calls | Plans |
|---|---|---|---|---|---|---|
",
    );
    let names = r#gen::worst::NAMES;
    for (i, name) in names.into_iter().enumerate() {
        step(progress, "worst boards", i, names.len(), name);
        let board = r#gen::worst::board(name).expect("a name of the list");
        let slow = TOO_SLOW.contains(&name);
        let (route, rerouters) = route_time(&board, effort);
        let (original, same) = if slow {
            ("seconds".into(), "not compared here")
        } else {
            let body = harness::prepare(&board);
            let once = &mut || {
                black_box(harness::run_prepared(black_box(&body)));
            };
            let [original] = in_turn(
                Effort {
                    rounds: 3,
                    ..effort
                },
                [once],
            );
            let same = is_same(&board.sheet());
            (ms(original), if same { "equal" } else { "DIFFER" })
        };
        let _ = writeln!(
            out,
            "| {name} | {} | {rerouters} | {} | {:.1} | {original} | {same} |",
            board.wires.len(),
            ms(route),
            route / typical
        );
    }
}

/// What `route` takes on a board, and how many rerouters it lays.
fn route_time(board: &Board, effort: Effort) -> (f64, usize) {
    let sheet = board.sheet();
    let mut buffers = Buffers::for_limits(&ours::Limits::LIBRARY);
    let call = &mut || {
        black_box(buffers.route(black_box(&sheet)).is_ok());
    };
    let [route] = in_turn(effort, [call]);
    (route, buffers.bus().nodes().len())
}

/// One run each of what takes long: the original from text is the sum.
fn slow_times(board: &Board, once: Effort) -> Times {
    let sheet = board.sheet();
    let body = harness::prepare(board);
    let mut buffers = Buffers::for_limits(&ours::Limits::LIBRARY);
    let [route, original] = in_turn(
        once,
        [
            &mut || {
                black_box(buffers.route(black_box(&sheet)).is_ok());
            },
            &mut || {
                black_box(harness::run_prepared(black_box(&body)));
            },
        ],
    );
    let mut text = Vec::new();
    let mut rows = vec![[0; 16]; board.counts().iter().sum()];
    let most = Counts {
        records: Limits::LIBRARY.records,
    };
    let typed = typed::board_of(board);
    let [write, read, read_to_maps] = in_turn(
        Effort {
            rounds: 10,
            seconds: 1.0,
        },
        [
            &mut || typed.write_sheet(black_box(&mut text)),
            &mut || {
                black_box(calls::read_sheet(black_box(&sheet), most, &mut rows));
            },
            &mut || {
                let board = board::parse(black_box(&sheet), &Limits::LIBRARY);
                black_box(board.map(|b| harness::prepare(&b)).is_ok());
            },
        ],
    );
    Times {
        write,
        read,
        read_to_maps,
        route,
        original,
        original_from_text: original + read_to_maps,
        rerouters: buffers.bus().nodes().len(),
    }
}

fn growth(out: &mut String, progress: &Progress, seed: u64, effort: Effort) -> Vec<plot::Line> {
    let mut lines = [
        ("route", Vec::new()),
        ("the original's three calls", Vec::new()),
    ];
    out.push_str(
        "
**Growth**: typical boards

| Wires | Bytes | Ours: read the sheet | `route` | µs a wire | Original: three calls | µs a wire | Plans |
|---|---|---|---|---|---|---|---|
",
    );
    for (i, (wires, pages, rows)) in GROWTH.into_iter().enumerate() {
        step(
            progress,
            "growth, wires",
            i,
            GROWTH.len(),
            &wires.to_string(),
        );
        let board = r#gen::nasty::typical(&mut Rng::for_item(seed, 0), pages, rows);
        assert_eq!(board.wires.len(), wires);
        let sheet = board.sheet();
        let t = times(&board, effort);
        let each = |time: f64| time * 1e3 / wires as f64;
        let same = if is_same(&sheet) { "equal" } else { "DIFFER" };
        let _ = writeln!(
            out,
            "| {wires} | {} | {} | {} | {:.3} | {} | {:.3} | {same} |",
            sheet.len(),
            ms(t.read),
            ms(t.route),
            each(t.route),
            ms(t.original),
            each(t.original)
        );
        lines[0].1.push((wires as f64, t.route));
        lines[1].1.push((wires as f64, t.original));
    }
    let named = |(name, points): (&str, _)| plot::Line {
        name: format!("{name}, typical boards"),
        points,
    };
    lines.map(named).into()
}

fn growth_of_worst(out: &mut String, effort: Effort) -> plot::Line {
    let _ = write!(
        out,
        "
**Growth**: the first wires of {WORST}

| Wires | Rerouters | `route` | µs a wire |
|---|---|---|---|
"
    );
    let mut points = Vec::new();
    for (wires, _, _) in GROWTH {
        let mut board = r#gen::worst::board(WORST).expect("a name of the list");
        board.wires.truncate(wires);
        let (route, rerouters) = route_time(&board, effort);
        points.push((wires as f64, route));
        let each = route * 1e3 / wires as f64;
        let _ = writeln!(out, "| {wires} | {rerouters} | {} | {each:.2} |", ms(route));
    }
    plot::Line {
        name: format!("route, {WORST}"),
        points,
    }
}

/// `hits` beside `route`, with a box of the whole page that has most rerouters,
/// and with a small one about the middle one of these.
fn a_click(out: &mut String, seed: u64, effort: Effort) {
    out.push_str(
        "
**A click**: `hits` with a box of the whole page that has most rerouters, and with a small one on it

| Board | `route` | Page | Whole page: rerouters, bus wires hit | `hits` | to `route` | Small box: rerouters, bus wires hit | `hits` | to `route` |
|---|---|---|---|---|---|---|---|---|
",
    );
    for (size, name) in &BOARDS[..2] {
        let sheet = r#gen::sheet(seed, 0, size).expect("a size of the generator");
        let [mut one, mut two, mut three] =
            [(); 3].map(|()| Buffers::for_limits(&ours::Limits::LIBRARY));
        let plan = one.route(&sheet).expect("the board is accepted");
        let on_page = |page: usize| plan.nodes().filter(move |r| r.page == page);
        let pages = 0..plan.pages().len();
        let page = pages.rev().max_by_key(|page| on_page(*page).count());
        let page = page.expect("the board has a page");
        let middle = on_page(page).nth(on_page(page).count() / 2);
        let (x, y) = middle.map_or((0, 0), |r| (r.x, r.y));
        let on = |x, y| PageBox {
            page: page as u32,
            x,
            y,
        };
        let all = (i32::MIN, i32::MAX);
        let whole = on(all, all);
        let small = on((x - 3, x + 5), (y - 3, y + 5));
        let [route, of_page, of_few] = in_turn(
            effort,
            [
                &mut || {
                    black_box(one.route(black_box(&sheet)).is_ok());
                },
                &mut || {
                    black_box(two.hits(black_box(&sheet), black_box(&whole)).is_ok());
                },
                &mut || {
                    black_box(three.hits(black_box(&sheet), black_box(&small)).is_ok());
                },
            ],
        );
        let mut counts = |page_box: &PageBox| {
            let hits = one.hits(&sheet, page_box).expect("the box is on the board");
            format!("{}, {}", hits.rerouters().len(), hits.wires().len())
        };
        let _ = writeln!(
            out,
            "| {name} | {} | {page} | {} | {} | {:.2} | {} | {} | {:.2} |",
            ms(route),
            counts(&whole),
            ms(of_page),
            of_page / route,
            counts(&small),
            ms(of_few),
            of_few / route
        );
    }
}

/// The three calls one after the other, each of which reads the sheet.
fn three_calls(out: &mut String, seed: u64, effort: Effort) {
    out.push_str(
        "
**The three calls one after the other**, each from the text

| Board | `plan_bus` | `lay_bus` | `lay_mini_bus` | all three | Original: three calls | to it |
|---|---|---|---|---|---|---|
",
    );
    for (size, name) in &BOARDS[..2] {
        let board = r#gen::board(seed, 0, size).expect("a size of the generator");
        let sheet = board.sheet();
        let body = harness::prepare(&board);
        let [mut one, mut two, mut three] =
            [(); 3].map(|()| Buffers::for_limits(&ours::Limits::LIBRARY));
        let [plan, lay, sum, original] = in_turn(
            effort,
            [
                &mut || {
                    black_box(one.plan_bus(black_box(&sheet)).is_ok());
                },
                &mut || {
                    black_box(two.lay_bus(black_box(&sheet)).is_ok());
                },
                &mut || {
                    black_box(three.plan_bus(black_box(&sheet)).is_ok());
                    black_box(three.lay_bus(black_box(&sheet)).is_ok());
                    black_box(three.lay_mini_bus(black_box(&sheet)).is_ok());
                },
                &mut || {
                    black_box(harness::run_prepared(black_box(&body)));
                },
            ],
        );
        let mini = sum - plan - lay;
        let _ = writeln!(
            out,
            "| {name} | {} | {} | {} | {} | {} | {:.2} |",
            ms(plan),
            ms(lay),
            ms(mini),
            ms(sum),
            ms(original),
            sum / original
        );
    }
}

fn reading(out: &mut String, seed: u64, effort: Effort) {
    out.push_str(
        "
**Reading a sheet**: a byte loop without any check, a plain Rust reader of refusals 1 to 3 that writes rows as it goes, and the library, which writes none before the last line is accepted

| Board | Byte loop | Plain reader | `check_sheet` | `read_sheet` | to the plain reader |
|---|---|---|---|---|---|
",
    );
    for (size, name) in &BOARDS[..2] {
        let text = r#gen::sheet(seed, 0, size).expect("a size of the generator");
        let most = Limits::LIBRARY.records;
        let counts = Counts { records: most };
        let lines = text.iter().filter(|b| **b == b'\n').count();
        let mut rows = [(); 3].map(|()| vec![[0; 16]; lines]);
        let [one, two, three] = &mut rows;
        let [bare, reader, check, read] = in_turn(
            effort,
            [
                &mut || {
                    black_box(plain::bare(black_box(&text), one));
                },
                &mut || {
                    black_box(plain::reader(black_box(&text), most, two));
                },
                &mut || {
                    black_box(calls::check_sheet(black_box(&text), counts));
                },
                &mut || {
                    black_box(calls::read_sheet(black_box(&text), counts, three));
                },
            ],
        );
        let _ = writeln!(
            out,
            "| {name} | {} | {} | {} | {} | {:.2} |",
            ms(bare),
            ms(reader),
            ms(check),
            ms(read),
            read / reader
        );
    }
}

/// 8,192 demands: short spans over many rows, one row a demand, and wide ones
/// that open nearly as many lanes as may be.
fn lane_call(out: &mut String, seed: u64, effort: Effort) {
    out.push_str(
        "
**The lane call**: 8,192 demands

| Demands | Lanes | Ours | Original | ours to it |
|---|---|---|---|---|
",
    );
    let rng = &mut Rng::new(seed);
    let spans = |rng: &mut Rng, reach: usize| -> Vec<u32> {
        let mut list = Vec::new();
        for i in 0..8_192 {
            let first = rng.below(4_096) as u32;
            let last = (first + rng.below(reach) as u32).min(4_095);
            list.extend([first, last, rng.below(9) as u32, i]);
        }
        list
    };
    for (name, reach) in [("short spans", 20), ("one row each", 1), ("crowded", 235)] {
        let list = spans(rng, reach);
        let demands = lanes::demands_of(&list);
        let mut answers = vec![0; 8_192];
        let mut rows = [(); 2].map(|()| vec![[0; 8]; 8_192]);
        let [work, spare] = &mut rows;
        let [ours, original] = in_turn(
            effort,
            [
                &mut || {
                    let list = black_box(&list);
                    black_box(calls::allocate_lanes(list, &mut answers, work, spare));
                },
                &mut || {
                    black_box(allocate_lanes(black_box(&demands)));
                },
            ],
        );
        let open = allocate_lanes(&demands)
            .into_iter()
            .max()
            .map_or(0, |l| l + 1);
        let _ = writeln!(
            out,
            "| {name} | {open} | {} | {} | {:.2} |",
            ms(ours),
            ms(original),
            ours / original
        );
    }
}
