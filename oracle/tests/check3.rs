//! Damaged plans: the checker catches each clause of demand 3, and wrong depths.

mod common;

use common::{EXAMPLE_A, PLAN_A, board_of, says, tabs};
use oracle::check3::{CLAUSES, check_sheet};
use oracle::{Limits, depths, r#gen, run_plan};

/// A source above and to the right of a turned sink: one corner.
const CORNER: &str = "\
P 0 0
N 1 0 0 0 1 1 0 20 30 0 0 1
N 2 0 0 0 4 4 1 0 0 0 10 1
W 1 1 2 1
";

fn broken(board: &str, plan: &str) -> Vec<&'static str> {
    let faults = check_sheet(&board_of(board), tabs(plan).as_bytes());
    faults.iter().map(|f| f.clause).collect()
}

/// Plan (a) with one line put in another's place.
fn edited(from: &str, to: &str) -> Vec<&'static str> {
    assert!(PLAN_A.contains(from), "{from}");
    broken(EXAMPLE_A, &PLAN_A.replacen(from, to, 1))
}

#[test]
fn sound_plans_pass() {
    assert!(broken(EXAMPLE_A, PLAN_A).is_empty());
    let corner = says(CORNER, &Limits::LIBRARY) + "\n";
    assert!(corner.contains("\nR 0 0 30 0 2 1 6 1 0 - 1\n"), "{corner}");
    assert!(broken(CORNER, &corner).is_empty());
}

#[test]
fn each_clause_is_caught() {
    assert_eq!(edited("B b 3 - b 4 - - -", "B b 9 - b 4 - - -")[0], "ends");
    // Fed twice, fed by a higher number, not fed.
    assert!(edited("B b 5 - b 6 - - -", "B b 5 - b 7 - - -").contains(&"feeder"));
    assert!(edited("B b 2 - b 3 - - -", "B b 5 - b 3 - - -").contains(&"feeder"));
    assert!(edited("B b 6 - b 7 - - -\n", "").contains(&"feeder"));
    // A bus wire inside that names a wire; a delivery that names none, or a
    // wire that is not there.
    assert!(edited("B b 0 - b 1 - - -", "B b 0 - b 1 - 0 1").contains(&"names"));
    assert!(edited("B b 4 - p 2 1 0 5", "B b 4 - p 2 1 - -").contains(&"names"));
    assert!(edited("B b 4 - p 2 1 0 5", "B b 4 - p 2 1 7 5").contains(&"names"));
    assert_eq!(edited("T 8 10 2 0 1", "T 8 10 2 1 1"), ["names"]);
    assert_eq!(edited("B b 4 - p 2 1 0 5", "B b 4 - p 2 2 0 5"), ["target"]);
    assert_eq!(edited("B p 1 5 b 0 - - -", "B p 1 6 b 0 - - -"), ["source"]);
    assert!(edited("p 3 1 1 6", "p 2 1 0 6").contains(&"twice"));
    assert!(edited("B b 6 - b 7 - - -\n", "").contains(&"sum"));
    assert!(edited("p 2 1 0 5", "p 2 1 0 4").contains(&"distance"));
    assert_eq!(edited("R 6 0 -8", "R 6 1 -8"), ["overlap"]);
    assert_eq!(edited("R 2 12 -8", "R 2 11 -9"), ["overlap"]);
    assert_eq!(edited("T 8 10", "T 08 10"), ["sheet"]);
    assert_eq!(edited("R 4", "R 5"), ["sheet"]);
}

/// The depths of plan (a).
const DEPTHS: [usize; 8] = [1, 2, 3, 4, 5, 4, 5, 6];

/// What such a plan breaks with other depths.
fn with_depths(plan: &str, depths: [usize; 8]) -> Vec<&'static str> {
    let mut depths = depths.iter();
    let line = |line: &str| match line.rsplit_once(' ') {
        Some((older, _)) if line.starts_with('R') => {
            let depth = depths.next().expect("a depth for each rerouter");
            format!("{older} {depth}\n")
        }
        _ => format!("{line}\n"),
    };
    broken(EXAMPLE_A, &plan.lines().map(line).collect::<String>())
}

/// One wrong depth: one too few or too many, none, that of another rerouter.
#[test]
fn wrong_depths_are_caught() {
    assert!(with_depths(PLAN_A, DEPTHS).is_empty());
    for (r, depth) in DEPTHS.into_iter().enumerate() {
        let wrong = [depth - 1, depth + 1, 0, usize::MAX];
        for wrong in wrong.into_iter().chain(DEPTHS) {
            let mut depths = DEPTHS;
            depths[r] = wrong;
            // Deliveries leave rerouters 4 and 7.
            let due: &[&str] = match (wrong == depth, r) {
                (true, _) => &[],
                (false, 4 | 7) => &["depth", "step", "leaves"],
                _ => &["depth", "step"],
            };
            assert_eq!(with_depths(PLAN_A, depths), due, "{wrong} at rerouter {r}");
        }
    }
}

/// Each of the three clauses on depths says something of its own.
#[test]
fn each_clause_on_depths_is_caught() {
    // All one too few, and the distances with them.
    let nearer = PLAN_A.replace("p 2 1 0 5", "p 2 1 0 4");
    let nearer = nearer.replace("p 3 1 1 6", "p 3 1 1 5");
    let found = with_depths(&nearer, DEPTHS.map(|depth| depth - 1));
    assert_eq!(found, ["distance", "depth", "step"]);
    // A distance that is not the depth, which is the right one.
    let found = edited("p 2 1 0 5", "p 2 1 0 4");
    assert_eq!(found, ["distance", "leaves"]);
    // The second run fed from the first one's end, with its old depths.
    let found = edited("B b 2 - b 5 - - -", "B b 4 - b 5 - - -");
    assert_eq!(found, ["distance", "depth", "step"]);
    // Rerouters that feed each other lead back to no port; one is not fed.
    let found = edited("B p 1 5 b 0 - - -", "B b 1 - b 0 - - -");
    assert!(found.contains(&"depth"), "{found:?}");
    assert!(edited("B b 6 - b 7 - - -\n", "").contains(&"step"));
}

/// The field itself: a number written just so, and the last one.
#[test]
fn a_depth_is_read_as_it_is_written() {
    for depth in ["", " -", " 01", " -1", " +1", " 1 1", " 1 "] {
        let line = format!("R 0 20 -5 10 2 2 1 1 0 -{depth}\n");
        let broken = edited("R 0 20 -5 10 2 2 1 1 0 - 1\n", &line);
        assert_eq!(broken, ["sheet"], "{line}");
    }
}

#[test]
fn a_corner_is_one_away() {
    let plan = says(CORNER, &Limits::LIBRARY) + "\n";
    let longer = plan.replace("p 2 1 0 1", "p 2 1 0 2");
    assert_eq!(broken(CORNER, &longer), ["distance", "corner", "leaves"]);
    let deeper = plan.replace("6 1 0 - 1", "6 1 0 - 2");
    assert_eq!(broken(CORNER, &deeper), ["depth", "step", "leaves"]);
}

/// One row and one column: 5 at most. A chain of six is true to its count and
/// yet too long.
#[test]
fn the_bound_is_caught() {
    let board = "P 0 0\nN 1 3 0 0 1 1 0 - - - - -\nN 2 0 0 0 1 1 0 0 9 0 0 -\nW 1 1 2 1\n";
    let chain = |length: usize| {
        let mut plan = String::from("L 0 1 8\n");
        for i in 0..length {
            plan += &format!("R {i} {} -8 0 1 0 3 1 0 0 {}\n", 4 * i, i + 1);
        }
        plan += "B p 1 1 b 0 - - -\n";
        for i in 1..length {
            plan += &format!("B b {} - b {i} - - -\n", i - 1);
        }
        plan += &format!("B b {} - p 2 1 0 {length}\nU 2 1\n", length - 1);
        plan + &format!("T {length} {} 1 0 1\n", length + 1)
    };
    assert!(broken(board, &chain(5)).is_empty());
    assert_eq!(broken(board, &chain(6)), ["bound"]);
}

#[test]
fn a_wire_without_a_group_needs_a_corner() {
    // Kept direct by rule: exec input, plain source.
    let board = "P 0 0\nN 1 0 0 0 1 1 0 9 0 0 0 -\nN 2 0 0 0 1 1 0 0 9 0 1 -\nX 2 1\nW 1 1 2 1\n";
    let plan = "L 0 1 8\nR 0 0 -8 0 0 0 4 1 0 0 1\nB p 1 1 b 0 - - -\nB b 0 - p 2 1 0 1\nU 2 1\nT 1 2 1 0 1\n";
    assert_eq!(broken(board, plan), ["bound"]);
}

/// Lines of many plans with a number raised by one, or left out: every clause
/// is broken by some of them, and no sound plan breaks one.
#[test]
fn every_clause_is_met_by_edits() {
    let mut met: Vec<&'static str> = Vec::new();
    for i in 0..60 {
        let board = r#gen::board(9, i, "program").expect("the size is known");
        let plan = run_plan(&board).expect("few wires open few lanes").sheet();
        assert!(check_sheet(&board, plan.as_bytes()).is_empty());
        let lines: Vec<&str> = plan.lines().collect();
        for at in (0..lines.len()).filter(|l| lines[*l].starts_with(['R', 'B'])) {
            let field = at % lines[at].split('\t').count();
            let edited = edit(&lines, at, field);
            met.extend(
                check_sheet(&board, edited.as_bytes())
                    .iter()
                    .map(|f| f.clause),
            );
        }
    }
    for clause in CLAUSES.into_iter().chain(depths::CLAUSES) {
        assert!(met.contains(&clause), "{clause} is never met");
    }
}

/// Raises a field by one; at field 0 the line goes.
fn edit(lines: &[&str], at: usize, field: usize) -> String {
    let mut out = String::new();
    for (i, line) in lines.iter().enumerate() {
        let mut fields: Vec<String> = line.split('\t').map(str::to_string).collect();
        if i == at && field == 0 {
            continue;
        }
        if i == at
            && let Ok(n) = fields[field].parse::<i64>()
        {
            fields[field] = (n + 1).to_string();
        }
        out += &(fields.join("\t") + "\n");
    }
    out
}
