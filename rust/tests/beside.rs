//! A quick run of the library beside the original, and what finds and shrinks
//! a difference.

use oracle::shrink;
use panzhyqur::beside::differ::{Difference, Memory, run};
use panzhyqur::route_sheet;
use panzhyqur::{Part, Plan};

fn quick(seed: u64, count: u64, size: &str, memory: Memory) -> [usize; 10] {
    let mut tell = |d: &Difference| panic!("{size} {}: {}\n{}", d.item, d.told, d.small);
    let tally = run(seed, count, size, memory, &mut tell).expect("the size is known");
    assert_eq!(tally.different, 0);
    tally.outcomes
}

#[test]
fn tiny_boards() {
    let outcomes = quick(11, 4_000, "tiny", Memory::Reused);
    assert!(outcomes[0] > 2_000 && outcomes[7] > 100);
}

#[test]
fn larger_boards() {
    quick(11, 200, "program", Memory::Reused);
    quick(11, 2, "full", Memory::Reused);
    quick(11, 2, "many-lanes", Memory::Anew);
    quick(11, 1, "full-typical", Memory::Reused);
}

#[test]
fn sheets_with_something_wrong() {
    let outcomes = quick(11, 2_000, "damaged", Memory::Reused);
    for number in [1, 3, 4, 5, 6, 7] {
        assert!(outcomes[number] > 0, "none is refused with {number}");
    }
    quick(11, 1_000, "scratched", Memory::Anew);
    let outcomes = quick(11, 12, "to-the-most", Memory::Reused);
    assert!(outcomes[2] > 0);
}

#[test]
fn demand_lists() {
    let outcomes = quick(11, 1_000, "lanes", Memory::Reused);
    for number in [0, 1, 2, 3, 7, 8] {
        assert!(outcomes[number] > 0, "none is refused with {number}");
    }
}

/// `lay_mini_bus` on whatever is handed in: each cause of a 7, just enough
/// room, one row too few, and a 513th lane besides.
#[test]
fn buses_handed_in() {
    let mut tell = |d: &Difference| panic!("handed {}: {}\n{}", d.item, d.told, d.small);
    let tally = run(11, 3_000, "handed", Memory::Reused, &mut tell).expect("the size is known");
    assert_eq!(tally.different, 0);
    let handed = &tally.handed;
    assert!(tally.outcomes[0] > 500 && tally.outcomes[8] > 10);
    assert!(handed.causes.iter().all(|n| *n > 100) && handed.by_a_row > 100);
    assert!(handed.crowded_too > 10 && handed.tight > 100 && handed.cornered > 100);
    quick(11, 200, "handed", Memory::Anew);
}

/// Boxes on boards of every size: hits, touching, edges, hit buffers that are
/// too short, and boxes at fault.
#[test]
fn boxes_clicked() {
    let mut tell = |d: &Difference| panic!("boxed {}: {}\n{}", d.item, d.told, d.small);
    let tally = run(11, 600, "boxed", Memory::Reused, &mut tell).expect("the size is known");
    assert_eq!(tally.different, 0);
    for number in [0, 1, 7, 8, 9] {
        assert!(tally.outcomes[number] > 10, "few get {number}");
    }
    let clicks = &tally.clicks;
    assert!(clicks.lists > 300 && clicks.empty > 300);
    assert!(clicks.rerouters > 1_000 && clicks.wires > 1_000);
    assert!(clicks.touched > 300 && clicks.in_empty > 100 && clicks.at_edge > 300);
    assert!(clicks.short > 300 && clicks.no_page > 50 && clicks.no_range > 50);
    quick(11, 100, "boxed", Memory::Anew);
}

#[test]
fn no_such_size() {
    let none = run(1, 1, "huge", Memory::Reused, &mut |_: &Difference| ());
    assert!(none.is_none());
}

/// Stands for a difference: a plan that has a corner and a delivery through a
/// lane.
fn fake_difference(sheet: &[u8]) -> bool {
    let has = |plan: &Plan, part| plan.nodes.iter().any(|r| r.part == part);
    route_sheet(sheet).is_ok_and(|plan| has(&plan, Part::Corner) && has(&plan, Part::Tap))
}

/// Records are dropped while the difference stays: two bricks and a wire for
/// the corner, an input and a wire for the lane, and the page are left.
#[test]
fn a_fake_difference_is_shrunk() {
    let mut tried = 0;
    for i in 0..400 {
        let sheet = oracle::r#gen::sheet(5, i, "program").expect("a size of the generator");
        if !fake_difference(&sheet) {
            continue;
        }
        let small = shrink::sheet(&sheet, fake_difference);
        assert!(fake_difference(&small));
        let lines = |text: &[u8]| text.iter().filter(|b| **b == b'\n').count();
        let text = String::from_utf8_lossy(&small).into_owned();
        assert!(lines(&small) <= 7 && lines(&sheet) > 30, "{text}");
        // No record can be spared.
        let records: Vec<&str> = text.split_inclusive('\n').collect();
        for k in 0..records.len() {
            let rest = [&records[..k], &records[k + 1..]].concat().concat();
            assert!(!fake_difference(rest.as_bytes()), "{text}");
        }
        tried += 1;
        if tried == 3 {
            return;
        }
    }
    panic!("few boards have a corner and a tap");
}
