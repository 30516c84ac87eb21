//! The words for a refusal: exact ones for a table of slips; on damaged sheets
//! of every kind each claim is held against the rules by a judge of its own.
#![cfg(feature = "check")]

mod explain_judge;

use explain_judge::judge;
use explain_judge::slips::{N, slips};
use oracle::r#gen::{self, damaged};
use oracle::rng::Rng;
use panzhyqur::{Buffers, Explanation, Limits, PageBox, Reason, Refusal, check_sheet, warnings};
use std::collections::{BTreeMap, BTreeSet, HashSet};
use std::time::Instant;

/// `;` for byte 10 and a space for a tab; `_` for a space.
fn sheet(short: &str) -> Vec<u8> {
    let tabs = short.replace(' ', "\t").replace(';', "\n");
    tabs.replace('_', " ").into_bytes()
}

/// The refusal of a sheet under the program's limits.
fn refused(buffers: &mut Buffers, sheet: &[u8]) -> Option<Refusal> {
    let checked = check_sheet(sheet, &Limits::PROGRAM);
    checked.err().or_else(|| buffers.route(sheet).err())
}

#[test]
fn a_table_of_slips() {
    let mut buffers = Buffers::for_limits(&Limits::PROGRAM);
    for (text, told) in slips() {
        let sheet = sheet(&text);
        let refusal = refused(&mut buffers, &sheet).expect("a slip");
        let explanation = refusal.explain(&sheet);
        assert_eq!(explanation.to_string(), told, "{text}");
        judge(&sheet, refusal, &explanation);
    }
}

/// A text in two bytes a letter, with the byte order mark of either order.
#[test]
fn another_coding() {
    for (mark, said) in [([0xff, 0xfe], "FF FE"), ([0xfe, 0xff], "FE FF")] {
        let letters = "P\t0\t0\n".encode_utf16();
        let bytes = letters.flat_map(|l| match said {
            "FF FE" => l.to_le_bytes(),
            _ => l.to_be_bytes(),
        });
        let sheet: Vec<u8> = mark.into_iter().chain(bytes).collect();
        let refusal = check_sheet(&sheet, &Limits::LIBRARY).expect_err("no sheet");
        let told = refusal.explain(&sheet);
        assert_eq!(judge(&sheet, refusal, &told), "UTF-16");
        let due = format!(
            "line 1: the line begins with bytes {said}, the byte order mark of UTF-16; it has to begin with a letter"
        );
        assert_eq!(told.to_string(), due);
    }
}

/// A slip's explanation with something changed, which the judge must notice.
fn judge_of(text: &str, change: impl Fn(&mut Explanation)) {
    let sheet = sheet(text);
    let refusal = refused(&mut Buffers::for_limits(&Limits::PROGRAM), &sheet).expect("a slip");
    let mut told = refusal.explain(&sheet);
    change(&mut told);
    judge(&sheet, refusal, &told);
}

#[test]
#[should_panic(expected = "left == right")]
fn the_judge_notices_another_line() {
    let twice = format!("P 0 0;{N}{N}");
    judge_of(&twice, |told| {
        told.words = told.words.replace("line 2", "line 1")
    });
}

#[test]
#[should_panic(expected = "the first such field")]
fn the_judge_notices_another_field() {
    let over = "P 1000001 1000001;";
    judge_of(over, |told| {
        told.words = told.words.replace("min_y", "z");
        (told.field, told.mark) = (Some(3), Some(10..17));
    });
}

#[test]
#[should_panic(expected = "the line is empty")]
fn the_judge_notices_another_slip() {
    let words = "the line is empty; every line has a record";
    judge_of("P 07 0;", |told| told.words = words.to_string());
}

/// How often each claim was made, and found true.
type Claims = BTreeMap<(u32, &'static str), usize>;

/// The refusals of a sheet under both limits: each in words that claim
/// something, and that is true.
fn explained(buffers: &mut Buffers, sheet: &[u8], claims: &mut Claims) {
    let program = check_sheet(sheet, &Limits::PROGRAM).err();
    for refusal in program.into_iter().chain(buffers.route(sheet).err()) {
        let told = refusal.explain(sheet);
        let claim = judge(sheet, refusal, &told);
        assert_ne!(
            claim,
            "general",
            "{refusal} {:?}",
            String::from_utf8_lossy(sheet)
        );
        *claims.entry((refusal.number(), claim)).or_default() += 1;
    }
}

/// Every way to damage a sheet, alone and two together.
#[test]
fn damaged_sheets() {
    let mut buffers = Buffers::for_limits(&Limits::LIBRARY);
    let mut claims = Claims::new();
    for way in 0..damaged::WAYS {
        for i in 0..400 {
            let rng = &mut Rng::for_item(71 + way as u64, i);
            let other = (i % 4 == 0).then(|| rng.below(damaged::WAYS));
            let sheet = damaged::sheet_of(rng, way, other);
            explained(&mut buffers, &sheet, &mut claims);
        }
    }
    let numbers: BTreeSet<u32> = claims.keys().map(|(number, _)| *number).collect();
    assert!(numbers.into_iter().eq([1, 2, 3, 4, 5, 6]), "{claims:?}");
    let kinds = [
        (1, "unended"),
        (1, "byte 13"),
        (1, "empty line"),
        (1, "space"),
        (1, "letter"),
        (1, "count"),
        (1, "order"),
        (1, "empty field"),
        (1, "plus"),
        (1, "minus zero"),
        (1, "zero"),
        (1, "digits"),
        (1, "no number"),
        (1, "missing"),
        (1, "half a pair"),
        (2, "bytes"),
        (2, "count of records"),
        (3, "range"),
        (4, "id"),
        (5, "page"),
        (5, "parent"),
        (5, "brick"),
        (5, "chip"),
        (6, "row"),
    ];
    for kind in kinds {
        assert!(claims.contains_key(&kind), "{kind:?} of {claims:?}");
    }
    println!("{claims:?}");
}

/// A good sheet with some of its bytes changed, taken out or put in.
fn mutated(rng: &mut Rng, good: &[u8]) -> Vec<u8> {
    const LIKELY: &[u8] = b"\t\n -+0123456789PNCFXWpL#\r\xef\xbb\xbf";
    let mut sheet = good.to_vec();
    for _ in 0..1 + rng.below(3) {
        let at = rng.below(sheet.len().max(1));
        let byte = match rng.chance(80) {
            true => rng.pick(LIKELY),
            false => rng.number() as u8,
        };
        match rng.below(3) {
            0 if at < sheet.len() => sheet[at] = byte,
            1 if at < sheet.len() => drop(sheet.remove(at)),
            _ => sheet.insert(at.min(sheet.len()), byte),
        }
    }
    sheet
}

#[test]
fn mutated_sheets() {
    let mut buffers = Buffers::for_limits(&Limits::LIBRARY);
    let mut claims = Claims::new();
    for i in 0..6_000 {
        let rng = &mut Rng::for_item(5, i);
        let good = r#gen::sheet(6, i, "tiny").expect("a size of the generator");
        let sheet = mutated(rng, &good);
        explained(&mut buffers, &sheet, &mut claims);
    }
    assert!(claims.values().sum::<usize>() > 4_000, "{claims:?}");
}

#[test]
fn random_bytes() {
    let mut buffers = Buffers::for_limits(&Limits::LIBRARY);
    let mut claims = Claims::new();
    for i in 0..4_000 {
        let rng = &mut Rng::for_item(8, i);
        let wild = rng.chance(40);
        let byte = |rng: &mut Rng| match wild {
            true => rng.number() as u8,
            false => rng.pick(b"PNCFXW\t\t\t\n019- "),
        };
        let sheet: Vec<u8> = (0..rng.below(300)).map(|_| byte(rng)).collect();
        explained(&mut buffers, &sheet, &mut claims);
    }
    assert!(claims.values().sum::<usize>() > 4_000, "{claims:?}");
}

/// A refusal of another sheet: every number, lines that are there and lines that
/// are not. What is claimed then is still true of the line named.
#[test]
fn another_sheet() {
    let mut general = 0;
    for i in 0..1_500 {
        let rng = &mut Rng::for_item(9, i);
        let mut sheet = damaged::sheet(rng);
        if rng.chance(30) {
            let good = r#gen::sheet(10, i, "tiny").expect("a size of the generator");
            sheet = mutated(rng, &good);
        }
        let count = sheet.iter().filter(|b| **b == b'\n').count();
        let lines = [
            0,
            1,
            2,
            rng.below(count + 1),
            count,
            count + 1,
            count + 2,
            usize::MAX,
        ];
        for reason in Reason::ALL {
            for line in lines {
                let refusal = Refusal {
                    reason: *reason,
                    line,
                };
                let claim = judge(&sheet, refusal, &refusal.explain(&sheet));
                general += usize::from(claim == "general");
                assert!(claim == "general" || line <= count + 1);
            }
        }
    }
    assert!(general > 20_000, "{general}");
}

/// A board whose page opens one lane more than may be.
#[test]
fn lanes_buffers_and_boxes() {
    let mut text = String::from("P - 0;P 0 0;N 1 3 0 0 1 1 0 - - - - -;N 2 0 0 0 1 1 0 0 8 1 0 -;");
    for port in 1..=513 {
        text += &format!("W 1 {port} 2 {port};");
    }
    let crowded = sheet(&text);
    let refusal = Buffers::for_sheet(&crowded).route(&crowded).err();
    let refusal = refusal.expect("too many lanes");
    let told = refusal.explain(&crowded);
    assert_eq!(judge(&crowded, refusal, &told), "lanes");
    let due = "line 2: page 1 would need a 513th lane; a page has at most 512\n  P 0 0\n  ^";
    assert_eq!(told.shown(&crowded), due);

    let refusal = Buffers::for_sheet(b"").route(&crowded).err();
    let refusal = refusal.expect("no buffers");
    let told = refusal.explain(&crowded);
    assert_eq!(judge(&crowded, refusal, &told), "lengths");
    let due = "a lent buffer is too short, or what lay_mini_bus is handed leaves too little room; \
        513 wires, 2 pages and 517 records ask for 2,565 rows of rerouters, 3,078 of bus wires, \
        513 of ports, 2 of page answers, 517 of records and of each table, 2,585 of marks; \
        a click for 10,773 numbers of hits; an answer in text for 788,352 bytes";
    assert_eq!(told.shown(&crowded), due);

    let few = sheet("P 0 0;P 0 0;P 0 0;");
    let nowhere = PageBox {
        page: 3,
        ..PageBox::default()
    };
    let refusal = Buffers::for_sheet(&few).hits(&few, &nowhere).err();
    let refusal = refusal.expect("no such page");
    let told = refusal.explain(&few);
    assert_eq!(judge(&few, refusal, &told), "box");
    let due = "the box's page is not on the board, or a range of it ends under its start; \
        the sheet has 3 pages (0 to 2)";
    assert_eq!(told.shown(&few), due);

    let long = vec![b'P'; 65_537];
    let refusal = check_sheet(&long, &Limits::PROGRAM).expect_err("too long");
    let told = refusal.explain(&long).shown(&long);
    assert_eq!(
        told,
        "the sheet has 65,537 bytes; the program takes at most 65,536"
    );
}

#[test]
fn loose_ends_are_told() {
    let text = "N 1 2 0 0 1 1 0 - - - - -;C 1 -;C 8 1;F 2 8 0;X 2 1;X 9 1;X 2 1;\
        W 1 1 2 1;W 1 1 9 1;W 8 1 2 1;W 1 1 2 1;W 7 1 7 1;W 1 1 2 1;";
    let told: Vec<String> = warnings(&sheet(text))
        .iter()
        .map(|w| w.to_string())
        .collect();
    let due = [
        "line 6: the exec input is of node 9, which is not there",
        "line 7: the same exec input stands on line 5",
        "line 9: the wire ends at node 9, which is not there",
        "line 10: the wire begins at node 8, which is not there; line 3 is a chip of that id, and no node",
        "line 11: the same wire stands on line 8",
        "line 12: the wire begins at node 7, which is not there",
        "line 12: the wire ends at node 7, which is not there",
        "line 13: the same wire stands on line 8",
    ];
    assert_eq!(told, due);
    assert!(warnings(b"").is_empty());
    assert!(warnings(&sheet("X 1 1")).is_empty());
    assert!(warnings(&sheet("X 1 1;N 1 0 0 0 1 1 0 - - - - -;")).is_empty());
}

/// Warnings on boards of the generator, beside the oracle's reading.
#[test]
fn warnings_are_true() {
    let mut count = 0;
    for i in 0..1_500 {
        let board = r#gen::board(3, i, "tiny").expect("a size of the generator");
        let sheet = board.sheet();
        let nodes: HashSet<u32> = (board.nodes.iter().map(|n| n.id))
            .chain(board.inners.iter().map(|f| f.id))
            .collect();
        let ids = |ports: &[u32]| ports.iter().filter(|id| !nodes.contains(id)).count();
        let execs = board.execs.iter().map(|x| x.node);
        let ends = board
            .wires
            .iter()
            .flat_map(|w| [w.source.node, w.target.node]);
        let loose = ids(&execs.chain(ends).collect::<Vec<_>>());
        let different = board.execs.iter().collect::<HashSet<_>>().len()
            + board.wires.iter().collect::<HashSet<_>>().len();
        let twice = board.execs.len() + board.wires.len() - different;
        let told = warnings(&sheet);
        let same = told
            .iter()
            .filter(|w| w.words.contains("the same "))
            .count();
        assert_eq!((told.len() - same, same), (loose, twice));
        assert!(told.is_sorted_by_key(|w| w.line));
        count += told.len();
    }
    assert!(count > 500, "{count}");
}

/// Linear time: a full sheet in some milliseconds, so this is far from tight.
#[test]
fn a_full_sheet_takes_no_time() {
    let sheet = r#gen::sheet(1, 0, "full-random").expect("a size of the generator");
    let lines = sheet.iter().filter(|b| **b == b'\n').count();
    let start = Instant::now();
    let told = warnings(&sheet).len();
    let warned = start.elapsed();
    for reason in Reason::ALL {
        let refusal = Refusal {
            reason: *reason,
            line: lines,
        };
        refusal.explain(&sheet).shown(&sheet);
    }
    let all = start.elapsed();
    println!("{lines} lines: {told} warnings in {warned:?}, with nine explanations {all:?}");
    assert!(all.as_secs() < 5, "{all:?}");
}
