//! What turns a board away, and with which number and line.

mod common;

use common::{board_of, says};
use oracle::board::{Lent, too_short};
use oracle::{Limits, answer};

const NODE: &str = "N 1 0 0 0 1 1 0 0 0 0 0 0\n";

fn library(text: &str) -> String {
    says(text, &Limits::LIBRARY)
}

fn program(text: &str) -> String {
    says(text, &Limits::PROGRAM)
}

#[test]
fn the_tables_examples() {
    assert_eq!(library("P 07 0\n"), "E 1 1");
    assert_eq!(library(&"P 0 0\n".repeat(65)), "E 2 65");
    assert_eq!(library("P 0 1000001\n"), "E 3 1");
    assert_eq!(library(&format!("P 0 0\n{NODE}{NODE}")), "E 4 3");
    assert_eq!(library("C 9 -\n"), "E 5 1");
    assert_eq!(library("P 0 0\nN 1 0 0 0 1 1 0 - - 0 0 -\n"), "E 6 2");
}

#[test]
fn numbers_that_can_not_be_read() {
    for bad in [
        "00",
        "01",
        "-0",
        "+1",
        "12345678901",
        "-12345678901",
        "",
        "a",
        "1a",
        "--1",
        "-01",
    ] {
        assert_eq!(library(&format!("P 0 {bad}\n")), "E 1 1", "{bad}");
    }
    for far in ["1234567890", "-9999999999", "1000001", "-1000001"] {
        assert_eq!(library(&format!("P 0 {far}\n")), "E 3 1", "{far}");
    }
    for fine in ["0", "-1", "1000000", "-1000000"] {
        assert_eq!(
            library(&format!("P 0 {fine}\n")),
            "L 0 0 0\nT 0 0 0 0 0",
            "{fine}"
        );
    }
}

#[test]
fn lines_that_can_not_be_read() {
    assert_eq!(library("P 0 0"), "E 1 1");
    assert_eq!(library("\n"), "E 1 1");
    assert_eq!(library("P 0 0\n\n"), "E 1 2");
    assert_eq!(library("P 0\n"), "E 1 1");
    assert_eq!(library("P 0 0 0\n"), "E 1 1");
    assert_eq!(library("P 0 0 \n"), "E 1 1");
    assert_eq!(library("P\n"), "E 1 1");
    assert_eq!(library("p 0 0\n"), "E 1 1");
    assert_eq!(library(" P 0 0\n"), "E 1 1");
    assert_eq!(answer(b"P\t0\t0\r\n", &Limits::LIBRARY), "E\t1\t1\n");
    assert_eq!(answer(b"P 0\t0\n", &Limits::LIBRARY), "E\t1\t1\n");
    assert_eq!(library("W 1 1 2 1\nP 0 0\n"), "E 1 2");
    assert_eq!(library("X 1 1\nF 1 1 0\n"), "E 1 2");
}

#[test]
fn what_may_be_missing() {
    assert_eq!(library("P - 0\n"), "L 0 0 0\nT 0 0 0 0 0");
    assert_eq!(library("P 0 -\n"), "E 1 1");
    assert_eq!(library("P 0 0\nN 1 0 0 0 1 1 0 0 - 0 0 -\n"), "E 1 2");
    assert_eq!(library("P 0 0\nN 1 0 0 0 1 1 0 0 0 - 0 -\n"), "E 1 2");
    assert_eq!(
        library("P 0 0\nN 1 0 0 0 1 1 0 0 0 - - -\n"),
        "L 0 0 0\nT 0 0 0 0 0"
    );
    let fields = ["1", "0", "0", "0", "1", "1", "0"];
    for i in 0..fields.len() {
        let mut node = fields;
        node[i] = "-";
        let line = format!("P 0 0\nN {} - - - - -\n", node.join(" "));
        assert_eq!(library(&line), "E 1 2", "{line}");
    }
    assert_eq!(library("C - -\n"), "E 1 1");
    for line in ["F - 1 0", "F 1 - 0", "F 1 1 -", "X - 1", "X 1 -"] {
        assert_eq!(library(&format!("{line}\n")), "E 1 1", "{line}");
    }
    for line in ["W - 1 2 1", "W 1 - 2 1", "W 1 1 - 1", "W 1 1 2 -"] {
        assert_eq!(library(&format!("{line}\n")), "E 1 1", "{line}");
    }
}

/// Each field of each section: its ends are taken, one past them gives 3.
#[test]
fn every_range() {
    let million = (0_i64, 1_000_000);
    let far = (-1_000_000, 1_000_000);
    let cases: [(&str, &[(i64, i64)]); 6] = [
        ("P", &[far, far]),
        (
            "N",
            &[
                million,
                (0, 5),
                (0, 2),
                (0, 1),
                (1, 1_000),
                (1, 1_000),
                (0, 3),
                far,
                far,
                (0, 63),
                far,
                million,
            ],
        ),
        ("C", &[million, million]),
        ("F", &[million, million, (0, 2)]),
        ("X", &[million, (0, 65_535)]),
        ("W", &[million, (0, 65_535), million, (0, 65_535)]),
    ];
    for (letter, ranges) in cases {
        for (i, (lo, hi)) in ranges.iter().enumerate() {
            for (n, out) in [(lo - 1, true), (*lo, false), (*hi, false), (hi + 1, true)] {
                let mut fields: Vec<String> =
                    ranges.iter().map(|r| r.1.min(1).to_string()).collect();
                fields[i] = n.to_string();
                let line = format!("{letter} {}\n", fields.join(" "));
                assert_eq!(library(&line).starts_with("E 3"), out, "{line}");
            }
        }
    }
}

#[test]
fn most_records() {
    let wires = |n: usize| "W 1 1 2 1\n".repeat(n);
    assert_eq!(program(&wires(56)), "T 0 0 0 56 0");
    assert_eq!(program(&wires(57)), "E 2 57");
    assert_eq!(library(&wires(8_192)), "T 0 0 0 8192 0");
    assert_eq!(library(&wires(8_193)), "E 2 8193");
    assert_eq!(program(&"X 1 1\n".repeat(25)), "E 2 25");
    assert_eq!(program(&"P 0 0\n".repeat(9)), "E 2 9");
    let nodes: String = (0..49)
        .map(|i| format!("N {i} 0 0 0 1 1 0 - - - - -\n"))
        .collect();
    assert_eq!(program(&nodes), "E 2 49");
    // A 1 anywhere comes before a 2, a 2 anywhere before a 3.
    assert_eq!(program(&format!("{}W\n", wires(57))), "E 1 58");
    assert_eq!(program(&format!("P 1000001 0\n{}", wires(57))), "E 2 58");
}

#[test]
fn bytes_of_the_program() {
    let line = "P\t0\t10\n";
    let mut text = line.repeat(9_363);
    text.truncate(65_536);
    assert_eq!(answer(text.as_bytes(), &Limits::PROGRAM), "E\t1\t9363\n");
    text.push('\n');
    assert_eq!(answer(text.as_bytes(), &Limits::PROGRAM), "E\t2\t0\n");
    assert_eq!(answer(text.as_bytes(), &Limits::LIBRARY), "E\t1\t9363\n");
}

#[test]
fn ids() {
    let node = |id: u32| format!("N {id} 2 0 0 1 1 0 - - - - -\n");
    let four = [1, 2, 2, 1].map(node).concat();
    assert_eq!(library(&four), "E 4 3");
    let chip = format!("{}C 1 -\n", node(1));
    assert_eq!(library(&format!("{chip}F 1 1 0\n")), "E 4 3");
    assert_eq!(library(&format!("{chip}F 2 1 0\nF 2 1 0\n")), "E 4 4");
    assert_eq!(library(&format!("{chip}C 1 1\n")), "E 4 3");
    // An id may stand in C and in N or F.
    assert_eq!(library(&format!("{chip}C 5 1\nF 5 5 0\n")), "T 0 0 0 0 0");
}

#[test]
fn what_is_not_there() {
    assert_eq!(library(NODE), "E 5 1");
    assert_eq!(library("P 0 0\nN 1 0 0 0 1 1 0 0 0 1 0 0\n"), "E 5 2");
    let chip = "N 1 2 0 0 1 1 0 - - - - -\nC 1 -\n";
    assert_eq!(library(&format!("{chip}C 2 3\nC 3 1\n")), "E 5 3");
    assert_eq!(library(&format!("{chip}C 2 2\n")), "E 5 3");
    assert_eq!(
        library(&format!("{chip}C 2 1\nC 3 2\nF 9 3 0\n")),
        "T 0 0 0 0 0"
    );
    assert_eq!(library(&format!("{chip}F 9 4 0\n")), "E 5 3");
    // A gate is no chip, and a chip that is not in the body is no top.
    assert_eq!(library("N 1 0 0 0 1 1 0 - - - - -\nC 1 -\n"), "E 5 2");
    assert_eq!(library(&format!("{chip}C 7 -\n")), "E 5 3");
    // Ends that name no node are accepted.
    assert_eq!(library("X 1 1\nW 1 1 2 1\n"), "T 0 0 0 1 0");
}

#[test]
fn lent_buffers() {
    let board = board_of("P 0 0\nW 1 1 2 1\n");
    let lent = Lent::for_board(&board);
    assert_eq!(
        lent,
        Lent {
            rerouters: 5,
            bus_wires: 6,
            suppressed: 1,
            pages: 1,
            work: 192
        }
    );
    assert_eq!(too_short(&board, &lent), None);
    let short = Lent {
        rerouters: 4,
        ..lent
    };
    let refusal = too_short(&board, &short).expect("4 rerouters are too few");
    assert_eq!((refusal.number, refusal.line), (7, 0));
}

/// 513 one-row demands on row 0 of the second page.
#[test]
fn lane_513() {
    for (count, refused) in [(512, false), (513, true)] {
        let mut sheet =
            String::from("P 0 0\nP 0 0\nN 1 0 0 0 1 1 0 0 0 1 0 -\nN 2 0 1 0 1 1 0 90 0 - - -\n");
        for port in 1..=count {
            sheet += &format!("W 2 {port} 1 1\n");
        }
        let out = library(&sheet);
        assert_eq!(out == "E 8 2", refused);
        assert_eq!(out.starts_with("L 0 0 0\nL 1 512 1030\n"), !refused);
    }
}
