//! Pictures of boards and of refused sheets, on the examples and on boards that
//! are drawn against them.

#[path = "common/boards.rs"]
mod boards;
#[path = "common/tags.rs"]
mod tags;

use boards::{BROKEN, example, root, sheet};
use panzhyqur::*;
use std::fs;
use std::path::{Path, PathBuf};

/// Every sheet under a folder.
fn sheets(folder: &Path) -> Vec<(PathBuf, Vec<u8>)> {
    let mut found = Vec::new();
    for entry in fs::read_dir(folder).expect("the folder is there") {
        let path = entry.expect("an entry").path();
        if path.is_dir() {
            found.extend(sheets(&path));
        } else if path.extension().is_some_and(|e| e == "sheet") {
            let text = fs::read(&path).expect("a sheet");
            found.push((path, text));
        }
    }
    found.sort();
    found
}

fn well_formed(name: &str, text: &str) {
    assert_eq!(tags::fault(text), None, "{name}");
}

/// Every page of a board, and all of it.
fn pictures(board: &Board, plan: &Plan) -> Vec<String> {
    let pages = (0..board.pages.len()).filter_map(|page| plan.page_picture(board, page));
    pages.chain([plan.picture(board, "a board")]).collect()
}

#[test]
fn the_checker_of_tags() {
    assert_eq!(tags::fault("<a b=\"1\"><c/>&lt;x</a>"), None);
    for wrong in [
        "<a>",
        "</a>",
        "<a></b>",
        "<a b=1/>",
        "<a b/>",
        "a & b",
        "<a b=\"&x\"/>",
        "a <",
    ] {
        assert!(tags::fault(wrong).is_some(), "{wrong}");
    }
}

#[test]
fn the_examples() {
    let all = sheets(&root().join("examples"));
    assert!(all.len() >= 40);
    for (path, text) in all {
        let name = path.display().to_string();
        match route_sheet(&text) {
            Ok(plan) => {
                let board = Board::read(&text).expect("an accepted sheet");
                assert_eq!(board.sheet(), text, "{name}");
                let drawn = pictures(&board, &plan);
                drawn.iter().for_each(|picture| well_formed(&name, picture));
                assert_eq!(drawn, pictures(&board, &plan), "{name}");
            }
            Err(refusal) => {
                assert_eq!(Board::read(&text), Err(refusal), "{name}");
                well_formed(&name, &refusal.picture(&text, &name));
            }
        }
    }
}

/// The picture in the documents.
#[test]
fn docs_a_svg() {
    let (board, plan) = example("a.sheet");
    let drawn = plan.page_picture(&board, 0).expect("page 0");
    let file = root().join("docs/a.svg");
    if std::env::var_os("WRITE").is_some() {
        fs::write(&file, &drawn).expect("docs/a.svg can be written");
    }
    let there = fs::read_to_string(&file).unwrap_or_default();
    assert!(
        there == drawn,
        "docs/a.svg differs: WRITE=1 cargo test --test picture writes it anew"
    );
}

/// The numbers of a list in an HTML file.
fn list(html: &str, name: &str) -> Vec<Option<i64>> {
    let start = format!("\n{name}:[");
    let behind = html.split(&start).nth(1).expect("the list is there");
    let inside = behind.split("],").next().expect("its end");
    let fields = inside.split_terminator(',');
    fields.map(|n| n.parse().ok()).collect()
}

#[test]
fn all_of_it_is_in_the_html() {
    let (board, plan) = example("kinds.sheet");
    let html = plan.picture(&board, "kinds");
    let is = |name: &str, width: usize, at: usize, said: Vec<i64>| {
        let all = list(&html, name);
        assert_eq!(all.len() % width, 0);
        let told: Vec<i64> = all.chunks(width).filter_map(|row| row[at]).collect();
        assert_eq!(told, said, "{name}");
    };
    is(
        "nodes",
        14,
        0,
        board.nodes.iter().map(|n| i64::from(n.id.0)).collect(),
    );
    is(
        "inner",
        4,
        0,
        board.inner.iter().map(|f| i64::from(f.id.0)).collect(),
    );
    is(
        "wires",
        4,
        2,
        board
            .wires
            .iter()
            .map(|w| i64::from(w.target.node_id.0))
            .collect(),
    );
    is(
        "rerouters",
        9,
        3,
        plan.nodes
            .iter()
            .map(|r| i64::from(r.part.number()))
            .collect(),
    );
    let wire = |b: &BusWire| b.delivery.map_or(-1, |d| d.wire as i64);
    is("buses", 15, 4, plan.wires.iter().map(wire).collect());
    let ports = list(&html, "ports");
    let suppressed = ports.chunks(7).filter(|p| p[3] == Some(1)).count();
    assert_eq!(suppressed, plan.suppressed.len());
    let directs = list(&html, "directs");
    let mut wires: Vec<_> = directs.chunks(7).map(|d| d[0]).collect();
    wires.dedup();
    assert_eq!(wires.len(), plan.direct);
}

#[test]
fn all_of_it_is_in_the_svgs() {
    let (board, plan) = example("kinds.sheet");
    let pages: Vec<String> = (0..2)
        .filter_map(|p| plan.page_picture(&board, p))
        .collect();
    for node in board
        .nodes
        .iter()
        .filter_map(|n| n.row.map(|row| (n.id.0, row.0)))
    {
        let title = format!("<title>node {}: ", node.0);
        assert_eq!(pages[node.1].matches(&title).count(), 1, "{title}");
    }
    for (number, rerouter) in plan.nodes.iter().enumerate() {
        let label = format!(">{number}</text>");
        assert!(pages[rerouter.page].contains(&label), "rerouter {number}");
    }
    // A run's title stands on its line and on its bricks.
    let all = pages.concat();
    let titles: Vec<&str> = all.split("<title>run of ").skip(1).collect();
    let named = |word: &str, number: usize| {
        let lists = titles
            .iter()
            .filter_map(|t| t.split("</title>").next()?.split(word).nth(1));
        let words = lists.flat_map(|l| l.split(';').next().unwrap_or_default().split(' '));
        words.filter(|n| *n == number.to_string()).count()
    };
    for k in 0..plan.wires.len() {
        assert_eq!(named("; bus wires ", k), 2, "bus wire {k}");
    }
    let ways = plan.ways();
    for wire in 0..board.wires.len() {
        match ways.iter().any(|way| way.wire == wire) {
            true => assert_eq!(named(": wires ", wire), 2, "wire {wire}"),
            false => assert!(
                all.contains(&format!("<title>wire {wire}: ")),
                "wire {wire}"
            ),
        }
    }
    assert_eq!(plan.page_picture(&board, 2), None);
}

#[test]
fn nothing_is_fetched_and_nothing_breaks_out() {
    let (board, plan) = example("kinds.sheet");
    let title = "</script><script>alert('x')</script> & \"<img src=y>\" \u{0}\u{1b}";
    let html = plan.picture(&board, title);
    let refused = Refusal {
        reason: Reason::IdTwice,
        line: 1,
    }
    .picture(b"</pre><b>&\n", title);
    for text in [&html, &refused] {
        well_formed("a title", text);
        assert!(!text.contains("alert('x')") && !text.contains("<img") && !text.contains('\u{0}'));
        assert!(text.contains("&lt;img src=y&gt;"));
        for word in ["src=\"", "href=", "url(", "@import", "fetch(", "import("] {
            assert!(!text.contains(word), "{word}");
        }
        assert_eq!(
            text.matches("http").count(),
            text.matches("http://www.w3.org/2000/svg").count()
        );
    }
    assert!(refused.contains("&lt;/pre&gt;&lt;b&gt;&amp;"));
    assert_eq!(html.matches("</script>").count(), 1);
}

#[test]
fn small_boards() {
    let boards = [
        ("", "The board has no page."),
        ("P - 0;", "no min_y, so no gutter"),
        ("P 0 0;", "no lane, so no gutter"),
        (
            "P 0 0;N 1 0 0 0 1 1 0 - - - - -;N 2 0 1 0 1 1 0 5 6 - - -;",
            "2 nodes without a row on a page",
        ),
        ("P 0 0;N 2 0 1 0 1 1 0 5 6 - - -;", "at x 5, y 6, on no row"),
        (
            "P 0 0;N 1 2 0 0 1 1 0 - - - - -;C 1 -;C 9 1;F 5 9 0;",
            "its wires enter at node 1",
        ),
        ("W 1 2 3 4;", "wire 0: 1.2 &gt; 3.4"),
    ];
    for (short, said) in boards {
        let text = sheet(short);
        let (board, plan) = (
            Board::read(&text).expect(short),
            route_sheet(&text).expect(short),
        );
        for picture in pictures(&board, &plan) {
            well_formed(short, &picture);
        }
        assert!(plan.picture(&board, "").contains(said), "{said}");
    }
}

#[test]
fn broken_plans() {
    let (board, _) = example("a.sheet");
    for short in BROKEN {
        let text = String::from_utf8(sheet(short)).expect("text");
        let plan: Plan = text.parse().expect(short);
        for picture in pictures(&board, &plan)
            .iter()
            .chain(&pictures(&Board::default(), &plan))
        {
            well_formed(short, picture);
        }
    }
}

/// A board that nobody checked: ids twice, numbers out of every range.
#[test]
fn unchecked_boards() {
    let far = Node {
        half: (i32::MAX, i32::MIN),
        at: Some((i32::MAX, i32::MIN)),
        row: Some((0, 0)),
        ..Node::new(NodeId(u32::MAX))
    };
    let elsewhere = Node {
        row: Some((usize::MAX, 0)),
        ..far
    };
    let chip = |id, parent| Chip {
        id: NodeId(id),
        parent: Some(NodeId(parent)),
    };
    let port = NodeId(u32::MAX).port(WirePort(9));
    let board = Board {
        pages: vec![Page {
            min_y: Some(i32::MIN),
            z: 0,
        }],
        nodes: vec![far, elsewhere, far],
        chips: vec![chip(1, 2), chip(2, 1)],
        inner: vec![Inner {
            id: NodeId(3),
            chip: NodeId(1),
            class: Class::Other,
        }],
        execs: vec![port],
        wires: vec![Wire {
            source: port,
            target: port,
        }],
    };
    let (_, plan) = example("a.sheet");
    for picture in pictures(&board, &plan) {
        well_formed("an unchecked board", &picture);
    }
}

#[test]
fn a_refused_sheet() {
    let text = fs::read(root().join("examples/refused.sheet")).expect("an example");
    let refusal = route_sheet(&text).expect_err("refused");
    let html = refusal.picture(&text, "refused");
    well_formed("refused", &html);
    assert_eq!(html.matches("class=\"fault\"").count(), 1);
    let fault = html
        .split("class=\"fault\"")
        .nth(1)
        .expect("the line at fault");
    assert!(fault.contains("\u{25b6} 4"), "its number");
    assert!(html.contains("(refusal 4)") && html.contains("line 4"));
    let words = refusal.explain(&text).words;
    assert!(
        html.contains(&words.replace('\'', "&#39;").replace('"', "&quot;")),
        "{words}"
    );
}

/// Any bytes, and a million of them: what is shown stays small.
#[test]
fn long_and_unprintable_sheets() {
    let lines = "P\t0\t0\n".repeat(200_000);
    let bytes: Vec<u8> = (0..=255).cycle().take(1_000_000).collect();
    let no_end = vec![b'7'; 1_000_000];
    for text in [lines.as_bytes(), &bytes, &no_end, b"", b"\n", &[0xff; 9]] {
        for line in [0, 1, 2, 65, 100_000, 200_000, 200_001, usize::MAX] {
            for reason in Reason::ALL {
                let refusal = Refusal {
                    reason: *reason,
                    line,
                };
                let html = refusal.picture(text, "long");
                assert!(html.len() < 100_000, "{} bytes", html.len());
                well_formed("long", &html);
            }
        }
    }
}
