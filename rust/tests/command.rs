//! The command `route`: what it reads, writes and says.

use std::io::Write;
use std::path::{Path, PathBuf};
use std::process::{Command, Output, Stdio};

const BOARD: &str = "P\t0\t0\nN\t1\t3\t0\t0\t1\t1\t0\t-\t-\t-\t-\t-\n\
    N\t2\t0\t0\t0\t1\t1\t0\t0\t9\t0\t0\t-\nW\t1\t1\t2\t1\n";
const PLAN_END: &str = "U\t2\t1\nT\t3\t4\t1\t0\t1\n";
const EMPTY: &str = "T\t0\t0\t0\t0\t0\n";

/// Whether the command has `--check`.
const CHECKS: bool = cfg!(feature = "check");

/// Runs the command; where it lacks `--check`, that word is left out.
fn route(words: &[&str], input: &str) -> Output {
    let words = words.iter().filter(|word| CHECKS || **word != "--check");
    let mut child = Command::new(env!("CARGO_BIN_EXE_route"))
        .args(words)
        .stdin(Stdio::piped())
        .stdout(Stdio::piped())
        .stderr(Stdio::piped())
        .spawn()
        .expect("the command can be started");
    // A command that was told wrongly reads nothing.
    let _ = child
        .stdin
        .take()
        .expect("piped")
        .write_all(input.as_bytes());
    child.wait_with_output().expect("the command ends")
}

fn said(out: &[u8]) -> String {
    String::from_utf8_lossy(out).into_owned()
}

/// A folder that goes with the test.
struct Folder(PathBuf);

impl Folder {
    fn new(name: &str, files: &[(&str, &str)]) -> Self {
        let folder = Path::new(env!("CARGO_TARGET_TMPDIR")).join(name);
        let _ = std::fs::remove_dir_all(&folder);
        std::fs::create_dir_all(&folder).expect("a folder can be made");
        for (file, text) in files {
            std::fs::write(folder.join(file), text).expect("a file can be written");
        }
        Self(folder)
    }

    fn path(&self) -> &str {
        self.0.to_str().expect("the path is text")
    }

    fn file(&self, name: &str) -> String {
        format!("{}/{name}", self.path())
    }

    fn read(&self, name: &str) -> String {
        let text = std::fs::read_to_string(self.0.join(name));
        text.unwrap_or_else(|why| panic!("{name}: {why}"))
    }

    /// The names of what is in it, by name.
    fn names(&self) -> Vec<String> {
        let entries = std::fs::read_dir(&self.0).expect("the folder is there");
        let name = |entry: std::io::Result<std::fs::DirEntry>| {
            let name = entry.expect("an entry").file_name();
            name.into_string().expect("the name is text")
        };
        let mut names: Vec<String> = entries.map(name).collect();
        names.sort();
        names
    }
}

impl Drop for Folder {
    fn drop(&mut self) {
        let _ = std::fs::remove_dir_all(&self.0);
    }
}

#[test]
fn one_sheet_and_many() {
    let out = route(&[], "");
    assert_eq!(
        (said(&out.stdout).as_str(), out.status.code()),
        (EMPTY, Some(0))
    );
    let out = route(&["--check"], BOARD);
    assert!(said(&out.stdout).ends_with(PLAN_END));
    assert_eq!(
        (said(&out.stderr).as_str(), out.status.code()),
        ("", Some(0))
    );
    let many = format!("{BOARD}%%\nP\t07\t0\n%%\nP\t0\t0\n%%!\n%%\n{BOARD}");
    let out = route(&["--check"], &many);
    let answers: Vec<String> = said(&out.stdout)
        .split("%%\n")
        .map(str::to_string)
        .collect();
    assert_eq!(answers.len(), 5);
    assert!(answers[0].ends_with(PLAN_END));
    assert_eq!(answers[1..4], ["E\t1\t1\n", "E\t1\t1\n", EMPTY]);
    assert_eq!(answers[4], answers[0]);
    assert_eq!(out.status.code(), Some(0));
}

#[test]
fn limits() {
    let nine = "P\t0\t0\n".repeat(9);
    assert!(said(&route(&[], &nine).stdout).ends_with(EMPTY));
    assert_eq!(said(&route(&["--program"], &nine).stdout), "E\t2\t9\n");
}

/// What the summary says of demand 3.
const HOLDS: &str = if CHECKS {
    ", demand 3 and depths hold of every plan"
} else {
    ""
};

/// Of a folder the `.sheet` files are taken, by name; a file that is named is
/// taken whatever its name.
#[test]
fn a_folder() {
    let files = [
        ("b.sheet", "P\t07\t0\n"),
        ("a.sheet", BOARD),
        ("a.plan", EMPTY),
        ("c", ""),
        ("c.sheet", ""),
        ("notes.txt", "a note"),
    ];
    let folder = Folder::new("a_folder", &files);
    let out = route(&["--check", folder.path()], "");
    let answers = said(&out.stdout);
    assert!(answers.ends_with(&format!("{PLAN_END}%%\nE\t1\t1\n%%\n{EMPTY}")));
    let told = said(&out.stderr);
    let summary = format!("3 of 3 files, 3 sheets, 1 refused{HOLDS}\n");
    assert!(told.ends_with(&summary), "{told}");
    assert_eq!(out.status.code(), Some(0));
    assert_eq!(said(&route(&[&folder.file("c")], "").stdout), EMPTY);
    let named = route(&[&folder.file("a.plan")], "");
    assert_eq!(said(&named.stdout), "E\t1\t1\n");
    let none = Folder::new("no_sheet", &[("a.txt", BOARD)]);
    let out = route(&[none.path()], "");
    assert_eq!(
        (said(&out.stdout).as_str(), out.status.code()),
        ("", Some(0))
    );
    assert!(said(&out.stderr).ends_with("has no .sheet file\n"));
}

/// The explanation is told with the file and, of several, the sheet.
#[test]
fn a_refusal_is_told() {
    let many = format!("{BOARD}%%\nP\t07\t0\n");
    let folder = Folder::new("told", &[("a.sheet", "P\t07\t0\n"), ("b.sheet", &many)]);
    let out = route(&[folder.path()], "");
    let told = said(&out.stderr);
    assert!(
        told.starts_with(&format!("{}: ", folder.file("a.sheet"))),
        "{told}"
    );
    let second = format!("\n{}, sheet 2: ", folder.file("b.sheet"));
    assert!(told.contains(&second), "{told}");
    assert!(
        told.ends_with("\n2 of 2 files, 3 sheets, 2 refused\n"),
        "{told}"
    );
    let out = route(&["--quiet", folder.path()], "");
    assert_eq!(
        (said(&out.stderr).as_str(), out.status.code()),
        ("", Some(0))
    );
    let out = route(&[], &many);
    assert!(said(&out.stderr).starts_with("standard input, sheet 2: "));
    assert!(said(&out.stdout).ends_with("%%\nE\t1\t1\n"));
    let out = route(&[], BOARD);
    assert_eq!(said(&out.stderr), "");
    // On one terminal the words stand behind the answer.
    let one = r#"printf 'P\t07\t0\n%%%%\n' | "$0" 2>&1"#;
    let out = Command::new("sh")
        .args(["-c", one, env!("CARGO_BIN_EXE_route")])
        .output()
        .expect("the command can be started");
    let told = said(&out.stdout);
    assert!(
        told.starts_with("E\t1\t1\nstandard input, sheet 1: "),
        "{told}"
    );
    assert!(told.ends_with(&format!("\n%%\n{EMPTY}")), "{told}");
}

#[test]
fn a_status_for_refusals() {
    let refused = format!("{BOARD}%%\nP\t07\t0\n");
    assert_eq!(route(&["--status"], &refused).status.code(), Some(3));
    assert_eq!(route(&["--status"], BOARD).status.code(), Some(0));
    assert_eq!(route(&[], &refused).status.code(), Some(0));
    let out = route(&["--status", "--box", "9,0,0,0,0"], BOARD);
    assert_eq!(out.status.code(), Some(3));
}

#[test]
fn plans_beside_sheets() {
    let many = format!("{BOARD}%%\nP\t07\t0\n");
    let files = [
        ("a.sheet", "P\t07\t0\n"),
        ("b.sheet", &many),
        ("c.txt", BOARD),
    ];
    let folder = Folder::new("written", &files);
    let out = route(&["--write", folder.path(), &folder.file("c.txt")], "");
    assert_eq!(
        (said(&out.stdout).as_str(), out.status.code()),
        ("", Some(0))
    );
    assert!(said(&out.stderr).ends_with("3 of 3 files, 4 sheets, 2 refused\n"));
    let plan = said(&route(&[], BOARD).stdout);
    let beside = [
        ("a.plan", "E\t1\t1\n"),
        ("b.1.plan", &plan),
        ("b.2.plan", "E\t1\t1\n"),
        ("c.txt.plan", &plan),
    ];
    for (name, text) in beside {
        assert_eq!(folder.read(name), text, "{name}");
    }
    let mut names: Vec<&str> = files.iter().chain(&beside).map(|f| f.0).collect();
    names.sort_unstable();
    assert_eq!(folder.names(), names);
    // What else is asked for goes to standard output, and a plan is written over.
    std::fs::write(folder.0.join("c.txt.plan"), "an older one").expect("it can be written");
    let inside = route(
        &["--write", "--box", "0,0,0,0,0", &folder.file("c.txt")],
        "",
    );
    assert_eq!(said(&inside.stdout), "B\t2\n");
    assert_eq!(folder.read("c.txt.plan"), plan);
    let out = route(&["--write"], BOARD);
    assert_eq!(out.status.code(), Some(2));
    assert!(said(&out.stderr).starts_with("--write asks for a file or a folder\n"));
}

#[test]
fn pictures() {
    let many = format!("{BOARD}%%\nP\t07\t0\n");
    let folder = Folder::new("pictures", &[("a.sheet", BOARD), ("b.sheet", &many)]);
    let out = route(&["--picture", folder.path()], "");
    assert_eq!(
        (said(&out.stdout).as_str(), out.status.code()),
        ("", Some(0))
    );
    let names = ["a.html", "a.sheet", "b.1.html", "b.2.html", "b.sheet"];
    assert_eq!(folder.names(), names);
    for (name, title) in [
        ("a.html", "a.sheet"),
        ("b.1.html", "b.sheet, sheet 1"),
        ("b.2.html", "b.sheet, sheet 2"),
    ] {
        let text = folder.read(name);
        assert!(text.contains(title), "{name}: {text}");
    }
    let out = route(&["--picture"], BOARD);
    assert_eq!(out.status.code(), Some(0));
    assert!(said(&out.stdout).contains("standard input"));
    let both = route(&["--picture", "--write", &folder.file("a.sheet")], "");
    assert_eq!(said(&both.stdout), "");
    assert!(folder.read("a.plan").ends_with(PLAN_END));
    let out = route(&["--picture", "--ways"], BOARD);
    assert_eq!(out.status.code(), Some(2));
}

#[test]
fn the_picture_of_a_page() {
    let out = route(&["--svg", "0"], EXAMPLE);
    assert_eq!(
        (said(&out.stderr).as_str(), out.status.code()),
        ("", Some(0))
    );
    assert!(said(&out.stdout).starts_with("<svg"));
    let out = route(&["--svg", "1"], EXAMPLE);
    assert_eq!(
        (said(&out.stdout).as_str(), out.status.code()),
        ("", Some(2))
    );
    assert_eq!(
        said(&out.stderr),
        "standard input: no page 1, the board has 1\n"
    );
    assert_eq!(
        said(&route(&["--svg", "0"], "P\t07\t0\n").stdout),
        "E\t1\t1\n"
    );
    for words in [&["--svg"][..], &["--svg", "-1"], &["--svg", "0", "--ways"]] {
        assert_eq!(route(words, EXAMPLE).status.code(), Some(2), "{words:?}");
    }
}

#[test]
fn ways() {
    let direct = "P\t0\t0\nN\t3\t0\t0\t0\t1\t1\t0\t-\t-\t-\t-\t-\n\
        N\t4\t0\t0\t0\t1\t1\t0\t-\t-\t-\t-\t-\nW\t3\t1\t4\t2\n";
    let out = route(&["--ways"], &format!("{EXAMPLE}%%\n{direct}%%\nP\t07\t0\n"));
    let ways = "wire 0: 1.5 > 0 > 1 > 2 > 3 > 4 > 2.1\nwire 1: 1.5 > 0 > 1 > 2 > 5 > 6 > 7 > 3.1\n";
    let due = format!("{ways}%%\nwire 0: 3.1 > 4.2 direct\n%%\nE\t1\t1\n");
    assert_eq!(said(&out.stdout), due);
}

/// Document 01's example (a).
const EXAMPLE: &str = "P\t0\t10\nN\t1\t0\t1\t0\t2\t2\t0\t20\t0\t0\t0\t-\n\
    N\t2\t0\t0\t0\t2\t2\t0\t10\t8\t0\t10\t-\nN\t3\t0\t0\t0\t2\t2\t0\t0\t8\t0\t20\t-\n\
    W\t1\t5\t2\t1\nW\t1\t5\t3\t1\n";

#[test]
fn a_box() {
    let inside = |word: &str| said(&route(&["--box", word], EXAMPLE).stdout);
    let list = "R\t0\t1\t-\nR\t1\t2\t0\nR\t2\t3\t0\nR\t3\t4\t0\nB\t1\nB\t2\nB\t3\nB\t6\n";
    assert_eq!(inside("0,11,22,-8,-3"), list);
    assert_eq!(inside("0,20,20,-5,-5"), "B\t1\n");
    assert_eq!(inside("0,21,21,-4,-4"), "R\t0\t1\t-\n");
    assert_eq!(inside("0,30,40,-2147483648,2147483647"), "");
    let refused = "E\t9\t0\n";
    for word in ["1,0,9,0,9", "4294967295,0,0,0,0", "0,1,0,0,9", "0,0,9,0,-1"] {
        assert_eq!(inside(word), refused, "{word}");
    }
    // Refusals of the sheet come first, and many sheets have an answer each.
    let many = format!("P\t07\t0\n%%\n{EXAMPLE}%%\n%%\n{EXAMPLE}");
    let out = route(&["--check", "--quiet", "--box", "0,20,20,-5,-5"], &many);
    let due = format!("E\t1\t1\n%%\nB\t1\n%%\n{refused}%%\nB\t1\n");
    assert_eq!(said(&out.stdout), due);
    assert_eq!(
        (said(&out.stderr).as_str(), out.status.code()),
        ("", Some(0))
    );
    let nine = "P\t0\t0\n".repeat(9);
    let out = route(&["--program", "--box", "9,0,0,0,0"], &nine);
    assert_eq!(said(&out.stdout), "E\t2\t9\n");
    let wrong = [
        "",
        "0",
        "0,1,2,3",
        "0,1,2,3,4,5",
        "-1,1,2,3,4",
        "0,1,2,3,x",
        "4294967296,1,2,3,4",
        "0,2147483648,2,3,4",
        "0, 1,2,3,4",
    ];
    for word in wrong {
        let out = route(&["--box", word], EXAMPLE);
        assert_eq!(out.status.code(), Some(2), "{word}");
        assert!(said(&out.stderr).starts_with("--box asks for PAGE,X0,X1,Y0,Y1"));
        assert!(out.stdout.is_empty());
    }
    let out = route(&["--box"], EXAMPLE);
    assert_eq!(out.status.code(), Some(2));
}

#[test]
fn what_is_wrong_is_told() {
    let out = route(&["--chek"], "");
    assert_eq!(out.status.code(), Some(2));
    assert!(said(&out.stderr).starts_with("no such word: --chek\n"));
    assert!(said(&out.stderr).contains("--check"));
    assert!(out.stdout.is_empty());
    if !CHECKS {
        let command = Command::new(env!("CARGO_BIN_EXE_route"))
            .arg("--check")
            .output();
        let out = command.expect("the command can be started");
        assert_eq!(out.status.code(), Some(2));
        assert!(said(&out.stderr).starts_with("this route was built without --check: "));
    }
    let out = route(&["no/such/folder"], "");
    assert_eq!(out.status.code(), Some(2));
    assert!(said(&out.stderr).starts_with("no/such/folder can't be read: "));
    let out = route(&["--help"], "");
    assert_eq!(out.status.code(), Some(0));
    let help = said(&out.stdout);
    assert!(help.starts_with("route [WORD]... [FILE | FOLDER]...: "));
    for word in [
        "--ways",
        "--svg",
        "--box",
        "--write",
        "--picture",
        "--program",
        "--check",
        "--quiet",
        "--status",
    ] {
        assert!(help.contains(&format!("\n{word} ")), "{word}");
    }
}
