//! The script `route` at the repository's root: with a stand-in for the prover
//! in a folder of its own, and as it is where its program is built.

use std::fs;
use std::io::Write;
use std::os::unix::fs::PermissionsExt;
use std::path::{Path, PathBuf};
use std::process::{Command, Stdio};
use std::sync::{Mutex, MutexGuard, PoisonError};

fn root() -> PathBuf {
    PathBuf::from(env!("CARGO_MANIFEST_DIR")).join("..")
}

/// Held while a file is written and while a program is started: a file that one
/// test writes is still open in a program that another starts just then, and can't
/// be run until that has begun.
fn alone() -> MutexGuard<'static, ()> {
    static ALONE: Mutex<()> = Mutex::new(());
    ALONE.lock().unwrap_or_else(PoisonError::into_inner)
}

/// Proves nothing: says of a crate that it is proved, unless it was before, and
/// makes a program that shows its input in brackets, and runs it.
const PROVER: &str = r#"#!/bin/sh
name=$(basename "$PWD")
[ "$1 $name" = "run program" ] || [ "$1" = lib ] || exit 2
[ "$name" != base ] || echo called >>../../target/calls
[ ! -e ../broken ] || { echo "error: fn $name::some: not proved"; exit 1; }
mkdir -p out
[ -e out/built ] || { echo "fn $name::some: proved"; echo "logic=proved functions=1"; } >&2
touch out/built
[ "$1" = run ] || exit 0
[ -e out/program ] || { printf '#!/bin/sh\necho "[$(cat)]"\n' >out/program; chmod +x out/program; }
exec out/program
"#;

/// A small repository with the script, and the stand-in in a folder for the path.
struct Repository(PathBuf);

struct Said {
    out: String,
    told: String,
    status: Option<i32>,
}

impl Repository {
    fn new(name: &str) -> Self {
        let folder = Path::new(env!("CARGO_TARGET_TMPDIR")).join(name);
        let _ = fs::remove_dir_all(&folder);
        let repository = Self(folder);
        repository.put(
            "crates.txt",
            "# Each, with what it uses.\nbase:\nother staticlib: base\nsheet: base\nprogram: sheet base csv\n",
        );
        for file in [
            "base/src/lib.rt",
            "base/proofs/a/Proof.antt",
            "program/src/main.rt",
        ] {
            repository.put(&format!("crates/{file}"), "as it was\n");
        }
        repository.put("crates/sheet/src/lib.rt", "as it was\n");
        repository.put("a.sheet", "a");
        repository.put("b.sheet", "b");
        repository.put("kit/rt", PROVER);
        let script = fs::read_to_string(root().join("route")).expect("the script is there");
        repository.put("route", &script);
        for program in ["kit/rt", "route"] {
            let mode = fs::Permissions::from_mode(0o755);
            fs::set_permissions(repository.0.join(program), mode).expect("a mode can be set");
        }
        repository
    }

    fn put(&self, file: &str, text: &str) {
        let file = self.0.join(file);
        fs::create_dir_all(file.parent().expect("a folder")).expect("a folder can be made");
        let _alone = alone();
        fs::write(file, text).expect("a file can be written");
    }

    /// Runs the script with a path that has the stand-in, or no `rt` at all.
    fn route(&self, with_kit: bool, words: &[&str], input: &str) -> Said {
        let path = match with_kit {
            true => format!("{}:{}", self.0.join("kit").display(), path_without_kit()),
            false => path_without_kit(),
        };
        let mut command = Command::new("./route");
        command.current_dir(&self.0).args(words);
        said(command.env("PATH", path), input)
    }

    /// How often the stand-in was run so far.
    fn calls(&self) -> usize {
        let calls = fs::read_to_string(self.0.join("target/calls"));
        calls.map_or(0, |calls| calls.lines().count())
    }
}

impl Drop for Repository {
    fn drop(&mut self) {
        let _ = fs::remove_dir_all(&self.0);
    }
}

fn path_without_kit() -> String {
    let path = std::env::var("PATH").unwrap_or_default();
    let has_rt = |folder: &&str| Path::new(folder).join("rt").exists();
    let folders: Vec<&str> = path.split(':').filter(|f| !has_rt(f)).collect();
    folders.join(":")
}

fn said(command: &mut Command, input: &str) -> Said {
    let pipes = command.stdin(Stdio::piped()).stdout(Stdio::piped());
    let started = {
        let _alone = alone();
        pipes.stderr(Stdio::piped()).spawn()
    };
    let mut child = started.expect("the script can be started");
    // A script that was told wrongly reads nothing.
    let _ = (child.stdin.take().expect("piped")).write_all(input.as_bytes());
    let out = child.wait_with_output().expect("the script ends");
    let text = |bytes: &[u8]| String::from_utf8_lossy(bytes).into_owned();
    Said {
        out: text(&out.stdout),
        told: text(&out.stderr),
        status: out.status.code(),
    }
}

#[test]
fn proved_once_and_told_crate_by_crate() {
    let repository = Repository::new("script_once");
    let first = repository.route(true, &[], "x");
    assert_eq!((first.out.as_str(), first.status), ("[x]\n", Some(0)));
    let told: Vec<&str> = first.told.lines().collect();
    assert!(
        told[0].contains("3 crates (rt run in crates/program)"),
        "{}",
        told[0]
    );
    let each = [
        "route: base proved; 1 of 3 crates, 2 left",
        "route: sheet proved; 2 of 3 crates, 1 left",
        "route: program proved; 3 of 3 crates, 0 left",
    ];
    let without_time = |line: &&str| {
        let (front, rest) = line.split_once(" (").expect("a time");
        let (time, rest) = rest.split_once(" s)").expect("in seconds");
        assert!(time.parse::<u32>().is_ok(), "{line}");
        format!("{front}{rest}")
    };
    let told: Vec<String> = told[1..].iter().map(without_time).collect();
    assert_eq!(told, each);
    let log = fs::read_to_string(repository.0.join("target/route.log"));
    assert!(log.is_ok_and(|log| log.contains("fn base::some: proved")));
    for _ in 0..2 {
        let again = repository.route(true, &[], "y");
        assert_eq!((again.out.as_str(), again.told.as_str()), ("[y]\n", ""));
    }
    assert_eq!(repository.calls(), 1);
}

/// Each change of what the program is made from, or of what was built, has the
/// prover asked again, once.
#[test]
fn a_change_is_seen() {
    let repository = Repository::new("script_change");
    repository.route(true, &[], "");
    let asked = |what: &str, change: &dyn Fn()| {
        let before = repository.calls();
        change();
        for _ in 0..2 {
            let said = repository.route(true, &[], "x");
            assert_eq!(
                (said.out.as_str(), said.status),
                ("[x]\n", Some(0)),
                "{what}"
            );
        }
        assert_eq!(repository.calls(), before + 1, "{what}");
    };
    let file = |name: &str| repository.0.join(name);
    let proof = "crates/base/proofs/a/Proof.antt";
    asked("written", &|| repository.put(proof, "otherwise\n"));
    asked("of the same size and time", &|| {
        let time = fs::metadata(file(proof)).and_then(|data| data.modified());
        repository.put(proof, "othErwise\n");
        let open = fs::File::options().append(true).open(file(proof));
        let set = open.and_then(|open| open.set_modified(time?));
        set.expect("a time can be set");
    });
    asked("added", &|| repository.put("crates/base/specs/B.antt", ""));
    asked("removed", &|| {
        fs::remove_file(file("crates/base/specs/B.antt")).expect("it can be removed");
    });
    asked("the list of crates", &|| {
        repository.put("crates.txt", "base:\nprogram: base\n");
    });
    asked("the kit", &|| repository.put("kit/rt", PROVER));
    asked("the program", &|| {
        fs::remove_file(file("crates/program/out/program")).expect("it can be removed");
    });
    let before = repository.calls();
    repository.put(
        "crates/base/must-fail/a.edit",
        "an edit is not part of it\n",
    );
    repository.route(true, &[], "");
    assert_eq!(repository.calls(), before);
}

#[test]
fn without_the_kit() {
    let repository = Repository::new("script_without");
    let none = repository.route(false, &[], "x");
    assert_eq!((none.out.as_str(), none.status), ("", Some(2)));
    assert!(none.told.contains("needs the Rattle kit"), "{}", none.told);
    repository.route(true, &[], "");
    let same = repository.route(false, &[], "x");
    assert_eq!((same.out.as_str(), same.told.as_str()), ("[x]\n", ""));
    repository.put("crates/base/src/lib.rt", "otherwise\n");
    let older = repository.route(false, &[], "x");
    assert_eq!((older.out.as_str(), older.status), ("[x]\n", Some(0)));
    assert!(older.told.contains("as it was built"), "{}", older.told);
}

#[test]
fn what_is_not_proved_answers_nothing() {
    let repository = Repository::new("script_broken");
    repository.route(true, &[], "");
    repository.put("crates/broken", "");
    for _ in 0..2 {
        let said = repository.route(true, &[], "x");
        assert_eq!((said.out.as_str(), said.status), ("", Some(1)));
        assert!(
            said.told.contains("base::some: not proved"),
            "{}",
            said.told
        );
    }
}

#[test]
fn files_and_help() {
    let repository = Repository::new("script_files");
    let two = repository.route(true, &["a.sheet", "b.sheet"], "");
    assert_eq!((two.out.as_str(), two.status), ("[a]\n%%\n[b]\n", Some(0)));
    for wrong in ["none.sheet", "crates", "--chek"] {
        let said = repository.route(true, &["a.sheet", wrong], "");
        assert_eq!((said.out.as_str(), said.status), ("", Some(2)), "{wrong}");
        assert!(said.told.contains(wrong), "{}", said.told);
    }
    let help = repository.route(false, &["--help"], "");
    assert_eq!(help.status, Some(0));
    for word in ["[FILE]", "48 nodes", "56\nwires", "65,536 bytes"] {
        assert!(help.out.contains(word), "{word}");
    }
    // From another folder its files are named as they are there.
    let mut elsewhere = Command::new(repository.0.join("route"));
    elsewhere.current_dir(repository.0.join("crates"));
    let command = elsewhere.arg("../b.sheet").env("PATH", path_without_kit());
    assert_eq!(said(command, "").out, "[b]\n");
}

/// The proved program on the examples, where it is built. Without the kit, so that
/// nothing is proved for it.
#[test]
fn the_program_itself() {
    if !root().join("crates/program/out/program").exists() {
        println!("skipped: crates/program/out/program is not built");
        return;
    }
    let names = ["a", "kinds", "refused"];
    let file = |name: &str, ending: &str| root().join(format!("examples/{name}.{ending}"));
    let plans = names.map(|name| fs::read_to_string(file(name, "plan")).expect("a plan"));
    let mut command = Command::new(root().join("route"));
    command.args(names.map(|name| file(name, "sheet")));
    let told = said(command.env("PATH", path_without_kit()), "");
    assert_eq!(
        (told.out, told.status),
        (plans.join("%%\n"), Some(0)),
        "{}",
        told.told
    );
}
