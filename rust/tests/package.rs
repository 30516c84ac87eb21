//! A package, made with the library that this crate is linked with, and a server
//! built from it where there is no Rattle kit.

use std::fs;
use std::path::{Path, PathBuf};
use std::process::{Command, Output};

fn root() -> PathBuf {
    PathBuf::from(env!("CARGO_MANIFEST_DIR")).join("..")
}

fn said(bytes: &[u8]) -> String {
    String::from_utf8_lossy(bytes).into_owned()
}

/// A folder that goes with the test.
struct Folder(PathBuf);

impl Folder {
    fn new(name: &str) -> Self {
        let folder = Path::new(env!("CARGO_TARGET_TMPDIR")).join(name);
        let _ = fs::remove_dir_all(&folder);
        fs::create_dir_all(&folder).expect("a folder can be made");
        Self(folder)
    }

    fn put(&self, file: &str, text: &str) {
        let file = self.0.join(file);
        fs::create_dir_all(file.parent().expect("a folder")).expect("a folder can be made");
        fs::write(file, text).expect("a file can be written");
    }

    /// A command here, without the kit on the path and without what would lead
    /// cargo to another library or folder.
    fn command(&self, folder: &str, program: &str, words: &[&str]) -> Command {
        let path = std::env::var("PATH").unwrap_or_default();
        let has_rt = |folder: &&str| Path::new(folder).join("rt").exists();
        let path: Vec<&str> = path.split(':').filter(|f| !has_rt(f)).collect();
        let mut command = Command::new(program);
        command.current_dir(self.0.join(folder)).args(words);
        command.env("PATH", path.join(":"));
        command.env_remove("RATTLE_STATICLIB");
        command.env_remove("CARGO_TARGET_DIR");
        command
    }

    fn run(&self, folder: &str, program: &str, words: &[&str]) -> Output {
        let ran = self.command(folder, program, words).output();
        ran.expect("the command can be started")
    }

    /// Cargo here, where the compiler warns of nothing. All is built in one folder.
    fn cargo(&self, folder: &str, words: &[&str]) -> String {
        let mut command = self.command(folder, env!("CARGO"), words);
        let ran = command
            .env("CARGO_TARGET_DIR", self.0.join("built"))
            .output();
        let out = ran.expect("cargo can be started");
        assert!(out.status.success(), "{words:?}: {}", said(&out.stderr));
        let told = said(&out.stderr);
        assert!(!told.contains("generated"), "{words:?}: {told}");
        said(&out.stdout)
    }

    fn package(&self, words: &[&str]) -> Output {
        let script = root().join("tools/package.sh");
        self.run(".", script.to_str().expect("the path is text"), words)
    }
}

impl Drop for Folder {
    fn drop(&mut self) {
        let _ = fs::remove_dir_all(&self.0);
    }
}

const SERVER: &str = r#"
use panzhyqur::{Buffers, Limits};

fn main() {
    let sheet = std::fs::read(std::env::args().nth(1).expect("a file")).expect("a sheet");
    let mut buffers = Buffers::for_limits(&Limits::LIBRARY);
    print!("{}", buffers.route(&sheet).expect("a plan"));
}
"#;

const MANIFEST: &str = "[package]\nname = \"server\"\nversion = \"0.1.0\"\nedition = \"2021\"\n";

/// Made without the gate, as it says, and enough for a server and for `route`.
#[test]
fn a_server_without_the_kit() {
    let folder = Folder::new("package");
    let library = env!("PANZHYQUR_LINKED");
    let out = folder.package(&["--ungated", "--library", library, "made"]);
    assert!(out.status.success(), "{}", said(&out.stderr));
    let made_from = fs::read_to_string(folder.0.join("made/MADE-FROM")).expect("it is there");
    assert!(made_from.contains("\ngate: not run"), "{made_from}");
    assert!(made_from.starts_with("commit: "), "{made_from}");
    // The archive is of the same files, and moving it changes nothing.
    let out = folder.run(".", "tar", &["xzf", "made.tar.gz", "--one-top-level=moved"]);
    assert!(out.status.success(), "{}", said(&out.stderr));
    let out = folder.run(".", "diff", &["-r", "made", "moved/made"]);
    assert!(out.status.success(), "{}", said(&out.stdout));
    fs::remove_dir_all(folder.0.join("made")).expect("it can be removed");

    folder.put("server/Cargo.toml", MANIFEST);
    folder.put("server/src/main.rs", SERVER);
    folder.cargo(
        "server",
        &[
            "add",
            "--quiet",
            "--offline",
            "--path",
            "../moved/made/rust",
        ],
    );
    let sheet = "../moved/made/examples/a.sheet";
    let plan = fs::read_to_string(root().join("examples/a.plan")).expect("a plan");
    let told = folder.cargo("server", &["run", "--quiet", "--offline", "--", sheet]);
    assert_eq!(told, plan);
    let command = [
        "run",
        "--quiet",
        "--offline",
        "--",
        "--quiet",
        "../examples/a.sheet",
    ];
    assert_eq!(folder.cargo("moved/made/rust", &command), plan);
}

#[test]
fn refused_without_the_gate() {
    let folder = Folder::new("package_refused");
    let library = env!("PANZHYQUR_LINKED");
    for (words, status) in [
        (&["--library", library, "made"][..], 2),
        (&["--ungated"], 2),
        (&["--ungated", "made", "twice"], 2),
        (&["--ungated", "--library", "none", "made"], 1),
        (&["--ungated", "--library", library, "."], 1),
    ] {
        let out = folder.package(words);
        assert_eq!(out.status.code(), Some(status), "{words:?}");
        assert!(said(&out.stderr).starts_with("package: "), "{words:?}");
    }
    assert_eq!(fs::read_dir(&folder.0).expect("it is there").count(), 0);
    let help = folder.package(&["--help"]);
    assert_eq!(help.status.code(), Some(0));
    assert!(said(&help.stdout).starts_with("tools/package.sh "));
}

/// A relative RATTLE_STATICLIB is looked for from the folder of the shell, then
/// from the workspace's; where it is in none, the build says where it looked.
#[test]
fn a_relative_folder() {
    let folder = Folder::new("relative");
    let this = env!("CARGO_MANIFEST_DIR");
    let manifest = format!("{MANIFEST}[dependencies]\npanzhyqur = {{ path = {this:?} }}\n");
    folder.put("server/Cargo.toml", &manifest);
    folder.put("server/src/lib.rs", "");
    let library = Path::new(env!("PANZHYQUR_LINKED")).join("libpanzhyqur.a");
    for at in ["server/of_workspace", "shell/of_shell"] {
        fs::create_dir_all(folder.0.join(at)).expect("a folder can be made");
        let to = folder.0.join(at).join("libpanzhyqur.a");
        fs::copy(&library, to).expect("the library can be copied");
    }
    let check = |given: &str| {
        let mut cargo = folder.command("server", env!("CARGO"), &["check", "--offline"]);
        cargo.env("PWD", folder.0.join("shell"));
        let ran = cargo.env("RATTLE_STATICLIB", given).output();
        ran.expect("cargo can be started")
    };
    for given in ["of_shell", "of_workspace"] {
        let out = check(given);
        assert!(out.status.success(), "{given}: {}", said(&out.stderr));
    }
    let out = check("of_none");
    assert!(!out.status.success());
    let told = said(&out.stderr);
    assert!(told.contains("RATTLE_STATICLIB is of_none"), "{told}");
    for at in [folder.0.join("shell"), folder.0.join("server"), this.into()] {
        let tried = at.join("of_none").display().to_string();
        assert!(told.contains(&tried), "{tried}: {told}");
    }
}
