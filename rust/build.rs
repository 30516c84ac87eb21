//! Finds the static library and links it. It is, of these the first:
//!
//! - in the folder that the variable RATTLE_STATICLIB names,
//! - in `lib/` beside this crate's folder, as a package has it,
//! - in `crates/panzhyqur/out/` of the repository, where `rt lib` writes it:
//!   where it is missing there it is proved and made.

use std::collections::VecDeque;
use std::fs::File;
use std::io::{BufRead, BufReader, Write};
use std::path::{Path, PathBuf};
use std::process::{Command, Stdio, exit};
use std::time::{Instant, SystemTime};
use std::{env, fs, io};

/// The library whose functions src/calls.rs declares.
const LIBRARY: &str = "panzhyqur";

/// How many of the prover's last lines are told where it fails.
const LINES: usize = 30;

fn main() {
    println!("cargo::rerun-if-env-changed=RATTLE_STATICLIB");
    let above = variable("CARGO_MANIFEST_DIR").join("..");
    let folder = match env::var_os("RATTLE_STATICLIB") {
        Some(given) => given_folder(Path::new(&given)),
        None if holds(&above.join("lib")) => above.join("lib"),
        None => own_folder(&above),
    };
    println!("cargo::rerun-if-changed={}", archive(&folder).display());
    println!("cargo::rustc-link-lib=static:+verbatim=lib{LIBRARY}.a");
    println!("cargo::rustc-link-search=native={}", folder.display());
    // For the test that makes a package with the library that is linked.
    println!("cargo::rustc-env=PANZHYQUR_LINKED={}", folder.display());
}

fn variable(name: &str) -> PathBuf {
    PathBuf::from(env::var_os(name).expect("cargo sets it"))
}

fn archive(folder: &Path) -> PathBuf {
    folder.join(format!("lib{LIBRARY}.a"))
}

fn holds(folder: &Path) -> bool {
    archive(folder).is_file()
}

/// The folder that RATTLE_STATICLIB names. Cargo runs this in the crate's
/// folder, so one that is not named from the root is looked for in the folder
/// of the shell, of the workspace and of the crate.
fn given_folder(given: &Path) -> PathBuf {
    let mut tried = vec![given.to_path_buf()];
    if given.is_relative() {
        println!("cargo::rerun-if-env-changed=PWD");
        let shell = env::var_os("PWD").map(PathBuf::from);
        let bases = [shell, workspace(), Some(variable("CARGO_MANIFEST_DIR"))];
        tried = bases.into_iter().flatten().map(|b| b.join(given)).collect();
        tried.dedup();
    }
    if let Some(found) = tried.iter().find(|folder| holds(folder)) {
        return found.clone();
    }
    let tried: Vec<String> = tried.iter().map(|f| f.display().to_string()).collect();
    stop(&format!(
        "RATTLE_STATICLIB is {}, and lib{LIBRARY}.a is not there; looked in: {}",
        given.display(),
        tried.join(", ")
    ))
}

/// The workspace that is built: the first folder above what is built that has a
/// Cargo.lock. `None` where cargo builds elsewhere.
fn workspace() -> Option<PathBuf> {
    let out = variable("OUT_DIR");
    let found = out.ancestors().find(|f| f.join("Cargo.lock").is_file());
    found.map(Path::to_path_buf)
}

/// The repository's own folder, with the library in it.
fn own_folder(root: &Path) -> PathBuf {
    let Ok(root) = root.canonicalize() else {
        stop("the folder above this crate can't be read")
    };
    if !root.join("crates.txt").exists() {
        stop(&format!(
            "no lib/lib{LIBRARY}.a and no crates.txt in {}: this crate stands neither in a package nor in its repository; RATTLE_STATICLIB can name the library's folder",
            root.display()
        ));
    }
    let folder = root.join("crates").join(LIBRARY).join("out");
    if !holds(&folder) {
        make(&root, &archive(&folder));
    }
    warn_if_older(&root, &archive(&folder));
    folder
}

/// Proves the library and writes its archive: `rt lib` in each crate that it has,
/// the lowest first, and in its own.
fn make(root: &Path, archive: &Path) {
    let shown = archive.display();
    let crates = crates(root);
    let mut told = Told::new(crates.len());
    told.line(&format!(
        "{shown} is missing: proving {} crates with `rt`; from nothing this takes 10 minutes and more",
        told.crates
    ));
    for name in &crates {
        match told.run(root, name) {
            Ok(true) => {}
            Ok(false) => stop(&format!("`rt lib` in crates/{name} failed")),
            Err(why) => stop(&format!(
                "{shown} is missing and `rt` can't be run ({why}): run `rt lib` in crates/{LIBRARY} where the Rattle kit is, or set RATTLE_STATICLIB to a folder that holds lib{LIBRARY}.a"
            )),
        }
    }
    if !archive.exists() {
        stop(&format!(
            "`rt lib` in crates/{LIBRARY} did not write {shown}"
        ));
    }
    println!(
        "cargo::warning={shown} was missing: ran `rt lib` in crates/{LIBRARY}, which proved and wrote it"
    );
}

/// The crates of the repository that the library has, in the order of crates.txt,
/// and its own: the names on its line there.
fn crates(root: &Path) -> Vec<String> {
    let list = fs::read_to_string(root.join("crates.txt")).unwrap_or_default();
    let lines = list.lines().filter_map(|line| line.split_once(':'));
    let name = |front: &str| front.split_whitespace().next().map(str::to_string);
    let lines: Vec<(String, &str)> = lines
        .filter_map(|(front, rest)| Some((name(front)?, rest)))
        .collect();
    let own = lines.iter().find(|(name, _)| name == LIBRARY);
    let has = |name: &str| own.is_some_and(|(_, rest)| rest.split_whitespace().any(|n| n == name));
    let below = lines.iter().map(|(name, _)| name);
    let below = below.filter(|name| has(name)).cloned();
    below.chain([LIBRARY.to_string()]).collect()
}

/// Says how far the prover is. Cargo keeps what a build script writes, so it is
/// told on the terminal itself, or where there is none on standard error.
struct Told {
    terminal: Option<File>,
    crates: usize,
    done: usize,
}

impl Told {
    fn new(crates: usize) -> Self {
        Self {
            terminal: File::options().write(true).open("/dev/tty").ok(),
            crates,
            done: 0,
        }
    }

    fn line(&mut self, line: &str) {
        // Cargo's own line stands there: it is wiped, and comes again.
        let written = (self.terminal.as_mut()).map(|t| writeln!(t, "\r\x1b[K{LIBRARY}: {line}"));
        if written.is_none_or(|w| w.is_err()) {
            eprintln!("{line}");
        }
    }

    /// Runs `rt lib` on a crate; whether it went well.
    fn run(&mut self, root: &Path, name: &str) -> io::Result<bool> {
        let begun = Instant::now();
        let mut is_proved = false;
        let mut rt = Command::new("rt")
            .arg("lib")
            .current_dir(root.join("crates").join(name))
            .stdin(Stdio::null())
            .stdout(Stdio::piped())
            .stderr(Stdio::inherit())
            .spawn()?;
        let out = rt.stdout.take().expect("piped");
        let mut last = VecDeque::new();
        for line in BufReader::new(out).lines().map_while(Result::ok) {
            // The prover's last line. Of a crate that is built it says nothing.
            is_proved |= line.starts_with("logic=proved ");
            // How many modules each library has tells nothing of a failure.
            if !line.contains(": modules loaded=") {
                last.push_back(line);
            }
            if last.len() > LINES {
                last.pop_front();
            }
        }
        let well = rt.wait()?.success();
        if !well {
            last.iter().for_each(|line| eprintln!("{line}"));
            return Ok(false);
        }
        self.done += 1;
        if is_proved {
            let (done, all) = (self.done, self.crates);
            let (left, time) = (all - done, begun.elapsed().as_secs());
            self.line(&format!(
                "{name} proved in {time} s; {done} of {all} crates, {left} left"
            ));
        }
        Ok(true)
    }
}

/// A library that is older than the Rattle source is linked, but told. What `rt`
/// keeps stands beside that source, so cargo is told of the folders src/ alone.
fn warn_if_older(root: &Path, archive: &Path) {
    let list = root.join("crates.txt");
    println!("cargo::rerun-if-changed={}", list.display());
    let crates = fs::read_dir(root.join("crates")).into_iter().flatten();
    let folders = crates.flatten().map(|krate| krate.path().join("src"));
    let newest = folders
        .filter(|folder| folder.is_dir())
        .inspect(|folder| println!("cargo::rerun-if-changed={}", folder.display()))
        .flat_map(fs::read_dir)
        .flatten()
        .flatten()
        .map(|file| changed(&file.path()))
        .max();
    if newest > Some(changed(archive)) {
        println!(
            "cargo::warning={} is older than crates/*/src: remove it to make it anew",
            archive.display()
        );
    }
}

fn changed(file: &Path) -> SystemTime {
    let data = fs::metadata(file).and_then(|data| data.modified());
    data.unwrap_or(SystemTime::UNIX_EPOCH)
}

fn stop(why: &str) -> ! {
    eprintln!("{why}.");
    exit(1)
}
