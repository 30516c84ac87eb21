//! route: board sheets in, plan sheets or `E` lines out. See `words::USAGE`.

#[cfg(feature = "check")]
mod check;
mod files;
mod router;
mod words;

use panzhyqur::progress::Progress;
use panzhyqur::stack::with_stack;
use router::{Router, Tally};
use std::fs;
use std::io::{self, IsTerminal, Read};
use std::path::PathBuf;
use std::process::ExitCode;
use words::{Asked, USAGE};

fn main() -> ExitCode {
    let asked = match words::asked(std::env::args_os().skip(1)) {
        Ok(Some(asked)) => asked,
        Ok(None) => {
            println!("{USAGE}");
            return ExitCode::SUCCESS;
        }
        Err(why) => {
            eprintln!("{why}\n\n{USAGE}");
            return ExitCode::from(2);
        }
    };
    match with_stack(|| run(&asked)) {
        Ok(tally) => status(&asked, &tally),
        Err(trouble) => told(&trouble),
    }
}

/// What stops a run.
enum Trouble {
    Reading(PathBuf, io::Error),
    /// A file beside a sheet.
    Putting(PathBuf, io::Error),
    /// Standard output.
    Writing(io::Error),
}

fn told(trouble: &Trouble) -> ExitCode {
    match trouble {
        // Who reads the answers wants no more of them.
        Trouble::Writing(why) if why.kind() == io::ErrorKind::BrokenPipe => {
            return ExitCode::SUCCESS;
        }
        Trouble::Writing(why) => eprintln!("the answers can't be written: {why}"),
        Trouble::Putting(file, why) => eprintln!("{} can't be written: {why}", file.display()),
        Trouble::Reading(file, why) => eprintln!("{} can't be read: {why}", file.display()),
    }
    ExitCode::from(2)
}

fn status(asked: &Asked, tally: &Tally) -> ExitCode {
    ExitCode::from(match tally {
        tally if tally.broken > 0 => 1,
        tally if tally.lacking > 0 => 2,
        tally if tally.refused > 0 && asked.status => 3,
        _ => 0,
    })
}

fn run(asked: &Asked) -> Result<Tally, Trouble> {
    // Answers on the same terminal say themselves how far it is.
    let apart = asked.shown.is_none() || !io::stdout().is_terminal();
    let progress = Progress::new(apart && !asked.quiet);
    let mut router = Router::new(asked, &progress);
    if asked.paths.is_empty() {
        let mut stream = Vec::new();
        let read = io::stdin().lock().read_to_end(&mut stream);
        read.map_err(|why| Trouble::Reading("standard input".into(), why))?;
        router.stream(None, &stream)?;
    }
    let files = files::files(&asked.paths)?;
    for (i, file) in files.iter().enumerate() {
        let stream = fs::read(file).map_err(|why| Trouble::Reading(file.clone(), why))?;
        router.stream(Some(file), &stream)?;
        progress.show(|| so_far(i + 1, files.len(), &router.tally));
    }
    router.flush()?;
    progress.clear();
    if !files.is_empty() && !asked.quiet {
        let line = so_far(files.len(), files.len(), &router.tally);
        eprintln!("{line}{}", checked(asked, &router.tally));
    }
    Ok(router.tally)
}

fn so_far(done: usize, files: usize, tally: &Tally) -> String {
    let (sheets, refused) = (tally.sheets, tally.refused);
    format!("{done} of {files} files, {sheets} sheets, {refused} refused")
}

fn checked(asked: &Asked, tally: &Tally) -> String {
    match (asked.check, tally.broken) {
        (true, 0) => ", demand 3 and depths hold of every plan".to_string(),
        (true, broken) => format!(", {broken} plans break demand 3 or depths"),
        (false, _) => String::new(),
    }
}
