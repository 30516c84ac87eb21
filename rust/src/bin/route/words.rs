//! What the command line asks for.

use panzhyqur::{Limits, PageBox};
use std::ffi::OsString;
use std::path::PathBuf;

pub const USAGE: &str = "\
route [WORD]... [FILE | FOLDER]...: the plans of board sheets

Reads board sheets from standard input, or from files, or from the .sheet files
of a folder by name; many in one stream are parted by a line %%. Writes for each
the plan sheet, or `E`, the refusal's number and its line, parted in the same way.
A marker line %%! says that the byte 10 before it is not part of the sheet. What is
wrong with a refused sheet, and what of an accepted one looks like a slip, is told
on standard error.

In place of plan sheets, one of
--ways     the way of each wire, a line each: source port, rerouters, target port
--svg PAGE the bare picture of a page
--box PAGE,X0,X1,Y0,Y1
           what is inside a box, x from X0 to X1 and y from Y0 to Y1 of a page, a
           line each: `R`, number, part and lane or `-` of the rerouters that
           overlap it, then `B` and number of the bus wires between rerouters whose
           run meets it, edges included. A page that is not there, or a range that
           ends under its start, is refusal 9

Beside each sheet; standard output then has only what else is asked for
--write    the plan sheet or E line: a.plan for a.sheet
--picture  the plan as an HTML file to look at: a.html for a.sheet; of a refused
           sheet its text with the fault marked. From standard input: to standard
           output
Of the second sheet of a.sheet: a.2.plan, a.2.html. A file that is there is
written over.

--program  takes the program's limits (8 pages, 48 nodes, 8 chips, 24 nodes
           inside, 24 exec inputs, 56 wires, 65,536 bytes) instead of the
           library's (64, 4,096, 256, 4,096, 4,096, 8,192)
--check    tests each clause of demand 3 and the depths on each plan; what is
           broken goes to standard error (built with `--features check` alone)
--quiet    says nothing on standard error but what --check finds and what can't be
           read, written or found
--status   ends with status 3 where a sheet was refused
--help     prints this

Status 0, 1 where a plan breaks a clause, 2 for what can't be read, written or
found, 3 as asked.";

/// What stands on standard output for each sheet.
#[derive(Clone, Copy, Debug, PartialEq, Eq)]
pub enum Shown {
    Plan,
    Ways,
    Svg(usize),
    Box(PageBox),
}

pub struct Asked {
    pub limits: Limits,
    pub check: bool,
    pub quiet: bool,
    pub status: bool,
    pub write: bool,
    pub picture: bool,
    /// `None` where all that is asked for goes to files.
    pub shown: Option<Shown>,
    pub paths: Vec<PathBuf>,
}

impl Asked {
    fn new() -> Self {
        Self {
            limits: Limits::LIBRARY,
            check: false,
            quiet: false,
            status: false,
            write: false,
            picture: false,
            shown: None,
            paths: Vec::new(),
        }
    }

    fn show(&mut self, shown: Shown) -> Result<(), String> {
        match self.shown.replace(shown) {
            None => Ok(()),
            Some(_) => Err("one of --ways, --svg and --box can be asked for, once".into()),
        }
    }

    /// What does not go together, and the plan where nothing else is asked for.
    fn settled(mut self) -> Result<Self, String> {
        let from_input = self.paths.is_empty();
        if self.write && from_input {
            return Err("--write asks for a file or a folder".into());
        }
        if self.picture && from_input && self.shown.is_some() {
            return Err("from standard input --picture is asked for alone".into());
        }
        if self.check && !cfg!(feature = "check") {
            let how = "in the repository, cargo build --release --features check";
            return Err(format!("this route was built without --check: {how}"));
        }
        if !self.write && !self.picture {
            self.shown = self.shown.or(Some(Shown::Plan));
        }
        Ok(self)
    }
}

/// A box as its word has it: five numbers.
fn page_box(word: &str) -> Option<PageBox> {
    let (page, ranges) = word.split_once(',')?;
    let ranges: Option<Vec<i32>> = ranges.split(',').map(|n| n.parse().ok()).collect();
    let [x0, x1, y0, y1] = ranges?[..] else {
        return None;
    };
    Some(PageBox {
        page: page.parse().ok()?,
        x: (x0, x1),
        y: (y0, y1),
    })
}

/// The words as asked for; `None` for `--help`.
pub fn asked(mut words: impl Iterator<Item = OsString>) -> Result<Option<Asked>, String> {
    let mut asked = Asked::new();
    while let Some(word) = words.next() {
        let mut next = || words.next().and_then(|w| w.into_string().ok());
        match word.to_str() {
            Some("--help" | "-h") => return Ok(None),
            Some("--program") => asked.limits = Limits::PROGRAM,
            Some("--check") => asked.check = true,
            Some("--quiet") => asked.quiet = true,
            Some("--status") => asked.status = true,
            Some("--write") => asked.write = true,
            Some("--picture") => asked.picture = true,
            Some("--ways") => asked.show(Shown::Ways)?,
            Some("--svg") => {
                let page = next().and_then(|page| page.parse().ok());
                asked.show(Shown::Svg(page.ok_or("--svg asks for a page's number")?))?;
            }
            Some("--box") => {
                let read = next().and_then(|word| page_box(&word));
                let wrong = "--box asks for PAGE,X0,X1,Y0,Y1: five numbers of 32 bits";
                asked.show(Shown::Box(read.ok_or(wrong)?))?;
            }
            Some(other) if other.starts_with('-') => return Err(format!("no such word: {other}")),
            _ => asked.paths.push(PathBuf::from(word)),
        }
    }
    asked.settled().map(Some)
}
