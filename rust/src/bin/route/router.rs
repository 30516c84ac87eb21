//! Each sheet routed, and its answers put where they were asked for.

use super::Trouble;
use super::files::{Place, sheets};
use super::words::{Asked, Shown};
use panzhyqur::progress::Progress;
use panzhyqur::{Board, Buffers, Plan, PortRef, Refusal, check_sheet, warnings};
use std::fmt::Write as _;
use std::io::{self, Write};
use std::path::Path;

pub struct Router<'a> {
    asked: &'a Asked,
    progress: &'a Progress,
    buffers: Buffers,
    out: io::BufWriter<io::StdoutLock<'static>>,
    /// Whether an answer stands on standard output already.
    begun: bool,
    /// What is to be told of the sheet at hand, behind its answer.
    words: Vec<String>,
    pub tally: Tally,
}

#[derive(Clone, Copy, Default)]
pub struct Tally {
    pub sheets: usize,
    pub refused: usize,
    /// Plans that break a clause.
    pub broken: usize,
    /// Boards that lack the page asked for.
    pub lacking: usize,
}

/// What is to be written of one sheet.
struct Answers {
    /// The plan sheet or the E line, for the file beside the sheet.
    plan: Option<String>,
    /// For the file beside the sheet, or standard output.
    picture: Option<String>,
    /// For standard output.
    shown: Option<String>,
}

impl<'a> Router<'a> {
    pub fn new(asked: &'a Asked, progress: &'a Progress) -> Self {
        Self {
            asked,
            progress,
            buffers: Buffers::for_limits(&asked.limits),
            out: io::BufWriter::new(io::stdout().lock()),
            begun: false,
            words: Vec::new(),
            tally: Tally::default(),
        }
    }

    /// Every sheet of a stream, from a file or from standard input.
    pub fn stream(&mut self, file: Option<&Path>, stream: &[u8]) -> Result<(), Trouble> {
        let sheets = sheets(stream);
        let many = sheets.len() > 1;
        for (i, sheet) in sheets.iter().enumerate() {
            let number = many.then_some(i + 1);
            let place = Place { file, number };
            self.tally.sheets += 1;
            let routed = self.routed(&place, sheet);
            let answers = routed.unwrap_or_else(|refusal| self.refused(&place, sheet, &refusal));
            self.put(&place, answers)?;
            self.tell_all()?;
        }
        Ok(())
    }

    /// What was written so far is on its way.
    pub fn flush(&mut self) -> Result<(), Trouble> {
        self.out.flush().map_err(Trouble::Writing)
    }

    /// The answers to an accepted sheet, whose plan then stands in the buffers.
    fn routed(&mut self, place: &Place, sheet: &[u8]) -> Result<Answers, Refusal> {
        check_sheet(sheet, &self.asked.limits)?;
        self.buffers.route(sheet)?;
        let picture = match self.asked.picture {
            true => {
                let plan = self.buffers.plan().to_plan();
                Some(plan.picture(&Board::read(sheet)?, &place.title()))
            }
            false => None,
        };
        let asked = self.asked;
        let plan = asked.write.then(|| self.buffers.plan().to_string());
        self.check(place, sheet);
        self.warn(place, sheet);
        Ok(Answers {
            plan,
            picture,
            shown: asked.shown.map(|shown| self.shown(place, sheet, shown)),
        })
    }

    /// What stands on standard output for the plan in the buffers.
    fn shown(&mut self, place: &Place, sheet: &[u8], shown: Shown) -> String {
        let text = match shown {
            Shown::Plan => Ok(self.buffers.plan().to_string()),
            Shown::Ways => Board::read(sheet).map(|b| ways(&b, &self.buffers.plan().to_plan())),
            Shown::Svg(page) => self.svg(place, sheet, page),
            Shown::Box(page_box) => {
                let hits = self.buffers.hits(sheet, &page_box);
                hits.map(|hits| hits.to_string())
            }
        };
        text.unwrap_or_else(|refusal| {
            self.turned_away(place, sheet, &refusal);
            refusal.sheet()
        })
    }

    fn svg(&mut self, place: &Place, sheet: &[u8], page: usize) -> Result<String, Refusal> {
        let board = Board::read(sheet)?;
        let picture = self.buffers.plan().to_plan().page_picture(&board, page);
        if picture.is_none() {
            self.tally.lacking += 1;
            let pages = board.pages.len();
            self.tell(place, &format!("no page {page}, the board has {pages}"));
        }
        Ok(picture.unwrap_or_default())
    }

    /// The answers to a refused sheet.
    fn refused(&mut self, place: &Place, sheet: &[u8], refusal: &Refusal) -> Answers {
        self.turned_away(place, sheet, refusal);
        let Asked { write, picture, .. } = *self.asked;
        Answers {
            plan: write.then(|| refusal.sheet()),
            picture: picture.then(|| refusal.picture(sheet, &place.title())),
            shown: self.asked.shown.map(|_| refusal.sheet()),
        }
    }

    /// Counts a refusal and tells what is wrong.
    fn turned_away(&mut self, place: &Place, sheet: &[u8], refusal: &Refusal) {
        self.tally.refused += 1;
        if !self.asked.quiet {
            let why = refusal.explain(sheet).shown(sheet);
            self.tell(place, why.trim_end());
        }
    }

    fn warn(&mut self, place: &Place, sheet: &[u8]) {
        if self.asked.quiet {
            return;
        }
        for warning in warnings(sheet) {
            let (line, words) = (warning.line, warning.words);
            self.tell(place, &format!("warning, line {line}: {words}"));
        }
    }

    #[cfg(feature = "check")]
    fn check(&mut self, place: &Place, sheet: &[u8]) {
        if !self.asked.check {
            return;
        }
        let broken = super::check::broken(sheet, &self.buffers.plan().to_string());
        self.tally.broken += usize::from(!broken.is_empty());
        for what in broken {
            self.tell(place, &what);
        }
    }

    /// Without the oracle the word is turned away before any sheet is read.
    #[cfg(not(feature = "check"))]
    fn check(&mut self, _: &Place, _: &[u8]) {}

    fn tell(&mut self, place: &Place, what: &str) {
        self.words.push(format!("{}: {what}", place.name()));
    }

    /// Tells on standard error what there is to tell, behind the answer where both
    /// go to one terminal.
    fn tell_all(&mut self) -> Result<(), Trouble> {
        if self.words.is_empty() {
            return Ok(());
        }
        self.flush()?;
        self.progress.clear();
        for words in self.words.drain(..) {
            eprintln!("{words}");
        }
        Ok(())
    }

    fn put(&mut self, place: &Place, answers: Answers) -> Result<(), Trouble> {
        let mut shown = answers.shown;
        if let (Some(plan), Some(file)) = (answers.plan, place.beside("plan")) {
            put_file(&file, &plan)?;
        }
        match (answers.picture, place.beside("html")) {
            (Some(picture), Some(file)) => put_file(&file, &picture)?,
            (Some(picture), None) => shown = Some(picture),
            (None, _) => {}
        }
        let Some(shown) = shown else {
            return Ok(());
        };
        let parting = if self.begun { "%%\n" } else { "" };
        self.begun = true;
        write!(self.out, "{parting}{shown}").map_err(Trouble::Writing)
    }
}

fn put_file(file: &Path, text: &str) -> Result<(), Trouble> {
    std::fs::write(file, text).map_err(|why| Trouble::Putting(file.to_path_buf(), why))
}

/// The way of each wire of a board, a line each.
fn ways(board: &Board, plan: &Plan) -> String {
    let name = |port: PortRef| format!("{}.{}", port.node_id.0, port.port.0);
    let mut delivered = plan.ways().into_iter().peekable();
    let mut lines = String::new();
    for (i, wire) in board.wires.iter().enumerate() {
        // A string takes all that is written to it.
        let _ = match delivered.next_if(|way| way.wire == i) {
            Some(way) => writeln!(lines, "{way}"),
            None => {
                let (from, to) = (name(wire.source), name(wire.target));
                writeln!(lines, "wire {i}: {from} > {to} direct")
            }
        };
    }
    lines
}
