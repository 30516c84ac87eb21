//! What is wrong with the line that a refusal names, in words, by looking at
//! it; and what is worth a word on a sheet that is accepted.
//!
//! The refusal alone decides: nothing is said that it does not say. Where the
//! sheet has no such line, or the line no such fault, so that the sheet is not
//! the one refused, the words are the general ones of [`Reason::message`].

mod records;
mod sheet;
mod shown;
mod slips;
mod unreadable;

pub use slips::{Warning, warnings};

use crate::refusal::{Reason, Refusal};
use sheet::line_at;
use std::fmt;
use std::ops::Range;

/// A refusal in words, by looking at the line it names.
///
/// ```
/// use panzhyqur::{Reason, Refusal};
///
/// let sheet = b"P\t0\t0\nN\t7\t0\t0\t0\t1001\t1\t0\t-\t-\t-\t-\t-\n";
/// let refusal = Refusal { reason: Reason::OutOfRange, line: 2 };
/// let told = "\
/// line 2, field 6: half_x 1001 is over 1,000
///   N 7 0 0 0 1001 1 0 - - - - -
///             ^^^^";
/// assert_eq!(refusal.explain(sheet).shown(sheet), told);
/// ```
#[derive(Clone, Debug, PartialEq, Eq)]
pub struct Explanation {
    /// The refusal's line, from 1; 0 where no line is at fault.
    pub line: usize,
    /// Which field of the line, from 1 (the letter is field 1), where it is one.
    pub field: Option<usize>,
    /// The bytes of the line that a mark goes under. An empty range stands
    /// where something is missing.
    pub mark: Option<Range<usize>>,
    /// What is wrong, without the line's number.
    pub words: String,
}

/// A fault that was found on a line, or, without a mark, on the sheet.
struct Found {
    field: Option<usize>,
    mark: Option<Range<usize>>,
    words: String,
}

impl Found {
    fn on_sheet(words: String) -> Self {
        Self {
            field: None,
            mark: None,
            words,
        }
    }

    fn at(mark: Range<usize>, words: String) -> Self {
        Self {
            field: None,
            mark: Some(mark),
            words,
        }
    }

    /// On a field of a line, by its place behind the letter, which is 0.
    fn on_field(line: &[u8], place: usize, words: String) -> Self {
        Self {
            field: Some(place + 1),
            mark: sheet::ranges(line).nth(place),
            words,
        }
    }
}

impl Refusal {
    /// What is wrong with the line at fault. Takes the sheet that was refused,
    /// and time linear in its length.
    pub fn explain(&self, sheet: &[u8]) -> Explanation {
        let general = || Found::on_sheet(self.message().to_string());
        let found = self.look(sheet).unwrap_or_else(general);
        Explanation {
            line: self.line,
            field: found.field,
            mark: found.mark,
            words: found.words,
        }
    }

    /// The fault that the refusal tells of, where the sheet has it.
    fn look(&self, sheet: &[u8]) -> Option<Found> {
        if self.line == 0 {
            return match self.reason {
                Reason::OverMost => records::too_long(sheet),
                Reason::TooShort => records::too_short(sheet),
                Reason::BadBox => records::bad_box(sheet),
                _ => None,
            };
        }
        let line = line_at(sheet, self.line)?;
        match self.reason {
            Reason::Unreadable => unreadable::fault(sheet, &line),
            Reason::OverMost => records::over_most(sheet, &line),
            Reason::OutOfRange => records::out_of_range(&line),
            Reason::IdTwice => records::id_twice(sheet, &line),
            Reason::NotThere => records::not_there(sheet, &line),
            Reason::RowUnplaced => records::row_unplaced(&line),
            Reason::TooManyLanes => records::too_many_lanes(sheet, &line),
            Reason::TooShort | Reason::BadBox => None,
        }
    }
}

impl fmt::Display for Explanation {
    fn fmt(&self, f: &mut fmt::Formatter<'_>) -> fmt::Result {
        let (line, words) = (self.line, &self.words);
        match self.field {
            _ if line == 0 => write!(f, "{words}"),
            None => write!(f, "line {line}: {words}"),
            Some(field) => write!(f, "line {line}, field {field}: {words}"),
        }
    }
}
