//! Why a board, or a list of demands, is turned away.

use crate::types::numbered;
use std::error::Error;
use std::fmt;

numbered! {
    /// What turns a board away, E1 to E8 of `docs/RULES.md`, or a box on it, H6,
    /// in the order tried.
    Reason {
        /// E1: a line can't be read, or comes after one of a later section.
        Unreadable = 1,
        /// E2: a section has more records than it may.
        OverMost = 2,
        /// E3: a number outside its field's range.
        OutOfRange = 3,
        /// E4: another node, or another chip, has the id.
        IdTwice = 4,
        /// E5: a page, a parent or a chip that the board lacks.
        NotThere = 5,
        /// E6: a node has a row and is not placed.
        RowUnplaced = 6,
        /// E7: something lent is shorter than S15 says.
        TooShort = 7,
        /// E8: a page needs more than 512 lanes.
        TooManyLanes = 8,
        /// A box whose page the board lacks, or with a range that ends under
        /// its start. Of [`hits`](crate::Buffers::hits) alone.
        BadBox = 9,
    }
}

impl Reason {
    /// What a member or an operator can be told.
    pub const fn message(self) -> &'static str {
        match self {
            Self::Unreadable => {
                "the line can't be read, has the wrong number of fields, half a pair or a missing field, or its section is out of order"
            }
            Self::OverMost => "more records of this kind than may be",
            Self::OutOfRange => "a number is out of range",
            Self::IdTwice => "the id stands on an earlier line",
            Self::NotThere => {
                "its page, chip or earlier parent is not there, or a top chip is no body Chip"
            }
            Self::RowUnplaced => "the node has a row and no placement",
            Self::TooShort => "a lent buffer is too short",
            Self::TooManyLanes => "the page opens a 513th lane",
            Self::BadBox => {
                "the box's page is not on the board, or a range of it ends under its start"
            }
        }
    }
}

/// Why a board, or a box on it, is turned away. The output buffers are as they were.
#[derive(Clone, Copy, Debug, PartialEq, Eq, Hash)]
pub struct Refusal {
    pub reason: Reason,
    /// The first such line of the sheet, from 1; 0 where no line is at fault.
    pub line: usize,
}

impl Refusal {
    pub const fn number(&self) -> u32 {
        self.reason.number()
    }

    pub const fn message(&self) -> &'static str {
        self.reason.message()
    }

    /// The refusal of an answer in numbers, `None` where there is none.
    pub(crate) fn of(number: usize, line: usize) -> Option<Self> {
        reason_of(number).map(|reason| Self { reason, line })
    }

    /// `E`, number and line, as the program prints it.
    pub fn sheet(&self) -> String {
        format!("E\t{}\t{}\n", self.number(), self.line)
    }
}

impl fmt::Display for Refusal {
    fn fmt(&self, f: &mut fmt::Formatter<'_>) -> fmt::Result {
        let message = self.message();
        match self.line {
            0 => write!(f, "refused: {message} (refusal {})", self.number()),
            line => write!(f, "line {line}: {message} (refusal {})", self.number()),
        }
    }
}

impl Error for Refusal {}

/// Why a list of demands is turned away: 2, 3, 7 or 8, and for raw numbers 1.
#[derive(Clone, Copy, Debug, PartialEq, Eq, Hash)]
pub struct LaneRefusal {
    pub reason: Reason,
    /// E15: which demand of the list; 0 where something lent is too short.
    pub demand: usize,
}

impl LaneRefusal {
    pub const fn number(&self) -> u32 {
        self.reason.number()
    }

    /// What an operator can be told.
    pub const fn message(&self) -> &'static str {
        match self.reason {
            Reason::Unreadable => "the list ends inside a demand",
            Reason::OverMost => "more than 8,192 demands",
            Reason::OutOfRange => "a number is out of range, or the last row is under the first",
            Reason::TooManyLanes => "the demand would open a 513th lane",
            reason => reason.message(),
        }
    }

    pub(crate) fn of(number: usize, demand: usize) -> Option<Self> {
        reason_of(number).map(|reason| Self { reason, demand })
    }
}

impl fmt::Display for LaneRefusal {
    fn fmt(&self, f: &mut fmt::Formatter<'_>) -> fmt::Result {
        let (demand, message) = (self.demand, self.message());
        write!(f, "demand {demand}: {message} (refusal {})", self.number())
    }
}

impl Error for LaneRefusal {}

/// The reason of a number that the library answers.
fn reason_of(number: usize) -> Option<Reason> {
    let known = |n| Reason::try_from(n).ok();
    match number {
        0 => None,
        n => Some(
            (u32::try_from(n).ok().and_then(known))
                .unwrap_or_else(|| panic!("the library answers refusal {n}")),
        ),
    }
}

#[cfg(test)]
mod tests {
    use super::*;

    #[test]
    fn messages() {
        let refusal = Refusal::of(3, 7).expect("a refusal");
        let told = "line 7: a number is out of range (refusal 3)";
        assert_eq!(refusal.to_string(), told);
        assert_eq!(refusal.sheet(), "E\t3\t7\n");
        let short = Refusal::of(7, 0).expect("a refusal");
        let told = "refused: a lent buffer is too short (refusal 7)";
        assert_eq!(short.to_string(), told);
        assert_eq!(Refusal::of(0, 0), None);
        let mut messages: Vec<&str> = Reason::ALL.iter().map(|r| r.message()).collect();
        messages.sort_unstable();
        messages.dedup();
        assert_eq!(messages.len(), 9);
        let told = "refused: the box's page is not on the board, or a range of it ends under its start (refusal 9)";
        let bad_box = Refusal::of(9, 0).expect("a refusal");
        assert_eq!(bad_box.to_string(), told);
    }

    #[test]
    #[should_panic(expected = "refusal 10")]
    fn an_unknown_number() {
        let _ = Refusal::of(10, 1);
    }

    #[test]
    fn lane_messages() {
        let refusal = LaneRefusal::of(8, 512).expect("a refusal");
        let told = "demand 512: the demand would open a 513th lane (refusal 8)";
        assert_eq!(refusal.to_string(), told);
    }
}
