//! Lines of a plan that a document or a test shows, with spaces for tabs: made
//! anew, each by its number.

use crate::Limits;
use crate::records::{Answer, EXAMPLE_A};

/// Where the board of the lines is.
#[derive(Clone, Copy, Debug, PartialEq, Eq)]
pub enum Text {
    /// It is example (a) all through the text.
    ExampleA,
    /// In front of them, in a block ```sheet, or in a block ```board up to its
    /// blank line.
    Blocks,
}

/// The texts that show such lines.
pub const TEXTS: &[(&str, Text)] = &[
    ("README.md", Text::ExampleA),
    ("rust/src/lib.rs", Text::ExampleA),
    ("oracle/tests/common/mod.rs", Text::ExampleA),
    ("docs/RULES.md", Text::Blocks),
    ("docs/DIFFERENCES.md", Text::Blocks),
];

/// A text with each R line that it shows as the plan of its board has it.
pub fn anew(text: &str, boards: Text, answer: Answer) -> String {
    let plan_of = |sheet: &str| {
        let plan = answer(sheet.replace(' ', "\t").as_bytes(), &Limits::PROGRAM);
        plan.replace('\t', " ")
    };
    let mut plan = match boards {
        Text::ExampleA => plan_of(EXAMPLE_A),
        Text::Blocks => String::new(),
    };
    // The sheet of the block that is read.
    let mut sheet = None::<String>;
    let mut out = String::new();
    for line in text.lines() {
        match &mut sheet {
            None if boards == Text::Blocks && ["```sheet", "```board"].contains(&line) => {
                sheet = Some(String::new());
            }
            Some(read) if line.is_empty() || line == "```" => {
                plan = plan_of(read);
                sheet = None;
            }
            Some(read) => *read += &format!("{line}\n"),
            None => {}
        }
        out += &(rerouter_anew(line, &plan) + "\n");
    }
    out
}

/// A line with the R line in it as the plan has it. A column of words behind it,
/// two spaces or more away, stays where it was if there is room.
fn rerouter_anew(line: &str, plan: &str) -> String {
    let Some(start) = rerouter_in(line) else {
        return line.to_string();
    };
    let (front, rest) = line.split_at(start);
    let (was, behind) = rest.split_at(rest.find("  ").unwrap_or(rest.len()));
    let is_it = |line: &&str| line.split(' ').take(2).eq(was.split(' ').take(2));
    let is = plan.lines().find(is_it).unwrap_or(was);
    let words = behind.trim_start();
    let width = (rest.len() - words.len()).max(is.len() + 2);
    match words {
        "" => format!("{front}{is}"),
        _ => format!("{front}{is:width$}{words}"),
    }
}

/// Where an R line begins: at the start of a line or behind a space, with as
/// many fields as the original has or more. That of a hit has fewer.
fn rerouter_in(line: &str) -> Option<usize> {
    let starts = line.match_indices("R ").map(|(at, _)| at);
    let mut starts = starts.filter(|at| *at == 0 || line[..*at].ends_with(' '));
    starts.find(|at| {
        let fields = line[*at..].split("  ").next().unwrap_or("").split(' ');
        let is_number = |field: &str| field == "-" || field.parse::<i64>().is_ok();
        fields.skip(1).filter(|field| is_number(field)).count() >= 10
    })
}
