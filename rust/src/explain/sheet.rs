//! The board sheet's lines and fields, as far as words about them need.

use std::ops::Range;

/// A field behind the letter (S6 to S11).
pub(super) struct Field {
    pub name: &'static str,
    pub least: i64,
    pub most: i64,
    /// Whether `-` may stand there.
    pub maybe: bool,
    /// What its few numbers mean, where it has few.
    pub meaning: &'static str,
}

/// A section: its letter and its fields.
pub(super) struct Section {
    pub letter: u8,
    pub fields: &'static [Field],
}

const MILLION: i64 = 1_000_000;

const fn field(name: &'static str, least: i64, most: i64) -> Field {
    Field {
        name,
        least,
        most,
        maybe: false,
        meaning: "",
    }
}

const fn id(name: &'static str) -> Field {
    field(name, 0, MILLION)
}

const fn port(name: &'static str) -> Field {
    field(name, 0, 65_535)
}

const fn place(name: &'static str) -> Field {
    field(name, -MILLION, MILLION)
}

const fn maybe(field: Field) -> Field {
    Field {
        maybe: true,
        ..field
    }
}

const fn few(name: &'static str, most: i64, meaning: &'static str) -> Field {
    Field {
        meaning,
        ..field(name, 0, most)
    }
}

const CLASS: Field = few("class", 2, "1 storage, 2 inline-only, 0 any other");

const NODE: &[Field] = &[
    id("id"),
    few(
        "kind",
        5,
        "0 Gate, 1 Event, 2 Chip, 3 Input, 4 Output, 5 Coerce",
    ),
    CLASS,
    few("pin", 1, "1 for a boundary pin, 0 for any other"),
    field("half_x", 1, 1_000),
    field("half_y", 1, 1_000),
    few("rotation", 3, "quarter turns"),
    maybe(place("x")),
    maybe(place("y")),
    maybe(field("page", 0, 63)),
    maybe(place("down")),
    maybe(id("line")),
];

const WIRE: &[Field] = &[
    id("source_node"),
    port("source_port"),
    id("target_node"),
    port("target_port"),
];

const fn section(letter: u8, fields: &'static [Field]) -> Section {
    Section { letter, fields }
}

/// In the order in which they stand on a sheet.
pub(super) const SECTIONS: [Section; 6] = [
    section(b'P', &[maybe(place("min_y")), place("z")]),
    section(b'N', NODE),
    section(b'C', &[id("id"), maybe(id("parent"))]),
    section(b'F', &[id("id"), id("chip"), CLASS]),
    section(b'X', &[id("node"), port("port")]),
    section(b'W', WIRE),
];

pub(super) const PAGE: usize = 0;
pub(super) const BODY: usize = 1;
pub(super) const CHIP: usize = 2;
pub(super) const INNER: usize = 3;
pub(super) const EXEC: usize = 4;
pub(super) const LINK: usize = 5;

/// Places of an N's fields, the letter being 0.
pub(super) const KIND: usize = 2;
pub(super) const AT: usize = 8;
pub(super) const ROW: usize = 10;

/// x with y and page with down: both are there or neither.
pub(super) const PAIRS: [usize; 2] = [AT, ROW];

/// The most fields that a record has, its letter included.
const WIDTH: usize = 13;

/// A line of a sheet.
#[derive(Clone, Copy)]
pub(super) struct Line<'s> {
    /// From 1.
    pub number: usize,
    /// Without its byte 10.
    pub bytes: &'s [u8],
    /// Whether it has its byte 10.
    pub ended: bool,
}

pub(super) fn lines(sheet: &[u8]) -> impl Iterator<Item = Line<'_>> {
    let lines = sheet.split_inclusive(|b| *b == b'\n');
    lines.zip(1..).map(|(whole, number)| {
        let cut = whole.strip_suffix(b"\n");
        Line {
            number,
            bytes: cut.unwrap_or(whole),
            ended: cut.is_some(),
        }
    })
}

pub(super) fn line_at(sheet: &[u8], number: usize) -> Option<Line<'_>> {
    lines(sheet).nth(number.checked_sub(1)?)
}

/// Where the fields of a line stand, its letter first.
pub(super) fn ranges(line: &[u8]) -> impl Iterator<Item = Range<usize>> + '_ {
    let mut start = 0;
    line.split(|b| *b == b'\t').map(move |field| {
        let range = start..start + field.len();
        start = range.end + 1;
        range
    })
}

/// The section whose letter is all of a line's first field.
pub(super) fn section_of(line: &[u8]) -> Option<usize> {
    let first = line.split(|b| *b == b'\t').next()?;
    SECTIONS.iter().position(|s| first == [s.letter])
}

/// Why a field is no number (S2).
#[derive(Clone, Copy, Debug, PartialEq, Eq)]
pub(super) enum Form {
    Empty,
    Plus,
    MinusZero,
    LeadingZero,
    /// Digits alone, so many.
    Long(usize),
    Other,
}

/// The number of a field, `None` for `-` alone.
pub(super) fn number(field: &[u8]) -> Result<Option<i64>, Form> {
    let (minus, digits) = match field {
        b"-" => return Ok(None),
        b"-0" => return Err(Form::MinusZero),
        b"" => return Err(Form::Empty),
        [b'-', digits @ ..] => (true, digits),
        digits => (false, digits),
    };
    let all = |digits: &[u8]| !digits.is_empty() && digits.iter().all(u8::is_ascii_digit);
    match digits {
        [b'+', digits @ ..] if !minus && all(digits) => Err(Form::Plus),
        digits if !all(digits) => Err(Form::Other),
        [b'0', _, ..] => Err(Form::LeadingZero),
        digits if digits.len() > 10 => Err(Form::Long(digits.len())),
        digits => {
            let tens = |n: i64, d: &u8| 10 * n + i64::from(d - b'0');
            let n = digits.iter().fold(0, tens);
            Ok(Some(if minus { -n } else { n }))
        }
    }
}

/// A line that can be read by itself (S1 to S3).
#[derive(Clone, Copy)]
pub(super) struct Record {
    pub section: usize,
    fields: [Option<i64>; WIDTH],
}

impl Record {
    /// A field by its place behind the letter; `None` where it is missing.
    pub fn get(&self, place: usize) -> Option<i64> {
        self.fields[place]
    }

    /// The id of an N, C or F; the first field of any other but P.
    pub fn id(&self) -> Option<i64> {
        self.get(1)
    }

    pub fn is_node(&self) -> bool {
        self.section == BODY || self.section == INNER
    }
}

/// The record of a line; `None` where it can't be read.
pub(super) fn read(line: &Line) -> Option<Record> {
    let section = section_of(line.bytes)?;
    let rules = SECTIONS[section].fields;
    let mut fields = [None; WIDTH];
    let mut count = 0;
    for part in line.bytes.split(|b| *b == b'\t').skip(1) {
        let rule = rules.get(count)?;
        count += 1;
        fields[count] = number(part).ok()?;
        if fields[count].is_none() && !rule.maybe {
            return None;
        }
    }
    let paired = |at: &usize| fields[*at].is_some() == fields[at + 1].is_some();
    let whole = count == rules.len() && (section != BODY || PAIRS.iter().all(paired));
    (whole && line.ended).then_some(Record { section, fields })
}

/// The lines that can be read, with their records.
pub(super) fn records(sheet: &[u8]) -> impl Iterator<Item = (usize, Record)> + '_ {
    lines(sheet).filter_map(|line| read(&line).map(|record| (line.number, record)))
}

/// How many records of each section; `None` where a line can't be read, or
/// stands behind one of a later section.
pub(super) fn counts(sheet: &[u8]) -> Option<[usize; 6]> {
    let mut counts = [0; 6];
    let mut latest = PAGE;
    for line in lines(sheet) {
        let section = read(&line)?.section;
        if section < latest {
            return None;
        }
        latest = section;
        counts[section] += 1;
    }
    Some(counts)
}

#[cfg(test)]
mod tests {
    use super::*;

    #[test]
    fn numbers() {
        assert_eq!(number(b"-"), Ok(None));
        assert_eq!(number(b"0"), Ok(Some(0)));
        assert_eq!(number(b"-9999999999"), Ok(Some(-9_999_999_999)));
        assert_eq!(number(b"12345678901"), Err(Form::Long(11)));
        assert_eq!(number(b"+1"), Err(Form::Plus));
        assert_eq!(number(b"-0"), Err(Form::MinusZero));
        for zeros in ["00", "-00", "01", "-01", "012345678901"] {
            assert_eq!(number(zeros.as_bytes()), Err(Form::LeadingZero), "{zeros}");
        }
        for other in ["+", "--1", "-+1", "1.0", "a", "1 ", "+-1", "\u{ff11}"] {
            assert_eq!(number(other.as_bytes()), Err(Form::Other), "{other}");
        }
        assert_eq!(number(b""), Err(Form::Empty));
    }

    #[test]
    fn fields_and_lines() {
        let found: Vec<_> = ranges(b"P\t\t-12\t").collect();
        assert_eq!(found, [0..1, 2..2, 3..6, 7..7]);
        assert_eq!(ranges(b"").collect::<Vec<_>>(), [0..0; 1]);
        assert!(line_at(b"", 1).is_none());
        assert!(line_at(b"P\n", 0).is_none());
        assert!(line_at(b"P\n", 2).is_none());
        assert!(line_at(b"P\nQ", 2).is_some_and(|l| !l.ended && l.bytes == b"Q"));
    }
}
