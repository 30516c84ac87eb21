//! A line that can't be read (E1): ten different slips, one refusal.

use super::Found;
use super::sheet::{BODY, Form, Line, PAIRS, SECTIONS, lines, number, ranges, section_of};
use super::shown::quoted;

/// One thing that is wrong with a line: what is best told comes first.
pub(super) fn fault(sheet: &[u8], line: &Line) -> Option<Found> {
    let bytes = line.bytes;
    let found = foreign(line)
        .or_else(|| blank(bytes))
        .or_else(|| spaced(bytes))
        .or_else(|| letter(bytes))
        .or_else(|| count(bytes))
        .or_else(|| form(bytes))
        .or_else(|| missing(bytes))
        .or_else(|| half_a_pair(bytes))
        .or_else(|| order(sheet, line));
    match (found, line.ended) {
        (Some(found), true) => Some(found),
        (Some(mut found), false) => {
            found.words += "; and the line lacks its byte 10 (line feed)";
            Some(found)
        }
        (None, true) => None,
        (None, false) => {
            let words = "the line lacks byte 10 (line feed) at its end";
            Some(Found::at(bytes.len()..bytes.len(), words.to_string()))
        }
    }
}

/// What an editor leaves: a byte order mark, line ends of another system.
fn foreign(line: &Line) -> Option<Found> {
    let bytes = line.bytes;
    let marks: [(&[u8], &str); 3] = [
        (b"\xef\xbb\xbf", "bytes EF BB BF, a byte order mark"),
        (b"\xff\xfe", "bytes FF FE, the byte order mark of UTF-16"),
        (b"\xfe\xff", "bytes FE FF, the byte order mark of UTF-16"),
    ];
    for (mark, what) in marks {
        if bytes.starts_with(mark) {
            let words = format!("the line begins with {what}; it has to begin with a letter");
            return Some(Found::at(0..mark.len(), words));
        }
    }
    let at = bytes.iter().position(|b| *b == b'\r')?;
    let words = match at + 1 == bytes.len() && line.ended {
        true => "the line ends in byte 13 and byte 10 (as on Windows); byte 10 alone has to end it",
        false => "byte 13 (carriage return) stands in the line; byte 10 alone ends a line",
    };
    Some(Found::at(at..at + 1, words.to_string()))
}

fn blank(line: &[u8]) -> Option<Found> {
    let words = match line {
        b"" => "the line is empty; every line has a record",
        line if line.iter().all(|b| *b == b' ') => {
            "the line has spaces and nothing else; every line has a record"
        }
        line if line.iter().all(|b| matches!(b, b' ' | b'\t')) => {
            "the line has only tabs and spaces; every line has a record"
        }
        _ => return None,
    };
    Some(Found::at(0..line.len(), words.to_string()))
}

/// Spaces where tabs have to stand, or beside a field.
fn spaced(line: &[u8]) -> Option<Found> {
    let at = line.iter().position(|b| *b == b' ')?;
    if !line.contains(&b'\t') {
        // Else it is no record at all.
        section_of(&line[..at])?;
        let words = "spaces stand between the fields; one tab (byte 9) has to stand there";
        return Some(Found::at(at..at + 1, words.to_string()));
    }
    let (place, range) = ranges(line)
        .enumerate()
        .find(|(_, field)| field.contains(&at))?;
    let text = quoted(&line[range]);
    let words = format!("{text} has a space in it; one tab (byte 9) alone stands between fields");
    let mut found = Found::on_field(line, place, words);
    found.mark = Some(at..at + 1);
    Some(found)
}

fn letter(line: &[u8]) -> Option<Found> {
    if section_of(line).is_some() {
        return None;
    }
    let range = ranges(line).next()?;
    let first = &line[range];
    let text = quoted(first);
    let words = match first {
        b"" => "the line begins with a tab; it has to begin with P, N, C, F, X or W".to_string(),
        [b'#', ..] => {
            "a sheet has no comments; every line begins with P, N, C, F, X or W".to_string()
        }
        b"p" | b"n" | b"c" | b"f" | b"x" | b"w" => {
            format!("{text} is no section's letter; those are the capitals P, N, C, F, X and W")
        }
        b"L" | b"R" | b"B" | b"U" | b"T" | b"E" => {
            format!("{text} is a letter of answers; a board sheet's are P, N, C, F, X and W")
        }
        _ => format!("{text} is no section's letter (P, N, C, F, X or W)"),
    };
    Some(Found::on_field(line, 0, words))
}

/// Fields too few or too many.
fn count(line: &[u8]) -> Option<Found> {
    let section = &SECTIONS[section_of(line)?];
    let due = section.fields.len();
    let have = line.iter().filter(|b| **b == b'\t').count();
    let letter = char::from(section.letter);
    let names: Vec<&str> = section.fields.iter().map(|f| f.name).collect();
    let names = names.join(", ");
    let words = format!("{letter} has {due} fields behind it ({names}); this line has {have}");
    if have < due {
        return Some(Found::at(line.len()..line.len(), words));
    }
    if have == due {
        return None;
    }
    let empty = ranges(line).position(|f| f.is_empty());
    let (place, why) = match empty {
        Some(at) if at == have => (at, "a tab too many stands at the end: "),
        Some(at) => (at, "two tabs stand in a row: "),
        None => (due + 1, ""),
    };
    Some(Found::on_field(line, place, format!("{why}{words}")))
}

/// A field that is neither a number nor `-`.
fn form(line: &[u8]) -> Option<Found> {
    let rules = SECTIONS[section_of(line)?].fields;
    let fields = ranges(line).skip(1).zip(rules).zip(1..);
    for ((range, rule), place) in fields {
        let Err(form) = number(&line[range.clone()]) else {
            continue;
        };
        let name = rule.name;
        let text = quoted(&line[range.clone()]);
        let words = match form {
            Form::Empty if rule.maybe => {
                format!("{name} is empty; a number or - has to stand there")
            }
            Form::Empty => format!("{name} is empty; a number has to stand there"),
            Form::Plus => format!("{name} is {text}; a number has no + in front"),
            Form::MinusZero => format!("{name} is {text}; 0 has no - in front"),
            Form::LeadingZero => format!("{name} is {text}; a number has no 0 in front"),
            Form::Long(digits) => {
                format!("{name} is {text}, with {digits} digits; a number has at most 10")
            }
            Form::Other if other_dash(&line[range]) => {
                format!("{name} is {text}; the minus has to be - (byte 45), no other dash")
            }
            Form::Other => format!("{name} is {text}, which is no number"),
        };
        return Some(Found::on_field(line, place, words));
    }
    None
}

/// A dash that looks like a minus, as documents have it: U+2010 to U+2015 and
/// U+2212.
fn other_dash(field: &[u8]) -> bool {
    matches!(
        field,
        [0xe2, 0x80, 0x90..=0x95, ..] | [0xe2, 0x88, 0x92, ..]
    )
}

/// A `-` where the number may not be missing.
fn missing(line: &[u8]) -> Option<Found> {
    let section = &SECTIONS[section_of(line)?];
    let fields = ranges(line).skip(1).zip(section.fields).zip(1..);
    let mut found = fields.filter(|((range, rule), _)| !rule.maybe && &line[range.clone()] == b"-");
    let ((_, rule), place) = found.next()?;
    let letter = char::from(section.letter);
    let may: Vec<&str> = (section.fields.iter())
        .filter(|f| f.maybe)
        .map(|f| f.name)
        .collect();
    let may = match &may[..] {
        [] => format!("no field of {letter} may be missing"),
        [one] => format!("of {letter} only {one} may be missing"),
        [most @ .., last] => format!(
            "of {letter} only {} and {last} may be missing",
            most.join(", ")
        ),
    };
    let words = format!("{} is - and has to be a number; {may}", rule.name);
    Some(Found::on_field(line, place, words))
}

/// x without y, page without down, or the other way round.
fn half_a_pair(line: &[u8]) -> Option<Found> {
    if section_of(line)? != BODY {
        return None;
    }
    let fields: Vec<&[u8]> = line.split(|b| *b == b'\t').collect();
    for at in PAIRS {
        let [first, second] = [at, at + 1].map(|k| (k, SECTIONS[BODY].fields[k - 1].name));
        let gone = |k: usize| fields.get(k).is_some_and(|f| *f == b"-");
        let ((none, without), (_, with)) = match (gone(at), gone(at + 1)) {
            (true, false) => (first, second),
            (false, true) => (second, first),
            _ => continue,
        };
        let words = format!("{without} is - and {with} is not; both are numbers or both are -");
        return Some(Found::on_field(line, none, words));
    }
    None
}

/// A line behind one of a later section.
fn order(sheet: &[u8], line: &Line) -> Option<Found> {
    let own = section_of(line.bytes)?;
    let before = lines(sheet).take(line.number - 1);
    let later = before.filter(|l| section_of(l.bytes) > Some(own)).last()?;
    let [here, there] = [line.bytes, later.bytes].map(|l| char::from(l[0]));
    let words = format!(
        "{here} stands behind the {there} of line {}; the order is P, N, C, F, X, W",
        later.number
    );
    Some(Found::on_field(line.bytes, 0, words))
}
