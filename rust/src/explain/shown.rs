//! A line of a sheet with a mark under what is at fault.

use super::Explanation;
use super::sheet::line_at;
use std::ops::Range;

/// The most columns of a line that are shown.
const WIDTH: usize = 96;

/// What stands for the part of a line that is cut.
const CUT: &str = "..";

/// The most bytes of a field that are quoted.
const QUOTED: usize = 24;

impl Explanation {
    /// The words, the line itself and a mark under its fault: three lines, parted
    /// by byte 10 and without one at the end. Tabs are shown as spaces, bytes
    /// that do not print as `\x0D`, and a long line is cut about the mark. Only
    /// the words where no line is at fault, no mark where no place on it is.
    pub fn shown(&self, sheet: &[u8]) -> String {
        let mut text = self.to_string();
        let Some(line) = line_at(sheet, self.line) else {
            return text;
        };
        let window = window(line.bytes, self.mark.as_ref());
        let [before, behind] =
            [window.start > 0, window.end < line.bytes.len()].map(|cut| if cut { CUT } else { "" });
        let visible = visible(&line.bytes[window.clone()]);
        text += &format!("\n  {before}{visible}{behind}");
        if let Some(mark) = &self.mark {
            let clip = |at: usize| at.clamp(window.start, window.end);
            let (start, end) = (clip(mark.start), clip(mark.end));
            let left = before.len() + columns(&line.bytes[window.start..start]);
            let marked = columns(&line.bytes[start..end.max(start)]).max(1);
            text += &format!("\n  {}{}", " ".repeat(left), "^".repeat(marked));
        }
        text
    }
}

/// Which bytes of a line are shown: all, or some about the mark's start.
fn window(line: &[u8], mark: Option<&Range<usize>>) -> Range<usize> {
    let end = fitting(line, 0);
    let start = mark.map_or(0, |m| m.start.min(line.len()));
    let marked = mark.map_or(0, |m| m.end.min(line.len()));
    if end == line.len() || marked <= end {
        return 0..end;
    }
    // A third of the columns before the mark.
    let mut from = start;
    let mut room = WIDTH / 3;
    while from > 0 && width(line[from - 1]) <= room {
        room -= width(line[from - 1]);
        from -= 1;
    }
    from..fitting(line, from)
}

/// How far a line can be shown from a byte on.
fn fitting(line: &[u8], from: usize) -> usize {
    let mut room = WIDTH;
    let mut end = from;
    while end < line.len() && width(line[end]) <= room {
        room -= width(line[end]);
        end += 1;
    }
    end
}

/// The columns that a byte takes.
fn width(byte: u8) -> usize {
    match byte {
        b'\t' | b' '..=b'~' => 1,
        _ => 4,
    }
}

fn columns(bytes: &[u8]) -> usize {
    bytes.iter().map(|b| width(*b)).sum()
}

/// Bytes as they can be shown anywhere: no control byte reaches a terminal, and
/// each byte has its columns.
fn visible(bytes: &[u8]) -> String {
    let shown = |b: &u8| match b {
        b'\t' => " ".to_string(),
        b' '..=b'~' => char::from(*b).to_string(),
        b => format!("\\x{b:02X}"),
    };
    bytes.iter().map(shown).collect()
}

/// A field in quotation marks, cut where it is long.
pub(super) fn quoted(field: &[u8]) -> String {
    match field.get(..QUOTED) {
        Some(start) if field.len() > QUOTED => format!("\"{}{CUT}\"", visible(start)),
        _ => format!("\"{}\"", visible(field)),
    }
}

/// A number with a comma between thousands.
pub(super) fn grouped(number: i64) -> String {
    let digits = number.unsigned_abs().to_string();
    let mut text = String::new();
    for (i, digit) in digits.chars().enumerate() {
        if i > 0 && (digits.len() - i).is_multiple_of(3) {
            text.push(',');
        }
        text.push(digit);
    }
    match number < 0 {
        true => format!("-{text}"),
        false => text,
    }
}

#[cfg(test)]
mod tests {
    use super::*;

    fn shown(sheet: &[u8], mark: Option<Range<usize>>) -> String {
        let words = "so".to_string();
        let explanation = Explanation {
            line: 1,
            field: None,
            mark,
            words,
        };
        explanation.shown(sheet)
    }

    #[test]
    fn numbers() {
        let grouped: Vec<String> = [0, 12, 999, 1_000, -1_000_000, i64::MIN]
            .map(grouped)
            .into();
        let due = ["0", "12", "999", "1,000", "-1,000,000"];
        assert_eq!(grouped[..5], due);
        assert_eq!(grouped[5], "-9,223,372,036,854,775,808");
    }

    #[test]
    fn marks() {
        assert_eq!(
            shown(b"P\t07\t0\n", Some(2..4)),
            "line 1: so\n  P 07 0\n    ^^"
        );
        assert_eq!(shown(b"P\t0", Some(3..3)), "line 1: so\n  P 0\n     ^");
        assert_eq!(shown(b"P\t\t0\n", Some(2..2)), "line 1: so\n  P  0\n    ^");
        let hidden = b"\xef\xbb\xbfP\t0\t0\n";
        let told = "line 1: so\n  \\xEF\\xBB\\xBFP 0 0\n  ^^^^^^^^^^^^";
        assert_eq!(shown(hidden, Some(0..3)), told);
        assert_eq!(shown(b"P\t0\n", None), "line 1: so\n  P 0");
        assert_eq!(shown(b"", Some(0..1)), "line 1: so");
        // A mark past the line, or turned round, is no reason to stop.
        assert_eq!(shown(b"P\n", Some(7..9)), "line 1: so\n  P\n   ^");
        let turned = Range { start: 1, end: 0 };
        assert_eq!(shown(b"P\n", Some(turned)), "line 1: so\n  P\n   ^");
    }

    #[test]
    fn long_lines() {
        let mut line = vec![b'7'; 1_000];
        line[500..504].copy_from_slice(b"1001");
        let text = shown(&line, Some(500..504));
        let rows: Vec<&str> = text.lines().collect();
        assert_eq!(rows[1].len(), 2 + 2 + 96 + 2);
        assert!(rows[1].starts_with("  ..77") && rows[1].ends_with("77.."));
        let at = rows[2].find('^').expect("a mark");
        assert_eq!(&rows[1][at..at + 4], "1001");
        assert_eq!(rows[2].trim_start(), "^^^^");
        let near = shown(&line, Some(0..2));
        assert!(near.ends_with("77..\n  ^^"));
        let end = shown(&line, Some(1_000..1_000));
        assert!(end.ends_with(&format!("\n{}^", " ".repeat(2 + 2 + 32))));
        let whole = shown(&line, Some(0..1_000));
        assert!(whole.ends_with(&"^".repeat(96)));
    }
}
