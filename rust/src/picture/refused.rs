//! A sheet that is turned away, with the line at fault marked.

use super::html;
use super::words::Escaped;
use crate::explain::Explanation;
use crate::refusal::Refusal;
use std::fmt::Write;
use std::ops::Range;

/// Lines shown before and behind the one at fault.
const AROUND: usize = 12;
/// Bytes of a line that are shown before the mark and from its start on.
const BYTES: usize = 200;

pub(super) fn file(refusal: &Refusal, sheet: &[u8], title: &str) -> String {
    let told = refusal.explain(sheet);
    let mut out = String::new();
    html::head(&mut out, title);
    let place = match told.line {
        0 => "The board is refused".to_string(),
        line => format!("The board is refused for its line {line}"),
    };
    let (number, words) = (refusal.number(), Escaped(&told.words));
    let _ = writeln!(
        out,
        "<header><h1>{}</h1></header>\n<p class=\"why\">{place}: {words} (refusal {number}).</p>",
        Escaped(title)
    );
    out.push_str("<pre>");
    lines(&mut out, sheet, &told);
    out.push_str(END);
    out
}

const END: &str = "</pre>\n<p class=\"why\">An arrow is a tab; a byte that does not print is \
    shown by its number, as <i>\\x07</i>.</p>\n</body>\n</html>\n";

/// The lines about the one at fault.
fn lines(out: &mut String, sheet: &[u8], told: &Explanation) {
    let first = told.line.saturating_sub(AROUND).max(1);
    let last = told.line.saturating_add(AROUND).max(2 * AROUND);
    if first > 1 {
        let _ = writeln!(out, "<i>.. {} lines before</i>", first - 1);
    }
    let mut lines = (1..).zip(sheet.split_inclusive(|b| *b == b'\n'));
    for (number, line) in lines.by_ref().skip(first - 1).take(last - first + 1) {
        if number == told.line {
            at_fault(out, number, line, told.mark.clone(), &told.words);
        } else {
            let _ = write!(out, "<span class=\"nr\">{number:>7}  </span>");
            shown(out, line, 0);
            out.push('\n');
        }
    }
    let behind = lines.count();
    if behind > 0 {
        let _ = writeln!(out, "<i>.. {behind} lines behind</i>");
    }
    if sheet.is_empty() {
        out.push_str("<i>the sheet has no bytes</i>\n");
    }
}

/// The line at fault, its mark, and the words below it.
fn at_fault(out: &mut String, number: usize, line: &[u8], mark: Option<Range<usize>>, words: &str) {
    let _ = write!(
        out,
        "<span class=\"fault\"><span class=\"nr\">{:>7}  </span>",
        format!("\u{25b6} {number}")
    );
    let length = line.strip_suffix(b"\n").unwrap_or(line).len();
    match mark {
        Some(mark) => {
            let start = mark.start.min(length);
            let end = mark.end.clamp(start, length);
            let from = start.saturating_sub(BYTES);
            if from > 0 {
                let _ = write!(out, "<i>.. {from} bytes before </i>");
            }
            bytes(out, &line[from..start]);
            out.push_str("<mark>");
            let cut = end.min(start + BYTES);
            bytes(out, &line[start..cut]);
            if start == end {
                out.push(' ');
            }
            if cut < end {
                let _ = write!(out, "<i>.. {} bytes</i>", end - cut);
            }
            out.push_str("</mark>");
            shown(out, line, end);
        }
        None => shown(out, line, 0),
    }
    let _ = writeln!(out, "</span>\n         <b>{}</b>", Escaped(words));
}

/// A line from a byte on, cut where it is long.
fn shown(out: &mut String, line: &[u8], from: usize) {
    let text = line.strip_suffix(b"\n");
    let rest = &text.unwrap_or(line)[from..];
    bytes(out, &rest[..rest.len().min(BYTES)]);
    if rest.len() > BYTES {
        let _ = write!(out, "<i> .. {} bytes more</i>", rest.len() - BYTES);
    }
    if text.is_none() {
        out.push_str("<i> (no byte 10)</i>");
    }
}

/// Bytes so that each can be seen.
fn bytes(out: &mut String, bytes: &[u8]) {
    for byte in bytes {
        let _ = match byte {
            b'\t' => write!(out, "<i>\u{2192}</i>\t"),
            b' '..=b'~' => write!(
                out,
                "{}",
                Escaped(char::from(*byte).encode_utf8(&mut [0; 4]))
            ),
            byte => write!(out, "<i>\\x{byte:02x}</i>"),
        };
    }
}

#[cfg(test)]
mod tests {
    use super::*;

    fn marked(line: &[u8], mark: Range<usize>) -> String {
        let mut out = String::new();
        at_fault(&mut out, 7, line, Some(mark), "<why>");
        assert!(out.contains("<b>&lt;why&gt;</b>"));
        let behind = out
            .split("</span>")
            .nth(1)
            .expect("the line behind its number");
        behind.to_string()
    }

    #[test]
    fn marks() {
        let arrow = "<i>\u{2192}</i>\t";
        assert_eq!(
            marked(b"P\t07\t0\n", 2..4),
            format!("P{arrow}<mark>07</mark>{arrow}0")
        );
        assert_eq!(marked(b"P\t0\n", 3..3), format!("P{arrow}0<mark> </mark>"));
        assert_eq!(marked(b"P", 0..1), "<mark>P</mark><i> (no byte 10)</i>");
        assert_eq!(marked(b"<\xff\n", 0..2), "<mark>&lt;<i>\\xff</i></mark>");
    }

    /// A mark that does not fit its line, and long ones.
    #[test]
    fn marks_out_of_place() {
        assert_eq!(marked(b"P\n", 5..9), "P<mark> </mark>");
        assert_eq!(marked(b"P\n", 1..usize::MAX), "P<mark> </mark>");
        #[expect(clippy::reversed_empty_ranges)]
        let backwards = marked(b"PN\n", 2..1);
        assert_eq!(backwards, "PN<mark> </mark>");
        let long = vec![b'7'; 1_000];
        let told = marked(&long, 300..900);
        assert!(told.starts_with("<i>.. 100 bytes before </i>777"), "{told}");
        assert!(told.contains("<i>.. 400 bytes</i></mark>"), "{told}");
    }
}
