//! Holds what an explanation claims against the rules: a reading of the sheet
//! of its own, which has nothing from the crate but the words.

mod records;
pub mod slips;

use panzhyqur::{Explanation, Reason, Refusal};

/// Names, ranges and `?` for what may be missing, by section (S5 to S11).
const TABLE: [(u8, &str); 6] = [
    (b'P', "min_y? -1000000 1000000;z -1000000 1000000"),
    (
        b'N',
        "id 0 1000000;kind 0 5;class 0 2;pin 0 1;half_x 1 1000;half_y 1 1000;rotation 0 3;\
         x? -1000000 1000000;y? -1000000 1000000;page? 0 63;down? -1000000 1000000;line? 0 1000000",
    ),
    (b'C', "id 0 1000000;parent? 0 1000000"),
    (b'F', "id 0 1000000;chip 0 1000000;class 0 2"),
    (b'X', "node 0 1000000;port 0 65535"),
    (
        b'W',
        "source_node 0 1000000;source_port 0 65535;target_node 0 1000000;target_port 0 65535",
    ),
];
const LETTERS: &[u8] = b"PNCFXW";
const PROGRAM: [usize; 6] = [8, 48, 8, 24, 24, 56];
const LIBRARY: [usize; 6] = [64, 4_096, 256, 4_096, 4_096, 8_192];

struct Rule {
    name: &'static str,
    least: i64,
    most: i64,
    maybe: bool,
}

fn rules(letter: u8) -> Vec<Rule> {
    let rule = |text: &'static str| {
        let words: Vec<&str> = text.split_whitespace().collect();
        let bound = |word: &str| word.parse().expect("a bound");
        Rule {
            name: words[0].trim_end_matches('?'),
            least: bound(words[1]),
            most: bound(words[2]),
            maybe: words[0].ends_with('?'),
        }
    };
    let found = TABLE.iter().find(|(l, _)| *l == letter);
    found.map_or(Vec::new(), |(_, text)| text.split(';').map(rule).collect())
}

/// The lines of a sheet, whether each has its byte 10.
fn lines(sheet: &[u8]) -> Vec<(&[u8], bool)> {
    let mut lines: Vec<(&[u8], bool)> = sheet.split(|b| *b == 10).map(|l| (l, true)).collect();
    match lines.pop() {
        Some((rest, _)) if !rest.is_empty() => lines.push((rest, false)),
        _ => {}
    }
    lines
}

fn fields(line: &[u8]) -> Vec<&[u8]> {
    line.split(|b| *b == 9).collect()
}

/// S2.
fn is_number(field: &[u8]) -> bool {
    let digits = field.strip_prefix(b"-").unwrap_or(field);
    field == b"0"
        || ((1..=10).contains(&digits.len())
            && digits[0] != b'0'
            && digits.iter().all(u8::is_ascii_digit))
}

/// S1 to S3, of a line by itself.
fn is_record(line: &[u8]) -> bool {
    let fields = fields(line);
    let [letter] = fields[0][..] else {
        return false;
    };
    let rules = rules(letter);
    let fits = |(f, r): (&&[u8], &Rule)| is_number(f) || (*f == b"-" && r.maybe);
    let paired = |k: usize| (fields[k] == b"-") == (fields[k + 1] == b"-");
    !rules.is_empty()
        && fields.len() == rules.len() + 1
        && fields[1..].iter().zip(&rules).all(fits)
        && (letter != b'N' || (paired(8) && paired(10)))
}

/// What the judge knows of the line that is named.
struct Case<'a> {
    sheet: &'a [u8],
    lines: Vec<(&'a [u8], bool)>,
    line: &'a [u8],
    fields: Vec<&'a [u8]>,
    told: &'a Explanation,
}

/// Which claim an explanation makes, once it is found true; "general" where it
/// claims no more than the refusal.
pub fn judge(sheet: &[u8], refusal: Refusal, told: &Explanation) -> &'static str {
    assert_eq!(told.line, refusal.line);
    check_shown(sheet, told);
    if told.words == refusal.message() {
        assert_eq!((told.field, told.mark.clone()), (None, None));
        return "general";
    }
    let lines = lines(sheet);
    let at = refusal.line.checked_sub(1);
    let (line, ended) = at.map_or((&b""[..], true), |at| lines[at]);
    let case = Case {
        sheet,
        lines,
        line,
        fields: fields(line),
        told,
    };
    case.check_mark();
    match refusal.reason {
        Reason::Unreadable => case.unreadable(ended),
        _ if at.is_none() => case.beside(refusal.reason),
        reason => {
            assert!(is_record(line) && ended, "{told:?}");
            case.record(reason)
        }
    }
}

fn visible(bytes: &[u8]) -> String {
    let mut text = String::new();
    for b in bytes {
        match b {
            9 => text.push(' '),
            32..=126 => text.push(char::from(*b)),
            _ => text += &format!("\\x{b:02X}"),
        }
    }
    text
}

/// Nothing but what prints, at most three lines, and the mark under its bytes.
fn check_shown(sheet: &[u8], told: &Explanation) {
    let text = told.shown(sheet);
    assert!(
        text.bytes().all(|b| b == 10 || (32..127).contains(&b)),
        "{text:?}"
    );
    let rows: Vec<&str> = text.split('\n').collect();
    assert_eq!(rows[0], told.to_string());
    assert!(
        rows.len() <= 3 && rows[1..].iter().all(|r| r.len() <= 102),
        "{text}"
    );
    let Some(mark) = &told.mark else {
        assert!(rows.len() <= 2);
        return;
    };
    let line = lines(sheet)[told.line - 1].0;
    let at = rows[2].find('^').expect("a mark");
    let under = rows[2].len() - at;
    let marked = visible(&line[mark.clone()]);
    if marked.is_empty() {
        assert_eq!(under, 1);
    } else {
        assert!(marked.starts_with(&rows[1][at..at + under]), "{text}");
        assert!(under == marked.len() || rows[1].ends_with(".."), "{text}");
    }
    if !rows[1].starts_with("  ..") {
        assert_eq!(at, 2 + visible(&line[..mark.start]).len(), "{text}");
    }
}

impl Case<'_> {
    fn check_mark(&self) {
        if let Some(mark) = &self.told.mark {
            assert!(mark.start <= mark.end && mark.end <= self.line.len());
            if let Some(field) = self.told.field {
                let before: usize = self.fields[..field - 1].iter().map(|f| f.len() + 1).sum();
                let behind = before + self.fields[field - 1].len();
                assert!(
                    before <= mark.start && mark.end <= behind,
                    "{:?}",
                    self.told
                );
            }
        }
    }

    fn words(&self) -> &str {
        &self.told.words
    }

    /// The text of the field that is named.
    fn field(&self) -> &[u8] {
        self.fields[self.told.field.expect("a field") - 1]
    }

    /// Its rule.
    fn rule(&self) -> Rule {
        let place = self.told.field.expect("a field");
        rules(self.line[0]).swap_remove(place - 2)
    }

    /// A number of the words behind some of them.
    fn number_behind(&self, words: &str) -> usize {
        let behind = self.words().split(words).nth(1).expect("these words");
        let digits: String = behind.chars().take_while(|c| c.is_ascii_digit()).collect();
        digits.parse().expect("a number")
    }

    /// E1.
    fn unreadable(&self, ended: bool) -> &'static str {
        let lacking = "; and the line lacks its byte 10 (line feed)";
        assert!(!is_record(self.line) || !ended || self.words().contains("stands behind the "));
        let words = match self.words().strip_suffix(lacking) {
            Some(words) => {
                assert!(!ended);
                words
            }
            None => self.words(),
        };
        if words == "the line lacks byte 10 (line feed) at its end" {
            assert!(!ended);
            return "unended";
        }
        assert_eq!(words == self.words(), ended, "both are told");
        (self
            .whole_line(words)
            .or_else(|| self.letter_or_count(words)))
        .or_else(|| self.form(words))
        .unwrap_or_else(|| panic!("{words}"))
    }

    fn whole_line(&self, words: &str) -> Option<&'static str> {
        let line = self.line;
        let starts = |mark: &[u8]| line.starts_with(mark);
        let only = |bytes: &[u8]| line.iter().all(|b| bytes.contains(b));
        let (kind, holds) = match words {
            w if w.contains("bytes EF BB BF") => ("order mark", starts(b"\xef\xbb\xbf")),
            w if w.contains("bytes FF FE") => ("UTF-16", starts(b"\xff\xfe")),
            w if w.contains("bytes FE FF") => ("UTF-16", starts(b"\xfe\xff")),
            w if w.contains("byte 13 and byte 10") => ("Windows", line.ends_with(b"\r")),
            w if w.contains("byte 13 (") => ("byte 13", line.contains(&13)),
            w if w.contains("is empty; every") => ("empty line", line.is_empty()),
            w if w.contains("spaces and nothing else") => ("blank line", only(b" ")),
            w if w.contains("only tabs and spaces") => ("blank line", only(b" \t")),
            w if w.contains("spaces stand between") => {
                let (tab, space) = (line.contains(&9), line.contains(&32));
                ("spaces", !tab && space && LETTERS.contains(&line[0]))
            }
            _ => return None,
        };
        assert!(holds, "{words}: {line:?}");
        Some(kind)
    }

    fn letter_or_count(&self, words: &str) -> Option<&'static str> {
        let first = self.fields[0];
        let known = first.len() == 1 && LETTERS.contains(&first[0]);
        let (kind, holds) = match words {
            w if w.contains("has a space in it") => ("space", self.field().contains(&32)),
            w if w.contains("no section's letter") => ("letter", !known),
            w if w.contains("letter of answers") => ("letter", b"LRBUTE".contains(&first[0])),
            w if w.contains("begins with a tab") => ("letter", self.line[0] == 9),
            w if w.contains("no comments") => ("letter", self.line[0] == b'#'),
            w if w.contains("; this line has ") => {
                let (due, have) = (rules(first[0]), self.fields.len() - 1);
                let names: Vec<&str> = due.iter().map(|r| r.name).collect();
                let (letter, names) = (char::from(first[0]), names.join(", "));
                let count = due.len();
                let says = format!(
                    "{letter} has {count} fields behind it ({names}); this line has {have}"
                );
                let tail = self.line.ends_with(b"\t") || !w.starts_with("a tab too many");
                let row = self.line.windows(2).any(|w| w == b"\t\t") || !w.starts_with("two tabs");
                (
                    "count",
                    have != due.len() && w.ends_with(&says) && tail && row,
                )
            }
            w if w.contains("stands behind the ") => {
                let (there, _) = self.lines[self.number_behind("of line ") - 1];
                let place = |l: u8| LETTERS.iter().position(|k| *k == l);
                let holds = self.number_behind("of line ") < self.told.line;
                let before = place(self.line[0]) < place(there[0]);
                (
                    "order",
                    holds && before && fields(there)[0].len() == 1 && known,
                )
            }
            _ => return None,
        };
        assert!(holds, "{words}: {:?}", self.line);
        Some(kind)
    }

    fn form(&self, words: &str) -> Option<&'static str> {
        let field = self.field();
        let digits = field.strip_prefix(b"-").unwrap_or(field);
        let (kind, holds) = match words {
            w if w.contains("is empty; a number") => ("empty field", field.is_empty()),
            w if w.contains("no + in front") => ("plus", field.starts_with(b"+")),
            w if w.contains("no - in front") => ("minus zero", field == b"-0"),
            w if w.contains("no 0 in front") => {
                ("zero", digits.starts_with(b"0") && digits.len() > 1)
            }
            w if w.contains("at most 10") => {
                ("digits", digits.len() == self.number_behind("with "))
            }
            w if w.contains("no other dash") => ("dash", field.starts_with(b"\xe2")),
            w if w.contains("which is no number") => ("no number", true),
            w if w.contains("has to be a number; ") => {
                ("missing", field == b"-" && !self.rule().maybe)
            }
            w if w.contains("both are numbers or both are -") => {
                let place = self.told.field.expect("a field") - 1;
                let other = if place.is_multiple_of(2) {
                    place + 1
                } else {
                    place - 1
                };
                let pair = self.line[0] == b'N' && (8..12).contains(&place);
                (
                    "half a pair",
                    pair && field == b"-" && self.fields[other] != b"-",
                )
            }
            _ => return None,
        };
        let dash = ["missing", "half a pair"].contains(&kind);
        assert!(
            holds && !is_number(field) && (dash || field != b"-"),
            "{words}"
        );
        assert!(
            words.starts_with(&format!("{} is ", self.rule().name)),
            "{words}"
        );
        Some(kind)
    }
}
