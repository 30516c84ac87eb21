//! Claims about lines that can be read, and about the sheet as a whole.

use super::{Case, LETTERS, LIBRARY, PROGRAM, Rule, fields, is_record, rules, visible};
use panzhyqur::Reason;

impl Case<'_> {
    /// E7, H6 and E13: no line.
    pub fn beside(&self, reason: Reason) -> &'static str {
        let of = |letter: u8| self.lines.iter().filter(|l| l.0[0] == letter).count();
        if reason == Reason::OverMost {
            let bytes = grouped(self.sheet.len());
            assert!(self.sheet.len() > 65_536 && self.words().contains(&bytes));
            return "bytes";
        }
        assert!(self.lines.iter().all(|(l, ended)| *ended && is_record(l)));
        let (pages, wires, all) = (of(b'P'), of(b'W'), self.lines.len());
        if reason == Reason::BadBox {
            assert!(
                self.words().ends_with(&pages_told(pages)),
                "{}",
                self.words()
            );
            return "box";
        }
        let lengths = [5 * wires, 6 * wires, wires, pages, all, 5 * all, 21 * wires];
        let lengths = lengths.map(grouped);
        let [r, b, u, p, n, m, h] = lengths;
        let text = grouped(128 * (pages + 12 * wires + 1));
        let says = format!(
            "ask for {r} rows of rerouters, {b} of bus wires, {u} of ports, {p} of page answers, \
             {n} of records and of each table, {m} of marks; a click for {h} numbers of hits; \
             an answer in text for {text} bytes"
        );
        assert_eq!(reason, Reason::TooShort);
        assert!(self.words().ends_with(&says), "{}", self.words());
        "lengths"
    }

    pub fn record(&self, reason: Reason) -> &'static str {
        match reason {
            Reason::OverMost => self.over_most(),
            Reason::OutOfRange => self.out_of_range(),
            Reason::IdTwice => self.id_twice(),
            Reason::NotThere => self.not_there(),
            Reason::RowUnplaced => {
                let [x, y, page, down] = [8, 9, 10, 11].map(|k| visible(self.fields[k]));
                assert_eq!((self.line[0], x.as_str(), y.as_str()), (b'N', "-", "-"));
                let says = format!(
                    "the node has a row (page {page}, down {down}) and no place: x and y are -"
                );
                assert!(page != "-" && self.words() == says);
                "row"
            }
            Reason::TooManyLanes => {
                let page = self.number_behind("page ");
                assert!(self.line[0] == b'P' && self.fields[1] != b"-");
                assert_eq!(self.before(b"P").count(), page);
                "lanes"
            }
            _ => panic!("{:?}", self.told),
        }
    }

    /// The earlier records of some sections: line and fields.
    fn before(&self, letters: &'static [u8]) -> impl Iterator<Item = (usize, Vec<&[u8]>)> {
        self.records(letters).filter(|(n, _)| *n < self.told.line)
    }

    fn records(&self, letters: &'static [u8]) -> impl Iterator<Item = (usize, Vec<&[u8]>)> {
        let lines = self.lines.iter().zip(1..);
        let read = lines.filter(|((line, ended), _)| *ended && is_record(line));
        let found = read.map(|((line, _), n)| (n, fields(line)));
        found.filter(|(_, fields)| letters.contains(&fields[0][0]))
    }

    fn over_most(&self) -> &'static str {
        let section = LETTERS
            .iter()
            .position(|l| *l == self.line[0])
            .expect("a letter");
        let letters = &LETTERS[section..=section];
        let (place, all) = (
            self.before(letters).count() + 1,
            self.records(letters).count(),
        );
        let [program, library] = [PROGRAM, LIBRARY].map(|most| most[section]);
        assert!(place > program);
        let [place, all, program, library] = [place, all, program, library].map(grouped);
        let letter = char::from(self.line[0]);
        let says = format!(
            "{letter} record {place} of {all}: more than may be; the program takes {program}, the library {library}"
        );
        assert_eq!(self.words(), says);
        "count of records"
    }

    fn out_of_range(&self) -> &'static str {
        let rules = rules(self.line[0]);
        let numbers = self.fields[1..]
            .iter()
            .map(|f| visible(f).parse::<i64>().ok());
        let over = |(n, r): (Option<i64>, &Rule)| n.is_some_and(|n| n < r.least || n > r.most);
        let first = numbers
            .zip(&rules)
            .position(over)
            .expect("one is out of range");
        assert_eq!(self.told.field, Some(first + 2), "the first such field");
        let (rule, text) = (self.rule(), visible(self.field()));
        let number: i64 = text.parse().expect("a number");
        let bound = match number < rule.least {
            true => format!("under {}", signed(rule.least)),
            false => format!("over {}", signed(rule.most)),
        };
        let says = format!("{} {text} is {bound}", rule.name);
        let rest = self.words().strip_prefix(&says).expect(&says);
        assert!(rest.is_empty() || rest.starts_with(" ("), "{rest}");
        "range"
    }

    fn id_twice(&self) -> &'static str {
        let letters: &[u8] = match self.line[0] {
            b'C' => b"C",
            b'N' | b'F' => b"NF",
            _ => panic!("{:?}", self.told),
        };
        let named = self.number_behind("on line ");
        let mut there = self.before(letters).filter(|(_, f)| f[1] == self.fields[1]);
        assert_eq!(there.next().map(|(n, _)| n), Some(named));
        let id = visible(self.fields[1]);
        assert_eq!(
            self.words(),
            format!("id {id} stands already on line {named}")
        );
        assert_eq!(self.told.field, Some(2));
        "id"
    }

    fn not_there(&self) -> &'static str {
        let id = self.fields[1];
        let named = self.field();
        let is = |letters, id: &[u8]| {
            self.records(letters)
                .find(|(_, f)| f[1] == id)
                .map(|(n, _)| n)
        };
        let (kind, holds) = match (self.line[0], self.words()) {
            (b'N', words) => {
                let count = self.records(b"P").count();
                let page = visible(named);
                assert_eq!(
                    words,
                    format!("page {page} is not there, {}", pages_told(count))
                );
                (
                    "page",
                    self.fields[10] == named
                        && page.parse::<i64>().is_ok_and(|p| p >= count as i64),
                )
            }
            (b'C', words) if self.fields[2] == b"-" => {
                let mut bricks = self
                    .records(b"N")
                    .filter(|(_, f)| f[1] == id && f[2] == b"2");
                let first = is(b"N", id);
                let says = match first {
                    Some(line) => words.contains(&format!("on line {line}, has kind ")),
                    None => words.starts_with(&format!("no N has id {}", visible(id))),
                };
                ("brick", bricks.next().is_none() && says)
            }
            (b'C', words) => {
                let earlier = self.before(b"C").any(|(_, f)| f[1] == self.fields[2]);
                let says = match is(b"C", self.fields[2]) {
                    None => words.ends_with("no C has that id"),
                    Some(n) if n == self.told.line => words.ends_with("is its own parent"),
                    Some(n) => words.contains(&format!("is the chip of line {n};")),
                };
                ("parent", !earlier && says)
            }
            (b'F', words) => {
                let says = match is(b"N", named) {
                    Some(n) => words.ends_with(&format!("line {n} is an N with it")),
                    None => words.ends_with("no C has that id"),
                };
                (
                    "chip",
                    is(b"C", named).is_none() && named == self.fields[2] && says,
                )
            }
            _ => panic!("{:?}", self.told),
        };
        assert!(holds, "{}", self.words());
        kind
    }
}

fn pages_told(count: usize) -> String {
    match count {
        0 => "the sheet has no pages".to_string(),
        1 => "the sheet has 1 page (0)".to_string(),
        2 => "the sheet has 2 pages (0 and 1)".to_string(),
        n => format!(
            "the sheet has {} pages (0 to {})",
            grouped(n),
            grouped(n - 1)
        ),
    }
}

fn grouped(n: usize) -> String {
    match n {
        0..1_000 => n.to_string(),
        _ => format!("{},{:03}", grouped(n / 1_000), n % 1_000),
    }
}

fn signed(n: i64) -> String {
    let minus = if n < 0 { "-" } else { "" };
    format!("{minus}{}", grouped(n.unsigned_abs() as usize))
}
