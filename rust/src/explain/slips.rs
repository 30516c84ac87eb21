//! What a sheet may say and yet is likely a slip.

use super::sheet::{CHIP, EXEC, LINK, Record, lines, read};
use std::collections::HashMap;
use std::collections::hash_map::Entry;
use std::fmt;

/// Something on an accepted sheet that is worth a word.
#[derive(Clone, Debug, PartialEq, Eq)]
pub struct Warning {
    pub line: usize,
    pub words: String,
}

impl fmt::Display for Warning {
    fn fmt(&self, f: &mut fmt::Formatter<'_>) -> fmt::Result {
        write!(f, "line {}: {}", self.line, self.words)
    }
}

/// What is accepted on a sheet and yet likely a slip, by rising line: an exec
/// input or a wire's end of a node that is not there, and an exec input or a
/// wire that stands twice. Of a sheet with a line that can't be read nothing is
/// said.
pub fn warnings(sheet: &[u8]) -> Vec<Warning> {
    let mut seen = Seen::default();
    let mut found = Vec::new();
    let mut latest = 0;
    for line in lines(sheet) {
        let read = read(&line).filter(|record| record.section >= latest);
        let Some(record) = read else {
            return Vec::new();
        };
        latest = record.section;
        // Nodes and chips stand before all exec inputs and wires.
        match record.section {
            EXEC | LINK => seen.look(line.number, &record, &mut found),
            _ => seen.keep(line.number, &record),
        }
    }
    found
}

/// Node, port, and of a wire both again.
type Ends = [Option<i64>; 4];

#[derive(Default)]
struct Seen {
    nodes: HashMap<i64, usize>,
    chips: HashMap<i64, usize>,
    ends: HashMap<Ends, usize>,
}

impl Seen {
    fn keep(&mut self, line: usize, record: &Record) {
        let table = match record.section {
            CHIP => &mut self.chips,
            _ if record.is_node() => &mut self.nodes,
            _ => return,
        };
        if let Some(id) = record.id() {
            table.entry(id).or_insert(line);
        }
    }

    fn look(&mut self, line: usize, record: &Record, found: &mut Vec<Warning>) {
        let ends = match record.section {
            EXEC => &[(1, "the exec input is of node")][..],
            _ => &[(1, "the wire begins at node"), (3, "the wire ends at node")],
        };
        for (place, what) in ends {
            let loose = record.get(*place).and_then(|id| self.loose(id, what));
            found.extend(loose.map(|words| Warning { line, words }));
        }
        let ports = [1, 2, 3, 4].map(|place| record.get(place));
        match self.ends.entry(ports) {
            Entry::Vacant(entry) => {
                entry.insert(line);
            }
            Entry::Occupied(entry) => {
                let what = if record.section == EXEC {
                    "exec input"
                } else {
                    "wire"
                };
                let words = format!("the same {what} stands on line {}", entry.get());
                found.push(Warning { line, words });
            }
        }
    }

    /// Words about an id that no node has.
    fn loose(&self, id: i64, what: &str) -> Option<String> {
        if self.nodes.contains_key(&id) {
            return None;
        }
        Some(match self.chips.get(&id) {
            Some(chip) => format!(
                "{what} {id}, which is not there; line {chip} is a chip of that id, and no node"
            ),
            None => format!("{what} {id}, which is not there"),
        })
    }
}
