//! Sheets of each size, from a seed.

use super::room::{Lending, Rows, SLICES};
use oracle::rng::Rng;
use oracle::{Limits, r#gen};

/// The sizes that `differ` takes besides the generator's boards.
pub const OTHERS: [&str; 6] = [
    "damaged",
    "scratched",
    "to-the-most",
    "lanes",
    "handed",
    "boxed",
];

/// Sheet `i` of a seed and size, or `None` where the word names no size and no
/// file.
pub fn sheet(seed: u64, i: u64, size: &str) -> Option<Vec<u8>> {
    let rng = &mut Rng::for_item(seed, i);
    match size {
        "to-the-most" => Some(to_the_most(rng)),
        "scratched" => Some(scratched(rng, r#gen::sheet(seed, i, "tiny")?)),
        _ => r#gen::sheet(seed, i, size).or_else(|| std::fs::read(size).ok()),
    }
}

/// The lengths of the slices and what stands in them beforehand, for sheet `i`
/// of a seed: poison in the output buffers.
pub fn lending(seed: u64, i: u64) -> Lending {
    let rng = &mut Rng::for_item(!seed, i);
    let poison = [0, u32::MAX, 0xdead_beef, rng.number() as u32];
    Lending {
        rows: rows(rng),
        output: Some(rng.pick(&poison)),
        work: rng.pick(&[None, Some(0), Some(u32::MAX), Some(0xdead_beef)]),
    }
}

/// Rows more or fewer than named. Of ten sheets six have slices of just the
/// length named; two have one slice a row short, one of these beside a long
/// one; and two have one a row long.
pub fn rows(rng: &mut Rng) -> Rows {
    let mut rows = [0; SLICES];
    let way = rng.below(10);
    if matches!(way, 7..=9) {
        rows[rng.below(SLICES)] = 1;
    }
    if matches!(way, 6..=7) {
        rows[rng.below(SLICES)] = -1;
    }
    rows
}

/// A few bytes of a sheet changed, left out, put in or doubled.
pub(super) fn scratched(rng: &mut Rng, mut text: Vec<u8>) -> Vec<u8> {
    const BYTES: &[u8] = b"0123456789--\t\t\n\nPNCFXW +\r\x00\xff";
    for _ in 0..1 + rng.below(3) {
        let at = rng.below(text.len() + 1);
        match rng.below(4) {
            0 if at < text.len() => text[at] = rng.pick(BYTES),
            1 if at < text.len() => drop(text.remove(at)),
            2 if at < text.len() => text.insert(at, text[at]),
            _ => text.insert(at, rng.pick(BYTES)),
        }
    }
    text
}

/// A small sheet with one section filled to the library's most, or one over.
pub(super) fn to_the_most(rng: &mut Rng) -> Vec<u8> {
    let sheet = r#gen::sheet(rng.number(), 0, "tiny").expect("a size of the generator");
    let mut lines: Vec<String> = (String::from_utf8_lossy(&sheet).lines())
        .map(str::to_string)
        .collect();
    let section = rng.below(6);
    let letter = ["P", "N", "C", "F", "X", "W"][section];
    let Some(last) = lines.iter().rposition(|l| l.starts_with(letter)) else {
        return sheet;
    };
    let have = lines.iter().filter(|l| l.starts_with(letter)).count();
    let goal = Limits::LIBRARY.records[section] + rng.below(2);
    let fields: Vec<&str> = lines[last].split('\t').collect();
    let new = |k: usize| match section {
        // An id of its own; a chip stands in the one that is repeated.
        1 | 3 => format!("{letter}\t{}\t{}", 900_000 + k, fields[2..].join("\t")),
        2 => format!("C\t{}\t{}", 900_000 + k, fields[1]),
        _ => lines[last].clone(),
    };
    let more: Vec<String> = (have..goal).map(new).collect();
    lines.splice(last + 1..last + 1, more);
    (lines.join("\n") + "\n").into_bytes()
}
