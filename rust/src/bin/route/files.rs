//! The sheets that are read, and the files beside them.

use super::Trouble;
use std::fs;
use std::path::{Path, PathBuf};

/// The files that are named, and the `.sheet` files of the folders that are.
pub fn files(paths: &[PathBuf]) -> Result<Vec<PathBuf>, Trouble> {
    let mut files = Vec::new();
    for path in paths {
        let trouble = |why| Trouble::Reading(path.clone(), why);
        if !fs::metadata(path).map_err(trouble)?.is_dir() {
            files.push(path.clone());
            continue;
        }
        let mut inside = Vec::new();
        for entry in fs::read_dir(path).map_err(trouble)? {
            let entry = entry.map_err(trouble)?.path();
            if entry.extension().is_some_and(|e| e == "sheet") && entry.is_file() {
                inside.push(entry);
            }
        }
        if inside.is_empty() {
            eprintln!("{} has no .sheet file", path.display());
        }
        inside.sort();
        files.extend(inside);
    }
    Ok(files)
}

/// The sheets of a stream: all bytes between two marker lines. A marker `%%!`
/// takes the byte 10 before it along, so that a sheet cut inside a line can
/// stand in a stream.
pub fn sheets(stream: &[u8]) -> Vec<Vec<u8>> {
    let mut sheets = vec![Vec::new()];
    for line in stream.split_inclusive(|b| *b == b'\n') {
        let last = sheets.last_mut().expect("there is always one");
        match line.strip_suffix(b"\n").unwrap_or(line) {
            b"%%" => sheets.push(Vec::new()),
            b"%%!" => {
                last.pop();
                sheets.push(Vec::new());
            }
            _ => last.extend_from_slice(line),
        }
    }
    sheets
}

/// One sheet of a stream: where it stands, and what it is called.
pub struct Place<'a> {
    /// `None` for standard input.
    pub file: Option<&'a Path>,
    /// Which sheet of the stream, from 1; `None` where it is the only one.
    pub number: Option<usize>,
}

impl Place<'_> {
    /// The name to be told: `a.sheet, sheet 2`, with the file's path or alone.
    fn told(&self, file: String) -> String {
        match self.number {
            Some(number) => format!("{file}, sheet {number}"),
            None => file,
        }
    }

    /// As messages name it.
    pub fn name(&self) -> String {
        self.told(match self.file {
            Some(file) => file.display().to_string(),
            None => "standard input".to_string(),
        })
    }

    /// As a picture's title has it.
    pub fn title(&self) -> String {
        match self.file.and_then(Path::file_name) {
            Some(name) => self.told(name.display().to_string()),
            None => self.name(),
        }
    }

    /// The file beside it: `a.plan` or `a.2.plan` for `a.sheet`. Any other
    /// ending stays, so that no sheet is written over: `a.txt.plan`.
    pub fn beside(&self, ending: &str) -> Option<PathBuf> {
        let file = self.file?;
        let is_sheet = file.extension().is_some_and(|e| e == "sheet");
        let mut name = match is_sheet {
            true => file.with_extension(""),
            false => file.to_path_buf(),
        }
        .into_os_string();
        if let Some(number) = self.number {
            name.push(format!(".{number}"));
        }
        name.push(format!(".{ending}"));
        Some(PathBuf::from(name))
    }
}
