//! Many texts in one stream, parted by marker lines that begin with `%%`.
//!
//! A text is all bytes between two markers. A marker that ends in `!` says
//! that the byte 10 just before it belongs to the marker and not to the text,
//! so a text that does not end in byte 10 can stand in the stream too.

/// One text and the marker that ended it (empty at the end of the stream),
/// without a final `!`.
#[derive(Clone, Debug, PartialEq, Eq)]
pub struct Part {
    pub text: Vec<u8>,
    pub marker: String,
}

/// The texts of a stream, in order; the last one is ended by the stream's end.
pub fn parts(stream: &[u8]) -> Vec<Part> {
    let mut out = Vec::new();
    let mut text: Vec<u8> = Vec::new();
    for line in stream.split_inclusive(|b| *b == b'\n') {
        let Some(marker) = marker_of(line) else {
            text.extend_from_slice(line);
            continue;
        };
        if marker.ends_with('!') {
            text.pop();
        }
        out.push(Part {
            text: std::mem::take(&mut text),
            marker: marker.trim_end_matches('!').to_string(),
        });
    }
    out.push(Part {
        text,
        marker: String::new(),
    });
    out
}

fn marker_of(line: &[u8]) -> Option<String> {
    let line = line.strip_suffix(b"\n").unwrap_or(line);
    let known = [&b"%%"[..], b"%%!", b"%%plan", b"%%plan!"];
    known
        .contains(&line)
        .then(|| String::from_utf8_lossy(line).into_owned())
}

/// Adds a text and its marker to a stream.
pub fn add(stream: &mut Vec<u8>, text: &[u8], marker: &str) {
    stream.extend_from_slice(text);
    let open = !text.is_empty() && text.last() != Some(&b'\n');
    if open {
        stream.push(b'\n');
    }
    stream.extend_from_slice(marker.as_bytes());
    if open {
        stream.push(b'!');
    }
    stream.push(b'\n');
}

/// Whether a text can stand in a stream: no line of it is a marker.
pub fn can_stand(text: &[u8]) -> bool {
    text.split(|b| *b == b'\n').all(|l| marker_of(l).is_none())
}

/// The texts of a stream of sheets parted by `%%`.
pub fn sheets(stream: &[u8]) -> Vec<Vec<u8>> {
    parts(stream).into_iter().map(|p| p.text).collect()
}

/// A stream of sheets parted by `%%`, none after the last.
pub fn join(sheets: &[Vec<u8>]) -> Vec<u8> {
    let mut out = Vec::new();
    for (i, sheet) in sheets.iter().enumerate() {
        if i + 1 < sheets.len() {
            add(&mut out, sheet, "%%");
        } else {
            out.extend_from_slice(sheet);
        }
    }
    out
}
