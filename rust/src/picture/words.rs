//! Names and words for what a picture shows, and text made safe for it.

use crate::board::Node;
use crate::types::{Class, Kind, Part, PortRef};
use std::fmt::{self, Display, Write};

/// Text inside an element or a quoted attribute.
pub(super) struct Escaped<'a>(pub &'a str);

impl Display for Escaped<'_> {
    fn fmt(&self, f: &mut fmt::Formatter<'_>) -> fmt::Result {
        for c in self.0.chars() {
            match c {
                '<' => f.write_str("&lt;")?,
                '>' => f.write_str("&gt;")?,
                '&' => f.write_str("&amp;")?,
                '"' => f.write_str("&quot;")?,
                '\'' => f.write_str("&#39;")?,
                // No document may hold these, not even by number.
                c if c.is_control() && !matches!(c, '\n' | '\t') => f.write_char('\u{fffd}')?,
                '\u{fffe}' | '\u{ffff}' => f.write_char('\u{fffd}')?,
                c => f.write_char(c)?,
            }
        }
        Ok(())
    }
}

/// `node.port`.
pub(super) struct Dotted(pub PortRef);

impl Display for Dotted {
    fn fmt(&self, f: &mut fmt::Formatter<'_>) -> fmt::Result {
        write!(f, "{}.{}", self.0.node_id.0, self.0.port.0)
    }
}

pub(super) fn kind(kind: Kind) -> &'static str {
    match kind {
        Kind::Gate => "Gate",
        Kind::Event => "Event",
        Kind::Chip => "Chip",
        Kind::Input => "Input",
        Kind::Output => "Output",
        Kind::Coerce => "Coerce",
    }
}

/// What a class adds to the kind.
pub(super) fn class(class: Class) -> &'static str {
    match class {
        Class::Other => "",
        Class::Storage => " storage",
        Class::InlineOnly => " inline-only",
    }
}

pub(super) fn part(part: Part) -> &'static str {
    match part {
        Part::Source => "source",
        Part::Head => "head",
        Part::Link => "link",
        Part::Tap => "tap",
        Part::GateSide => "gate-side",
        Part::Corner => "corner",
    }
}

/// A node in a few words: id, kind, class, how it is turned, pin.
pub(super) fn node(node: &Node) -> String {
    let (kind, class) = (kind(node.kind), class(node.class));
    let turn = 90 * node.rotation.number();
    let pin = if node.pin { ", pin" } else { "" };
    format!(
        "node {}: {kind}{class}, turned {turn}\u{b0}{pin}",
        node.id.0
    )
}

/// A list of numbers, parted by spaces.
pub(super) fn list<T: Display>(numbers: impl IntoIterator<Item = T>) -> String {
    let mut text = String::new();
    for number in numbers {
        let gap = if text.is_empty() { "" } else { " " };
        let _ = write!(text, "{gap}{number}");
    }
    text
}

#[cfg(test)]
mod tests {
    use super::*;

    #[test]
    fn nothing_breaks_out() {
        let text = Escaped("<b a='1' c=\"2\">&\u{0}\u{7}\u{ffff}\u{b0}\t</b>").to_string();
        let said = "&lt;b a=&#39;1&#39; c=&quot;2&quot;&gt;&amp;\u{fffd}\u{fffd}\u{fffd}\u{b0}\t&lt;/b&gt;";
        assert_eq!(text, said);
    }
}
