//! Whether a text is well-formed, as XML and HTML both have it here.

/// What is wrong with a document: tags that do not match, attributes without
/// quotes, a `<` or `&` that is neither tag nor entity.
pub fn fault(text: &str) -> Option<String> {
    let mut open: Vec<&str> = Vec::new();
    let mut rest = text.strip_prefix("<!DOCTYPE html>").unwrap_or(text);
    loop {
        let Some(at) = rest.find('<') else {
            if let Some(fault) = entities(rest) {
                return Some(fault);
            }
            break;
        };
        if let Some(fault) = entities(&rest[..at]) {
            return Some(fault);
        }
        let Some(end) = rest[at..].find('>') else {
            return Some(format!("no end: {}", &rest[at..]));
        };
        let tag = &rest[at + 1..at + end];
        rest = &rest[at + end + 1..];
        if let Some(name) = tag.strip_prefix('/') {
            if open.pop() != Some(name) {
                return Some(format!("</{name}> ends nothing"));
            }
        } else {
            let name = tag.split([' ', '/']).next().unwrap_or_default();
            if let Some(fault) = attributes(&tag[name.len()..]) {
                return Some(format!("<{tag}>: {fault}"));
            }
            if !tag.ends_with('/') {
                open.push(name);
            }
            // What stands in these is not markup.
            if name == "script" || name == "style" {
                rest = &rest[rest.find("</").unwrap_or(rest.len())..];
            }
        }
    }
    open.last().map(|name| format!("<{name}> has no end"))
}

fn entities(text: &str) -> Option<String> {
    let known = ["lt;", "gt;", "amp;", "quot;", "#39;"];
    let wrong = |behind: &&str| !known.iter().any(|name| behind.starts_with(name));
    let found = text.split('&').skip(1).find(wrong)?;
    Some(format!("&{}", &found[..found.len().min(20)]))
}

fn attributes(text: &str) -> Option<String> {
    let mut rest = text.trim_end_matches('/').trim_start();
    while !rest.is_empty() {
        let quoted = rest.split_once("=\"");
        let Some((name, behind)) = quoted else {
            return Some(format!("no value: {rest}"));
        };
        let is_name = |b: u8| b.is_ascii_alphanumeric() || b == b'-';
        if name.is_empty() || !name.bytes().all(is_name) {
            return Some(format!("no name: {name}"));
        }
        let Some((value, behind)) = behind.split_once('"') else {
            return Some(format!("no end: {behind}"));
        };
        if let Some(fault) = entities(value) {
            return Some(fault);
        }
        rest = behind.trim_start();
    }
    None
}
