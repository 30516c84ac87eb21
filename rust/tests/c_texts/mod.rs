//! Types, structs and functions out of the texts of `calls.rs`, of the header
//! and of the Rattle source, each as the C words for them.

/// A function: its name, the types of its arguments, its answer.
pub type Call = (String, Vec<String>, String);

/// A struct or type: its name and its members, name and type each.
pub type Shape = (String, Vec<(String, String)>);

/// `BusWireRow` as `bus_wire_row`.
pub fn snake(name: &str) -> String {
    let mut text = String::new();
    for c in name.chars() {
        if c.is_uppercase() && !text.is_empty() {
            text.push('_');
        }
        text.extend(c.to_lowercase());
    }
    text
}

/// The C type of a Rust type by name.
fn c_type(rust: &str) -> String {
    match rust.trim() {
        "usize" => "size_t".to_string(),
        "u8" => "uint8_t".to_string(),
        "u32" => "uint32_t".to_string(),
        name => format!("pz_{}", snake(name)),
    }
}

/// `[u32; 6]` as `uint32_t[6]`.
fn c_member(rust: &str) -> String {
    let inside = rust
        .trim()
        .strip_prefix('[')
        .and_then(|t| t.strip_suffix(']'));
    match inside.and_then(|t| t.split_once(';')) {
        Some((of, count)) => format!("{}[{}]", c_type(of), count.trim()),
        None => c_type(rust),
    }
}

fn between<'t>(text: &'t str, start: &str, end: &str) -> &'t str {
    let behind = text.split_once(start).expect("the start is there").1;
    behind.split_once(end).expect("the end is there").0
}

/// The parts of a list, without an empty one at its end.
fn parts(list: &str, at: char) -> impl Iterator<Item = &str> {
    list.split(at)
        .map(str::trim)
        .filter(|part| !part.is_empty())
}

/// `pub type Name = [u32; n];`
pub fn rust_types(text: &str) -> Vec<Shape> {
    let lines = text.lines().filter_map(|l| l.strip_prefix("pub type "));
    let shape = |line: &str| {
        let (name, of) = line.split_once(" = ").expect("a type");
        let member = c_member(of.trim_end_matches(';'));
        (c_type(name), vec![(String::new(), member)])
    };
    lines.map(shape).collect()
}

/// The structs with the layout of C.
pub fn rust_structs(text: &str) -> Vec<Shape> {
    let shape = |part: &str| {
        let name = between(part, "pub struct ", " {");
        let members = between(part, &format!("pub struct {name} {{"), "\n}");
        let member = |line: &str| {
            let (name, of) = line
                .trim_start_matches("pub ")
                .split_once(':')
                .expect("a member");
            (name.to_string(), c_member(of.trim().trim_end_matches(',')))
        };
        let lines = members.lines().map(str::trim).filter(|l| !l.is_empty());
        (c_type(name), lines.map(member).collect())
    };
    text.split("#[repr(C)]").skip(1).map(shape).collect()
}

/// One argument: a slice is a pointer and a length.
fn argument(rust: &str) -> Vec<String> {
    let slice = |of: &str| c_type(of.trim().trim_start_matches('[').trim_end_matches(']'));
    match (rust.strip_prefix("&mut "), rust.strip_prefix('&')) {
        (Some(of), _) => vec![format!("{} *", slice(of)), "size_t".to_string()],
        (_, Some(of)) => vec![format!("const {} *", slice(of)), "size_t".to_string()],
        _ => vec![c_type(rust.trim_start_matches('@'))],
    }
}

/// The block `declare!` of `calls.rs`.
pub fn rust_calls(text: &str) -> Vec<Call> {
    let block = between(text, "\ndeclare! {", "\n}");
    let call = |part: &str| {
        let (name, rest) = part
            .trim_start_matches("fn ")
            .split_once('(')
            .expect("a function");
        let (arguments, answer) = rest.split_once(')').expect("its end");
        let answer = answer.trim().trim_start_matches("->");
        let arguments = parts(arguments, ',').flat_map(argument).collect();
        (name.to_string(), arguments, c_type(answer))
    };
    parts(block, ';').map(call).collect()
}

/// The Rattle source has other names for two of the rows.
pub fn renamed(text: &str) -> String {
    let text = text.replace("[Record]", "[RecordRow]");
    let text = text.replace("type Record ", "type RecordRow ");
    text.replace("WorkRow", "TableRow")
}

/// The exported functions of a Rattle source.
pub fn rattle_calls(text: &str) -> Vec<Call> {
    let call = |part: &str| {
        let (name, rest) = part.split_once('(').expect("a function");
        let (arguments, rest) = rest.split_once(')').expect("its end");
        let answer = between(rest, "->", "\n");
        let of = |text: &str| argument(text.split_once(':').expect("its type").1.trim());
        let arguments = parts(arguments, ',').flat_map(of).collect();
        (name.to_string(), arguments, c_type(answer))
    };
    let text = renamed(text);
    let exported = text.split("pub extern \"C\" fn ").skip(1);
    exported.map(call).collect()
}

/// The types of a struct's members in order, those of structs inside it and of
/// arrays one by one.
pub fn leaves(name: &str, structs: &[Shape]) -> Vec<String> {
    let Some((_, members)) = structs.iter().find(|(n, _)| n == name) else {
        return Vec::new();
    };
    let of = |member: &(String, String)| match member.1.split_once('[') {
        Some((of, count)) => {
            let count = count.trim_end_matches(']').parse().expect("a count");
            vec![of.to_string(); count]
        }
        None if member.1.starts_with("pz_") => leaves(&member.1, structs),
        None => vec![member.1.clone()],
    };
    members.iter().flat_map(of).collect()
}

/// C without comments, lines for the preprocessor, and line ends.
pub fn without_comments(text: &str) -> String {
    let mut code = String::new();
    for part in text.split("/*") {
        code += part.split_once("*/").map_or(part, |(_, behind)| behind);
    }
    let lines = code.lines().filter(|l| !l.starts_with('#'));
    let words: Vec<&str> = lines.flat_map(str::split_whitespace).collect();
    words.join(" ").replace("extern \"C\" {", "")
}

/// A declaration as name and type: `size_t records[6]`, `const uint8_t *text`.
fn declaration(text: &str) -> (String, String) {
    let (bare, count) = match text.split_once('[') {
        Some((bare, count)) => (bare, format!("[{count}")),
        None => (text, String::new()),
    };
    let start = bare.rfind([' ', '*']).expect("a type and a name") + 1;
    let (of, name) = bare.split_at(start);
    (name.to_string(), format!("{}{count}", of.trim()))
}

/// `typedef uint32_t pz_name[n];`
pub fn c_types(code: &str) -> Vec<Shape> {
    let types = parts(code, ';').filter_map(|p| p.strip_prefix("typedef "));
    let rows = types.filter(|t| !t.starts_with("struct"));
    let shape = |text: &str| {
        let (name, of) = declaration(text);
        (name, vec![(String::new(), of)])
    };
    rows.map(shape).collect()
}

/// `typedef struct { .. } pz_name;`
pub fn c_structs(code: &str) -> Vec<Shape> {
    let shape = |part: &str| {
        let (members, rest) = part.split_once('}').expect("its end");
        let name = rest.split_once(';').expect("its name").0;
        let members = parts(members, ';').map(declaration).collect();
        (name.trim().to_string(), members)
    };
    code.split("typedef struct {").skip(1).map(shape).collect()
}

/// The prototypes. The length behind a pointer has its name and `_length`.
pub fn c_calls(code: &str) -> Vec<Call> {
    let call = |part: &str| {
        let (front, arguments) = part.split_once('(')?;
        let (name, answer) = declaration(front);
        let arguments: Vec<(String, String)> = parts(arguments.trim_end_matches(')'), ',')
            .map(declaration)
            .collect();
        for pair in arguments.windows(2) {
            let ((buffer, of), (length, _)) = (&pair[0], &pair[1]);
            assert!(!of.ends_with('*') || *length == format!("{buffer}_length"));
        }
        let types = arguments.into_iter().map(|(_, of)| of).collect();
        Some((name, types, answer))
    };
    parts(code, ';').filter_map(call).collect()
}
