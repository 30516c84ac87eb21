//! Makes a sheet small while a property of it holds.

/// The smallest sheet found for which `holds` stays true: lines go in ever
/// smaller runs, then numbers move towards 0, until nothing more gives way.
pub fn sheet(text: &[u8], holds: impl Fn(&[u8]) -> bool) -> Vec<u8> {
    let mut small = text.to_vec();
    if !holds(&small) {
        return small;
    }
    loop {
        let before = small.clone();
        small = fewer_lines(&small, &holds);
        small = fewer_pages(&small, &holds);
        small = plainer_ids(&small, &holds);
        small = plainer_fields(&small, &holds);
        if small == before {
            return small;
        }
    }
}

fn lines_of(text: &[u8]) -> Vec<Vec<u8>> {
    text.split_inclusive(|b| *b == b'\n')
        .map(<[u8]>::to_vec)
        .collect()
}

/// Drops runs of lines, long runs first.
fn fewer_lines(text: &[u8], holds: &impl Fn(&[u8]) -> bool) -> Vec<u8> {
    let mut lines = lines_of(text);
    let mut run = lines.len().div_ceil(2).max(1);
    loop {
        // From the end: wires first, then what they need.
        let mut end = lines.len();
        while end > 0 {
            let start = end.saturating_sub(run);
            let rest: Vec<Vec<u8>> = [&lines[..start], &lines[end..]].concat();
            if holds(&rest.concat()) {
                lines = rest;
            }
            end = start.min(lines.len());
        }
        if run == 1 {
            return lines.concat();
        }
        run = run.div_ceil(2);
    }
}

/// Drops a page: its nodes go, and later pages are numbered one lower.
fn fewer_pages(text: &[u8], holds: &impl Fn(&[u8]) -> bool) -> Vec<u8> {
    let mut small = text.to_vec();
    let pages = lines_of(text)
        .iter()
        .filter(|l| l.starts_with(b"P\t"))
        .count();
    for page in (0..pages).rev() {
        let without = without_page(&small, page);
        if holds(&without) {
            small = without;
        }
    }
    small
}

fn without_page(text: &[u8], page: usize) -> Vec<u8> {
    const PAGE_FIELD: usize = 10;
    let mut out = Vec::new();
    let mut seen = 0;
    for line in lines_of(text) {
        if line.starts_with(b"P\t") {
            seen += 1;
            if seen == page + 1 {
                continue;
            }
        }
        let mut fields = fields_of(&line);
        let of_node = line.starts_with(b"N\t") && fields.len() > PAGE_FIELD;
        let on = of_node
            .then(|| fields[PAGE_FIELD].parse::<usize>().ok())
            .flatten();
        match on {
            Some(p) if p == page => continue,
            Some(p) if p > page => fields[PAGE_FIELD] = (p - 1).to_string(),
            _ => {}
        }
        if on.is_some() {
            out.extend_from_slice(fields.join("\t").as_bytes());
            out.push(b'\n');
        } else {
            out.extend_from_slice(&line);
        }
    }
    out
}

fn fields_of(line: &[u8]) -> Vec<String> {
    let text = String::from_utf8_lossy(line);
    let text = text.strip_suffix('\n').unwrap_or(&text);
    text.split('\t').map(str::to_string).collect()
}

/// Numbers the ids from 1 in their own order, all at once.
fn plainer_ids(text: &[u8], holds: &impl Fn(&[u8]) -> bool) -> Vec<u8> {
    let id_fields = |letter: &str| -> &[usize] {
        match letter {
            "N" | "X" => &[1],
            "C" | "F" => &[1, 2],
            "W" => &[1, 3],
            _ => &[],
        }
    };
    let mut lines: Vec<Vec<String>> = lines_of(text).iter().map(|l| fields_of(l)).collect();
    let mut ids: Vec<u32> = Vec::new();
    for line in &lines {
        let fields = id_fields(&line[0]).iter().filter_map(|f| line.get(*f));
        ids.extend(fields.filter_map(|f| f.parse::<u32>().ok()));
    }
    ids.sort_unstable();
    ids.dedup();
    for line in &mut lines {
        for f in id_fields(&line[0].clone()) {
            let id = line.get(*f).and_then(|f| f.parse::<u32>().ok());
            if let Some(rank) = id.and_then(|id| ids.binary_search(&id).ok()) {
                line[*f] = (rank + 1).to_string();
            }
        }
    }
    let renamed: String = lines.iter().map(|l| l.join("\t") + "\n").collect();
    if holds(renamed.as_bytes()) {
        renamed.into_bytes()
    } else {
        text.to_vec()
    }
}

/// Moves each number towards 0 where the property allows it.
fn plainer_fields(text: &[u8], holds: &impl Fn(&[u8]) -> bool) -> Vec<u8> {
    let mut lines = lines_of(text);
    for i in 0..lines.len() {
        let count = fields_of(&lines[i]).len();
        for f in 1..count {
            let Ok(n) = fields_of(&lines[i])[f].parse::<i64>() else {
                continue;
            };
            for candidate in [0, 1, n / 2, n - n.signum()] {
                if candidate.abs() >= n.abs() {
                    continue;
                }
                let mut fields = fields_of(&lines[i]);
                fields[f] = candidate.to_string();
                let mut tried = lines.clone();
                tried[i] = (fields.join("\t") + "\n").into_bytes();
                if holds(&tried.concat()) {
                    lines = tried;
                    break;
                }
            }
        }
    }
    lines.concat()
}

/// The same for a demand list: demands go, then numbers move towards 0.
pub fn list(numbers: &[u32], holds: impl Fn(&[u32]) -> bool) -> Vec<u32> {
    let mut small = numbers.to_vec();
    let mut run = (small.len() / 4).max(1);
    while run > 0 {
        let mut start = 0;
        while start < small.len() {
            let end = (start + 4 * run).min(small.len());
            let rest = [&small[..start], &small[end..]].concat();
            if rest.len() < small.len() && holds(&rest) {
                small = rest;
            } else {
                start = end;
            }
        }
        run /= 2;
    }
    for i in 0..small.len() {
        for candidate in [0, 1, small[i] / 2] {
            let mut tried = small.clone();
            tried[i] = candidate;
            if candidate < small[i] && holds(&tried) {
                small = tried;
                break;
            }
        }
    }
    small
}
