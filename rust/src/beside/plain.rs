//! What reading is timed beside: a bare byte loop without any check, and a
//! plain reader that decides refusals 1 to 3 and fills the rows in one pass.

const ORIGIN: u64 = 2_000_000;
const MISSING: u32 = u32::MAX;

/// Every number of a sheet into its row: no check, and no refusal.
#[inline(never)]
pub fn bare(text: &[u8], rows: &mut [[u32; 16]]) -> usize {
    let (mut k, mut c, mut v, mut minus) = (0, 0, 0_u64, false);
    for &b in text {
        match b {
            b'0'..=b'9' => v = v * 10 + u64::from(b - b'0'),
            b'-' => minus = true,
            b'\t' | b'\n' => {
                rows[k][c & 15] = if minus { ORIGIN.wrapping_sub(v) } else { v } as u32;
                (v, minus) = (0, false);
                c += 1;
                if b == b'\n' {
                    (k, c) = (k + 1, 0);
                }
            }
            _ => v = u64::from(b),
        }
    }
    k
}

/// Origin, least and greatest number held, and whether it may be missing: 0
/// never, 1 it may, 2 with the field before it.
type Column = (u64, u64, u64, u8);
const ID: Column = (0, 0, 1_000_000, 0);
const PORT: Column = (0, 0, 65_535, 0);
const HALF: Column = (0, 1, 1_000, 0);
const CLASS: Column = (0, 0, 2, 0);
const fn coordinate(gap: u8) -> Column {
    (ORIGIN, ORIGIN - 1_000_000, ORIGIN + 1_000_000, gap)
}
static PAGES: [Column; 2] = [coordinate(1), coordinate(0)];
static NODES: [Column; 12] = [
    ID,
    (0, 0, 5, 0),
    CLASS,
    (0, 0, 1, 0),
    HALF,
    HALF,
    (0, 0, 3, 0),
    coordinate(1),
    coordinate(2),
    (0, 0, 63, 1),
    coordinate(2),
    (0, 0, 1_000_000, 1),
];
static CHIPS: [Column; 2] = [ID, (0, 0, 1_000_000, 1)];
static INNER: [Column; 3] = [ID, ID, CLASS];
static EXECS: [Column; 2] = [ID, PORT];
static WIRES: [Column; 4] = [ID, PORT, ID, PORT];

/// The refusal and its line, or 0 and how many lines were read. Rows are
/// written as they are met, on a refusal too.
#[inline(never)]
pub fn reader(text: &[u8], most: [usize; 6], rows: &mut [[u32; 16]]) -> (usize, usize) {
    let (mut at, mut line, mut section, mut counts) = (0, 0, 0, [0; 6]);
    let (mut over, mut wide) = (0, 0);
    while at < text.len() {
        line += 1;
        let (s, columns): (usize, &[Column]) = match text[at] {
            b'P' => (0, &PAGES),
            b'N' => (1, &NODES),
            b'C' => (2, &CHIPS),
            b'F' => (3, &INNER),
            b'X' => (4, &EXECS),
            b'W' => (5, &WIRES),
            _ => return (1, line),
        };
        at += 1;
        if s < section || text.get(at) != Some(&b'\t') {
            return (1, line);
        }
        section = s;
        if counts[s] >= most[s] && over == 0 {
            over = line;
        }
        counts[s] += 1;
        let row = &mut rows[line - 1];
        *row = [0; 16];
        row[0] = s as u32;
        let mut gone = false;
        for (k, &(origin, low, high, gap)) in columns.iter().enumerate() {
            at += 1;
            let minus = text.get(at) == Some(&b'-');
            let from = at + usize::from(minus);
            let mut v = 0_u64;
            at = from;
            while at < text.len() && text[at].is_ascii_digit() && at - from <= 10 {
                v = v * 10 + u64::from(text[at] - b'0');
                at += 1;
            }
            let digits = at - from;
            let missing = minus && digits == 0;
            let zero = digits > 0 && text[from] == b'0' && (digits > 1 || minus);
            let last = k + 1 == columns.len();
            let ends = if last { b'\n' } else { b'\t' };
            let allowed = match gap {
                0 => !missing,
                1 => true,
                _ => missing == gone,
            };
            if text.get(at) != Some(&ends)
                || (digits == 0 && !missing)
                || digits > 10
                || zero
                || !allowed
            {
                return (1, line);
            }
            gone = missing;
            if missing {
                row[k + 1] = MISSING;
                continue;
            }
            let held = if minus {
                origin.checked_sub(v)
            } else {
                Some(origin + v)
            };
            match held {
                Some(h) if low <= h && h <= high => row[k + 1] = h as u32,
                _ if wide == 0 => wide = line,
                _ => {}
            }
        }
        at += 1;
    }
    match (over, wide) {
        (0, 0) => (0, line),
        (0, _) => (3, wide),
        _ => (2, over),
    }
}
