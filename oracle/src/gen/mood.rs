//! What a random board is like: how large, and where its bricks crowd.

use crate::board::Limits;
use crate::rng::Rng;

#[derive(Clone, Debug)]
pub struct Mood {
    /// Records of each section, in the order P, N, C, F, X, W; C, F and X are
    /// the most that are made.
    pub counts: [usize; 6],
    /// Rows a page has at most.
    pub rows: usize,
    /// How far x falls from one row to the next: a step within this range.
    pub fall: (i32, i32),
    /// A brick's x is its row's plus 0 to this; a stray one's, this percent,
    /// lies up to 12 to either side.
    pub x_spread: i32,
    pub stray: usize,
    /// The y values that bricks stand at, `columns` of them `pitch` apart.
    pub columns: usize,
    pub pitch: i32,
    pub y_spread: i32,
    /// Half sizes go up to this; tall ones, this percent, up to `tall_half`.
    pub half: i32,
    pub tall: usize,
    pub tall_half: i32,
    /// Percent of bricks at rotation 1.
    pub turned: usize,
    pub lines: usize,
    /// Source ports shared by many wires.
    pub hubs: usize,
    pub ports: usize,
    /// Weights of the ways in which a wire is made (see `wires`).
    pub ways: [usize; 7],
    /// 0 in order from 1, 1 shuffled, 2 anywhere up to 1,000,000.
    pub ids: usize,
    pub page_missing: usize,
    /// Fewer bricks that a bus passes over.
    pub friendly: bool,
    /// Bricks and wires such that corners find room.
    pub corners: bool,
}

fn up_to(rng: &mut Rng, lo: usize, hi: usize) -> usize {
    lo + rng.below(hi - lo + 1)
}

fn counts(rng: &mut Rng, size: &str) -> Option<[usize; 6]> {
    let at_most = |rng: &mut Rng, most: [usize; 6], least: [usize; 6]| {
        let mut counts = [0; 6];
        for i in 0..6 {
            counts[i] = up_to(rng, least[i], most[i]);
        }
        counts
    };
    Some(match size {
        "tiny" => {
            let (least, most) = rng.pick(&[(1, 1), (1, 1), (1, 1), (2, 2), (0, 3)]);
            at_most(rng, [most, 7, 2, 3, 3, 9], [least, 3, 0, 0, 0, 2])
        }
        "program" => {
            let most = Limits::PROGRAM.records;
            let least = if rng.chance(50) {
                [1, 30, 0, 0, 0, 40]
            } else {
                [1, 6, 0, 0, 0, 6]
            };
            let mut counts = at_most(rng, most, least);
            if rng.chance(50) {
                counts[0] = 1;
            }
            counts
        }
        "medium" => at_most(rng, [16, 600, 32, 100, 100, 1_200], [1, 60, 0, 0, 0, 200]),
        "full" => at_most(rng, Limits::LIBRARY.records, [1, 3_000, 0, 0, 0, 6_000]),
        "full-random" => Limits::LIBRARY.records,
        _ => return None,
    })
}

impl Mood {
    /// A mood for a size, or `None` where the word names none.
    pub fn new(rng: &mut Rng, size: &str) -> Option<Self> {
        let counts = counts(rng, size)?;
        let small = matches!(size, "tiny" | "program");
        let most_rows = match size {
            "tiny" => up_to(rng, 2, 6),
            "program" => up_to(rng, 2, 12),
            _ => up_to(rng, 4, 120),
        };
        let ways = rng.pick(&WAYS);
        let mut mood = Self {
            counts,
            rows: most_rows,
            fall: rng.pick(&FALLS),
            x_spread: rng.range(0, 3),
            stray: [0, 20, 50][rng.below(3)],
            columns: up_to(rng, 1, if small { 5 } else { 12 }),
            pitch: [1, 2, 4, 7, 9, 12][rng.below(6)],
            y_spread: rng.range(0, 2),
            half: rng.range(1, 3),
            tall: [0, 10, 40][rng.below(3)],
            tall_half: [4, 10, 20][rng.below(3)],
            turned: [5, 30, 70][rng.below(3)],
            lines: up_to(rng, 1, 3),
            hubs: up_to(rng, 1, if small { 4 } else { 200 }),
            ports: up_to(rng, 1, 4),
            ways,
            ids: rng.below(3),
            page_missing: [0, 0, 20][rng.below(3)],
            friendly: rng.chance(65),
            corners: false,
        };
        if rng.chance(25) {
            mood.for_corners(rng);
        }
        Some(mood)
    }

    fn for_corners(&mut self, rng: &mut Rng) {
        self.corners = true;
        self.ways = [5, 5, 70, 5, 10, 5, 1];
        self.turned = 60;
        self.lines = 1;
        self.pitch = rng.pick(&[2, 3, 6, 9, 12]);
        self.columns = 3 + rng.below(6);
        self.half = rng.range(1, 2);
    }
}

/// Steps of x from row to row: level rows, rows inside one rerouter's height,
/// just apart, far apart, and rising ones among falling ones.
const FALLS: [(i32, i32); 10] = [
    (0, 0),
    (0, 1),
    (1, 3),
    (2, 2),
    (3, 7),
    (4, 8),
    (6, 6),
    (6, 30),
    (-6, 6),
    (-3, 3),
];

/// Weights: hub, any ends, corner, equal wire, same target, same source, an
/// end that names no node.
const WAYS: [[usize; 7]; 4] = [
    [60, 10, 2, 5, 5, 20, 2],
    [30, 20, 10, 15, 15, 10, 4],
    [10, 60, 10, 3, 5, 10, 3],
    [45, 10, 20, 5, 5, 15, 1],
];
