//! Boards, damaged sheets and demand lists from a seed.

pub mod body;
pub mod damaged;
pub mod lanes;
pub mod mood;
pub mod nasty;
pub mod wires;
pub mod worst;

use crate::board::Board;
use crate::rng::Rng;

/// The words that name a kind of board.
pub const BOARD_SIZES: [&str; 10] = [
    "tiny",
    "program",
    "medium",
    "full",
    "many-lanes",
    "full-typical",
    "full-random",
    "hot-rows",
    "tall-lanes",
    "crowded-corners",
];

/// Board `i` of a seed and size, or `None` where the word names no size.
pub fn board(seed: u64, i: u64, size: &str) -> Option<Board> {
    let rng = &mut Rng::for_item(seed, i);
    Some(match size {
        "many-lanes" => nasty::many_lanes(rng),
        "full-typical" => nasty::full_typical(rng),
        "hot-rows" => nasty::hot_rows(rng),
        "tall-lanes" => nasty::tall_lanes(rng),
        "crowded-corners" => nasty::crowded_corners(rng),
        _ => match worst::board(size) {
            Some(board) => board,
            None => {
                let mood = mood::Mood::new(rng, size)?;
                random_board(rng, &mood)
            }
        },
    })
}

/// Sheet `i` of a seed and size: a board's sheet, or a damaged one.
pub fn sheet(seed: u64, i: u64, size: &str) -> Option<Vec<u8>> {
    if size == "damaged" {
        return Some(damaged::sheet(&mut Rng::for_item(seed, i)));
    }
    board(seed, i, size).map(|b| b.sheet())
}

/// A board of a mood: body first, then chips, wires and exec inputs. Among the
/// small ones, seldom one without nodes.
pub fn random_board(rng: &mut Rng, mood: &mood::Mood) -> Board {
    if mood.counts[1] < 100 && rng.below(150) == 0 {
        return bare_board(rng, mood);
    }
    let mut board = Board::default();
    body::pages(rng, mood, &mut board);
    body::nodes(rng, mood, &mut board);
    body::chips(rng, mood, &mut board);
    wires::wires(rng, mood, &mut board);
    wires::execs(rng, mood, &mut board);
    if rng.chance(6) {
        body::push_to_limits(rng, &mut board);
    }
    board
}

/// Pages, exec inputs and wires that name no node; any of them may be missing.
fn bare_board(rng: &mut Rng, mood: &mood::Mood) -> Board {
    let mut board = Board::default();
    if rng.chance(60) {
        body::pages(rng, mood, &mut board);
    }
    let port = |rng: &mut Rng| crate::board::Port {
        node: rng.below(4) as u32,
        port: rng.below(4) as u16,
    };
    for _ in 0..rng.below(mood.counts[4] + 1) {
        board.execs.push(port(rng));
    }
    for _ in 0..rng.below(mood.counts[5] + 1) {
        let (source, target) = (port(rng), port(rng));
        board.wires.push(crate::board::Wire { source, target });
    }
    board
}
