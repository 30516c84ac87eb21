//! A plan as a picture to follow: one self-contained HTML file, or the bare
//! SVG of a page; and a refused sheet with the line at fault marked.
//!
//! x grows upwards and y to the right, so that a page's rows stand one under
//! the other and its gutter to the left of them. The script and the styles
//! stand in files of their own beside this one.

mod bare;
mod data;
mod html;
mod layout;
mod legend;
mod refused;
mod runs;
mod scene;
mod style;
mod svg;
mod words;

use crate::board::Board;
use crate::plan::Plan;
use crate::refusal::Refusal;
use scene::Scene;

impl Plan {
    /// The plan of a board as one self-contained HTML file, which fetches
    /// nothing: its pages by tabs, each with bricks, gutter, lanes, runs, direct
    /// wires and suppressed ports. Pointing at something, or searching for it,
    /// lights up its ways from source to target and says in words what it is.
    /// `#w5`, `#n12` or `#r7` behind the file's address opens it there.
    ///
    /// The same board, plan and title always give the same bytes. A plan of
    /// another board, or a broken one that was read from text, is drawn as far
    /// as it goes.
    pub fn picture(&self, board: &Board, title: &str) -> String {
        html::file(&Scene::of(board, self), title)
    }

    /// One page as a bare SVG that needs no script, for print; `None` where the
    /// board lacks the page.
    pub fn page_picture(&self, board: &Board, page: usize) -> Option<String> {
        (page < board.pages.len()).then(|| bare::page(&Scene::of(board, self), page))
    }
}

impl Refusal {
    /// The sheet with the line at fault marked, and the reason, as an HTML file
    /// without script. Of a long sheet it has the lines about the fault.
    pub fn picture(&self, sheet: &[u8], title: &str) -> String {
        refused::file(self, sheet, title)
    }
}
