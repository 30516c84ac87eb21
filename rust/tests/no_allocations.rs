//! A server's save, or a member's click, allocates nothing once its buffers are
//! made.

use panzhyqur::{Board, Buffers, Class, Limits, Node, NodeId, Page, PageBox, Wire, WirePort};
use std::alloc::{GlobalAlloc, Layout, System};
use std::cell::Cell;

/// Counts what this thread asks for.
struct Counting;

thread_local! {
    static COUNT: Cell<usize> = const { Cell::new(0) };
}

fn count() {
    COUNT.with(|c| c.set(c.get() + 1));
}

// SAFETY: each call goes to the system's allocator as it came.
unsafe impl GlobalAlloc for Counting {
    unsafe fn alloc(&self, layout: Layout) -> *mut u8 {
        count();
        unsafe { System.alloc(layout) }
    }

    unsafe fn alloc_zeroed(&self, layout: Layout) -> *mut u8 {
        count();
        unsafe { System.alloc_zeroed(layout) }
    }

    unsafe fn realloc(&self, old: *mut u8, layout: Layout, size: usize) -> *mut u8 {
        count();
        unsafe { System.realloc(old, layout, size) }
    }

    unsafe fn dealloc(&self, old: *mut u8, layout: Layout) {
        count();
        unsafe { System.dealloc(old, layout) }
    }
}

#[global_allocator]
static ALLOCATOR: Counting = Counting;

/// A stored value read on each of so many rows.
fn board(rows: u32) -> Board {
    let brick = |id, at, down| Node {
        half: (2, 2),
        at: Some(at),
        row: Some((0, down)),
        ..Node::new(NodeId(id))
    };
    let mut board = Board::default();
    board.pages.push(Page {
        min_y: Some(0),
        z: 0,
    });
    board.nodes.push(Node {
        class: Class::Storage,
        ..brick(1, (20, 0), 0)
    });
    for row in 0..rows {
        let down = 10 * (1 + row as i32);
        board.nodes.push(brick(2 + row, (-down, 8), down));
        board.wires.push(Wire {
            source: NodeId(1).port(WirePort(5)),
            target: NodeId(2 + row).port(WirePort(1)),
        });
    }
    board
}

/// One save: the sheet written, routed in both ways, and the plan walked.
fn save(buffers: &mut Buffers, sheet: &mut Vec<u8>, board: &Board) -> i64 {
    board.write_sheet(sheet);
    let mut sum = 0;
    for apart in [false, true] {
        if apart {
            sum += buffers.plan_bus(sheet).map_or(0, |pages| pages.count()) as i64;
            let laid = buffers.lay_bus(sheet).map(|bus| bus.laid());
            sum += laid.unwrap_or(0) as i64;
            let _ = buffers.lay_mini_bus(sheet).is_ok();
        } else if let Err(refusal) = buffers.route(sheet) {
            sum += refusal.line as i64;
        }
        let plan = buffers.plan();
        sum += plan.nodes().map(|r| i64::from(r.x)).sum::<i64>();
        sum += plan.wires().filter(|w| w.delivery.is_some()).count() as i64;
        sum += plan.suppressed().count() as i64;
    }
    sum
}

/// One click: what is inside a box walked, and the plan beside it.
fn click(buffers: &mut Buffers, sheet: &[u8], page_box: &PageBox) -> i64 {
    match buffers.hits(sheet, page_box) {
        Ok(hits) => {
            let lanes = hits.rerouters().filter(|hit| hit.lane.is_some()).count();
            let numbers: usize = hits.rerouters().map(|hit| hit.number).sum();
            let wires: usize = hits.wires().sum();
            (lanes + numbers + wires + hits.plan().nodes().len()) as i64
        }
        Err(refusal) => i64::from(refusal.number()),
    }
}

#[test]
fn a_running_server_allocates_nothing() {
    let saves: Vec<Board> = [300, 1, 0, 900, 12].map(board).into();
    let mut damaged = board(3);
    damaged.nodes[2].half = (0, 0);
    let mut buffers = Buffers::for_limits(&Limits::LIBRARY);
    let mut sheet = Vec::with_capacity(1 << 20);
    let all = (i32::MIN, i32::MAX);
    let boxes = [(0, all, all), (0, (0, 20), (-9, 9)), (1, all, all)];
    let boxes = boxes.map(|(page, x, y)| PageBox { page, x, y });
    let before = COUNT.with(Cell::get);
    let mut sum = 0;
    for _ in 0..3 {
        for board in &saves {
            for board in [board, &damaged] {
                sum += save(&mut buffers, &mut sheet, board);
                for page_box in &boxes {
                    sum += click(&mut buffers, &sheet, page_box);
                }
            }
        }
    }
    let counted = COUNT.with(Cell::get) - before;
    assert_ne!(sum, 0);
    assert_eq!(counted, 0);
    // The counter counts.
    drop(std::hint::black_box(vec![1]));
    assert_eq!(COUNT.with(Cell::get) - before, 2);
}
