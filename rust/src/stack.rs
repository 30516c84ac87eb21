//! The stack that the calls need.
//!
//! The library keeps tables of local numbers on the stack. Its large frames
//! touch each of their pages in turn, as Rust's do, so a call on a thread with
//! too little stack stops at the guard page with Rust's message of an
//! overflown stack: it can't reach past it.

use std::thread;

/// How much stack a thread should have that makes the calls, in bytes: what
/// they need ([`NEED`]) and as much again for the caller. Give it to
/// [`std::thread::Builder::stack_size`] where a server starts the thread that
/// routes; a thread that Rust starts by default has 2 MiB, which is as much.
pub const STACK: usize = 2 * NEED;

/// The stack that must be free at a call, in bytes. What the calls take of it is
/// in the README.
pub const NEED: usize = 1024 * 1024;

/// Runs `f` on a thread of its own that has [`STACK`] bytes. It makes a
/// thread, so it allocates: a server that routes many boards starts one thread
/// with that stack and keeps it.
///
/// # Panics
///
/// Where the thread can't be started, or `f` panics.
pub fn with_stack<T: Send>(f: impl FnOnce() -> T + Send) -> T {
    thread::scope(|scope| {
        let thread = thread::Builder::new()
            .name("panzhyqur".to_string())
            .stack_size(STACK)
            .spawn_scoped(scope, f)
            .expect("a thread with its stack can be started");
        match thread.join() {
            Ok(answer) => answer,
            Err(panic) => std::panic::resume_unwind(panic),
        }
    })
}

#[cfg(test)]
mod tests {
    use super::*;

    #[test]
    fn the_answer_comes_back() {
        let text = String::from("a board");
        assert_eq!(with_stack(|| text.len()), 7);
    }

    #[test]
    #[should_panic(expected = "as asked")]
    fn a_panic_comes_back() {
        with_stack(|| panic!("as asked"));
    }
}
