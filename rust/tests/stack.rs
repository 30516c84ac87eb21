//! The calls fit into the stack that is named for them, and say so where there
//! is less.

use oracle::r#gen;
use panzhyqur::stack::NEED;
use panzhyqur::{Buffers, Limits, PageBox};
use std::process::Command;

/// How many of some sheets are accepted, by `route` and by `hits`, on a thread
/// with so much stack.
fn accepted(stack: usize, sheets: Vec<Vec<u8>>) -> usize {
    let mut buffers = Buffers::for_limits(&Limits::LIBRARY);
    let thread = std::thread::Builder::new().stack_size(stack);
    let routing = thread.spawn(move || {
        let page_box = PageBox::default();
        let routed = |sheet: &Vec<u8>| {
            let routed = buffers.route(sheet).is_ok();
            usize::from(buffers.hits(sheet, &page_box).is_ok() && routed)
        };
        sheets.iter().map(routed).sum()
    });
    let routing = routing.expect("a thread can be started");
    routing.join().expect("the thread ends")
}

/// Full boards, one with chips nested as deep as can be, on a thread that has
/// no more than the calls may need.
#[test]
fn on_a_thread_with_the_stack_named() {
    let mut sheets: Vec<Vec<u8>> = ["full-typical", "full-random", "many-lanes"]
        .map(|size| r#gen::sheet(1, 0, size).expect("a size of the generator"))
        .into();
    sheets.push(nested());
    assert!(accepted(NEED, sheets) >= 3);
}

/// Ends this program: run by the test below.
#[test]
#[ignore = "overflows its stack"]
fn with_too_little() {
    accepted(NEED / 4, vec![nested()]);
}

#[test]
fn too_little_is_told() {
    let this = std::env::current_exe().expect("the test knows its file");
    let out = Command::new(this)
        .args(["--exact", "with_too_little", "--ignored"])
        .output()
        .expect("the test can be started again");
    let told = String::from_utf8_lossy(&out.stderr).into_owned();
    assert!(!out.status.success());
    assert!(told.contains("has overflowed its stack"), "{told}");
}

/// 256 chips, each inside the one before, and a wire into the innermost.
fn nested() -> Vec<u8> {
    let mut sheet = String::from("P\t0\t0\n");
    sheet += "N\t1\t3\t0\t0\t1\t1\t0\t-\t-\t-\t-\t-\n";
    sheet += "N\t2\t2\t0\t0\t1\t1\t0\t0\t8\t0\t0\t-\n";
    sheet += "C\t2\t-\n";
    for chip in 3..258 {
        sheet += &format!("C\t{chip}\t{}\n", chip - 1);
    }
    sheet += "F\t900\t257\t0\nW\t1\t1\t900\t1\n";
    sheet.into_bytes()
}
