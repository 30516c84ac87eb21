//! The library's own text beside that of the plan it leaves in the buffers.

use panzhyqur::{Buffers, Limits};

fn sheet(short: &str) -> Vec<u8> {
    short.replace(' ', "\t").replace(';', "\n").into_bytes()
}

const A: &str = "P 0 10;N 1 0 1 0 2 2 0 20 0 0 0 -;N 2 0 0 0 2 2 0 10 8 0 10 -;N 3 0 0 0 2 2 0 0 8 0 20 -;W 1 5 2 1;W 1 5 3 1;";

#[test]
fn plan_sheets_and_e_lines() {
    let mut buffers = Buffers::for_limits(&Limits::PROGRAM);
    let mut said = vec![0; buffers.answer_room()];
    for text in [A, "", "P 07 0;", "P 0 0;P 0 0", "C 9 -;", "P 0 1000001;"] {
        let sheet = sheet(text);
        let expected = match buffers.route(&sheet) {
            Ok(plan) => plan.to_string(),
            Err(refusal) => refusal.sheet(),
        };
        let answer = buffers.answer(&sheet, &mut said);
        assert_eq!(answer, Some(expected.as_bytes()), "{text}");
    }
}

#[test]
fn too_few_bytes() {
    let mut buffers = Buffers::for_sheet(&sheet(A));
    let room = buffers.answer_room();
    let mut said = vec![7; room];
    assert_eq!(buffers.answer(&sheet(A), &mut said[..127]), None);
    assert!(said.iter().all(|b| *b == 7));
    assert_eq!(
        buffers.answer(&sheet(A), &mut said[..room - 1]),
        Some("E\t7\t0\n".as_bytes())
    );
    assert!(said[6..].iter().all(|b| *b == 7));
    let whole = buffers.answer(&sheet(A), &mut said).map(<[u8]>::len);
    assert!(whole.is_some_and(|n| n > 6 && n < room));
}
