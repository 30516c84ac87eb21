//! The lane call's refusals, and the original against a second packing.

use oracle::lanes::{answer, call};
use oracle::rng::Rng;
use oracle::{Refusal, r#gen};

fn ones(count: usize) -> Vec<u32> {
    [0, 0, 1, 0].repeat(count)
}

#[test]
fn refusals() {
    assert_eq!(answer(&[0, 0, 1]), "E 1 0");
    assert_eq!(answer(&[0, 0, 1, 0, 5]), "E 1 1");
    assert_eq!(answer(&ones(8_193)), "E 2 8192");
    let mut long = ones(8_193);
    long.push(0);
    assert_eq!(answer(&long), "E 1 8193");
    assert_eq!(answer(&[0, 4_096, 1, 0]), "E 3 0");
    assert_eq!(answer(&[0, 0, 1, 0, 4_096, 4_096, 1, 0]), "E 3 1");
    assert_eq!(answer(&[0, 0, 8_193, 0]), "E 3 0");
    assert_eq!(answer(&[0, 0, 0, 8_193]), "E 3 0");
    assert_eq!(answer(&[2, 1, 0, 0]), "E 3 0");
    assert_eq!(answer(&[4_095, 4_095, 8_192, 8_192]), "1 0");
    assert_eq!(call(&ones(3), 2), Err(Refusal::new(7, 0)));
    assert_eq!(answer(&ones(513)), "E 8 512");
    // The later order opens lane 513, wherever it stands in the list.
    let mut list = ones(513);
    list[4 * 100 + 3] = 9;
    assert_eq!(answer(&list), "E 8 100");
}

/// First fit written once more, plainly.
fn packed(list: &[u32]) -> Vec<usize> {
    let demands: Vec<&[u32]> = list.chunks_exact(4).collect();
    let mut order: Vec<usize> = (0..demands.len()).collect();
    order.sort_by_key(|i| {
        let d = demands[*i];
        (-i64::from(d[1] - d[0]), -i64::from(d[2]), d[3])
    });
    let mut ends: Vec<u32> = Vec::new();
    let mut lanes = vec![0; demands.len()];
    for i in order {
        let lane = ends
            .iter()
            .position(|e| *e < demands[i][0])
            .unwrap_or(ends.len());
        ends.resize(ends.len().max(lane + 1), 0);
        ends[lane] = demands[i][1];
        lanes[i] = lane;
    }
    lanes
}

#[test]
fn lists_from_seeds() {
    let mut refused = [0; 9];
    for i in 0..3_000 {
        let list = r#gen::lanes::list(&mut Rng::for_item(11, i));
        match call(&list, list.len() / 4) {
            Ok(l) => {
                assert_eq!(l.lanes, packed(&list));
                assert!(l.count <= 512);
            }
            Err(r) => {
                refused[r.number as usize] += 1;
                if r.number == 8 {
                    let lanes = packed(&list);
                    assert_eq!(lanes[r.line], 512);
                }
            }
        }
    }
    for number in [1, 2, 3, 8] {
        assert!(refused[number] > 0, "no list is refused with {number}");
    }
}
