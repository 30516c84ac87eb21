//! Demand lists for the lane call: four numbers a demand.

use crate::rng::Rng;

/// A demand list; about one in four is to be refused.
pub fn list(rng: &mut Rng) -> Vec<u32> {
    let mut list = match rng.below(40) {
        0 => many_lanes(rng),
        1 => long(rng),
        _ => small(rng),
    };
    if rng.chance(20) {
        damage(rng, &mut list);
    }
    list
}

fn small(rng: &mut Rng) -> Vec<u32> {
    let rows = rng.pick(&[1, 2, 4, 8, 40, 4_096]);
    let consumers = rng.pick(&[1, 2, 4, 8_193]);
    let orders = rng.pick(&[1, 3, 8_193]);
    let most = if rng.chance(30) { 60 } else { 9 };
    let mut list = Vec::new();
    for _ in 0..rng.below(most) {
        push(rng, &mut list, rows, consumers, orders);
    }
    list
}

fn push(rng: &mut Rng, list: &mut Vec<u32>, rows: usize, consumers: usize, orders: usize) {
    let (a, b) = (rng.below(rows) as u32, rng.below(rows) as u32);
    let wide = rng.chance(60);
    let (first, last) = if wide { (a.min(b), a.max(b)) } else { (a, a) };
    list.extend([
        first,
        last,
        rng.below(consumers) as u32,
        rng.below(orders) as u32,
    ]);
}

/// At and around 512 and 513 lanes: one-row demands on one row, others
/// before, behind and among them.
fn many_lanes(rng: &mut Rng) -> Vec<u32> {
    let lanes = 510 + rng.below(6);
    let row = rng.pick(&[0, 7, 4_095]);
    let mut list = Vec::new();
    for i in 0..lanes {
        let order = if rng.chance(50) { i as u32 } else { 0 };
        list.extend([row, row, rng.below(3) as u32, order]);
        if rng.chance(20) {
            push(rng, &mut list, 4_096, 3, 8_193);
        }
    }
    list
}

/// Up to the most demands, and around it.
fn long(rng: &mut Rng) -> Vec<u32> {
    let count = rng.pick(&[1_000, 8_191, 8_192, 8_193, 8_200]);
    let rows = rng.pick(&[64, 4_096]);
    let short = rng.chance(70);
    let mut list = Vec::new();
    for _ in 0..count {
        let first = rng.below(rows) as u32;
        let reach = if short {
            rng.below(20)
        } else {
            rng.below(rows)
        };
        let last = (first + reach as u32).min(4_095);
        list.extend([first, last, rng.below(9) as u32, rng.below(8_193) as u32]);
    }
    list
}

fn damage(rng: &mut Rng, list: &mut Vec<u32>) {
    if rng.chance(30) || list.is_empty() {
        for _ in 0..1 + rng.below(3) {
            list.push(rng.below(5) as u32);
        }
        return;
    }
    let at = rng.below(list.len());
    match rng.below(3) {
        0 => {
            list.pop();
        }
        1 => list[at] = rng.pick(&[4_096, 8_193, 8_192, 4_095, u32::MAX, 1 << 31]),
        _ => {
            // A last row under its first.
            let demand = at / 4 * 4;
            if demand + 1 < list.len() {
                list[demand] = list[demand + 1] + 1;
            }
        }
    }
}
