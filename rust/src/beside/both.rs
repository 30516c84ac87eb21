//! `route`, and `plan_bus`, `lay_bus` and `lay_mini_bus` one after the other, on
//! one sheet and from the same content of the buffers.

use super::room::{Found, Lending, Room, Way};
use super::truth::Truth;

/// Buffers for the one and for the other.
#[derive(Default)]
pub struct Both {
    whole: Room,
    apart: Room,
}

/// What both leave.
#[derive(Debug)]
pub struct Pair {
    pub whole: Found,
    pub apart: Found,
    /// In words, where the two differ.
    pub unlike: Vec<String>,
}

impl Both {
    /// See [`Room::anew`].
    pub fn anew() -> Self {
        Self {
            whole: Room::anew(),
            apart: Room::anew(),
        }
    }

    pub fn call(&mut self, sheet: &[u8], lending: &Lending) -> Pair {
        let whole = self.whole.call(sheet, lending, Way::Route);
        let apart = (self.apart).call_like(&self.whole, sheet, lending, Way::Apart);
        let unlike = self.unlike(&whole, &apart);
        Pair {
            whole,
            apart,
            unlike,
        }
    }

    /// The two against each other. `route` tries every refusal over all that is
    /// lent to the three calls, so its refusal is the first that one of them
    /// gives, by number; and where all of them are refused, or none is, the four
    /// output buffers are the same from end to end.
    fn unlike(&self, whole: &Found, apart: &Found) -> Vec<String> {
        let mut unlike = Vec::new();
        let refused: Vec<(usize, usize)> = (apart.reports.refusals().into_iter())
            .filter(|(number, _)| *number != 0)
            .collect();
        let first = refused.iter().min().copied().unwrap_or((0, 0));
        if whole.reports.refusals() != [first] {
            unlike.push("the refusals".to_string());
        }
        if refused.is_empty() && whole.reports.plan() != apart.reports.plan() {
            unlike.push("the counts".to_string());
        }
        if matches!(refused.len(), 0 | 3) {
            let buffers = self.whole.unlike(&self.apart);
            unlike.extend(buffers.iter().map(|name| format!("the {name}")));
        }
        for what in &mut unlike {
            *what = format!("route and the three calls: {what}");
        }
        unlike
    }
}

impl Pair {
    /// In words, what is not as it has to be; empty where nothing is. Demand 3
    /// is asked of the plan that the three calls left; that of `route` is the
    /// same byte for byte, or is told as another.
    pub fn faults(&self, truth: &Truth, lending: &Lending) -> Vec<String> {
        let mut faults = truth.faults(&self.whole, lending);
        faults.extend(truth.faults(&self.apart, lending));
        faults.extend(self.unlike.iter().cloned());
        if self.apart.reports.plan().is_some() {
            faults.extend(truth.broken(&self.apart.plan));
        }
        faults
    }
}
