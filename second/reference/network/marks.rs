//! Which bounds are cited: exactly those in the sum of the set, except the widest range's own ends.

use super::End;
use crate::plan::{Arc, NodeSet, Plan, WIDEST_HIGH, WIDEST_LOW};

const NOT_CITED: u32 = 0;
const LOW_CITED: u32 = 1;
const HIGH_CITED: u32 = 2;

/// For a "no": highs leaving and lows entering.
pub fn of_no(plan: &Plan, set: NodeSet) -> Vec<u32> {
    plan.arcs.iter().map(|arc| mark(arc, arc.leaves(set), arc.enters(set))).collect()
}

/// For an end of arc k: the same for its low, the two sides swapped for its high; never k itself.
pub fn of_reason(plan: &Plan, asked: usize, end: End, set: NodeSet) -> Vec<u32> {
    let mark_of = |(index, arc): (usize, &Arc)| match end {
        _ if index == asked => NOT_CITED,
        End::Low => mark(arc, arc.leaves(set), arc.enters(set)),
        End::High => mark(arc, arc.enters(set), arc.leaves(set)),
    };
    plan.arcs.iter().enumerate().map(mark_of).collect()
}

fn mark(arc: &Arc, high_used: bool, low_used: bool) -> u32 {
    if high_used && arc.high != WIDEST_HIGH {
        HIGH_CITED
    } else if low_used && arc.low != WIDEST_LOW {
        LOW_CITED
    } else {
        NOT_CITED
    }
}
