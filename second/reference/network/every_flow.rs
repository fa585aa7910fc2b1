//! Method three: every flow in turn, in dictionary order, straight from the meaning of a flow.
//! For plans with so few choices that all can be tried.

use crate::plan::Plan;

pub const MOST_TRIES: u64 = 4_096;

/// All flows of the plan, or nothing if there are too many choices to try.
pub fn every_flow(plan: &Plan) -> Option<Vec<Vec<u32>>> {
    let widths = plan.arcs.iter().map(|arc| u64::from(arc.high - arc.low) + 1);
    let tries = widths.fold(1, u64::saturating_mul);
    if MOST_TRIES < tries {
        return None;
    }
    let mut counts: Vec<u32> = plan.arcs.iter().map(|arc| arc.low).collect();
    let mut flows = Vec::new();
    for _ in 0..tries {
        if balances(plan, &counts) {
            flows.push(counts.clone());
        }
        step(plan, &mut counts);
    }
    Some(flows)
}

/// Whether at every node what goes out minus what comes in is the supply.
fn balances(plan: &Plan, counts: &[u32]) -> bool {
    let mut balance = vec![0i64; plan.nodes()];
    for (arc, &count) in plan.arcs.iter().zip(counts) {
        balance[arc.from as usize] += i64::from(count);
        balance[arc.to as usize] -= i64::from(count);
    }
    balance.iter().zip(&plan.supplies).all(|(&balance, &supply)| balance == i64::from(supply))
}

/// The counts that come next in dictionary order; after the last ones, the first again.
fn step(plan: &Plan, counts: &mut [u32]) {
    for (arc, count) in plan.arcs.iter().zip(counts).rev() {
        if *count < arc.high {
            *count += 1;
            return;
        }
        *count = arc.low;
    }
}
