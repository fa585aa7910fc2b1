//! What is turned down in a network: numbers 1 to 7, each over the whole network before the next.

use crate::answer::{self, first, lowest, whole, Answer};
use crate::plan::{Arc, Plan, MOST_ARCS, MOST_NODES, MOST_SUPPLY, WIDEST_HIGH};

/// The first number that concerns the plan; `short` says that a lent buffer is too short for it.
pub fn refusal(plan: &Plan, short: bool) -> Option<Answer> {
    first([counts(plan.nodes(), plan.arcs.len()), whole(answer::BUFFER, short), limits(plan)])
}

/// 1 and 2: how many nodes and arcs there are.
pub fn counts(nodes: usize, arcs: usize) -> Option<Answer> {
    first([whole(answer::NODE_COUNT, nodes == 0 || MOST_NODES < nodes), whole(answer::ARC_COUNT, MOST_ARCS < arcs)])
}

/// 4 to 7: what the arcs and the supplies say.
pub fn limits(plan: &Plan) -> Option<Answer> {
    let misses = |arc: &Arc| plan.nodes() <= arc.from.max(arc.to) as usize;
    let crossed = |arc: &Arc| arc.high < arc.low || WIDEST_HIGH < arc.high;
    let beyond = |supply: &i32| !(-MOST_SUPPLY..=MOST_SUPPLY).contains(supply);
    let sum: i64 = plan.supplies.iter().map(|&supply| i64::from(supply)).sum();
    first([
        lowest(answer::ARC_END, plan.arcs.iter().position(misses)),
        lowest(answer::RANGE, plan.arcs.iter().position(crossed)),
        lowest(answer::SUPPLY, plan.supplies.iter().position(beyond)),
        whole(answer::SUM, sum != 0),
    ])
}
