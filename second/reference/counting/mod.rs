//! The requests about a counting plan: new domains and count ranges, and the encoded network.

mod every_assignment;
mod hall;
mod matching;
mod plan;

pub use plan::{CountingPlan, MOST_VALUES_AND_VARIABLES};

use crate::answer::{whole, Answer, BUFFER};
use crate::network::greatest_shortfall;
use every_assignment::every_assignment;

/// New domains and new count ranges: what all assignments together use.
#[derive(PartialEq, Eq, Debug)]
struct Used {
    domains: Vec<u64>,
    ranges: Vec<(u32, u32)>,
}

/// The answer, and the beginnings of the buffers for domains, count lows and count highs.
pub fn count(plan: &CountingPlan, rooms: [usize; 3]) -> (Answer, Vec<u64>, Vec<u32>, Vec<u32>) {
    let [domain_room, low_room, high_room] = rooms;
    let short = domain_room < plan.variables() || low_room.min(high_room) < plan.values();
    if let Some(refused) = plan.refusal().or_else(|| whole(BUFFER, short)) {
        return (refused, vec![], vec![], vec![]);
    }
    match used(plan) {
        None => (Answer::short(shortfall(plan)), vec![], vec![], vec![]),
        Some(used) => {
            let (lows, highs) = used.ranges.into_iter().unzip();
            (Answer::DONE, used.domains, lows, highs)
        }
    }
}

/// The answer, and the beginnings of the buffers for the encoded network's supplies and arcs.
pub fn network(plan: &CountingPlan, supply_room: usize, arc_room: usize) -> (Answer, Vec<i32>, Vec<u32>) {
    if let Some(refused) = plan.refusal() {
        return (refused, vec![], vec![]);
    }
    let network = plan.network();
    let arcs = network.arc_list();
    // A broken arc at the buffer's end holds nothing; the arcs' numbers come in fours all the same.
    match whole(BUFFER, supply_room < network.nodes() || arc_room < arcs.len()) {
        Some(refused) => (refused, vec![], vec![]),
        None => (Answer::DONE, network.supplies, arcs),
    }
}

/// By matching, and by every assignment in turn where there are few.
fn used(plan: &CountingPlan) -> Option<Used> {
    let found = matching::used(plan);
    if let Some(every) = every_assignment(plan) {
        assert_eq!(found, every_assignment::used(plan, &every), "matching and trying all disagree: {plan:?}");
    }
    found
}

/// By the encoded network, as document 01 defines it, and by the sets of values where they are few.
fn shortfall(plan: &CountingPlan) -> i64 {
    let found = greatest_shortfall(&plan.network());
    if let Some(by_values) = hall::shortfall(plan) {
        assert_eq!(found, by_values, "the network and the value sets disagree: {plan:?}");
    }
    found
}
