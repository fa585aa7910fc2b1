//! The shortfall of a counting plan by its sets of values, without the network.
//!
//! Let a set W of values be inside. A variable adds 1 if its whole domain is in W, and nothing better
//! than 0 otherwise. Without the last node inside, the highs of W are what can leave:
//!     variables with their domain in W  -  highs of W.
//! With it, its supply -v counts, and the lows of the values outside W enter:
//!     lows outside W  -  variables with a value outside W.

use super::CountingPlan;

const MOST_VALUES: usize = 12;

/// The greatest such number, at least 0; nothing if there are too many values to try all sets.
pub fn shortfall(plan: &CountingPlan) -> Option<i64> {
    (plan.values() <= MOST_VALUES)
        .then(|| (0..1u64 << plan.values()).map(|inside| greater_of_two(plan, inside)).fold(0, i64::max))
}

fn greater_of_two(plan: &CountingPlan, inside: u64) -> i64 {
    let confined = plan.domains.iter().filter(|&&domain| domain & !inside == 0).count() as i64;
    let (mut highs, mut lows) = (0, 0);
    for (value, &(low, high)) in plan.ranges.iter().enumerate() {
        if inside >> value & 1 == 1 {
            highs += i64::from(high);
        } else {
            lows += i64::from(low);
        }
    }
    (confined - highs).max(lows - (plan.variables() as i64 - confined))
}
