//! Every assignment in turn, straight from the meaning: each variable takes a value of its domain, and
//! each value is used within its range. For plans with few choices.

use super::{CountingPlan, Used};

const MOST_TRIES: u64 = 4_096;

/// All assignments, or nothing if there are too many choices to try.
pub fn every_assignment(plan: &CountingPlan) -> Option<Vec<Vec<usize>>> {
    // An empty domain leaves no assignment, and still many beginnings of one.
    let choices = plan.domains.iter().map(|domain| u64::from(domain.count_ones().max(1)));
    if MOST_TRIES < choices.fold(1, u64::saturating_mul) {
        return None;
    }
    let mut assignments = vec![vec![]];
    for &domain in &plan.domains {
        let longer = |begun: &Vec<usize>| values_of(domain).map(|value| [&begun[..], &[value]].concat()).collect();
        assignments = assignments.iter().flat_map::<Vec<_>, _>(longer).collect();
    }
    assignments.retain(|assignment| within_ranges(plan, assignment));
    Some(assignments)
}

/// What these assignments use; nothing if there are none.
pub fn used(plan: &CountingPlan, assignments: &[Vec<usize>]) -> Option<Used> {
    assignments.first()?;
    let domain = |variable: usize| assignments.iter().fold(0, |word, taken| word | 1 << taken[variable]);
    let range = |value| {
        let uses = || assignments.iter().map(|assignment| uses(assignment, value));
        (uses().min().unwrap_or(0), uses().max().unwrap_or(0))
    };
    Some(Used { domains: (0..plan.variables()).map(domain).collect(), ranges: (0..plan.values()).map(range).collect() })
}

fn values_of(domain: u64) -> impl Iterator<Item = usize> {
    (0..64).filter(move |value| domain >> value & 1 == 1)
}

fn uses(assignment: &[usize], value: usize) -> u32 {
    assignment.iter().filter(|&&taken| taken == value).count() as u32
}

fn within_ranges(plan: &CountingPlan, assignment: &[usize]) -> bool {
    plan.ranges.iter().enumerate().all(|(value, &(low, high))| (low..=high).contains(&uses(assignment, value)))
}
