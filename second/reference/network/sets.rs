//! Method one: every node set in turn, by document 01's sums. For plans of few nodes.

use super::{Cut, End, Method};
use crate::plan::{Arc, NodeSet, Plan};

pub struct Sets {
    plan: Plan,
    /// For each set, by its word.
    shortfalls: Vec<i64>,
    /// For each set, by its word.
    allowances: Vec<i64>,
}

impl Sets {
    /// With ten nodes there are 1,024 sets, and a plan still takes well under a millisecond.
    const MOST_NODES: usize = 10;

    /// Nothing if the plan has too many nodes.
    pub fn of(plan: &Plan) -> Option<Sets> {
        let every = || (0..1u64 << plan.nodes()).map(NodeSet);
        (plan.nodes() <= Sets::MOST_NODES).then(|| Sets {
            plan: plan.clone(),
            shortfalls: every().map(|set| plan.shortfall(set)).collect(),
            allowances: every().map(|set| plan.allowance(set)).collect(),
        })
    }

    /// The sets that have an arc's `from` inside and its `to` outside.
    fn across<'b>(&self, arc: &'b Arc) -> impl Iterator<Item = NodeSet> + use<'b> {
        (0..1u64 << self.plan.nodes()).map(NodeSet).filter(|&set| arc.leaves(set))
    }

    fn range(&self, arc: &Arc) -> (u32, u32) {
        let forced = self.across(arc).map(|set| self.forces(arc, set));
        let allowed = self.across(arc).map(|set| self.allows(arc, set));
        (forced.fold(i64::from(arc.low), i64::max) as u32, allowed.fold(i64::from(arc.high), i64::min) as u32)
    }

    /// What a set forces onto an arc that leaves it: its shortfall, were it not for the arc's own high.
    fn forces(&self, arc: &Arc, set: NodeSet) -> i64 {
        self.shortfalls[set.0 as usize] + i64::from(arc.high)
    }

    /// What a set allows on an arc that leaves it: its allowance, were it not for the arc's own low.
    fn allows(&self, arc: &Arc, set: NodeSet) -> i64 {
        self.allowances[set.0 as usize] + i64::from(arc.low)
    }
}

impl Method for Sets {
    fn shortage(&self) -> Option<Cut> {
        let sums = self.shortfalls.iter().zip(0..).map(|(&value, word)| Cut { value, set: NodeSet(word) });
        greatest(sums).filter(|cut| 0 < cut.value)
    }

    /// Hoffman's condition, asked again for each arc: the least high under which a flow is left.
    fn first_flow(&self) -> Vec<u32> {
        let mut shortfalls = self.shortfalls.clone();
        let settled = |arc: &Arc| {
            let count = least_high(arc, &shortfalls);
            hold(arc, count, &mut shortfalls);
            count
        };
        self.plan.arcs.iter().map(settled).collect()
    }

    fn ranges(&self) -> Vec<(u32, u32)> {
        self.plan.arcs.iter().map(|arc| self.range(arc)).collect()
    }

    fn tightest(&self, arc: usize, end: End) -> Cut {
        let arc = &self.plan.arcs[arc];
        match end {
            End::Low => greatest(self.across(arc).map(|set| Cut { value: self.forces(arc, set), set })),
            End::High => greatest(self.across(arc).map(|set| Cut { value: -self.allows(arc, set), set }))
                .map(|cut| Cut { value: -cut.value, ..cut }),
        }
        .expect("an arc that is no loop leaves the set of its from alone")
    }
}

/// The greatest value, with the set that is contained in all others of that value.
fn greatest(cuts: impl Iterator<Item = Cut>) -> Option<Cut> {
    let cuts: Vec<Cut> = cuts.collect();
    let value = cuts.iter().map(|cut| cut.value).max()?;
    let equals = || cuts.iter().filter(|cut| cut.value == value);
    let common = NodeSet(equals().fold(u64::MAX, |word, cut| word & cut.set.0));
    assert!(equals().any(|cut| cut.set == common), "the best sets are closed under intersection");
    Some(Cut { value, set: common })
}

/// The least high for one arc that leaves no set with a positive shortfall, by bisection.
fn least_high(arc: &Arc, shortfalls: &[i64]) -> u32 {
    let (mut least, mut most) = (arc.low, arc.high);
    while least < most {
        let middle = least + (most - least) / 2;
        if runs_under(arc, middle, shortfalls) {
            most = middle;
        } else {
            least = middle + 1;
        }
    }
    least
}

fn runs_under(arc: &Arc, high: u32, shortfalls: &[i64]) -> bool {
    let lowered = i64::from(arc.high - high);
    let raised = |set| if arc.leaves(set) { lowered } else { 0 };
    shortfalls.iter().zip(0..).all(|(&shortfall, word)| shortfall + raised(NodeSet(word)) <= 0)
}

/// Has every shortfall follow an arc that is now held at a count.
fn hold(arc: &Arc, count: u32, shortfalls: &mut [i64]) {
    for (shortfall, word) in shortfalls.iter_mut().zip(0..) {
        let set = NodeSet(word);
        *shortfall += match (arc.leaves(set), arc.enters(set)) {
            (true, _) => i64::from(arc.high - count),
            (_, true) => i64::from(count - arc.low),
            _ => 0,
        };
    }
}
