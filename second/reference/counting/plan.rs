//! A counting plan, what is turned down in it, and the network that encodes it.

use crate::answer::{self, first, lowest, whole, Answer};
use crate::plan::{Arc, Plan, MOST_ARCS, MOST_NODES, WIDEST_HIGH};

/// The encoded network has one node more.
pub const MOST_VALUES_AND_VARIABLES: usize = MOST_NODES - 1;

#[derive(Clone, Debug)]
pub struct CountingPlan {
    /// One word for each variable: bit j is set if value j is in its domain.
    pub domains: Vec<u64>,
    /// For each value, how often it must and may be used.
    pub ranges: Vec<(u32, u32)>,
}

impl CountingPlan {
    /// The plan that two lists hold; a single number at the end of the counts is not read.
    pub fn of_lists(domains: &[u64], counts: &[u32]) -> CountingPlan {
        let ranges = counts.chunks_exact(2).map(|range| (range[0], range[1]));
        CountingPlan { domains: domains.to_vec(), ranges: ranges.collect() }
    }

    pub fn count_list(&self) -> Vec<u32> {
        self.ranges.iter().flat_map(|&(low, high)| [low, high]).collect()
    }

    pub fn variables(&self) -> usize {
        self.domains.len()
    }

    pub fn values(&self) -> usize {
        self.ranges.len()
    }

    /// 15 to 18, in this order.
    pub fn refusal(&self) -> Option<Answer> {
        let (variables, values) = (self.variables(), self.values());
        let names_no_value = |&domain: &u64| values < 64 && domain >> values != 0;
        let crossed = |&(low, high): &(u32, u32)| high < low || WIDEST_HIGH < high;
        first([
            whole(answer::COUNTING_NODES, MOST_VALUES_AND_VARIABLES < variables + values),
            lowest(answer::DOMAIN, self.domains.iter().position(names_no_value)),
            whole(answer::COUNTING_ARCS, MOST_ARCS < values * (variables + 1)),
            lowest(answer::COUNT_RANGE, self.ranges.iter().position(crossed)),
        ])
    }

    /// Variables, then values, then one last node; pair arcs, then count arcs.
    pub fn network(&self) -> Plan {
        let (variables, values) = (self.variables(), self.values());
        let pair = |variable: usize, value: usize| {
            let high = (self.domains[variable] >> value & 1) as u32;
            Arc::new(variable as u32, (variables + value) as u32, 0, high)
        };
        let count = |(value, &(low, high)): (usize, &(u32, u32))| {
            Arc::new((variables + value) as u32, (variables + values) as u32, low, high)
        };
        let pairs = (0..variables * values).map(|index| pair(index / values, index % values));
        let supplies = [vec![1; variables], vec![0; values], vec![-(variables as i32)]];
        Plan { arcs: pairs.chain(self.ranges.iter().enumerate().map(count)).collect(), supplies: supplies.concat() }
    }
}
