//! Assignments by matching, for plans of every size: first every value is given as many variables as
//! it must have, then every other variable is placed, and no value ever loses a count on the way.

use super::{CountingPlan, Used};

/// What all assignments together use; nothing if there are none. Each part of the answer is asked of
/// a plan of its own: does an assignment remain if the variable takes this value, or the count stops
/// there?
pub fn used(plan: &CountingPlan) -> Option<Used> {
    assigned(plan).then(|| Used {
        domains: (0..plan.variables()).map(|variable| supported(plan, variable)).collect(),
        ranges: (0..plan.values()).map(|value| (fewest(plan, value), most(plan, value))).collect(),
    })
}

fn supported(plan: &CountingPlan, variable: usize) -> u64 {
    let taking = |value: usize| {
        let mut plan = plan.clone();
        plan.domains[variable] &= 1 << value;
        assigned(&plan)
    };
    (0..plan.values()).filter(|&value| taking(value)).fold(0, |word, value| word | 1 << value)
}

fn fewest(plan: &CountingPlan, value: usize) -> u32 {
    let (low, high) = plan.ranges[value];
    let enough = |count: &u32| assigned(&with_range(plan, value, (low, *count)));
    (low..=high).find(enough).expect("an assignment stands within the range")
}

fn most(plan: &CountingPlan, value: usize) -> u32 {
    let (low, high) = plan.ranges[value];
    let reached = |count: &u32| assigned(&with_range(plan, value, (*count, high)));
    // No value is used more often than there are variables.
    (low..=high.min(plan.variables() as u32)).rev().find(reached).expect("an assignment stands within the range")
}

fn with_range(plan: &CountingPlan, value: usize, range: (u32, u32)) -> CountingPlan {
    let mut plan = plan.clone();
    plan.ranges[value] = range;
    plan
}

/// Whether there is an assignment within all domains and count ranges.
fn assigned(plan: &CountingPlan) -> bool {
    let mut matching = Matching { plan, taken: vec![None; plan.variables()] };
    let lows = || plan.ranges.iter().map(|&(low, _)| low as usize);
    if plan.variables() < lows().sum() {
        return false;
    }
    lows().enumerate().all(|(value, low)| (0..low).all(|_| matching.fill(value, &mut 0)))
        && (0..plan.variables()).all(|variable| matching.taken[variable].is_some() || matching.place(variable, &mut 0))
}

struct Matching<'a> {
    plan: &'a CountingPlan,
    /// The value that each variable takes so far.
    taken: Vec<Option<usize>>,
}

impl Matching<'_> {
    /// Gives a value one variable more. A variable that another value has is taken if that one can
    /// be given another in turn; `tried` holds the variables that were looked at.
    fn fill(&mut self, value: usize, tried: &mut u64) -> bool {
        for variable in 0..self.plan.variables() {
            let untried = *tried >> variable & 1 == 0;
            if self.plan.domains[variable] >> value & 1 == 0 || !untried {
                continue;
            }
            *tried |= 1 << variable;
            let free = match self.taken[variable] {
                None => true,
                Some(holder) => holder != value && self.fill(holder, tried),
            };
            if free {
                self.taken[variable] = Some(value);
                return true;
            }
        }
        false
    }

    /// Gives a variable a value. Where a value is full, one of its variables goes elsewhere if it
    /// can; `tried` holds the values that were looked at.
    fn place(&mut self, variable: usize, tried: &mut u64) -> bool {
        for value in 0..self.plan.values() {
            let untried = *tried >> value & 1 == 0;
            if self.plan.domains[variable] >> value & 1 == 0 || !untried {
                continue;
            }
            *tried |= 1 << value;
            if self.has_room(value) || self.make_room(value, tried) {
                self.taken[variable] = Some(value);
                return true;
            }
        }
        false
    }

    fn has_room(&self, value: usize) -> bool {
        let uses = self.taken.iter().filter(|&&taken| taken == Some(value)).count();
        uses < self.plan.ranges[value].1 as usize
    }

    fn make_room(&mut self, value: usize, tried: &mut u64) -> bool {
        (0..self.plan.variables()).any(|variable| self.taken[variable] == Some(value) && self.place(variable, tried))
    }
}
