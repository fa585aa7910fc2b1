//! Counting plans at random, around hidden assignments, with limits met and passed.

use reference::counting::{CountingPlan, MOST_VALUES_AND_VARIABLES};
use reference::plan::{MOST_ARCS, WIDEST_HIGH};

use crate::ask::counting::Counting;
use crate::random::Random;

/// Variables and values at the limits and one past them: 64 nodes and 65, 512 arcs and 513, and none.
pub const CORNERS: [(usize, usize); 18] = [
    (0, 0),
    (1, 0),
    (0, 1),
    (63, 0),
    (0, 63),
    (62, 1),
    (1, 62),
    (54, 9),
    (8, 55),
    (31, 16),
    (15, 32),
    (26, 19),
    (18, 27),
    (9, 54),
    (64, 0),
    (0, 64),
    (63, 1),
    (1, 70),
];

/// A domain of so many values that has the hidden value in it.
type Domain = fn(&mut Random, usize, usize) -> u64;
/// A range around how often a value is used.
type Range = fn(&mut Random, u32) -> (u32, u32);

const DOMAINS: [Domain; 4] = [full, half, few, single];
const RANGES: [Range; 5] = [once, exact, near, any, from_none];

pub fn small(random: &mut Random) -> Counting {
    let (variables, values) = (random.below(7), random.below(7));
    drawn(random, variables, values)
}

/// Of any size within both limits.
pub fn large(random: &mut Random) -> Counting {
    let values = random.between(1, MOST_VALUES_AND_VARIABLES);
    let most = (MOST_VALUES_AND_VARIABLES - values).min(MOST_ARCS / values - 1);
    let variables = random.between(0, most);
    drawn(random, variables, values)
}

/// Of one size, right or broken.
pub fn drawn(random: &mut Random, variables: usize, values: usize) -> Counting {
    let hidden: Vec<usize> = (0..variables).map(|_| random.below(values.clamp(1, 63))).collect();
    let (domain, range) = (random.pick(&DOMAINS), random.pick(&RANGES));
    let uses = |value| hidden.iter().filter(|&&taken| taken == value).count() as u32;
    let mut plan = CountingPlan {
        domains: hidden.iter().map(|&taken| domain(random, values.min(63), taken)).collect(),
        ranges: (0..values).map(|value| range(random, uses(value))).collect(),
    };
    if random.one_in(4) {
        break_plan(random, &mut plan);
    }
    let mut counts = plan.count_list();
    if random.one_in(8) {
        counts.push(random.word() as u32);
    }
    Counting::of_lists(&plan.domains, counts)
}

fn full(_: &mut Random, values: usize, _: usize) -> u64 {
    (1 << values) - 1
}

fn half(random: &mut Random, values: usize, taken: usize) -> u64 {
    (random.word() | 1 << taken) & ((1 << values) - 1)
}

fn few(random: &mut Random, values: usize, taken: usize) -> u64 {
    (1 << taken | 1 << random.below(values.max(1)) | 1 << random.below(values.max(1))) & ((1 << values) - 1)
}

fn single(random: &mut Random, values: usize, taken: usize) -> u64 {
    if random.one_in(4) {
        half(random, values, taken)
    } else {
        1 << taken & ((1 << values) - 1)
    }
}

fn once(_: &mut Random, _: u32) -> (u32, u32) {
    (0, 1)
}

fn exact(_: &mut Random, uses: u32) -> (u32, u32) {
    (uses, uses)
}

fn near(random: &mut Random, uses: u32) -> (u32, u32) {
    (uses.saturating_sub(random.up_to(2)), uses + random.up_to(2))
}

fn any(random: &mut Random, uses: u32) -> (u32, u32) {
    (random.up_to(uses), random.pick(&[uses, uses + 1, 300, WIDEST_HIGH]))
}

fn from_none(random: &mut Random, uses: u32) -> (u32, u32) {
    (0, uses + random.up_to(1))
}

/// One to three things that are wrong, or that leave no assignment.
fn break_plan(random: &mut Random, plan: &mut CountingPlan) {
    for _ in 0..random.between(1, 3) {
        match random.below(5) {
            0 => change(random, &mut plan.domains, |_| 0),
            1 => {
                let past = random.pick(&[plan.ranges.len().min(63), 63, 63]);
                change(random, &mut plan.domains, |domain| domain | 1 << past);
            }
            2 => change(random, &mut plan.ranges, |(_, high)| (high.saturating_add(1), high)),
            3 => {
                let high = random.pick(&[WIDEST_HIGH + 1, u32::MAX]);
                change(random, &mut plan.ranges, |(low, _)| (low, high));
            }
            _ => change(random, &mut plan.ranges, |(low, high)| (low.saturating_add(1), high.saturating_add(1))),
        }
    }
}

fn change<T: Copy>(random: &mut Random, entries: &mut [T], other: impl Fn(T) -> T) {
    if !entries.is_empty() {
        let index = random.below(entries.len());
        entries[index] = other(entries[index]);
    }
}
