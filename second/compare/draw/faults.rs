//! Networks with one or several things wrong, so that the order of the numbers is asked for.

use reference::plan::{Plan, ARC_ENTRIES, MOST_ARCS, MOST_NODES, MOST_SUPPLY, WIDEST_HIGH};

use crate::ask::network::Network;
use crate::random::Random;

/// The two lists of a network while they are being broken.
struct Lists {
    arcs: Vec<u32>,
    supplies: Vec<i32>,
}

type Break = fn(&mut Random, &mut Lists);

const BREAKS: [Break; 8] =
    [no_nodes, too_many_nodes, too_many_arcs, wrong_end, crossed_range, wide_range, wrong_supply, wrong_sum];

pub fn broken(random: &mut Random, plan: &Plan) -> Network {
    let mut lists = Lists { arcs: plan.arc_list(), supplies: plan.supplies.clone() };
    for _ in 0..random.between(1, 4) {
        random.pick(&BREAKS)(random, &mut lists);
    }
    with_broken_entry(random, &mut lists.arcs);
    Network::of_lists(lists.arcs, &lists.supplies)
}

/// The same network, with one to three numbers more in the arc list: they are not read.
pub fn with_rest(random: &mut Random, plan: &Plan) -> Network {
    let mut arcs = plan.arc_list();
    with_broken_entry(random, &mut arcs);
    Network::of_lists(arcs, &plan.supplies)
}

fn with_broken_entry(random: &mut Random, arcs: &mut Vec<u32>) {
    for _ in 0..random.below(ARC_ENTRIES) {
        arcs.push(random.word() as u32);
    }
}

fn no_nodes(_: &mut Random, lists: &mut Lists) {
    lists.supplies.clear();
}

fn too_many_nodes(random: &mut Random, lists: &mut Lists) {
    let nodes = MOST_NODES + random.pick(&[1, 1, 2, 64, 200]);
    lists.supplies.resize(nodes, 0);
}

fn too_many_arcs(random: &mut Random, lists: &mut Lists) {
    let arcs = MOST_ARCS + random.pick(&[1, 1, 2, 100]);
    lists.arcs.resize(ARC_ENTRIES * arcs, 0);
}

fn wrong_end(random: &mut Random, lists: &mut Lists) {
    let nodes = lists.supplies.len() as u32;
    let end = random.pick(&[nodes, nodes, nodes + 1, 64, 255, 256, u32::MAX]);
    let side = random.below(2);
    change_arc(random, lists, |arc| arc[side] = end);
}

fn crossed_range(random: &mut Random, lists: &mut Lists) {
    let by = random.pick(&[1, 1, 2, 70_000]);
    change_arc(random, lists, |arc| arc[2] = arc[3].saturating_add(by));
}

fn wide_range(random: &mut Random, lists: &mut Lists) {
    let high = random.pick(&[WIDEST_HIGH + 1, WIDEST_HIGH + 1, 1 << 20, u32::MAX]);
    change_arc(random, lists, |arc| arc[3] = high);
}

fn change_arc(random: &mut Random, lists: &mut Lists, change: impl Fn(&mut [u32])) {
    let arcs = lists.arcs.len() / ARC_ENTRIES;
    if 0 < arcs {
        let at = ARC_ENTRIES * random.below(arcs);
        change(&mut lists.arcs[at..at + ARC_ENTRIES]);
    }
}

fn wrong_supply(random: &mut Random, lists: &mut Lists) {
    let supply = random.pick(&[MOST_SUPPLY + 1, -MOST_SUPPLY - 1, 1 << 24, i32::MIN, i32::MAX]);
    if !lists.supplies.is_empty() {
        let node = random.below(lists.supplies.len());
        lists.supplies[node] = supply;
    }
}

fn wrong_sum(random: &mut Random, lists: &mut Lists) {
    if !lists.supplies.is_empty() {
        let node = random.below(lists.supplies.len());
        let by = random.pick(&[1, -1, 256, 65_536]);
        lists.supplies[node] = lists.supplies[node].wrapping_add(by);
    }
}
