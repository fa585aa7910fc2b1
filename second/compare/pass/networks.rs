//! Random networks of every size, right and broken, and all requests on each.

use reference::plan::{Arc, Plan, MOST_ARCS, MOST_NODES};

use super::files;
use crate::ask::network as ask;
use crate::ask::network::Network;
use crate::draw::{faults, network};
use crate::run::Run;

/// How many nodes and arcs are drawn, about how many arcs is asked, and how often in a hundred rounds.
struct Size {
    nodes: [usize; 2],
    arcs: [usize; 2],
    asked: usize,
    times: usize,
}

const SIZES: [Size; 5] = [
    Size { nodes: [1, 5], arcs: [0, 6], asked: 6, times: 300 },
    Size { nodes: [1, 10], arcs: [0, 24], asked: 8, times: 300 },
    Size { nodes: [11, MOST_NODES], arcs: [0, 96], asked: 6, times: 100 },
    Size { nodes: [30, MOST_NODES], arcs: [97, MOST_ARCS], asked: 4, times: 30 },
    Size { nodes: [MOST_NODES, MOST_NODES], arcs: [MOST_ARCS, MOST_ARCS], asked: 4, times: 15 },
];

pub fn round(run: &mut Run, number: usize) {
    for size in &SIZES {
        // Spread evenly over a hundred rounds: so many with this round, less those before it.
        let due = (number + 1) * size.times / 100 - number * size.times / 100;
        for _ in 0..due {
            plan(run, size);
        }
    }
}

fn plan(run: &mut Run, size: &Size) {
    let nodes = run.random.between(size.nodes[0], size.nodes[1]);
    let arcs = run.random.between(size.arcs[0], size.arcs[1]);
    let plan = network::drawn(&mut run.random, nodes, arcs);
    if run.random.one_in(3) {
        let broken = faults::broken(&mut run.random, &plan);
        everything(run, &broken, 1);
    }
    let network = faults::with_rest(&mut run.random, &plan);
    everything(run, &network, size.asked);
}

/// All requests on one network; reasons and held counts for some of its arcs.
pub fn everything(run: &mut Run, network: &Network, asked: usize) {
    let Plan { arcs, supplies } = network.plan();
    let (arcs, nodes) = (arcs.len(), supplies.len());
    let rooms = |run: &mut Run, second| [run.length_for(arcs), run.length_for(second)];
    let (flow_rooms, narrow_rooms) = (rooms(run, nodes), rooms(run, arcs));
    ask::flow(run, network, flow_rooms);
    ask::narrow(run, network, narrow_rooms);
    ask::flow_arcs(run, network, flow_rooms);
    ask::narrow_arcs(run, network, narrow_rooms);
    about_arcs(run, network, asked);
    files::of_network(run, network);
}

/// Both ends and two counts of some arcs, then what does not exist.
fn about_arcs(run: &mut Run, network: &Network, asked: usize) {
    for arc in arcs_to_ask(run, network, asked) {
        reason(run, network, arc as u32, 0);
        reason(run, network, arc as u32, 1);
        hold(run, network, arc);
    }
    let arcs = network.plan().arcs.len();
    let missing = run.random.pick(&[arcs as u32, arcs as u32, arcs as u32 + 1, 1 << 20, u32::MAX]);
    let (end, no_end) = (run.random.pick(&[0, 1, 2]), run.random.pick(&[2, 3, 256, u32::MAX]));
    reason(run, network, missing, end);
    reason(run, network, 0, no_end);
    let room = run.length_for(arcs);
    ask::held(run, network, missing, 0, room);
}

/// Some arcs in a row, and some with an end that moved: in large plans there are few of these.
fn arcs_to_ask(run: &mut Run, network: &Network, asked: usize) -> Vec<usize> {
    let arcs = &network.plan().arcs;
    let first = run.random.below(arcs.len().max(1));
    let in_a_row = (0..asked.min(arcs.len())).map(|step| (first + step) % arcs.len());
    let ranges = network.questions.ranges().iter();
    let moved = |&(_, (arc, &range)): &(usize, (&Arc, &(u32, u32)))| (arc.low, arc.high) != range;
    let moved: Vec<usize> = arcs.iter().zip(ranges).enumerate().filter(moved).map(|(index, _)| index).collect();
    let some_moved = (0..asked.min(moved.len())).map(|_| run.random.pick(&moved));
    in_a_row.chain(some_moved).collect()
}

fn reason(run: &mut Run, network: &Network, arc: u32, end: u32) {
    let rooms = [run.length_for(network.plan().arcs.len()), run.length_for(network.plan().nodes())];
    ask::reason(run, network, arc, end, rooms);
}

/// Two counts: near the ends of the arc's own range or of the narrowed one, or anything.
fn hold(run: &mut Run, network: &Network, arc: usize) {
    let own = network.plan().arcs[arc];
    let (low, high) = network.questions.ranges().get(arc).copied().unwrap_or((own.low, own.high));
    let between = low.saturating_add(run.random.up_to(high.saturating_sub(low)));
    let outside = [low.wrapping_sub(1), high.saturating_add(1), own.low, own.high, u32::MAX];
    for count in [run.random.pick(&[low, high, between]), run.random.pick(&outside)] {
        let room = run.length_for(network.plan().arcs.len());
        ask::held(run, network, arc as u32, count, room);
    }
}
