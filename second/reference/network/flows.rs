//! Method two: greatest flows over arc lists. For plans of every size.
//! A set is found as what a greatest flow leaves reachable; an end of an arc by moving its count to
//! and from ways that avoid it. The two have nothing in common but `Net`.

use super::max_flow::Net;
use super::{Cut, End, Method};
use crate::plan::{Arc, NodeSet, Plan};

/// More than all highs of a plan together.
const ENDLESS: i64 = 1 << 40;

pub struct Flows {
    plan: Plan,
    /// The net with one of the plan's flows in it, or the shortage set.
    standing: Result<Net, Cut>,
}

impl Flows {
    pub fn of(plan: &Plan) -> Flows {
        Flows { plan: plan.clone(), standing: settle(plan) }
    }

    fn running(&self) -> Running<'_> {
        Running { plan: &self.plan, net: self.standing.clone().expect("a plan with a flow") }
    }
}

impl Method for Flows {
    fn shortage(&self) -> Option<Cut> {
        self.standing.as_ref().err().copied()
    }

    fn first_flow(&self) -> Vec<u32> {
        let mut running = self.running();
        let mut settled = |arc| {
            let count = running.lower(arc);
            running.freeze(arc);
            count
        };
        (0..self.plan.arcs.len()).map(&mut settled).collect()
    }

    fn ranges(&self) -> Vec<(u32, u32)> {
        let mut running = self.running();
        (0..self.plan.arcs.len()).map(|arc| (running.lower(arc), running.raise(arc))).collect()
    }

    /// What S allows at most is, negated, the shortfall of all nodes outside S: the least S for a high
    /// end is what the largest set of greatest shortfall leaves over.
    fn tightest(&self, arc: usize, end: End) -> Cut {
        let Arc { from, to, .. } = self.plan.arcs[arc];
        let others = self.plan.without(arc);
        match end {
            End::Low => {
                let set = Entered::apart(&others, from, to).least_set();
                Cut { value: others.shortfall(set), set }
            }
            End::High => {
                let set = Entered::apart(&others, to, from).outside_largest_set();
                Cut { value: others.allowance(set), set }
            }
        }
    }
}

/// A plan as a net: arc k is edge 2k with the room above its low. What a node has too much with all
/// arcs at their lows comes from the source, what it lacks goes to the sink.
struct Entered {
    net: Net,
    source: usize,
    sink: usize,
    total: i64,
}

impl Entered {
    fn of(plan: &Plan) -> Entered {
        let (source, sink) = (plan.nodes(), plan.nodes() + 1);
        let mut net = Net::of_nodes(plan.nodes() + 2);
        let mut excess: Vec<i64> = plan.supplies.iter().map(|&supply| i64::from(supply)).collect();
        for arc in &plan.arcs {
            net.join(arc.from as usize, arc.to as usize, i64::from(arc.high - arc.low));
            excess[arc.from as usize] -= i64::from(arc.low);
            excess[arc.to as usize] += i64::from(arc.low);
        }
        for (node, &excess) in excess.iter().enumerate() {
            if 0 < excess {
                net.join(source, node, excess);
            } else {
                net.join(node, sink, -excess);
            }
        }
        Entered { net, source, sink, total: excess.iter().map(|&excess| excess.max(0)).sum() }
    }

    /// With a greatest flow, over the sets with `inside` inside and `outside` outside.
    fn apart(plan: &Plan, inside: u32, outside: u32) -> Entered {
        let mut entered = Entered::of(plan);
        let (source, sink) = (entered.source, entered.sink);
        entered.net.join(source, inside as usize, ENDLESS);
        entered.net.join(outside as usize, sink, ENDLESS);
        entered.net.push(source, sink, ENDLESS);
        entered
    }

    /// The least of all sets of greatest shortfall: what the source still reaches.
    fn least_set(&self) -> NodeSet {
        self.node_set(&self.net.reached_from(self.source))
    }

    /// The largest of all sets of greatest shortfall leaves over what still reaches the sink.
    fn outside_largest_set(&self) -> NodeSet {
        self.node_set(&self.net.reaching(self.sink))
    }

    fn node_set(&self, marked: &[bool]) -> NodeSet {
        NodeSet((0..self.source).filter(|&node| marked[node]).fold(0, |word, node| word | 1 << node))
    }
}

fn settle(plan: &Plan) -> Result<Net, Cut> {
    let mut entered = Entered::of(plan);
    let pushed = entered.net.push(entered.source, entered.sink, ENDLESS);
    if pushed < entered.total {
        let set = entered.least_set();
        let value = plan.shortfall(set);
        assert_eq!(value, entered.total - pushed, "no set can have a greater shortfall");
        return Err(Cut { value, set });
    }
    // The supplies stand: nothing may pass through the source or the sink any more.
    entered.net.room[2 * plan.arcs.len()..].fill(0);
    Ok(entered.net)
}

/// A plan with one of its flows, which changes from one arc to the next and is never shown.
struct Running<'a> {
    plan: &'a Plan,
    net: Net,
}

impl Running<'_> {
    /// Brings an arc to its smallest count.
    fn lower(&mut self, arc: usize) -> u32 {
        let Arc { from, to, low, .. } = self.plan.arcs[arc];
        let [ahead, above] = self.take_out(arc);
        let moved = self.divert(from, to, above);
        self.put_back(arc, [ahead + moved, above - moved]);
        low + (above - moved) as u32
    }

    /// Brings an arc to its largest count.
    fn raise(&mut self, arc: usize) -> u32 {
        let Arc { from, to, low, .. } = self.plan.arcs[arc];
        let [ahead, above] = self.take_out(arc);
        let moved = self.divert(to, from, ahead);
        self.put_back(arc, [ahead - moved, above + moved]);
        low + (above + moved) as u32
    }

    /// From here on the arc keeps its count.
    fn freeze(&mut self, arc: usize) {
        self.take_out(arc);
    }

    /// A loop's count comes back to where it leaves, so all of it can be moved.
    fn divert(&mut self, from: u32, to: u32, most: i64) -> i64 {
        if from == to {
            most
        } else {
            self.net.push(from as usize, to as usize, most)
        }
    }

    fn take_out(&mut self, arc: usize) -> [i64; 2] {
        let rooms = [self.net.room[2 * arc], self.net.room[2 * arc + 1]];
        self.put_back(arc, [0, 0]);
        rooms
    }

    fn put_back(&mut self, arc: usize, rooms: [i64; 2]) {
        self.net.room[2 * arc..2 * arc + 2].copy_from_slice(&rooms);
    }
}
