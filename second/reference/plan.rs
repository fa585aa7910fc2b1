//! A network as the planner enters it, its limits, and sets of its nodes.

pub const MOST_NODES: usize = 64;
pub const MOST_ARCS: usize = 512;
pub const WIDEST_LOW: u32 = 0;
pub const WIDEST_HIGH: u32 = 65_535;
pub const MOST_SUPPLY: i32 = 1_000_000;
/// An arc in a flat list: from, to, low, high.
pub const ARC_ENTRIES: usize = 4;

/// Laid out as C lays it out, so that it can be lent as it is.
#[repr(C)]
#[derive(Clone, Copy, PartialEq, Eq, Debug)]
pub struct Arc {
    pub from: u32,
    pub to: u32,
    pub low: u32,
    pub high: u32,
}

/// A set of nodes: bit v is set if node v is inside.
#[derive(Clone, Copy, PartialEq, Eq, Debug)]
pub struct NodeSet(pub u64);

impl NodeSet {
    pub fn has(self, node: u32) -> bool {
        self.0 >> node & 1 == 1
    }

    /// One byte for each node, 1 inside and 0 outside, as a node buffer shows a set.
    pub fn marks(self, nodes: usize) -> Vec<u8> {
        (0..nodes as u32).map(|node| u8::from(self.has(node))).collect()
    }
}

impl Arc {
    pub fn new(from: u32, to: u32, low: u32, high: u32) -> Arc {
        Arc { from, to, low, high }
    }

    pub fn is_loop(&self) -> bool {
        self.from == self.to
    }

    pub fn leaves(&self, set: NodeSet) -> bool {
        set.has(self.from) && !set.has(self.to)
    }

    pub fn enters(&self, set: NodeSet) -> bool {
        !set.has(self.from) && set.has(self.to)
    }
}

#[derive(Clone, PartialEq, Eq, Debug)]
pub struct Plan {
    pub arcs: Vec<Arc>,
    pub supplies: Vec<i32>,
}

impl Plan {
    /// The plan that two lists hold. One to three numbers at the end of the arc list are not read.
    pub fn of_lists(arcs: &[u32], supplies: &[i32]) -> Plan {
        let arcs = arcs.chunks_exact(ARC_ENTRIES).map(|arc| Arc::new(arc[0], arc[1], arc[2], arc[3]));
        Plan { arcs: arcs.collect(), supplies: supplies.to_vec() }
    }

    pub fn arc_list(&self) -> Vec<u32> {
        self.arcs.iter().flat_map(|arc| [arc.from, arc.to, arc.low, arc.high]).collect()
    }

    pub fn nodes(&self) -> usize {
        self.supplies.len()
    }

    /// The supplies of a set, minus highs leaving it, plus lows entering it.
    pub fn shortfall(&self, set: NodeSet) -> i64 {
        let bound = |arc: &Arc| match (arc.leaves(set), arc.enters(set)) {
            (true, _) => -i64::from(arc.high),
            (_, true) => i64::from(arc.low),
            _ => 0,
        };
        self.supply(set) + self.arcs.iter().map(bound).sum::<i64>()
    }

    /// The supplies of a set, plus highs entering it, minus lows leaving it.
    pub fn allowance(&self, set: NodeSet) -> i64 {
        let bound = |arc: &Arc| match (arc.leaves(set), arc.enters(set)) {
            (true, _) => -i64::from(arc.low),
            (_, true) => i64::from(arc.high),
            _ => 0,
        };
        self.supply(set) + self.arcs.iter().map(bound).sum::<i64>()
    }

    fn supply(&self, set: NodeSet) -> i64 {
        let inside = self.supplies.iter().zip(0..).filter(|&(_, node)| set.has(node));
        inside.map(|(&supply, _)| i64::from(supply)).sum()
    }

    /// The same plan with one arc held at a count.
    pub fn held(&self, arc: usize, count: u32) -> Plan {
        let mut plan = self.clone();
        plan.arcs[arc].low = count;
        plan.arcs[arc].high = count;
        plan
    }

    pub fn without(&self, arc: usize) -> Plan {
        let mut plan = self.clone();
        plan.arcs.remove(arc);
        plan
    }
}
