//! The greatest flow from one node to another over lists of edges: Dinic's algorithm.

/// Edge e and edge e ^ 1 are the two directions of one connection.
#[derive(Clone)]
pub struct Net {
    edges_of: Vec<Vec<usize>>,
    head: Vec<usize>,
    pub room: Vec<i64>,
    level: Vec<usize>,
    /// For each node, the first of its edges that a blocking search has not used up.
    next: Vec<usize>,
}

const UNREACHED: usize = usize::MAX;

impl Net {
    pub fn of_nodes(nodes: usize) -> Net {
        Net {
            edges_of: vec![Vec::new(); nodes],
            head: Vec::new(),
            room: Vec::new(),
            level: vec![UNREACHED; nodes],
            next: vec![0; nodes],
        }
    }

    /// Adds an edge with room one way and none the other, and gives its index.
    pub fn join(&mut self, from: usize, to: usize, room: i64) -> usize {
        let edge = self.head.len();
        self.head.extend([to, from]);
        self.room.extend([room, 0]);
        self.edges_of[from].push(edge);
        self.edges_of[to].push(edge + 1);
        edge
    }

    /// Moves as much as there is room for, at most `most`, from one node to another one.
    pub fn push(&mut self, source: usize, sink: usize, most: i64) -> i64 {
        let mut pushed = 0;
        while pushed < most && self.set_levels(source, sink) {
            self.next.fill(0);
            loop {
                let moved = self.advance(source, sink, most - pushed);
                pushed += moved;
                if moved == 0 || pushed == most {
                    break;
                }
            }
        }
        pushed
    }

    /// Which nodes the source can still send to.
    pub fn reached_from(&self, source: usize) -> Vec<bool> {
        self.closure(source, |edge| edge)
    }

    /// Which nodes can still send to the sink: the same, against the direction of the edges.
    pub fn reaching(&self, sink: usize) -> Vec<bool> {
        self.closure(sink, |edge| edge ^ 1)
    }

    /// All nodes that steps from a start come to, where `used` is the edge whose room a step needs.
    fn closure(&self, start: usize, used: impl Fn(usize) -> usize) -> Vec<bool> {
        let mut marked = vec![false; self.edges_of.len()];
        marked[start] = true;
        let mut open = vec![start];
        while let Some(node) = open.pop() {
            for &edge in &self.edges_of[node] {
                let head = self.head[edge];
                if 0 < self.room[used(edge)] && !marked[head] {
                    marked[head] = true;
                    open.push(head);
                }
            }
        }
        marked
    }

    /// Numbers the nodes by their distance from the source, and says whether the sink has one.
    fn set_levels(&mut self, source: usize, sink: usize) -> bool {
        self.level.fill(UNREACHED);
        self.level[source] = 0;
        let mut queue = vec![source];
        let mut looked_at = 0;
        while looked_at < queue.len() {
            let node = queue[looked_at];
            looked_at += 1;
            for &edge in &self.edges_of[node] {
                let head = self.head[edge];
                if 0 < self.room[edge] && self.level[head] == UNREACHED {
                    self.level[head] = self.level[node] + 1;
                    queue.push(head);
                }
            }
        }
        self.level[sink] != UNREACHED
    }

    /// Moves something along one path that climbs a level with every edge; 0 if there is none.
    fn advance(&mut self, node: usize, sink: usize, most: i64) -> i64 {
        if node == sink {
            return most;
        }
        while self.next[node] < self.edges_of[node].len() {
            let edge = self.edges_of[node][self.next[node]];
            let head = self.head[edge];
            if 0 < self.room[edge] && self.level[head] == self.level[node] + 1 {
                let moved = self.advance(head, sink, most.min(self.room[edge]));
                if 0 < moved {
                    self.room[edge] -= moved;
                    self.room[edge ^ 1] += moved;
                    return moved;
                }
            }
            self.next[node] += 1;
        }
        0
    }
}
