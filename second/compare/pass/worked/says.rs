//! What document 01 can say of a network, and whether the second program says so too.

use reference::answer::Answer;
use reference::network::Questions;

use super::must_agree;

pub enum Says {
    FirstFlow(&'static [u32]),
    Ranges(&'static [(u32, u32)]),
    Stands { arc: u32, end: u32 },
    Moved { arc: u32, end: u32, value: i64, set: &'static [usize], cites: &'static [(usize, u32)] },
    No { shortfall: i64, set: &'static [usize] },
    NoCites(&'static [(usize, u32)]),
    Refused(u32),
}

pub const LOW: u32 = 0;
pub const HIGH: u32 = 1;
/// A cited low is marked 1, a cited high 2.
const MARK_OF_END: [u32; 2] = [1, 2];

impl Says {
    pub fn must_hold(&self, name: &str, questions: &Questions) {
        let (nodes, arcs) = (questions.plan.nodes(), questions.plan.arcs.len());
        let (answer, arc_buffer, node_buffer) = questions.flow(arcs, nodes);
        match *self {
            Says::FirstFlow(counts) => must_agree(name, arc_buffer, counts.to_vec()),
            Says::Ranges(ranges) => must_agree(name, questions.ranges(), ranges),
            Says::Stands { arc, end } => {
                must_agree(name, questions.reason(arc, end, arcs, nodes), (Answer::DONE, vec![], vec![]));
            }
            Says::Moved { arc, end, value, set, cites } => {
                let document = (Answer::moved(value), marks_of_arcs(arcs, cites), marks_of_nodes(nodes, set));
                must_agree(name, questions.reason(arc, end, arcs, nodes), document);
            }
            Says::No { shortfall, set } => {
                must_agree(name, (answer, node_buffer), (Answer::short(shortfall), marks_of_nodes(nodes, set)));
            }
            Says::NoCites(cites) => must_agree(name, arc_buffer, marks_of_arcs(arcs, cites)),
            Says::Refused(number) => must_agree(name, answer, Answer::refused(number, 0)),
        }
    }
}

fn marks_of_nodes(nodes: usize, set: &[usize]) -> Vec<u8> {
    (0..nodes).map(|node| u8::from(set.contains(&node))).collect()
}

fn marks_of_arcs(arcs: usize, cites: &[(usize, u32)]) -> Vec<u32> {
    let mut marks = vec![0; arcs];
    for &(arc, end) in cites {
        marks[arc] = MARK_OF_END[end as usize];
    }
    marks
}
