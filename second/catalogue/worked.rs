//! Document 01's "Plans worked by hand", as far as they are networks.

use super::Named;
use reference::plan::{Arc, Plan};

pub fn plans() -> Vec<Named> {
    vec![
        plan("P1", "four of its six ends move", &[5, 0, -5], &[[0, 1, 0, 4], [0, 2, 0, 3], [1, 2, 0, 9]]),
        plan("P2", "P1 with arc 1 shut", &[5, 0, -5], &[[0, 1, 0, 4], [0, 2, 0, 0], [1, 2, 0, 9]]),
        plan("P3", "256 over a lane for 255", &[256, -256], &[[0, 1, 0, 255]]),
        plan("P4", "256 over a lane for 256", &[256, -256], &[[0, 1, 0, 256]]),
        plan("P5", "one node with a self-loop", &[0], &[[0, 0, 3, 7]]),
        plan("P6", "a supply, a need and no lane", &[1, -1], &[]),
        plan("P7", "a supply that nobody needs", &[1], &[]),
        plan("P8", "a lane that must carry what nobody has", &[0, 0], &[[0, 1, 1, 2]]),
        plan("P9", "two parallel lanes for one", &[1, -1], &[[0, 1, 0, 1], [0, 1, 0, 1]]),
        plan("P13", "one node and nothing else: one block", &[0], &[]),
    ]
}

fn plan(name: &'static str, about: &'static str, supplies: &[i32], arcs: &[[u32; 4]]) -> Named {
    let arcs = arcs.iter().map(|&[from, to, low, high]| Arc::new(from, to, low, high)).collect();
    Named { name, about, plan: Plan { arcs, supplies: supplies.to_vec() } }
}
