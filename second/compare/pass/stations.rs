//! Each station in turn inside a set, in plans of a few sizes: a set that loses a place, or holds a station one place off,
//! is seen here.

use reference::plan::{Arc, Plan, MOST_NODES};

use super::networks;
use crate::ask::network::Network;
use crate::run::Run;

/// The least plans, and those at the end of a word of 32 and of 64 bits.
const SIZES: [usize; 6] = [2, 3, 32, 33, MOST_NODES - 1, MOST_NODES];
const CAGES: i32 = 2;

pub fn all(run: &mut Run) {
    for nodes in SIZES {
        for station in 0..nodes {
            for plan in [short(nodes, station), forced(nodes, station), cut_off(nodes, station)] {
                networks::everything(run, &Network::of_plan(plan), 2);
            }
        }
    }
}

/// A station has more than its lane takes: the shortage set is this station.
fn short(nodes: usize, station: usize) -> Plan {
    let next = (station + 1) % nodes;
    sending(nodes, station, next, vec![lane(station, next, 1)])
}

/// What one lane cannot take must go by the other, whose low moves: the set of the reason is this station.
fn forced(nodes: usize, station: usize) -> Plan {
    let next = (station + 1) % nodes;
    sending(nodes, station, next, vec![lane(station, next, 2), lane(station, next, 1)])
}

/// Lanes lead from station to station and end before the one that lacks cages: the shortage set is all the others.
fn cut_off(nodes: usize, station: usize) -> Plan {
    let along = |steps| (station + steps) % nodes;
    let lanes = (2..nodes).map(|steps| lane(along(steps - 2), along(steps - 1), 9)).collect();
    sending(nodes, station, along(nodes - 1), lanes)
}

fn sending(nodes: usize, from: usize, to: usize, arcs: Vec<Arc>) -> Plan {
    let mut supplies = vec![0; nodes];
    supplies[from] = CAGES;
    supplies[to] = -CAGES;
    Plan { arcs, supplies }
}

fn lane(from: usize, to: usize, high: u32) -> Arc {
    Arc::new(from as u32, to as u32, 0, high)
}
