//! Random counting plans of every shape, their encoded networks, and all requests on these.

use reference::plan::ARC_ENTRIES;

use super::networks;
use crate::ask::counting::{count, network, Counting};
use crate::ask::network::Network;
use crate::draw::counting::{self, CORNERS};
use crate::run::Run;

const SMALL_IN_A_ROUND: usize = 4;
/// Every so many rounds a plan of any size, and the next of those at the limits.
const ROUNDS_TO_LARGE: usize = 4;

pub fn round(run: &mut Run, number: usize) {
    for _ in 0..SMALL_IN_A_ROUND {
        let small = counting::small(&mut run.random);
        everything(run, &small);
    }
    if number % ROUNDS_TO_LARGE == 0 {
        let large = counting::large(&mut run.random);
        everything(run, &large);
        let (variables, values) = CORNERS[number / ROUNDS_TO_LARGE % CORNERS.len()];
        let corner = counting::drawn(&mut run.random, variables, values);
        everything(run, &corner);
    }
}

fn everything(run: &mut Run, asked: &Counting) {
    let (variables, values) = (asked.plan.variables(), asked.plan.values());
    let rooms = [run.length_for(variables), run.length_for(values), run.length_for(values)];
    count(run, asked, rooms);
    let supply_room = run.length_for(variables + values + 1);
    let arc_room = run.length_for(ARC_ENTRIES * values * (variables + 1));
    network(run, asked, supply_room, arc_room);
    if asked.plan.refusal().is_none() && run.random.one_in(4) {
        networks::everything(run, &Network::of_plan(asked.plan.network()), 2);
    }
}
