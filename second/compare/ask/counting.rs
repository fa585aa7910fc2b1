//! Counting plans and their encoded networks.

use reference::counting::{self, CountingPlan};

use crate::boundary;
use crate::requests;
use crate::run::Run;

/// A counting plan as it is lent, with any broken entry at its end, and what is read of it.
pub struct Counting {
    counts: Vec<u32>,
    pub plan: CountingPlan,
}

impl Counting {
    pub fn of_lists(domains: &[u64], counts: Vec<u32>) -> Counting {
        let plan = CountingPlan::of_lists(domains, &counts);
        Counting { counts, plan }
    }
}

pub fn count(run: &mut Run, asked: &Counting, rooms: [usize; 3]) {
    let (second, domains_left, lows, highs) = counting::count(&asked.plan, rooms);
    let mut domains = run.list("domains", &asked.plan.domains);
    let mut counts = run.list("counts", &asked.counts);
    let mut new_domains = run.room("new domains", rooms[0], &domains_left);
    let mut new_lows = run.room("new lows", rooms[1], &lows);
    let mut new_highs = run.room("new highs", rooms[2], &highs);
    let unit = unsafe {
        boundary::blenrop_count(
            domains.pointer(),
            domains.length(),
            counts.pointer(),
            counts.length(),
            new_domains.pointer(),
            new_domains.length(),
            new_lows.pointer(),
            new_lows.length(),
            new_highs.pointer(),
            new_highs.length(),
        )
    };
    run.judge(
        &requests::COUNT,
        &[],
        unit,
        second,
        &mut [&mut domains, &mut counts, &mut new_domains, &mut new_lows, &mut new_highs],
    );
}

pub fn network(run: &mut Run, asked: &Counting, supply_room: usize, arc_room: usize) {
    let (second, drawn_supplies, drawn_arcs) = counting::network(&asked.plan, supply_room, arc_room);
    let mut domains = run.list("domains", &asked.plan.domains);
    let mut counts = run.list("counts", &asked.counts);
    let mut supplies = run.room("supplies", supply_room, &drawn_supplies);
    let mut arcs = run.room("arcs", arc_room, &drawn_arcs);
    let unit = unsafe {
        boundary::blenrop_count_network(
            domains.pointer(),
            domains.length(),
            counts.pointer(),
            counts.length(),
            supplies.pointer(),
            supplies.length(),
            arcs.pointer(),
            arcs.length(),
        )
    };
    run.judge(&requests::COUNT_NETWORK, &[], unit, second, &mut [&mut domains, &mut counts, &mut supplies, &mut arcs]);
}
