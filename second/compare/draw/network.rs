//! Well-formed networks at random: a way to join nodes, a kind of limits and a load are drawn apart,
//! so that every shape meets every other. Limits lie around hidden counts, and the supplies follow
//! the counts, so that many plans have a flow; the load then changes some supplies.

use reference::plan::{Arc, Plan, MOST_SUPPLY, WIDEST_HIGH};

use crate::random::Random;

/// Gives an arc's from and to, both below the node count.
type Way = fn(&mut Random, u32) -> (u32, u32);
/// Gives an arc's low, hidden count and high; the count is at most the number handed in.
type Limits = fn(&mut Random, u32) -> (u32, u32, u32);
/// Changes supplies so that they still sum to 0.
type Load = fn(&mut Random, &mut [i32]);

const WAYS: [Way; 10] = [anywhere, apart, parallel, loops, chain, ring, star, halves, layers, islands];
const LIMITS: [Limits; 7] = [little, anything, fixed, fixed_little, at_the_ends, tight, widest];
const LOADS: [Load; 8] = [kept, kept, kept, nudged, nudged, heavy, at_the_limits, none];

pub fn drawn(random: &mut Random, nodes: usize, arcs: usize) -> Plan {
    let (way, limits, load) = (random.pick(&WAYS), random.pick(&LIMITS), random.pick(&LOADS));
    let mut plan = Plan { arcs: Vec::with_capacity(arcs), supplies: vec![0; nodes] };
    for _ in 0..arcs {
        let (from, to) = way(random, nodes as u32);
        add_arc(random, &mut plan, from, to, limits);
    }
    load(random, &mut plan.supplies);
    plan
}

fn add_arc(random: &mut Random, plan: &mut Plan, from: u32, to: u32, limits: Limits) {
    let room = room_between(&plan.supplies, from as usize, to as usize);
    let (low, count, high) = limits(random, room.min(WIDEST_HIGH as i32) as u32);
    plan.arcs.push(Arc::new(from, to, low, high));
    plan.supplies[from as usize] += count as i32;
    plan.supplies[to as usize] -= count as i32;
}

/// How much more one node can have and another need before a supply is beyond its limits.
fn room_between(supplies: &[i32], gains: usize, loses: usize) -> i32 {
    (MOST_SUPPLY - supplies[gains]).min(MOST_SUPPLY + supplies[loses])
}

fn anywhere(random: &mut Random, nodes: u32) -> (u32, u32) {
    (random.up_to(nodes - 1), random.up_to(nodes - 1))
}

/// No loops, where there are nodes enough.
fn apart(random: &mut Random, nodes: u32) -> (u32, u32) {
    let from = random.up_to(nodes - 1);
    (from, (from + 1 + random.up_to(nodes.saturating_sub(2))) % nodes)
}

/// Three nodes at most: parallel and opposite arcs, and loops.
fn parallel(random: &mut Random, nodes: u32) -> (u32, u32) {
    anywhere(random, nodes.min(3))
}

fn loops(random: &mut Random, nodes: u32) -> (u32, u32) {
    let (from, to) = anywhere(random, nodes);
    if random.one_in(4) {
        (from, to)
    } else {
        (from, from)
    }
}

fn chain(random: &mut Random, nodes: u32) -> (u32, u32) {
    let from = random.up_to(nodes - 1);
    let to = (from + 1).min(nodes - 1);
    if random.one_in(6) {
        (to, from)
    } else {
        (from, to)
    }
}

fn ring(random: &mut Random, nodes: u32) -> (u32, u32) {
    let from = random.up_to(nodes - 1);
    (from, (from + 1) % nodes)
}

fn star(random: &mut Random, nodes: u32) -> (u32, u32) {
    let point = random.up_to(nodes - 1);
    if random.one_in(2) {
        (0, point)
    } else {
        (point, 0)
    }
}

/// From the lower half of the nodes to the upper one.
fn halves(random: &mut Random, nodes: u32) -> (u32, u32) {
    let half = nodes / 2;
    (random.up_to(half.max(1) - 1), half + random.up_to(nodes - half - 1))
}

/// From each layer of four nodes to the next one.
fn layers(random: &mut Random, nodes: u32) -> (u32, u32) {
    let from = random.up_to(nodes - 1);
    let next = from / 4 * 4 + 4 + random.up_to(3);
    (from, if next < nodes { next } else { from % 4 % nodes })
}

/// Three parts that no arc joins.
fn islands(random: &mut Random, nodes: u32) -> (u32, u32) {
    let from = random.up_to(nodes - 1);
    let to = random.up_to(nodes - 1) / 3 * 3 + from % 3;
    (from, if to < nodes { to } else { from })
}

/// Little room and small counts: many sets are equally short.
fn little(random: &mut Random, most: u32) -> (u32, u32, u32) {
    let count = random.up_to(most.min(3));
    (random.up_to(count), count, count + random.up_to(2))
}

fn anything(random: &mut Random, most: u32) -> (u32, u32, u32) {
    let count = random.up_to(most);
    let low = if random.one_in(2) { 0 } else { random.up_to(count) };
    (low, count, count + random.up_to(WIDEST_HIGH - count))
}

/// Most arcs have no room at all, so that the ends of the others move, also in large plans.
fn fixed(random: &mut Random, most: u32) -> (u32, u32, u32) {
    if random.one_in(8) {
        return anything(random, most);
    }
    let count = random.up_to(most);
    (count, count, count)
}

/// The same with little counts.
fn fixed_little(random: &mut Random, most: u32) -> (u32, u32, u32) {
    if random.one_in(6) {
        return little(random, most);
    }
    let count = random.up_to(most.min(2));
    (count, count, count)
}

/// Every bound is the widest range's own end or the count.
fn at_the_ends(random: &mut Random, most: u32) -> (u32, u32, u32) {
    let count = random.up_to(most);
    let low = if random.one_in(2) { 0 } else { count };
    (low, count, if random.one_in(2) { WIDEST_HIGH } else { count })
}

/// The count itself or one away from it.
fn tight(random: &mut Random, most: u32) -> (u32, u32, u32) {
    let count = random.up_to(most.min(300));
    (count.saturating_sub(random.up_to(1)), count, count + random.up_to(1))
}

/// As much as fits, within 0..65,535.
fn widest(_: &mut Random, most: u32) -> (u32, u32, u32) {
    (0, most, WIDEST_HIGH)
}

fn kept(_: &mut Random, _: &mut [i32]) {}

fn nudged(random: &mut Random, supplies: &mut [i32]) {
    for _ in 0..random.between(1, 3) {
        let most = random.between(1, 3) as i32;
        transfer(random, supplies, most);
    }
}

fn heavy(random: &mut Random, supplies: &mut [i32]) {
    let most = random.between(1, 200_000) as i32;
    transfer(random, supplies, most);
}

fn at_the_limits(random: &mut Random, supplies: &mut [i32]) {
    for _ in 0..random.between(1, 3) {
        transfer(random, supplies, 2 * MOST_SUPPLY);
    }
}

fn none(_: &mut Random, supplies: &mut [i32]) {
    supplies.fill(0);
}

/// One node has more and another less, by what is asked or by what the limits leave room for.
fn transfer(random: &mut Random, supplies: &mut [i32], most: i32) {
    let (gains, loses) = (random.below(supplies.len()), random.below(supplies.len()));
    if gains != loses {
        let amount = most.min(room_between(supplies, gains, loses));
        supplies[gains] += amount;
        supplies[loses] -= amount;
    }
}
