//! Files of random networks, written and read; damaged files; every single bit of some files flipped.

use reference::file::{blocks_of, check, file_of, BLOCK, CHECK_AT, CHECK_MODULUS};
use reference::plan::{Plan, ARC_ENTRIES, MOST_ARCS, MOST_NODES, WIDEST_HIGH};

use crate::ask::file;
use crate::ask::network::Network;
use crate::draw::damage::{damage, seal_at};
use crate::draw::network;
use crate::run::Run;

const DAMAGED_IN_A_ROUND: usize = 12;
const FLIPPED_IN_A_ROUND: usize = 8;
/// About the edges of blocks.
const ARCS: [usize; 10] = [0, 1, 5, 84, 85, 168, 200, 504, 505, 512];

pub fn round(run: &mut Run) {
    let (nodes, arcs) = (run.random.between(1, 64), run.random.pick(&ARCS));
    let plan = network::drawn(&mut run.random, nodes, arcs);
    let right = file_of(&plan);
    for _ in 0..DAMAGED_IN_A_ROUND {
        let damaged = damage(&mut run.random, &right);
        read_and_show(run, &damaged, &plan);
    }
    for _ in 0..FLIPPED_IN_A_ROUND {
        let place = run.random.below(8 * right.len());
        one_bit(run, &plan, &right, place);
    }
}

/// Writes a network, and reads the file back; one of a refused network too, if its bytes can hold it.
pub fn of_network(run: &mut Run, asked: &Network) {
    let plan = asked.plan();
    let room = run.length_for(BLOCK * blocks_of(plan.arcs.len()));
    file::write(run, asked, room);
    if fits_bytes(plan) {
        read_and_show(run, &file_of(plan), plan);
    }
}

/// Every bit of a file, one after the other.
pub fn every_bit(run: &mut Run, plan: &Plan) {
    let right = file_of(plan);
    for place in 0..8 * right.len() {
        one_bit(run, plan, &right, place);
    }
}

/// One bit flipped, as it comes, and with the block sealed again.
fn one_bit(run: &mut Run, plan: &Plan, right: &[u8], place: usize) {
    let mut bytes = right.to_vec();
    bytes[place / 8] ^= 1 << (place % 8);
    file::read(run, &bytes, plan.nodes(), ARC_ENTRIES * plan.arcs.len());
    seal_at(&mut bytes, place / 8);
    file::read(run, &bytes, MOST_NODES, ARC_ENTRIES * MOST_ARCS);
}

/// A check of 0 to 14 has a second number in two bytes that is the same modulo 65,521, and is wrong.
pub fn check_beyond_the_modulus(run: &mut Run) {
    let mut files = (0..1 << 20).map(|supply| file_of(&Plan { arcs: vec![], supplies: vec![supply, -supply] }));
    let small = |bytes: &Vec<u8>| u32::from(check(bytes)) + CHECK_MODULUS <= u32::from(u16::MAX);
    let mut bytes = files.find(small).expect("one check in 4,368 is so small");
    file::read(run, &bytes, 2, 0);
    let beyond = (u32::from(check(&bytes)) + CHECK_MODULUS) as u16;
    bytes[CHECK_AT..BLOCK].copy_from_slice(&beyond.to_le_bytes());
    file::read(run, &bytes, 2, 0);
    file::payload(run, &bytes, 0);
}

fn read_and_show(run: &mut Run, bytes: &[u8], plan: &Plan) {
    let (supply_room, arc_room) = (run.length_for(plan.nodes()), run.length_for(ARC_ENTRIES * plan.arcs.len()));
    file::read(run, bytes, supply_room, arc_room);
    let blocks = (bytes.len() / BLOCK) as u32;
    let block = run.random.pick(&[0, blocks.saturating_sub(1), blocks / 2, blocks, blocks + 1, u32::MAX]);
    file::payload(run, bytes, block);
}

fn fits_bytes(plan: &Plan) -> bool {
    plan.nodes() <= MOST_NODES
        && plan.arcs.iter().all(|arc| arc.from.max(arc.to) < 256 && arc.low.max(arc.high) <= WIDEST_HIGH)
}
