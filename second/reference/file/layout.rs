//! A network's bytes.

use super::*;
use crate::plan::{Arc, Plan};

/// How many blocks a network of so many arcs takes.
pub fn blocks_of(arcs: usize) -> usize {
    1 + arcs.div_ceil(ARCS_IN_BLOCK)
}

/// The file of any plan whose numbers fit their bytes, also of one that is turned down otherwise.
pub fn file_of(plan: &Plan) -> Vec<u8> {
    let arc_blocks = plan.arcs.chunks(ARCS_IN_BLOCK).zip(1..).map(|(arcs, number)| arc_block(arcs, number));
    [head(plan)].into_iter().chain(arc_blocks).flatten().collect()
}

fn head(plan: &Plan) -> [u8; BLOCK] {
    let mut block = [0; BLOCK];
    block[0] = HEAD_KIND;
    put(&mut block, 2, &(plan.nodes() as u16).to_le_bytes());
    put(&mut block, 4, &(plan.arcs.len() as u16).to_le_bytes());
    for (node, supply) in plan.supplies.iter().enumerate() {
        put(&mut block, PAYLOAD_AT + SUPPLY_BYTES * node, &supply.to_le_bytes());
    }
    seal(&mut block);
    block
}

fn arc_block(arcs: &[Arc], number: u8) -> [u8; BLOCK] {
    let mut block = [0; BLOCK];
    block[0] = ARCS_KIND;
    block[1] = number;
    put(&mut block, 2, &(arcs.len() as u16).to_le_bytes());
    for (place, arc) in arcs.iter().enumerate() {
        let at = PAYLOAD_AT + ARC_BYTES * place;
        put(&mut block, at, &[arc.from as u8, arc.to as u8]);
        put(&mut block, at + 2, &(arc.low as u16).to_le_bytes());
        put(&mut block, at + 4, &(arc.high as u16).to_le_bytes());
    }
    seal(&mut block);
    block
}

fn put(block: &mut [u8], at: usize, bytes: &[u8]) {
    block[at..at + bytes.len()].copy_from_slice(bytes);
}

/// The sum of (i+1) times byte i over the bytes before the check, modulo 65,521.
pub fn check(block: &[u8]) -> u16 {
    let sum: u32 = block[..CHECK_AT].iter().zip(1..).map(|(&byte, weight)| weight * u32::from(byte)).sum();
    (sum % CHECK_MODULUS) as u16
}

/// Puts a block's check where it belongs.
pub fn seal(block: &mut [u8]) {
    let sum = check(block);
    put(block, CHECK_AT, &sum.to_le_bytes());
}
