//! Files with one or several things wrong. Most damage is sealed again, so that the check does not
//! hide what lies behind it.

use reference::file::{self, ARCS_KIND, ARC_BYTES, BLOCK, CHECK_AT, HEAD_KIND, LONGEST, PAYLOAD_AT, SUPPLY_BYTES};
use reference::plan::MOST_NODES;

use crate::random::Random;

type Damage = fn(&mut Random, &mut Vec<u8>);

const DAMAGES: [Damage; 13] =
    [bit, byte, begin, head_counts, arcs_of_block, unused, supply, arc, cut, cut_to_blocks, surplus, swap, check_bytes];

/// Damages a file in one to four ways.
pub fn damage(random: &mut Random, file: &[u8]) -> Vec<u8> {
    let mut bytes = file.to_vec();
    for _ in 0..random.between(1, 4) {
        random.pick(&DAMAGES)(random, &mut bytes);
    }
    bytes
}

/// Seals the block that holds a byte.
pub fn seal_at(bytes: &mut [u8], at: usize) {
    let block = at / BLOCK * BLOCK;
    if block + BLOCK <= bytes.len() {
        file::seal(&mut bytes[block..block + BLOCK]);
    }
}

fn set(random: &mut Random, bytes: &mut [u8], at: usize, byte: u8) {
    if at < bytes.len() {
        bytes[at] = byte;
        if !random.one_in(6) {
            seal_at(bytes, at);
        }
    }
}

fn bit(random: &mut Random, bytes: &mut Vec<u8>) {
    if !bytes.is_empty() {
        let at = random.below(bytes.len());
        let flipped = bytes[at] ^ 1 << random.below(8);
        set(random, bytes, at, flipped);
    }
}

fn byte(random: &mut Random, bytes: &mut Vec<u8>) {
    if !bytes.is_empty() {
        let at = random.below(bytes.len());
        let value = random.word() as u8;
        set(random, bytes, at, value);
    }
}

/// A byte of some block, at a place that is drawn within it.
fn in_block(random: &mut Random, bytes: &mut [u8], least: usize, most: usize, values: &[u8]) {
    let blocks = (bytes.len() / BLOCK).max(1);
    let at = BLOCK * random.below(blocks) + random.between(least, most);
    let value = random.pick(values);
    set(random, bytes, at, value);
}

fn begin(random: &mut Random, bytes: &mut Vec<u8>) {
    in_block(random, bytes, 0, 1, &[0, HEAD_KIND, ARCS_KIND, 3, 4, 7, 8, 255]);
}

fn head_counts(random: &mut Random, bytes: &mut Vec<u8>) {
    let (at, value) = (random.between(2, 5), random.pick(&[0, 1, 2, 3, 63, 64, 65, 84, 85, 255]));
    set(random, bytes, at, value);
}

fn arcs_of_block(random: &mut Random, bytes: &mut Vec<u8>) {
    in_block(random, bytes, 2, 5, &[0, 1, 2, 83, 84, 85]);
}

fn unused(random: &mut Random, bytes: &mut Vec<u8>) {
    in_block(random, bytes, CHECK_AT - 12, CHECK_AT - 1, &[1, 2, 128]);
}

fn supply(random: &mut Random, bytes: &mut Vec<u8>) {
    let (at, value) = (PAYLOAD_AT + random.below(MOST_NODES * SUPPLY_BYTES), random.pick(&[0, 1, 15, 127, 128, 255]));
    set(random, bytes, at, value);
}

fn arc(random: &mut Random, bytes: &mut Vec<u8>) {
    in_block(random, bytes, PAYLOAD_AT, PAYLOAD_AT + 10 * ARC_BYTES, &[0, 1, 63, 64, 255]);
}

fn cut(random: &mut Random, bytes: &mut Vec<u8>) {
    let length = random.below(bytes.len() + 1);
    bytes.truncate(length);
}

fn cut_to_blocks(random: &mut Random, bytes: &mut Vec<u8>) {
    let blocks = random.below(bytes.len() / BLOCK + 1);
    bytes.truncate(BLOCK * blocks);
}

/// One byte more, or blocks more that look right, or that are zero, or that were there before.
fn surplus(random: &mut Random, bytes: &mut Vec<u8>) {
    let block = bytes.len() / BLOCK;
    let mut more = match random.below(4) {
        0 => vec![0],
        1 => vec![0; BLOCK],
        2 if BLOCK <= bytes.len() => bytes[bytes.len() - BLOCK..].to_vec(),
        3 => vec![0; LONGEST],
        _ => vec![ARCS_KIND, block as u8].into_iter().chain(vec![0; BLOCK - 2]).collect(),
    };
    seal_at(&mut more, 0);
    bytes.extend(more);
}

fn swap(random: &mut Random, bytes: &mut Vec<u8>) {
    let blocks = bytes.len() / BLOCK;
    if 1 < blocks {
        let (one, two) = (random.below(blocks - 1), blocks - 1);
        let (front, back) = bytes.split_at_mut(BLOCK * two);
        front[BLOCK * one..BLOCK * one + BLOCK].swap_with_slice(&mut back[..BLOCK]);
    }
}

fn check_bytes(random: &mut Random, bytes: &mut Vec<u8>) {
    let blocks = (bytes.len() / BLOCK).max(1);
    let at = BLOCK * random.below(blocks) + CHECK_AT + random.below(2);
    if at < bytes.len() {
        bytes[at] = random.word() as u8;
    }
}
