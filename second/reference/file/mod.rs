//! The plan file, straight from document 01: blocks of 512 bytes, low byte first.

mod layout;
mod reading;

pub use layout::{blocks_of, check, file_of, seal};
pub use reading::{payload, read};

use crate::answer::Answer;
use crate::network::refused;
use crate::plan::Plan;

pub const BLOCK: usize = 512;
pub const LONGEST: usize = 4_096;
pub const HEAD_KIND: u8 = 1;
pub const ARCS_KIND: u8 = 2;
pub const PAYLOAD_AT: usize = 6;
pub const CHECK_AT: usize = 510;
pub const CHECK_MODULUS: u32 = 65_521;
pub const SUPPLY_BYTES: usize = 4;
pub const ARC_BYTES: usize = 6;
pub const ARCS_IN_BLOCK: usize = 84;

/// The answer and the file buffer's beginning.
pub fn write(plan: &Plan, room: usize) -> (Answer, Vec<u8>) {
    let length = blocks_of(plan.arcs.len()) * BLOCK;
    match refused::refusal(plan, room < length) {
        Some(refused) => (refused, vec![]),
        None => (Answer::of_length(length), file_of(plan)),
    }
}
