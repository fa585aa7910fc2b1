//! A file read back, and what is turned down in it: 11, 12, 13, 1, 2, 14, 3, 4, 5, 6, 7.

use super::*;
use crate::answer::{self, first, lowest, whole};
use crate::plan::{Arc, Plan, ARC_ENTRIES};

/// The answer, and the beginnings of the buffers for supplies and arcs.
pub fn read(file: &[u8], supply_room: usize, arc_room: usize) -> (Answer, Vec<i32>, Vec<u32>) {
    let too_short = |plan: &Plan| supply_room < plan.nodes() || arc_room / ARC_ENTRIES < plan.arcs.len();
    match network_of(file, too_short) {
        Err(refused) => (refused, vec![], vec![]),
        Ok(plan) => {
            let arcs = plan.arc_list();
            (Answer::of_counts(plan.nodes(), plan.arcs.len()), plan.supplies, arcs)
        }
    }
}

/// The number, with where the payload of a block starts in the file and how long it is.
pub fn payload(file: &[u8], block: u32) -> Answer {
    match network_of(file, |_| false) {
        Err(refused) => Answer::refused(refused.number, 0),
        Ok(_) if file.len() / BLOCK <= block as usize => Answer::refused(answer::MISSING, 0),
        Ok(_) => {
            Answer { number: 0, index: block * BLOCK as u32 + PAYLOAD_AT as u32, value: (CHECK_AT - PAYLOAD_AT) as i64 }
        }
    }
}

/// The network of an accepted file; the number of any other.
fn network_of(file: &[u8], too_short: impl Fn(&Plan) -> bool) -> Result<Plan, Answer> {
    refuse(whole(answer::FILE_LENGTH, file.is_empty() || LONGEST < file.len() || file.len() % BLOCK != 0))?;
    refuse(blocks(file))?;
    let (nodes, arcs) = (two(file, 2), two(file, 4));
    refuse(first([refused::counts(nodes, arcs), whole(answer::CONTENT, file.len() != BLOCK * blocks_of(arcs))]))?;
    let plan = decoded(file, nodes, arcs);
    refuse(first([
        lowest(answer::CONTENT, differing_block(file, &file_of(&plan))),
        whole(answer::BUFFER, too_short(&plan)),
        refused::limits(&plan),
    ]))?;
    Ok(plan)
}

fn refuse(refused: Option<Answer>) -> Result<(), Answer> {
    refused.map_or(Ok(()), Err)
}

/// 12 on every block before 13 on any.
fn blocks(file: &[u8]) -> Option<Answer> {
    let checks = |block: &[u8]| two(block, CHECK_AT) == usize::from(check(block));
    let begins = |number: usize| [if number == 0 { HEAD_KIND } else { ARCS_KIND }, number as u8];
    let mut every = file.chunks(BLOCK).enumerate();
    first([
        lowest(answer::CHECK, file.chunks(BLOCK).position(|block| !checks(block))),
        lowest(answer::KIND, every.position(|(number, block)| block[..2] != begins(number))),
    ])
}

/// An accepted file is the file of its network: with checks, kinds and numbers right, what differs
/// from it is a wrong arc count or an unused byte.
fn differing_block(file: &[u8], right: &[u8]) -> Option<usize> {
    file.chunks(BLOCK).zip(right.chunks(BLOCK)).position(|(block, right)| block != right)
}

fn decoded(file: &[u8], nodes: usize, arcs: usize) -> Plan {
    let supply = |node| {
        let at = PAYLOAD_AT + SUPPLY_BYTES * node;
        i32::from_le_bytes([file[at], file[at + 1], file[at + 2], file[at + 3]])
    };
    let arc = |index| {
        let block = 1 + index / ARCS_IN_BLOCK;
        let at = BLOCK * block + PAYLOAD_AT + ARC_BYTES * (index % ARCS_IN_BLOCK);
        Arc::new(u32::from(file[at]), u32::from(file[at + 1]), two(file, at + 2) as u32, two(file, at + 4) as u32)
    };
    Plan { arcs: (0..arcs).map(arc).collect(), supplies: (0..nodes).map(supply).collect() }
}

fn two(bytes: &[u8], at: usize) -> usize {
    usize::from(u16::from_le_bytes([bytes[at], bytes[at + 1]]))
}
