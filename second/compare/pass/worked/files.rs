//! P13's file, the block counts, and the files of the catalogue, some with every bit flipped.

use reference::file::{check, file_of, write, BLOCK};
use reference::plan::{Arc, Plan, ARC_ENTRIES};

use super::must_agree;
use crate::ask::file;
use crate::ask::network::Network;
use crate::pass::files::{check_beyond_the_modulus, every_bit};
use crate::run::Run;

/// Arcs, and how many blocks their network takes.
const BLOCK_COUNTS: [(usize, i64); 6] = [(0, 1), (84, 2), (85, 3), (504, 7), (505, 8), (512, 8)];
const CHECK_OF_P13: u16 = 4;
/// Short files, since every bit of them is flipped twice.
const FLIPPED: [&str; 3] = ["P1", "P5", "P13"];

pub fn all(run: &mut Run) {
    block_counts(run);
    for named in catalogue::every_plan() {
        if named.name == "P13" {
            let bytes = file_of(&named.plan);
            must_agree("P13", (bytes.len(), check(&bytes)), (BLOCK, CHECK_OF_P13));
        }
        with_fitting_buffers(run, &named.plan);
        if FLIPPED.contains(&named.name) {
            every_bit(run, &named.plan);
        }
    }
    check_beyond_the_modulus(run);
}

fn block_counts(run: &mut Run) {
    for (arcs, blocks) in BLOCK_COUNTS {
        let plan = Plan { arcs: vec![Arc::new(0, 1, 0, 1); arcs], supplies: vec![0, 0] };
        let (answer, _) = write(&plan, BLOCK * 8);
        must_agree("the block counts", answer.value, blocks * BLOCK as i64);
        with_fitting_buffers(run, &plan);
    }
}

/// Writes, reads and shows every block, and the one past the last.
fn with_fitting_buffers(run: &mut Run, plan: &Plan) {
    let bytes = file_of(plan);
    file::write(run, &Network::of_plan(plan.clone()), bytes.len());
    file::read(run, &bytes, plan.nodes(), ARC_ENTRIES * plan.arcs.len());
    for block in 0..=(bytes.len() / BLOCK) as u32 {
        file::payload(run, &bytes, block);
    }
}
