//! Does the comparison tell a wrong answer? Every kind of fault is planted in every answer of a short
//! run, after the unit gave it; each must come out as a difference, for every request.

use crate::pass;
use crate::requests;
use crate::run::{Fault, Run};

const ROUNDS: usize = 25;

pub fn every_fault_is_seen(seed: u64) {
    for fault in Fault::ALL {
        let mut run = Run::planting(fault, seed);
        pass::worked::all(&mut run);
        crate::compare(&mut run, 0..ROUNDS);
        let tried = requests::ALL.iter().all(|request| 0 < run.total_of(request));
        assert!(tried, "a wrong {fault:?} was not tried in every request");
        println!("a wrong {fault:?} was seen each time: {}", run.tally());
    }
}
