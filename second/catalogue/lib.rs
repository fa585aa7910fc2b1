//! Plans with names: the networks that document 01 works by hand, and some of real size.
//! They are made into the files of plans/, and compared like all others.

mod real_size;
mod worked;

use reference::plan::Plan;

pub struct Named {
    pub name: &'static str,
    /// One line for the reader of plans/.
    pub about: &'static str,
    pub plan: Plan,
}

pub fn every_plan() -> Vec<Named> {
    worked::plans().into_iter().chain(real_size::plans()).collect()
}
