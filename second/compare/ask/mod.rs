//! One function for each request: asks the second program and the unit, and has the run judge both.

pub mod counting;
pub mod file;
pub mod network;
