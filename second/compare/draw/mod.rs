//! Plans, counting plans and files at random, right ones and broken ones.

pub mod counting;
pub mod damage;
pub mod faults;
pub mod network;
