//! What is asked, in which order and how often: each pass goes through one kind of input.

pub mod countings;
pub mod files;
pub mod networks;
pub mod stations;
pub mod worked;
