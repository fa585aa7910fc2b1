//! The second program: every request of document 01 answered once more, by methods of its own.
//! It knows nothing of the unit, and shares no code with it. For each request it
//! gives the answer and what the lent buffers begin with afterwards; whatever is not given stays.

pub mod answer;
pub mod counting;
pub mod file;
pub mod network;
pub mod plan;
