//! The unit's requests, by name, and the numbers that each can give.

pub struct Request {
    /// The unit's entry is called so, after `blenrop_`.
    pub name: &'static str,
    pub numbers: &'static [u32],
    /// The kinds of an answer with number 0 that its index tells apart.
    pub kinds: &'static [&'static str],
}

const OF_A_NETWORK: &[u32] = &[0, 1, 2, 3, 4, 5, 6, 7, 9];

pub const FLOW: Request = Request { name: "flow", numbers: OF_A_NETWORK, kinds: &[] };
pub const FLOW_ARCS: Request = Request { name: "flow_arcs", numbers: OF_A_NETWORK, kinds: &[] };
pub const NARROW: Request = Request { name: "narrow", numbers: OF_A_NETWORK, kinds: &[] };
pub const NARROW_ARCS: Request = Request { name: "narrow_arcs", numbers: OF_A_NETWORK, kinds: &[] };
pub const REASON: Request =
    Request { name: "reason", numbers: &[0, 1, 2, 3, 4, 5, 6, 7, 8, 9], kinds: &["stands", "moved"] };
pub const HELD: Request = Request { name: "held", numbers: &[0, 1, 2, 3, 4, 5, 6, 7, 8, 9, 10], kinds: &[] };
pub const COUNT: Request = Request { name: "count", numbers: &[0, 3, 9, 15, 16, 17, 18], kinds: &[] };
pub const COUNT_NETWORK: Request = Request { name: "count_network", numbers: &[0, 3, 15, 16, 17, 18], kinds: &[] };
pub const FILE_READ: Request =
    Request { name: "file_read", numbers: &[0, 1, 2, 3, 4, 5, 6, 7, 11, 12, 13, 14], kinds: &[] };
pub const FILE_WRITE: Request = Request { name: "file_write", numbers: &[0, 1, 2, 3, 4, 5, 6, 7], kinds: &[] };
pub const FILE_PAYLOAD: Request =
    Request { name: "file_payload", numbers: &[0, 1, 2, 4, 5, 6, 7, 8, 11, 12, 13, 14], kinds: &[] };

pub const ALL: &[Request] =
    &[FLOW, FLOW_ARCS, NARROW, NARROW_ARCS, REASON, HELD, COUNT, COUNT_NETWORK, FILE_READ, FILE_WRITE, FILE_PAYLOAD];
