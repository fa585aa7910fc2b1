//! What a request answers, document 01's numbers, and which of several numbers comes first.

/// Laid out as C lays it out, since the unit returns the same three fields.
#[repr(C)]
#[derive(Clone, Copy, PartialEq, Eq, Debug)]
pub struct Answer {
    /// 0, or the number of what is turned down.
    pub number: u32,
    /// The lowest place that a refusal concerns; 1 for an end that moved; the node count of a file.
    pub index: u32,
    /// The shortfall, the moved value, the length of a file, or the arc count of a file.
    pub value: i64,
}

pub const NODE_COUNT: u32 = 1;
pub const ARC_COUNT: u32 = 2;
pub const BUFFER: u32 = 3;
pub const ARC_END: u32 = 4;
pub const RANGE: u32 = 5;
pub const SUPPLY: u32 = 6;
pub const SUM: u32 = 7;
pub const MISSING: u32 = 8;
pub const NONE: u32 = 9;
pub const OUTSIDE: u32 = 10;
pub const FILE_LENGTH: u32 = 11;
pub const CHECK: u32 = 12;
pub const KIND: u32 = 13;
pub const CONTENT: u32 = 14;
pub const COUNTING_NODES: u32 = 15;
pub const DOMAIN: u32 = 16;
pub const COUNTING_ARCS: u32 = 17;
pub const COUNT_RANGE: u32 = 18;

impl Answer {
    /// Nothing is turned down, and there is nothing else to say.
    pub const DONE: Answer = Answer { number: 0, index: 0, value: 0 };

    pub fn refused(number: u32, index: usize) -> Answer {
        Answer { number, index: index as u32, value: 0 }
    }

    /// No flow, or no assignment: the shortfall stands in place of an index.
    pub fn short(shortfall: i64) -> Answer {
        Answer { number: NONE, index: 0, value: shortfall }
    }

    /// An end of an arc that moved to `value`.
    pub fn moved(value: i64) -> Answer {
        Answer { number: 0, index: 1, value }
    }

    pub fn of_length(length: usize) -> Answer {
        Answer { value: length as i64, ..Answer::DONE }
    }

    pub fn of_counts(nodes: usize, arcs: usize) -> Answer {
        Answer { number: 0, index: nodes as u32, value: arcs as i64 }
    }
}

/// A rule about the whole input: a refusal at 0 if it is broken.
pub fn whole(number: u32, broken: bool) -> Option<Answer> {
    broken.then(|| Answer::refused(number, 0))
}

/// A rule about every place of the input: a refusal at the lowest place that breaks it.
pub fn lowest(number: u32, broken_at: Option<usize>) -> Option<Answer> {
    broken_at.map(|place| Answer::refused(number, place))
}

/// The first refusal among rules in document 01's order.
pub fn first<const RULES: usize>(rules: [Option<Answer>; RULES]) -> Option<Answer> {
    rules.into_iter().flatten().next()
}
