//! The requests about a network: flow question, narrowing, the reason for an end, an arc held.

mod every_flow;
mod flows;
mod marks;
mod max_flow;
pub(crate) mod refused;
mod sets;
mod study;

use std::cell::OnceCell;

use crate::answer::{self, Answer};
use crate::plan::{NodeSet, Plan};
use study::{Found, Study};

pub(crate) use study::greatest_shortfall;

/// A node set with the number that it gives: a shortfall, or a moved end.
#[derive(Clone, Copy, PartialEq, Eq, Debug)]
struct Cut {
    value: i64,
    set: NodeSet,
}

#[derive(Clone, Copy, PartialEq, Eq, Debug)]
enum End {
    Low,
    High,
}

impl End {
    fn of_number(number: u32) -> Option<End> {
        [End::Low, End::High].get(number as usize).copied()
    }
}

/// A way to answer what is asked of a well-formed plan. All but the first ask for a plan with a flow.
trait Method {
    /// The shortage set, if its shortfall is positive.
    fn shortage(&self) -> Option<Cut>;
    fn first_flow(&self) -> Vec<u32>;
    fn ranges(&self) -> Vec<(u32, u32)>;
    /// What the sets say about an end of an arc that is no loop, and the least set that says it.
    fn tightest(&self, arc: usize, end: End) -> Cut;
}

/// A plan with what was worked out about it, so that many requests can follow one another.
pub struct Questions {
    pub plan: Plan,
    study: OnceCell<Study>,
}

impl Questions {
    pub fn about(plan: Plan) -> Questions {
        Questions { plan, study: OnceCell::new() }
    }

    /// The answer, the arc buffer's beginning and the node buffer's beginning.
    pub fn flow(&self, arc_room: usize, node_room: usize) -> (Answer, Vec<u32>, Vec<u8>) {
        if let Some(refused) = self.refused(self.is_short(arc_room, node_room)) {
            return (refused, vec![], vec![]);
        }
        match self.found().shortage {
            None => (Answer::DONE, self.found().first_flow.clone(), vec![]),
            Some(Cut { value, set }) => {
                (Answer::short(value), marks::of_no(&self.plan, set), set.marks(self.plan.nodes()))
            }
        }
    }

    /// The answer, and the beginnings of the buffers for lows and highs.
    pub fn narrow(&self, low_room: usize, high_room: usize) -> (Answer, Vec<u32>, Vec<u32>) {
        let short = low_room.min(high_room) < self.plan.arcs.len();
        match self.refused(short).or_else(|| self.no_flow()) {
            Some(answer) => (answer, vec![], vec![]),
            None => {
                let (lows, highs) = self.found().ranges.iter().copied().unzip();
                (Answer::DONE, lows, highs)
            }
        }
    }

    /// The answer, the arc buffer's beginning and the node buffer's beginning.
    pub fn reason(&self, arc: u32, end: u32, arc_room: usize, node_room: usize) -> (Answer, Vec<u32>, Vec<u8>) {
        let asked = self.arc_asked(arc).zip(End::of_number(end));
        let (arc, end) = match self.admitted(asked, self.is_short(arc_room, node_room)) {
            Ok(asked) => asked,
            Err(answer) => return (answer, vec![], vec![]),
        };
        match self.study().reason(&self.plan, arc, end) {
            None => (Answer::DONE, vec![], vec![]),
            Some(Cut { value, set }) => {
                let marks = marks::of_reason(&self.plan, arc, end, set);
                (Answer::moved(value), marks, set.marks(self.plan.nodes()))
            }
        }
    }

    /// The answer and the arc buffer's beginning.
    pub fn held(&self, arc: u32, count: u32, arc_room: usize) -> (Answer, Vec<u32>) {
        let arc = match self.admitted(self.arc_asked(arc), arc_room < self.plan.arcs.len()) {
            Ok(arc) => arc,
            Err(answer) => return (answer, vec![]),
        };
        let (low, high) = self.found().ranges[arc];
        match answer::whole(answer::OUTSIDE, count < low || high < count) {
            Some(refused) => (refused, vec![]),
            None => (Answer::DONE, study::first_flow(&self.plan.held(arc, count))),
        }
    }

    /// The narrowed ranges of a plan that has a flow; nothing of any other.
    pub fn ranges(&self) -> &[(u32, u32)] {
        if self.refused(false).is_some() {
            &[]
        } else {
            &self.found().ranges
        }
    }

    fn refused(&self, short: bool) -> Option<Answer> {
        refused::refusal(&self.plan, short)
    }

    fn is_short(&self, arc_room: usize, node_room: usize) -> bool {
        arc_room < self.plan.arcs.len() || node_room < self.plan.nodes()
    }

    fn study(&self) -> &Study {
        self.study.get_or_init(|| Study::of(&self.plan))
    }

    fn found(&self) -> &Found {
        &self.study().found
    }

    fn no_flow(&self) -> Option<Answer> {
        self.found().shortage.map(|cut| Answer::short(cut.value))
    }

    /// What is asked about, if it exists, in a well-formed plan with a flow; else the answer.
    fn admitted<T>(&self, asked: Option<T>, short: bool) -> Result<T, Answer> {
        if let Some(refused) = self.refused(short) {
            return Err(refused);
        }
        let asked = asked.ok_or(Answer::refused(answer::MISSING, 0))?;
        self.no_flow().map_or(Ok(asked), Err)
    }

    fn arc_asked(&self, arc: u32) -> Option<usize> {
        Some(arc as usize).filter(|&arc| arc < self.plan.arcs.len())
    }
}
