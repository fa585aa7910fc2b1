//! What is worked out about a well-formed plan, once, and by every method that can take the plan.
//! Where several can, they must agree: a second program that is in two minds is no second program.

use super::every_flow::every_flow;
use super::flows::Flows;
use super::sets::Sets;
use super::{Cut, End, Method};
use crate::plan::Plan;

pub struct Study {
    flows: Flows,
    sets: Option<Sets>,
    pub found: Found,
}

#[derive(PartialEq, Eq, Debug)]
pub struct Found {
    pub shortage: Option<Cut>,
    /// Empty if there is a shortage.
    pub first_flow: Vec<u32>,
    /// Empty if there is a shortage.
    pub ranges: Vec<(u32, u32)>,
}

impl Study {
    pub fn of(plan: &Plan) -> Study {
        let (flows, sets) = (Flows::of(plan), Sets::of(plan));
        let found = Found::by(&flows);
        if let Some(sets) = &sets {
            assert_eq!(found, Found::by(sets), "flows and sets disagree about {plan:?}");
        }
        if let Some(every) = every_flow(plan) {
            found.agree_with(&every, plan);
        }
        Study { flows, sets, found }
    }

    /// The moved value of an end and the set that moved it; nothing if the end stands.
    pub fn reason(&self, plan: &Plan, arc: usize, end: End) -> Option<Cut> {
        if plan.arcs[arc].is_loop() {
            return None;
        }
        let cut = self.flows.tightest(arc, end);
        if let Some(sets) = &self.sets {
            assert_eq!(cut, sets.tightest(arc, end), "flows and sets disagree about {plan:?}");
        }
        let (own, range) = (plan.arcs[arc], self.found.ranges[arc]);
        let (said, narrowed, moved) = match end {
            End::Low => (cut.value.max(own.low.into()), range.0, range.0 != own.low),
            End::High => (cut.value.min(own.high.into()), range.1, range.1 != own.high),
        };
        assert_eq!(said, i64::from(narrowed), "a set and a flow disagree about arc {arc} of {plan:?}");
        moved.then_some(cut)
    }
}

impl Found {
    fn by(method: &impl Method) -> Found {
        let shortage = method.shortage();
        match shortage {
            Some(_) => Found { shortage, first_flow: vec![], ranges: vec![] },
            None => Found { shortage, first_flow: method.first_flow(), ranges: method.ranges() },
        }
    }

    fn agree_with(&self, flows: &[Vec<u32>], plan: &Plan) {
        assert_eq!(self.shortage.is_some(), flows.is_empty(), "whether there is a flow: {plan:?}");
        let Some(first) = flows.first() else { return };
        assert_eq!(&self.first_flow, first, "the first of all flows of {plan:?}");
        for (arc, &(low, high)) in self.ranges.iter().enumerate() {
            let counts = || flows.iter().map(|flow| flow[arc]);
            assert_eq!(Some(low), counts().min(), "the smallest count of arc {arc} of {plan:?}");
            assert_eq!(Some(high), counts().max(), "the largest count of arc {arc} of {plan:?}");
        }
    }
}

/// The first flow of a plan that is known to have one.
pub fn first_flow(plan: &Plan) -> Vec<u32> {
    let flow = Flows::of(plan).first_flow();
    if let Some(sets) = Sets::of(plan) {
        assert_eq!(flow, sets.first_flow(), "flows and sets disagree about {plan:?}");
    }
    flow
}

/// The shortfall of the shortage set; 0 if there is a flow.
pub fn greatest_shortfall(plan: &Plan) -> i64 {
    Flows::of(plan).shortage().map_or(0, |cut| cut.value)
}
