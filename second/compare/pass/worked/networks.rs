//! P1 to P9 and P13 as networks, and the plans of real size, which the document says nothing of.

use super::says::Says::{self, *};
use super::says::{HIGH, LOW};
use crate::ask::network as ask;
use crate::ask::network::Network;
use crate::pass::networks::everything;
use crate::run::Run;

const DOCUMENT: [(&str, &[Says]); 10] = [
    (
        "P1",
        &[
            FirstFlow(&[2, 3, 2]),
            Ranges(&[(2, 4), (1, 3), (2, 4)]),
            Moved { arc: 0, end: LOW, value: 2, set: &[0], cites: &[(1, HIGH)] },
            Moved { arc: 2, end: HIGH, value: 4, set: &[1], cites: &[(0, HIGH)] },
            Moved { arc: 2, end: LOW, value: 2, set: &[0, 1], cites: &[(1, HIGH)] },
        ],
    ),
    ("P2", &[No { shortfall: 1, set: &[0] }, NoCites(&[(0, HIGH), (1, HIGH)])]),
    ("P3", &[No { shortfall: 1, set: &[0] }]),
    ("P4", &[Ranges(&[(256, 256)])]),
    ("P5", &[FirstFlow(&[3]), Ranges(&[(3, 7)]), Stands { arc: 0, end: LOW }, Stands { arc: 0, end: HIGH }]),
    ("P6", &[No { shortfall: 1, set: &[0] }, NoCites(&[])]),
    ("P7", &[Refused(7)]),
    ("P8", &[No { shortfall: 1, set: &[1] }, NoCites(&[(0, LOW)])]),
    ("P9", &[FirstFlow(&[0, 1]), Ranges(&[(0, 1), (0, 1)])]),
    ("P13", &[FirstFlow(&[])]),
];

/// About how many arcs of each plan is asked.
const ARCS_ASKED: usize = 16;

pub fn all(run: &mut Run) {
    let plans = catalogue::every_plan();
    for (name, document) in DOCUMENT {
        let named = plans.iter().find(|named| named.name == name).expect("the catalogue has the document's plans");
        let network = Network::of_plan(named.plan.clone());
        document.iter().for_each(|says| says.must_hold(name, &network.questions));
    }
    for named in plans {
        let network = Network::of_plan(named.plan);
        with_fitting_buffers(run, &network);
        everything(run, &network, ARCS_ASKED);
    }
}

/// Every request once with buffers that are as long as needed, so that none is refused for them.
pub fn with_fitting_buffers(run: &mut Run, network: &Network) {
    let (nodes, arcs) = (network.plan().nodes(), network.plan().arcs.len());
    ask::flow(run, network, [arcs, nodes]);
    ask::narrow(run, network, [arcs, arcs]);
    ask::flow_arcs(run, network, [arcs, nodes]);
    ask::narrow_arcs(run, network, [arcs, arcs]);
    for (arc, &(low, high)) in (0..ARCS_ASKED as u32).zip(network.questions.ranges()) {
        ask::reason(run, network, arc, LOW, [arcs, nodes]);
        ask::reason(run, network, arc, HIGH, [arcs, nodes]);
        ask::held(run, network, arc, low, arcs);
        ask::held(run, network, arc, high, arcs);
    }
}
