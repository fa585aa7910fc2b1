//! P10, P11 and P12: what becomes of them, and what their encoded networks say.

use reference::answer::Answer;
use reference::counting::{self, CountingPlan};
use reference::plan::ARC_ENTRIES;

use super::must_agree;
use super::networks::with_fitting_buffers;
use super::says::Says::{self, *};
use super::says::HIGH;
use crate::ask::counting::{count, network, Counting};
use crate::ask::network::Network;
use crate::run::Run;

pub fn all(run: &mut Run) {
    p10(run);
    let p11 = asked(&[&[0, 1], &[0, 1], &[0, 1]], 2);
    no(run, "P11", &p11, &[No { shortfall: 1, set: &[0, 1, 2, 3, 4] }, NoCites(&[(6, HIGH), (7, HIGH)])]);
    let p12 = asked(&[&[]], 1);
    no(run, "P12", &p12, &[No { shortfall: 1, set: &[0] }, NoCites(&[(0, HIGH)])]);
}

fn p10(run: &mut Run) {
    let p10 = asked(&[&[1, 3], &[1, 3], &[0, 1], &[0, 2, 3]], 4);
    let left = domains(&[&[1, 3], &[1, 3], &[0], &[2]]);
    let document = (Answer::DONE, left, vec![1, 1, 1, 1], vec![1, 1, 1, 1]);
    must_agree("P10", counting::count(&p10.plan, [4, 4, 4]), document);
    ask(run, &p10);
}

/// A plan without an assignment of shortfall 1, and what its network says.
fn no(run: &mut Run, name: &str, asked: &Counting, document: &[Says]) {
    let (variables, values) = (asked.plan.variables(), asked.plan.values());
    let (answer, ..) = counting::count(&asked.plan, [variables, values, values]);
    must_agree(name, answer, Answer::short(1));
    let network = Network::of_plan(asked.plan.network());
    document.iter().for_each(|says| says.must_hold(name, &network.questions));
    ask(run, asked);
}

fn ask(run: &mut Run, asked: &Counting) {
    let CountingPlan { domains, ranges } = &asked.plan;
    let (variables, values) = (domains.len(), ranges.len());
    count(run, asked, [variables, values, values]);
    network(run, asked, variables + values + 1, ARC_ENTRIES * values * (variables + 1));
    with_fitting_buffers(run, &Network::of_plan(asked.plan.network()));
}

/// Every count range is 0..1 in all three plans.
fn asked(domains_of: &[&[u64]], values: usize) -> Counting {
    Counting::of_lists(&domains(domains_of), [0, 1].repeat(values))
}

fn domains(lists: &[&[u64]]) -> Vec<u64> {
    lists.iter().map(|values| values.iter().fold(0, |word, value| word | 1 << value)).collect()
}
