//! Flow question, narrowing, reasons and held arcs, over flat lists and over arc structs.

use reference::answer::Answer;
use reference::network::Questions;
use reference::plan::Plan;

use crate::boundary;
use crate::lent::Entry;
use crate::requests::{self, Request};
use crate::run::Run;

/// A network as it is lent, with any broken entry at its end, and the second program's view of it.
pub struct Network {
    arcs: Vec<u32>,
    pub questions: Questions,
}

impl Network {
    pub fn of_lists(arcs: Vec<u32>, supplies: &[i32]) -> Network {
        let questions = Questions::about(Plan::of_lists(&arcs, supplies));
        Network { arcs, questions }
    }

    pub fn of_plan(plan: Plan) -> Network {
        Network { arcs: plan.arc_list(), questions: Questions::about(plan) }
    }

    pub fn plan(&self) -> &Plan {
        &self.questions.plan
    }

    pub fn arc_list(&self) -> &[u32] {
        &self.arcs
    }
}

/// An entry that takes arcs as T, supplies, and two buffers.
type TwoBuffers<T, Second> =
    unsafe extern "C" fn(*const T, usize, *const i32, usize, *mut u32, usize, *mut Second, usize) -> Answer;

pub fn flow(run: &mut Run, network: &Network, rooms: [usize; 2]) {
    let second = network.questions.flow(rooms[0], rooms[1]);
    let entry = boundary::blenrop_flow as TwoBuffers<u32, u8>;
    two_buffers(run, &requests::FLOW, entry, network.arc_list(), network.plan(), rooms, second);
}

pub fn flow_arcs(run: &mut Run, network: &Network, rooms: [usize; 2]) {
    let second = network.questions.flow(rooms[0], rooms[1]);
    let entry = boundary::blenrop_flow_arcs as TwoBuffers<reference::plan::Arc, u8>;
    two_buffers(run, &requests::FLOW_ARCS, entry, &network.plan().arcs, network.plan(), rooms, second);
}

pub fn narrow(run: &mut Run, network: &Network, rooms: [usize; 2]) {
    let second = network.questions.narrow(rooms[0], rooms[1]);
    let entry = boundary::blenrop_narrow as TwoBuffers<u32, u32>;
    two_buffers(run, &requests::NARROW, entry, network.arc_list(), network.plan(), rooms, second);
}

pub fn narrow_arcs(run: &mut Run, network: &Network, rooms: [usize; 2]) {
    let second = network.questions.narrow(rooms[0], rooms[1]);
    let entry = boundary::blenrop_narrow_arcs as TwoBuffers<reference::plan::Arc, u32>;
    two_buffers(run, &requests::NARROW_ARCS, entry, &network.plan().arcs, network.plan(), rooms, second);
}

fn two_buffers<T: Entry, Second: Entry>(
    run: &mut Run,
    request: &Request,
    entry: TwoBuffers<T, Second>,
    arcs: &[T],
    plan: &Plan,
    rooms: [usize; 2],
    second: (Answer, Vec<u32>, Vec<Second>),
) {
    let mut arcs = run.list("arcs", arcs);
    let mut supplies = run.list("supplies", &plan.supplies);
    let mut one = run.room("first buffer", rooms[0], &second.1);
    let mut two = run.room("second buffer", rooms[1], &second.2);
    let unit = unsafe {
        entry(
            arcs.pointer(),
            arcs.length(),
            supplies.pointer(),
            supplies.length(),
            one.pointer(),
            one.length(),
            two.pointer(),
            two.length(),
        )
    };
    run.judge(request, &[], unit, second.0, &mut [&mut arcs, &mut supplies, &mut one, &mut two]);
}

pub fn reason(run: &mut Run, network: &Network, arc: u32, end: u32, rooms: [usize; 2]) {
    let (second, marked_arcs, marked_nodes) = network.questions.reason(arc, end, rooms[0], rooms[1]);
    let mut arcs = run.list("arcs", network.arc_list());
    let mut supplies = run.list("supplies", &network.plan().supplies);
    let mut arc_buffer = run.room("arc buffer", rooms[0], &marked_arcs);
    let mut node_buffer = run.room("node buffer", rooms[1], &marked_nodes);
    let unit = unsafe {
        boundary::blenrop_reason(
            arcs.pointer(),
            arcs.length(),
            supplies.pointer(),
            supplies.length(),
            arc,
            end,
            arc_buffer.pointer(),
            arc_buffer.length(),
            node_buffer.pointer(),
            node_buffer.length(),
        )
    };
    run.judge(
        &requests::REASON,
        &[("arc", arc), ("end", end)],
        unit,
        second,
        &mut [&mut arcs, &mut supplies, &mut arc_buffer, &mut node_buffer],
    );
}

pub fn held(run: &mut Run, network: &Network, arc: u32, count: u32, room: usize) {
    let (second, counts) = network.questions.held(arc, count, room);
    let mut arcs = run.list("arcs", network.arc_list());
    let mut supplies = run.list("supplies", &network.plan().supplies);
    let mut arc_buffer = run.room("arc buffer", room, &counts);
    let unit = unsafe {
        boundary::blenrop_held(
            arcs.pointer(),
            arcs.length(),
            supplies.pointer(),
            supplies.length(),
            arc,
            count,
            arc_buffer.pointer(),
            arc_buffer.length(),
        )
    };
    run.judge(
        &requests::HELD,
        &[("arc", arc), ("count", count)],
        unit,
        second,
        &mut [&mut arcs, &mut supplies, &mut arc_buffer],
    );
}
