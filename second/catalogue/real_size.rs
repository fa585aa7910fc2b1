//! Plans of the size that a depot enters, described lane by lane. Each lane is given what it carries
//! in one shift, and limits around it; what a station has or needs follows from its lanes.

use std::ops::RangeInclusive;

use super::Named;
use reference::plan::{Arc, Plan, WIDEST_HIGH};

pub fn plans() -> Vec<Named> {
    vec![
        Named { name: "depot", about: "8 gates, 16 sorters, 24 staging lanes, 16 doors", plan: depot() },
        Named { name: "depot-short", about: "the depot with door 60 nearly shut", plan: depot_short() },
        Named { name: "full", about: "64 stations, 8 lanes from each, limits to 65,535", plan: full() },
        Named { name: "yard", about: "12 stations, parallel and opposite lanes, self-loops", plan: yard() },
    ]
}

/// Cages come in at the gates, and go by sorters and staging lanes to the doors.
fn depot() -> Plan {
    let (gates, sorters, staging, doors) = (0..8, 8..24, 24..48, 48..64);
    let mut shift = Shift::of_stations(64);
    for gate in gates {
        for sorter in sorters.clone() {
            let carries = 4 + (gate * 3 + sorter * 5) % 9;
            shift.lane(gate, sorter, 0..=carries + (gate + sorter) % 4, carries);
        }
    }
    for sorter in sorters {
        for lane in staging.clone().filter(|lane| (lane + sorter) % 2 == 0) {
            let carries = 2 + (sorter * 7 + lane * 2) % 8;
            shift.lane(sorter, lane, carries % 3..=carries + lane % 5, carries);
        }
    }
    for lane in staging {
        for door in doors.clone().filter(|door| (door + lane) % 2 == 1) {
            let carries = 1 + (lane * 5 + door) % 7;
            shift.lane(lane, door, 0..=carries + (lane * door) % 3, carries);
        }
    }
    shift.plan
}

/// Every lane to door 60 takes two cages at most, which is less than the door waits for.
fn depot_short() -> Plan {
    let mut plan = depot();
    for lane in plan.arcs.iter_mut().filter(|lane| lane.to == 60) {
        lane.high = lane.high.min(2);
    }
    plan
}

fn full() -> Plan {
    let mut shift = Shift::of_stations(64);
    for station in 0..64 {
        for (turn, distance) in [1, 2, 3, 5, 8, 13, 21, 34].into_iter().enumerate() {
            let carries = (station * 977 + distance * 3_571) % 20_000;
            let limits = match turn {
                0 => 0..=WIDEST_HIGH,
                1 | 2 => carries / 2..=WIDEST_HIGH,
                3 => carries..=carries,
                _ => carries - carries % 100..=carries + 50,
            };
            shift.lane(station, (station + distance) % 64, limits, carries);
        }
    }
    shift.plan
}

fn yard() -> Plan {
    let mut shift = Shift::of_stations(12);
    for station in 0..12 {
        let next = (station + 1) % 12;
        shift.lane(station, next, 0..=6, 3 + station % 3);
        shift.lane(station, next, 1..=4, 2);
        shift.lane(next, station, 0..=2, station % 2);
        shift.lane(station, station, station..=station + 5, station);
    }
    shift.plan
}

struct Shift {
    plan: Plan,
}

impl Shift {
    fn of_stations(stations: usize) -> Shift {
        Shift { plan: Plan { arcs: vec![], supplies: vec![0; stations] } }
    }

    fn lane(&mut self, from: u32, to: u32, limits: RangeInclusive<u32>, carries: u32) {
        assert!(limits.contains(&carries));
        self.plan.arcs.push(Arc::new(from, to, *limits.start(), *limits.end()));
        self.plan.supplies[from as usize] += carries as i32;
        self.plan.supplies[to as usize] -= carries as i32;
    }
}
