//! The plan file: reading, writing, and the payload of a block.

use reference::file;

use super::network::Network;
use crate::boundary;
use crate::requests;
use crate::run::Run;

pub fn read(run: &mut Run, bytes: &[u8], supply_room: usize, arc_room: usize) {
    let (second, read_supplies, read_arcs) = file::read(bytes, supply_room, arc_room);
    let mut file = run.list("file", bytes);
    let mut supplies = run.room("supplies", supply_room, &read_supplies);
    let mut arcs = run.room("arcs", arc_room, &read_arcs);
    let unit = unsafe {
        boundary::blenrop_file_read(
            file.pointer(),
            file.length(),
            supplies.pointer(),
            supplies.length(),
            arcs.pointer(),
            arcs.length(),
        )
    };
    run.judge(&requests::FILE_READ, &[], unit, second, &mut [&mut file, &mut supplies, &mut arcs]);
}

pub fn write(run: &mut Run, network: &Network, room: usize) {
    let (second, bytes) = file::write(network.plan(), room);
    let mut arcs = run.list("arcs", network.arc_list());
    let mut supplies = run.list("supplies", &network.plan().supplies);
    let mut file = run.room("file", room, &bytes);
    let unit = unsafe {
        boundary::blenrop_file_write(
            arcs.pointer(),
            arcs.length(),
            supplies.pointer(),
            supplies.length(),
            file.pointer(),
            file.length(),
        )
    };
    run.judge(&requests::FILE_WRITE, &[], unit, second, &mut [&mut arcs, &mut supplies, &mut file]);
}

pub fn payload(run: &mut Run, bytes: &[u8], block: u32) {
    let second = file::payload(bytes, block);
    let mut file = run.list("file", bytes);
    let unit = unsafe { boundary::blenrop_file_payload(file.pointer(), file.length(), block) };
    run.judge(&requests::FILE_PAYLOAD, &[("block", block)], unit, second, &mut [&mut file]);
}
