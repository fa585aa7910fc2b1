//! Runs the listing program on plan files, right and damaged, and compares every line with a listing of its own.
//!
//!     listings PROGRAM

use std::io::{self, Write};
use std::process::{Command, ExitCode, Stdio};

use reference::answer::{Answer, NONE};
use reference::file::{file_of, read, BLOCK, LONGEST};
use reference::network::Questions;
use reference::plan::{Arc, Plan, ARC_ENTRIES, MOST_ARCS, MOST_NODES};

fn main() -> ExitCode {
    let Some(program) = std::env::args().nth(1) else {
        eprintln!("listings PROGRAM");
        return ExitCode::from(2);
    };
    let files = inputs();
    for (name, bytes) in &files {
        let printed = match printed_by(&program, bytes) {
            Ok(printed) => printed,
            Err(error) => {
                eprintln!("listings: {program}: {error}");
                return ExitCode::FAILURE;
            }
        };
        let expected = listing(bytes);
        if printed != expected.as_bytes() {
            println!(
                "{name}: the program prints\n{}where the listing is\n{expected}",
                String::from_utf8_lossy(&printed)
            );
            return ExitCode::FAILURE;
        }
    }
    println!("compared: {} listings, 0 differences", files.len());
    ExitCode::SUCCESS
}

fn printed_by(program: &str, input: &[u8]) -> io::Result<Vec<u8>> {
    let mut child = Command::new(program).stdin(Stdio::piped()).stdout(Stdio::piped()).spawn()?;
    // A program that has read enough may close its input first: that is no fault.
    let _ = child.stdin.take().map(|mut stdin| stdin.write_all(input));
    Ok(child.wait_with_output()?.stdout)
}

/// Every plan of the catalogue; the shortest of their files with each byte changed in turn; lengths round every limit.
fn inputs() -> Vec<(String, Vec<u8>)> {
    let files: Vec<(String, Vec<u8>)> =
        catalogue::every_plan().iter().map(|named| (named.name.to_string(), file_of(&named.plan))).collect();
    let mut inputs = files.clone();
    for (name, file) in files.iter().filter(|(_, file)| file.len() <= 2 * BLOCK).take(2) {
        for at in 0..file.len() {
            let mut changed = file.clone();
            changed[at] ^= 1 << (at % 8);
            inputs.push((format!("{name} with byte {at} changed"), changed));
        }
    }
    for length in [0, 1, BLOCK - 1, BLOCK, BLOCK + 1, LONGEST - 1, LONGEST, LONGEST + 1, 3 * LONGEST, 64 * LONGEST] {
        inputs.push((format!("{length} zeros"), vec![0; length]));
    }
    for (name, file) in &files {
        let mut longer = file.clone();
        longer.resize(LONGEST + 1, 0);
        inputs.push((format!("{name}, one byte past the longest"), longer));
    }
    inputs
}

/// The listing of document 01.
fn listing(bytes: &[u8]) -> String {
    let (answer, supplies, arcs) = read(bytes, MOST_NODES, MOST_ARCS * ARC_ENTRIES);
    if answer.number != 0 {
        return refused(answer);
    }
    let plan = Plan::of_lists(&arcs, &supplies);
    let head = format!("nodes {} arcs {}\n", plan.nodes(), plan.arcs.len());
    let (answer, counts, marks) = Questions::about(plan.clone()).flow(MOST_ARCS, MOST_NODES);
    match answer.number {
        0 => head + &arc_lines(&plan, &counts),
        NONE => head + &format!("none {}\n", answer.value) + &set_line(&marks) + &cited_lines(&plan, &counts),
        _ => refused(answer),
    }
}

fn refused(answer: Answer) -> String {
    format!("refused {} at {}\n", answer.number, answer.index)
}

fn arc_lines(plan: &Plan, counts: &[u32]) -> String {
    let (_, lows, highs) = Questions::about(plan.clone()).narrow(MOST_ARCS, MOST_ARCS);
    let line = |(k, arc): (usize, &Arc)| {
        let ends = format!("{} {} {} {}", arc.from, arc.to, arc.low, arc.high);
        format!("arc {k} {ends} {} {} {}\n", counts[k], lows[k], highs[k])
    };
    plan.arcs.iter().enumerate().map(line).collect()
}

fn set_line(marks: &[u8]) -> String {
    let nodes: String = (0..marks.len()).filter(|&v| marks[v] == 1).map(|v| format!(" {v}")).collect();
    format!("in{nodes}\n")
}

fn cited_lines(plan: &Plan, marks: &[u32]) -> String {
    let line = |(k, arc): (usize, &Arc)| match marks[k] {
        1 => format!("cites {k} low {}\n", arc.low),
        2 => format!("cites {k} high {}\n", arc.high),
        _ => String::new(),
    };
    plan.arcs.iter().enumerate().map(line).collect()
}
