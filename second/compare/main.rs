//! Compares the unit with the second program, request by request, through the unit's C boundary.
//!
//!     compare [--seed N] [--rounds N] [--self-test]

mod ask;
mod boundary;
mod draw;
mod lent;
mod pass;
mod random;
mod requests;
mod run;
mod self_test;

use std::ops::Range;
use std::thread;

use run::Run;

const SEED: u64 = 1;
const ROUNDS: usize = 4_000;
/// The rounds are shared out to so many threads on every machine, so that a seed stands for one run.
const THREADS: usize = 2;

struct Options {
    seed: u64,
    rounds: usize,
    self_test: bool,
}

fn main() {
    let Some(options) = options() else {
        eprintln!("compare [--seed N] [--rounds N] [--self-test]");
        std::process::exit(2);
    };
    if options.self_test {
        self_test::every_fault_is_seen(options.seed);
        return;
    }
    let run = compare_on_threads(options.seed, options.rounds);
    print!("{}", run.numbers());
    if !run.met_every_number() {
        println!("not every number and kind came up: {} rounds are too few", options.rounds);
        std::process::exit(1);
    }
    println!("compared: {}; {} requests, 0 differences", run.tally(), run.total());
}

fn compare_on_threads(seed: u64, rounds: usize) -> Run {
    let part = |number: usize| {
        let mut run = Run::of_part(seed, number);
        compare(&mut run, number * rounds / THREADS..(number + 1) * rounds / THREADS);
        run
    };
    let mut run = thread::scope(|scope| {
        let parts: Vec<_> = (0..THREADS).map(|number| scope.spawn(move || part(number))).collect();
        parts.into_iter().map(|part| part.join().expect("a thread ended early")).reduce(Run::and)
    })
    .expect("there is a thread");
    pass::worked::all(&mut run);
    pass::stations::all(&mut run);
    run
}

/// Ends the program at the first difference.
fn compare(run: &mut Run, rounds: Range<usize>) {
    for number in rounds {
        pass::networks::round(run, number);
        pass::countings::round(run, number);
        pass::files::round(run);
    }
}

fn options() -> Option<Options> {
    let mut options = Options { seed: SEED, rounds: ROUNDS, self_test: false };
    let mut words = std::env::args().skip(1);
    while let Some(word) = words.next() {
        match word.as_str() {
            "--seed" => options.seed = words.next()?.parse().ok()?,
            "--rounds" => options.rounds = words.next()?.parse().ok()?,
            "--self-test" => options.self_test = true,
            _ => return None,
        }
    }
    Some(options)
}
