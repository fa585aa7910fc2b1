//! A run: lends memory, judges what the unit left of it, and counts what was compared.

use std::collections::BTreeMap;

use reference::answer::Answer;

use crate::lent::{Entry, Lent, Watched};
use crate::random::Random;
use crate::requests::{self, Request};

/// What a self-test changes in what the unit gave, to see whether the comparison tells.
#[derive(Clone, Copy, Debug)]
pub enum Fault {
    Number,
    Index,
    Value,
    Entry,
    Guard,
}

impl Fault {
    pub const ALL: [Fault; 5] = [Fault::Number, Fault::Index, Fault::Value, Fault::Entry, Fault::Guard];
}

pub struct Run {
    pub random: Random,
    seed: u64,
    planting: Option<Fault>,
    /// How many requests of each name got each number, and each kind of 0.
    compared: BTreeMap<(&'static str, u32, usize), u64>,
}

impl Run {
    /// A part of the run that the seed stands for, with random numbers of its own.
    pub fn of_part(seed: u64, number: usize) -> Run {
        let random = Random::of_seed(seed ^ (number as u64) << 32);
        Run { random, seed, planting: None, compared: BTreeMap::new() }
    }

    /// A run that plants a fault in every answer, and ends the program if one is not told.
    pub fn planting(fault: Fault, seed: u64) -> Run {
        Run { planting: Some(fault), ..Run::of_part(seed, 0) }
    }

    /// What two parts compared, as one.
    pub fn and(mut self, other: Run) -> Run {
        for (answer, times) in other.compared {
            *self.compared.entry(answer).or_default() += times;
        }
        self
    }

    pub fn list<T: Entry>(&mut self, name: &'static str, entries: &[T]) -> Lent<T> {
        Lent::list(name, entries, &mut self.random)
    }

    /// A buffer of a length, with what the second program says that it begins with afterwards.
    pub fn room<T: Entry>(&mut self, name: &'static str, length: usize, beginning: &[T]) -> Lent<T> {
        let mut lent = Lent::room(name, length, &mut self.random);
        lent.expect(beginning);
        lent
    }

    /// How long a buffer is lent: mostly as long as needed, at times longer, seldom too short.
    pub fn length_for(&mut self, needed: usize) -> usize {
        match self.random.below(32) {
            0 => needed.saturating_sub(1),
            1 => self.random.below(needed.max(1)),
            2..=7 => needed + self.random.between(1, 80),
            _ => needed,
        }
    }

    /// Compares one request: the answer, and every entry and guard of the lent memory.
    pub fn judge(
        &mut self,
        request: &Request,
        asked: &[(&str, u32)],
        mut unit: Answer,
        second: Answer,
        lent: &mut [&mut dyn Watched],
    ) {
        if self.planting.is_some_and(|fault| !self.plant(fault, &mut unit, lent)) {
            return;
        }
        let memory_agrees = lent.iter().all(|memory| memory.differences().is_empty());
        if (unit == second && memory_agrees) == self.planting.is_some() {
            self.report(request, asked, unit, second, lent);
        }
        let kind = if second.number == 0 && !request.kinds.is_empty() { second.index as usize } else { 0 };
        assert!(kind < request.kinds.len().max(1), "an answer of no kind");
        *self.compared.entry((request.name, second.number, kind)).or_default() += 1;
    }

    /// Changes what the unit gave, and says whether there was something to change.
    fn plant(&mut self, fault: Fault, unit: &mut Answer, lent: &mut [&mut dyn Watched]) -> bool {
        let memory = self.random.below(lent.len());
        match fault {
            Fault::Number => unit.number += 1,
            Fault::Index => unit.index ^= 1,
            Fault::Value => unit.value += 1,
            Fault::Entry => return lent[memory].spoil_entry(&mut self.random),
            Fault::Guard => lent[memory].spoil_guard(&mut self.random),
        }
        true
    }

    /// Prints what was asked and both answers, and ends the program: one difference is enough.
    fn report(
        &self,
        request: &Request,
        asked: &[(&str, u32)],
        unit: Answer,
        second: Answer,
        lent: &[&mut dyn Watched],
    ) -> ! {
        let _no_other_thread = std::io::stdout().lock();
        match self.planting {
            None => println!("DIFFERENCE in blenrop_{}, seed {}", request.name, self.seed),
            Some(fault) => println!("NOT SEEN in blenrop_{}, seed {}: a wrong {fault:?}", request.name, self.seed),
        }
        lent.iter().for_each(|memory| println!("{}", memory.describe()));
        asked.iter().for_each(|(name, number)| println!("{name}: {number}"));
        println!("the unit answers {unit:?}\nthe second program {second:?}");
        lent.iter().flat_map(|memory| memory.differences()).for_each(|difference| println!("{difference}"));
        std::process::exit(1)
    }

    pub fn total(&self) -> u64 {
        self.compared.values().sum()
    }

    pub fn total_of(&self, request: &Request) -> u64 {
        self.compared.iter().filter(|((name, _, _), _)| *name == request.name).map(|(_, times)| times).sum()
    }

    /// How many requests were compared, of each.
    pub fn tally(&self) -> String {
        let of_request = |request: &Request| format!("{} {}", request.name, self.total_of(request));
        requests::ALL.iter().map(of_request).collect::<Vec<_>>().join(", ")
    }

    /// How often each number and each kind of 0 came up, for each request in a line of its own.
    pub fn numbers(&self) -> String {
        let of_request = |request: &Request| {
            let of_number = |&number| format!("{number} x {}", self.times(request, number));
            let of_kind = |(kind, name)| format!("; of 0, {name} x {}", self.times_of_kind(request, 0, kind));
            let numbers: Vec<String> = request.numbers.iter().map(of_number).collect();
            let kinds: String = request.kinds.iter().enumerate().map(of_kind).collect();
            format!("{}, by number: {}{kinds}\n", request.name, numbers.join(", "))
        };
        requests::ALL.iter().map(of_request).collect()
    }

    /// Whether every number and kind that a request can give came up: one that did not was not compared.
    pub fn met_every_number(&self) -> bool {
        let met = |request: &Request| {
            request.numbers.iter().all(|&number| 0 < self.times(request, number))
                && (0..request.kinds.len()).all(|kind| 0 < self.times_of_kind(request, 0, kind))
        };
        requests::ALL.iter().all(met)
    }

    fn times(&self, request: &Request, number: u32) -> u64 {
        (0..request.kinds.len().max(1)).map(|kind| self.times_of_kind(request, number, kind)).sum()
    }

    fn times_of_kind(&self, request: &Request, number: u32, kind: usize) -> u64 {
        self.compared.get(&(request.name, number, kind)).copied().unwrap_or(0)
    }
}
