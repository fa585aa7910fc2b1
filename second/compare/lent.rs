//! Memory that is lent to the unit, with guards on both sides. It knows what it must hold after the
//! call, entry by entry, guards and lists for reading included, and says where it differs.

use std::fmt::Debug;

use reference::plan::Arc;

use crate::random::Random;

/// So many that a unit which always writes 64 marks meets a guard and no one else's memory.
const GUARD: usize = 64;

pub trait Entry: Copy + PartialEq + Debug {
    fn any(random: &mut Random) -> Self;
    /// A value that is not this one.
    fn other(self) -> Self;
}

pub struct Lent<T> {
    name: &'static str,
    memory: Vec<T>,
    expected: Vec<T>,
    is_list: bool,
    /// Nothing is lent, and not even an address: C may give a null pointer with the length 0.
    is_null: bool,
}

impl<T: Entry> Lent<T> {
    /// A list that the unit reads.
    pub fn list(name: &'static str, entries: &[T], random: &mut Random) -> Lent<T> {
        let mut lent = Lent::room(name, entries.len(), random);
        lent.memory[GUARD..GUARD + entries.len()].copy_from_slice(entries);
        Lent { expected: lent.memory.clone(), is_list: true, ..lent }
    }

    /// A buffer that the unit writes to, with any content before.
    pub fn room(name: &'static str, length: usize, random: &mut Random) -> Lent<T> {
        let memory: Vec<T> = (0..GUARD + length + GUARD).map(|_| T::any(random)).collect();
        let is_null = length == 0 && random.one_in(2);
        Lent { name, expected: memory.clone(), memory, is_list: false, is_null }
    }

    /// Says what the buffer must begin with after the call; the rest must stay.
    pub fn expect(&mut self, beginning: &[T]) {
        self.expected[GUARD..GUARD + beginning.len()].copy_from_slice(beginning);
    }

    pub fn pointer(&mut self) -> *mut T {
        if self.is_null {
            return std::ptr::null_mut();
        }
        self.memory[GUARD..].as_mut_ptr()
    }

    pub fn length(&self) -> usize {
        self.memory.len() - 2 * GUARD
    }

    fn place(&self, index: usize) -> String {
        match index.checked_sub(GUARD) {
            None => format!("{}, guard {} before it", self.name, GUARD - index),
            Some(entry) if entry < self.length() => format!("{}, entry {entry}", self.name),
            Some(entry) => format!("{}, guard {} after it", self.name, entry - self.length() + 1),
        }
    }
}

/// What the comparison needs of lent memory, whatever its entries are.
pub trait Watched {
    fn describe(&self) -> String;
    fn differences(&self) -> Vec<String>;
    /// Changes one entry, and says whether there is one.
    fn spoil_entry(&mut self, random: &mut Random) -> bool;
    fn spoil_guard(&mut self, random: &mut Random);
}

impl<T: Entry> Watched for Lent<T> {
    fn describe(&self) -> String {
        if self.is_list {
            format!("{}: {:?}", self.name, &self.expected[GUARD..GUARD + self.length()])
        } else {
            format!("{}: room for {}", self.name, self.length())
        }
    }

    fn differences(&self) -> Vec<String> {
        if self.memory == self.expected {
            return vec![];
        }
        let both = self.memory.iter().zip(&self.expected).enumerate().filter(|(_, (left, right))| left != right);
        let say = |(index, (left, right)): (usize, (&T, &T))| {
            format!("{}: the unit left {left:?}, the second program {right:?}", self.place(index))
        };
        both.map(say).collect()
    }

    fn spoil_entry(&mut self, random: &mut Random) -> bool {
        let length = self.length();
        if 0 < length {
            let entry = &mut self.memory[GUARD + random.below(length)];
            *entry = entry.other();
        }
        0 < length
    }

    fn spoil_guard(&mut self, random: &mut Random) {
        let index = random.below(2 * GUARD);
        let after = if index < GUARD { 0 } else { self.length() };
        let entry = &mut self.memory[after + index];
        *entry = entry.other();
    }
}

macro_rules! number_entries {
    ($($number:ty),*) => {$(
        impl Entry for $number {
            fn any(random: &mut Random) -> Self {
                random.word() as $number
            }

            fn other(self) -> Self {
                self ^ 1
            }
        }
    )*};
}

number_entries!(u8, u32, u64, i32);

impl Entry for Arc {
    fn any(random: &mut Random) -> Self {
        Arc::new(u32::any(random), u32::any(random), u32::any(random), u32::any(random))
    }

    fn other(self) -> Self {
        Arc { low: self.low.other(), ..self }
    }
}
