//! Counts what was compared of one kind of call, and tells of each difference.

use crate::answers::{Heard, Outcome, Part, Walked, Written};
use std::collections::BTreeMap;
use std::fmt::Debug;

/// So many differences of a kind are printed in full.
const PRINTED: u64 = 3;

/// What is counted of an answer.
pub trait Counted {
    fn packets(&self) -> usize {
        0
    }

    fn refusal(&self) -> Option<u32> {
        None
    }
}

impl Counted for Heard {
    fn packets(&self) -> usize {
        self.packets.len()
    }
}

impl Counted for Written {
    fn refusal(&self) -> Option<u32> {
        self.answer.err()
    }
}

impl<T> Counted for Result<(T, Part), u32> {
    fn refusal(&self) -> Option<u32> {
        self.as_ref().err().copied()
    }
}

impl Counted for Walked {
    fn packets(&self) -> usize {
        self.packets.len()
    }

    fn refusal(&self) -> Option<u32> {
        Some(self.number).filter(|number| *number != 0)
    }
}

/// The counts of one kind of call.
pub struct Tally {
    name: &'static str,
    calls: u64,
    pub bytes: u64,
    packets: u64,
    refusals: BTreeMap<u32, u64>,
    pub zero_counts: u64,
    pub differences: u64,
}

impl Tally {
    pub fn new(name: &'static str) -> Tally {
        Tally {
            name,
            calls: 0,
            bytes: 0,
            packets: 0,
            refusals: BTreeMap::new(),
            zero_counts: 0,
            differences: 0,
        }
    }

    /// Counts one call of so many bytes by the published text's answer.
    pub fn count<T: Counted>(&mut self, bytes: usize, rust: &Outcome<T>) {
        self.calls += 1;
        self.bytes += bytes as u64;
        if let Outcome::Given(answer) = rust {
            self.packets += answer.packets() as u64;
            if let Some(number) = answer.refusal() {
                *self.refusals.entry(number).or_default() += 1;
            }
        }
    }

    /// Counts and prints a difference, if the two are one.
    pub fn compare<T: PartialEq + Debug>(
        &mut self,
        input: impl Fn() -> String,
        rust: &Outcome<T>,
        port: &Outcome<T>,
    ) {
        if rust == port {
            return;
        }
        self.differences += 1;
        if self.differences <= PRINTED {
            println!(
                "difference, {}: {}\n  rust: {rust:x?}\n  port: {port:x?}",
                self.name,
                input()
            );
        }
    }

    /// Counts the call and compares its two answers.
    pub fn call<T: PartialEq + Debug + Counted>(
        &mut self,
        bytes: usize,
        input: impl Fn() -> String,
        rust: &Outcome<T>,
        port: &Outcome<T>,
    ) {
        self.count(bytes, rust);
        self.compare(input, rust, port);
    }

    /// The line that a run ends with.
    pub fn print(&self) {
        let mut line = format!("{}: {} calls, {} bytes", self.name, self.calls, self.bytes);
        if self.packets > 0 {
            line += &format!(", {} packets", self.packets);
        }
        for (number, times) in &self.refusals {
            line += &format!(", {times} refused by {number}");
        }
        if self.zero_counts > 0 {
            line += &format!(", {} ended at a zero count", self.zero_counts);
        }
        println!("{line}, {} differences", self.differences);
    }
}
