//! One call: memory and a record, before the exported step and before the independent program.

use crate::image;
use crate::timing::best;
use borjavid::records;
use reference::{call, call_trusting, Answer, Memory};
use std::hint::black_box;

pub struct Scene {
    pub memory: Memory,
    pub record: Vec<u8>,
}

impl Scene {
    /// The memory as it is lent.
    pub fn lent(&self) -> borjavid::Memory {
        let rows = self.memory.mailboxes.len();
        let entries = self.memory.messages.len();
        let mut lent = borjavid::Memory::with_tables(self.memory.queue.len(), rows, entries);
        image::write(&self.memory, lent.lend());
        lent
    }

    /// What the independent program answers and leaves.
    pub fn served(&self) -> (Answer, Memory) {
        let mut memory = self.memory.clone();
        let answer = call(&mut memory, &self.record);
        (answer, memory)
    }

    /// The library answers and leaves the same.
    pub fn agrees(&self) -> bool {
        let (answer, memory) = self.served();
        let mut lent = self.lent();
        let proved = lent.step(&self.record);
        proved.number() == answer.refusal
            && proved.count() == answer.count.map(u64::from)
            && image::read(&lent.lend()).is_some_and(|left| left == memory)
    }

    pub fn library(&self, runs: usize) -> u64 {
        let lent = self.lent();
        let make = || {
            let mut lent = lent.clone();
            assert_eq!(lent.step(&WARMING).number(), 0);
            lent
        };
        best(runs, make, |lent| {
            let _ = black_box(lent.step(black_box(&self.record)));
        })
    }

    /// The independent program with its full test of refusal 1.
    pub fn full(&self, runs: usize) -> u64 {
        self.independent(runs, call)
    }

    /// The independent program trusting its memory.
    pub fn trusting(&self, runs: usize) -> u64 {
        self.independent(runs, call_trusting)
    }

    fn independent(&self, runs: usize, call: fn(&mut Memory, &[u8]) -> Answer) -> u64 {
        let make = || {
            let mut memory = self.memory.clone();
            assert_eq!(call(&mut memory, &WARMING).refusal, 0);
            memory
        };
        best(runs, make, |memory| {
            black_box(call(memory, black_box(&self.record)));
        })
    }
}

/// `DR` of nothing, before each call that is timed: it changes nothing, and a server's session is warm.
const WARMING: [u8; 8] = *b"DR\x04\0\0\0\0\0";

/// A scene with a command.
pub fn command(memory: Memory, line: &str) -> Scene {
    let record = records::command(line.as_bytes());
    Scene { memory, record }
}
