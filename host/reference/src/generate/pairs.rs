//! Pairs of streams that differ only in records about hidden ids.

pub use super::pools::HIDDEN_IDS;
use super::Generator;
use crate::call::refusal_of;
use crate::call_trusting;
use crate::memory::{Memory, RIGHTS};
use crate::random::Random;
use crate::records::{about, read, Record};

/// One record, and whether both streams have it.
pub struct Step {
    pub common: bool,
    pub octets: Vec<u8>,
}

pub struct Pair {
    pub queue: usize,
    pub mailboxes: usize,
    pub messages: usize,
    pub first: Vec<Step>,
    pub second: Vec<Step>,
}

/// Is the record about a hidden id?
pub fn is_hidden(octets: &[u8]) -> bool {
    about(octets).is_some_and(|id| HIDDEN_IDS.contains(&id))
}

/// Would the record, taken, give its mailbox a right?
fn grants(memory: &Memory, octets: &[u8]) -> bool {
    let rights = match read(octets) {
        Some(Record::Create { attributes, .. }) => attributes & RIGHTS,
        Some(Record::Rights { rights, .. }) => rights,
        _ => 0,
    };
    rights != 0 && refusal_of(memory, octets) == 0
}

/// A pair with about `count` records in common. Records that both are to have and that would be
/// refused by 4 or 7 in either are left out: the claim says nothing of such streams.
pub fn pair(seed: u64, count: usize) -> Pair {
    let mut random = Random::new(seed ^ 0x7061_6972);
    let queue = random.pick(&[1024, 1024, 1100, 1500, 8192]);
    let mailboxes = random.pick(&[6, 8, 12, 64]);
    let messages = random.pick(&[8, 16, 40, 1024]);
    let mut open = Generator::new(random.number());
    let mut hidden = Generator::over(random.number(), HIDDEN_IDS, true);
    let share = random.pick(&[10, 30, 50]);
    let mut memories = [0, 1].map(|_| Memory::new(queue, mailboxes, messages));
    let mut streams = [Vec::new(), Vec::new()];
    let add = |memory: &mut Memory, stream: &mut Vec<Step>, common, octets: Vec<u8>| {
        call_trusting(memory, &octets);
        stream.push(Step { common, octets });
    };
    for _ in 0..count {
        for side in 0..2 {
            while random.chance(share) {
                let octets = hidden.propose(&memories[side]);
                if is_hidden(&octets) && !grants(&memories[side], &octets) {
                    add(&mut memories[side], &mut streams[side], false, octets);
                }
            }
        }
        let side = random.below(2);
        let octets = open.propose(&memories[side]);
        let barred = memories
            .iter()
            .any(|memory| matches!(refusal_of(memory, &octets), 4 | 7));
        if is_hidden(&octets) || barred {
            continue;
        }
        for side in 0..2 {
            add(
                &mut memories[side],
                &mut streams[side],
                true,
                octets.clone(),
            );
        }
    }
    let [first, second] = streams;
    Pair {
        queue,
        mailboxes,
        messages,
        first,
        second,
    }
}
