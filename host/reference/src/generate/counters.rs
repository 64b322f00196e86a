//! Change counters: mostly just above the mailbox's own, now and then at an end of the range or beyond it.

use crate::memory::COUNTER_MOST;
use crate::random::Random;

/// The counter of a new mailbox: mostly low, some about to leave 32 bits, a few about to leave the range.
pub fn first(random: &mut Random) -> u64 {
    let near = random.below(20) as u64;
    match random.below(200) {
        0 => 0,
        1 => COUNTER_MOST + 1,
        2 => u64::MAX,
        3..=8 => COUNTER_MOST - near,
        9..=24 => (1 << 32) - 1 - near / 4,
        25..=44 => (random.number() >> random.between(1, 63)).max(1),
        _ => random.between(1, 120) as u64,
    }
}

/// The counter of a change in a mailbox that has this one.
pub fn next(random: &mut Random, own: u64) -> u64 {
    match random.below(3000) {
        0 => COUNTER_MOST,
        1..=6 => 0,
        7..=12 => COUNTER_MOST + 1,
        13..=18 => u64::MAX,
        19..=60 => own,
        61..=100 => own - 1,
        101..=140 => own % 1000 + 1,
        141..=300 => own + random.between(2, 10_000) as u64,
        _ => own + 1,
    }
}

/// A record without its counter: what it was before there were any. Others stay.
pub fn old_layout(octets: &mut Vec<u8>) {
    let counter = match octets.get(..2) {
        Some(b"MB") if octets.len() >= 20 => 12..20,
        Some(b"ME" | b"XP" | b"FL") if octets.len() > 8 => octets.len() - 8..octets.len(),
        _ => return,
    };
    octets.drain(counter);
    let body = (octets.len() - 4) as u16;
    octets[2..4].copy_from_slice(&body.to_le_bytes());
}
