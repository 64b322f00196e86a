//! Ids and names of mailboxes, plain ones and such as make a table of guesses useless.

use reference::names::Name;
use reference::random::Random;

/// One more than a table takes, for the records that bring a new one.
pub const COUNT: usize = 65;

#[derive(Clone, Copy, PartialEq, Eq, Debug)]
pub enum Ids {
    Drawn,
    Falling,
    /// All in one of 1,024 slots, where the slot is the head of a product of 32 bits.
    Slot32,
    /// The same with a product of 16 bits.
    Slot16,
    /// The same with the number's own low bits.
    LowBits,
}

impl Ids {
    pub fn make(self) -> Vec<u16> {
        match self {
            Ids::Drawn => drawn(),
            Ids::Falling => (1..=COUNT as u16).rev().collect(),
            Ids::Slot32 => sharing(|id| u32::from(id).wrapping_mul(0x9E37_79B9) >> 22),
            Ids::Slot16 => sharing(|id| u32::from(id.wrapping_mul(0x9E37) >> 6)),
            Ids::LowBits => sharing(|id| u32::from(id % 1024)),
        }
    }
}

fn drawn() -> Vec<u16> {
    let mut random = Random::new(64);
    let mut ids = Vec::new();
    while ids.len() < COUNT {
        let id = random.number() as u16;
        if id != 0 && !ids.contains(&id) {
            ids.push(id);
        }
    }
    ids
}

/// Ids of the slot that has the most; a few others where it has too few.
fn sharing(slot: impl Fn(u16) -> u32) -> Vec<u16> {
    let mut counts = [0; 1024];
    for id in 1..=u16::MAX {
        counts[slot(id) as usize] += 1;
    }
    let fullest = (0..1024).max_by_key(|&slot| counts[slot as usize]);
    let inside = |id: &u16| Some(slot(*id)) == fullest;
    let ids = (1..=u16::MAX).filter(inside);
    let others = (1..=u16::MAX).filter(|id| !inside(id));
    ids.chain(others).take(COUNT).collect()
}

#[derive(Clone, Copy, PartialEq, Eq, Debug)]
pub enum Names {
    Short,
    /// 64 octets, the same up to the last two.
    Alike,
    /// 64 octets, all of which are written with a `\` before them.
    Quoted,
    /// 64 octets with one digest, the same but for four.
    Digest,
    /// 64 octets, a part every two.
    Deep,
}

impl Names {
    pub fn make(self, number: usize) -> Name {
        let octets = match self {
            Names::Short => short(number),
            Names::Alike => format!("Plant/{:-<56}{number:02}", "Feeder").into_bytes(),
            Names::Quoted => quoted(number),
            Names::Digest => one_digest(number),
            Names::Deep => format!("{}{number:02}", "a/".repeat(31)).into_bytes(),
        };
        Name::read(&octets).expect("a valid name")
    }
}

fn short(number: usize) -> Vec<u8> {
    match number % 3 {
        0 => format!("Ops/Site-{number}"),
        1 => format!("Reports/Week {number}"),
        _ => format!("Plant/Hall {}/Feeder-{number}", number % 9),
    }
    .into_bytes()
}

/// The number in quotes and backslashes.
fn quoted(number: usize) -> Vec<u8> {
    let octet = |place: usize| b"\"\\"[number >> (place % 7) & 1];
    (0..64).map(octet).collect()
}

/// The digest counts each eight octets three times as often as the eight behind them: 1 more here is 3 less there.
fn one_digest(number: usize) -> Vec<u8> {
    let mut octets = vec![b'P'; 64];
    for (place, by) in [(48, number / 8), (49, number % 8)] {
        octets[place] += by as u8;
        octets[place + 8] -= 3 * by as u8;
    }
    octets
}
