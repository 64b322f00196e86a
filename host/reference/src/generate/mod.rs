//! Seeded records. A generator looks at the memory a record is meant for, so that most of what it
//! makes is to the point; a share of it is damaged.

pub mod commands;
pub mod counters;
pub mod family;
pub mod long;
pub mod pairs;
pub mod pools;
pub mod reasons;
pub mod searches;

use crate::memory::*;
use crate::names::Name;
use crate::random::Random;
use pools::{name, wide_name, BAD_NAMES, OPEN_IDS, STRAY_IDS, WIDE_IDS};

/// A record made from its mark and body.
pub fn record(mark: &str, body: &[u8]) -> Vec<u8> {
    let mut octets = mark.as_bytes().to_vec();
    octets.extend_from_slice(&(body.len() as u16).to_le_bytes());
    octets.extend_from_slice(body);
    octets
}

/// How one stream leans, so that streams differ in kind and not only in detail.
#[derive(Clone, Debug)]
struct Lean {
    weights: [usize; 12],
    damaged: usize,
    whole_drains: usize,
    /// Fills the queue quickly once groups stand and a mailbox is selected.
    fills: bool,
    /// Selects a mailbox soon.
    eager: bool,
    /// Is about parents: names beside those that are there, and groups that ask for them.
    family: bool,
}

impl Lean {
    fn new(random: &mut Random) -> Lean {
        //             MB DL RN SB RT  ME  XP  FL SE CE  CM DR
        let plain = [6, 2, 4, 4, 7, 18, 12, 10, 5, 8, 14, 8];
        let family = random.chance(18);
        let weights = match random.below(8) {
            _ if family => [18, 10, 4, 3, 26, 2, 1, 1, 5, 1, 12, 3],
            0 => [3, 1, 1, 1, 8, 24, 18, 14, 3, 14, 8, 3],
            1 => [4, 1, 2, 2, 3, 10, 5, 4, 5, 3, 50, 20],
            2 => [14, 8, 14, 12, 14, 4, 2, 2, 2, 2, 14, 6],
            3 => [4, 1, 3, 3, 5, 24, 14, 14, 3, 8, 14, 1],
            4 => [3, 1, 1, 1, 3, 50, 10, 5, 3, 5, 8, 10],
            // never drained, so that everything fills up
            5 | 6 => [3, 1, 2, 2, 6, 24, 14, 14, 2, 14, 22, 0],
            _ => plain,
        };
        Lean {
            weights,
            damaged: random.pick(&[0, 2, 5, 15]),
            whole_drains: random.pick(&[10, 50, 90]),
            fills: random.chance(35),
            eager: random.chance(60),
            family,
        }
    }
}

pub struct Generator {
    pub random: Random,
    ids: &'static [u16],
    /// Never gives a right away.
    hidden: bool,
    /// Fills both tables.
    wide: bool,
    lean: Lean,
}

impl Generator {
    pub fn new(seed: u64) -> Generator {
        Generator::over(seed, OPEN_IDS, false)
    }

    pub fn over(seed: u64, ids: &'static [u16], hidden: bool) -> Generator {
        let mut random = Random::new(seed);
        let lean = Lean::new(&mut random);
        Generator {
            random,
            ids,
            hidden,
            wide: false,
            lean,
        }
    }

    /// One that makes many mailboxes and messages.
    pub fn wide(seed: u64) -> Generator {
        Generator {
            wide: true,
            ..Generator::over(seed, WIDE_IDS, false)
        }
    }

    /// The next octet string for this memory, damaged or not.
    pub fn propose(&mut self, memory: &Memory) -> Vec<u8> {
        // long streams lean one way, then another
        if self.random.below(150) == 0 {
            self.lean = Lean::new(&mut self.random);
        }
        let octets = self.lawful(memory);
        if self.random.chance(self.lean.damaged) {
            self.damage(octets)
        } else {
            octets
        }
    }

    fn lawful(&mut self, memory: &Memory) -> Vec<u8> {
        if self.wide && self.random.chance(50) {
            let full = memory.mailbox_count == memory.mailboxes.len();
            return if full || self.random.chance(70) {
                self.message(memory)
            } else {
                self.create(memory)
            };
        }
        let mine = |row: &&Mailbox| self.ids.contains(&row.id);
        if memory.rows().iter().filter(mine).count() < 2 && self.random.chance(50) {
            return self.create(memory);
        }
        if self.lean.eager && !self.hidden && memory.session.selected == 0 && self.random.chance(30)
        {
            return record("SE", &self.id(memory));
        }
        let unheard = memory.session.mode != SET && memory.mailbox_count > 0;
        if self.lean.family && !self.hidden && unheard && self.random.chance(30) {
            return record("CM", &family::notify(&mut self.random, memory));
        }
        let watched =
            memory.session.mode == SET && (memory.session.selected != 0 || self.lean.family);
        if self.lean.fills
            && !self.hidden
            && watched
            && memory.room() > 100
            && self.random.chance(70)
        {
            return record("CM", &[&[b't'; 32][..], b" X"].concat());
        }
        let weights = self.lean.weights;
        let kind = self
            .random
            .weighed(&weights[..if self.hidden { 9 } else { 12 }]);
        match kind {
            0 => self.create(memory),
            1 => {
                let quiet = self.quiet();
                record("DL", &[&self.id(memory)[..], &[quiet]].concat())
            }
            2 => {
                let head = [&self.id(memory)[..], &[self.quiet()]].concat();
                record("RN", &[head, self.name(memory)].concat())
            }
            3 => {
                let id = self.id(memory);
                let bit = self.random.below(2) as u8;
                record("SB", &[&id[..], &[bit, self.quiet()]].concat())
            }
            4 => self.rights(memory),
            5 => self.message(memory),
            6 => {
                let (id, uid) = self.existing(memory);
                let counter = self.counter(memory, id);
                record("XP", &[&id[..], &uid, &counter].concat())
            }
            7 => {
                let flags = self.random.octet() & FLAG_BITS;
                let (id, uid) = self.existing(memory);
                let counter = self.counter(memory, id);
                record("FL", &[&id[..], &uid, &[flags], &counter].concat())
            }
            8 => self.select(memory),
            9 => record("CE", &[self.random.below(2) as u8]),
            10 if self.lean.family && self.random.chance(70) => {
                record("CM", &family::notify(&mut self.random, memory))
            }
            10 => record("CM", &commands::line(&mut self.random)),
            _ => self.drained(memory),
        }
    }

    fn quiet(&mut self) -> u8 {
        u8::from(self.random.chance(20))
    }

    /// An id, mostly one in the table.
    fn id(&mut self, memory: &Memory) -> [u8; 2] {
        let selected = memory.session.selected;
        let known: Vec<u16> = memory
            .rows()
            .iter()
            .map(|row| row.id)
            .filter(|id| self.ids.contains(id))
            .collect();
        let id = if self.ids.contains(&selected) && self.random.chance(35) {
            selected
        } else if !known.is_empty() && self.random.chance(90) {
            self.random.pick(&known)
        } else if self.hidden || self.random.chance(80) {
            self.random.pick(self.ids)
        } else {
            self.random.pick(STRAY_IDS)
        };
        id.to_le_bytes()
    }

    /// A counter for a change in this mailbox.
    fn counter(&mut self, memory: &Memory, id: [u8; 2]) -> [u8; 8] {
        let own = memory
            .mailbox(u16::from_le_bytes(id))
            .map_or(1, |row| row.counter);
        counters::next(&mut self.random, own).to_le_bytes()
    }

    /// A name, mostly one that is free.
    fn name(&mut self, memory: &Memory) -> Vec<u8> {
        if self.random.chance(3) {
            return self.random.pick(BAD_NAMES).as_bytes().to_vec();
        }
        if self.wide && self.random.chance(80) {
            return wide_name(&mut self.random).into_bytes();
        }
        if self.random.chance(if self.lean.family { 60 } else { 15 }) {
            if let Some(octets) = family::relative(&mut self.random, memory) {
                return octets;
            }
        }
        let mut text = name(&mut self.random);
        if self.random.chance(85) {
            let held = |name: &str| {
                Name::read(name.as_bytes()).is_some_and(|name| memory.holder_of(&name).is_some())
            };
            for _ in 0..8 {
                if !held(text) {
                    break;
                }
                text = name(&mut self.random);
            }
        }
        text.as_bytes().to_vec()
    }

    fn create(&mut self, memory: &Memory) -> Vec<u8> {
        let fresh: Vec<u16> = self
            .ids
            .iter()
            .copied()
            .filter(|&id| memory.mailbox(id).is_none())
            .collect();
        let id = if !fresh.is_empty() && self.random.chance(90) {
            self.random.pick(&fresh)
        } else {
            self.random.pick(self.ids)
        };
        let any = self.random.octet() & 0x3F;
        let mut attributes = self
            .random
            .pick(&[0x33, 0x37, 0x3B, 0x31, 0x33, 0x30, any, any]);
        if self.hidden {
            attributes &= !RIGHTS;
        }
        let validity = self.random.between(1, 9) as u32;
        let mut body = id.to_le_bytes().to_vec();
        body.extend([attributes, self.quiet()]);
        body.extend(validity.to_le_bytes());
        body.extend(counters::first(&mut self.random).to_le_bytes());
        body.extend(self.name(memory));
        record("MB", &body)
    }

    /// Rights come and go, most often on the selected mailbox, and mostly they come.
    fn rights(&mut self, memory: &Memory) -> Vec<u8> {
        let id = self.id(memory);
        let rights = if self.hidden {
            0
        } else {
            self.random.pick(&[0x30, 0x30, 0x30, 0x10, 0x20, 0])
        };
        record("RT", &[&id[..], &[rights]].concat())
    }

    fn message(&mut self, memory: &Memory) -> Vec<u8> {
        let id = self.id(memory);
        let next = memory
            .mailbox(u16::from_le_bytes(id))
            .map_or(1, |row| row.uid_next);
        let uid = match self.random.below(1000) {
            0 => u32::MAX,
            1 | 2 => UID_MOST,
            3..=40 => self.random.below(next as usize + 1) as u32,
            41..=700 => next,
            _ => next.saturating_add(self.random.below(3) as u32),
        };
        let flags = self.random.octet() & FLAG_BITS;
        let most = self.random.pick(&[3, 200, 5_000_000]);
        let size = self.random.below(most) as u32;
        let mut body = id.to_vec();
        body.extend(uid.to_le_bytes());
        body.push(flags);
        body.extend(size.to_le_bytes());
        body.extend(self.counter(memory, id));
        record("ME", &body)
    }

    /// Id and UID of a message, mostly one that is there and not expunged.
    fn existing(&mut self, memory: &Memory) -> ([u8; 2], [u8; 4]) {
        let selected = memory.session.selected;
        let entries = memory.entries();
        for _ in 0..6 {
            let Some(entry) = entries.get(self.random.below(entries.len())) else {
                break;
            };
            let wanted = entry.mailbox == selected || self.random.chance(50);
            let there = !entry.is_expunged() || self.random.chance(10);
            if wanted && there && self.ids.contains(&entry.mailbox) {
                return (entry.mailbox.to_le_bytes(), entry.uid.to_le_bytes());
            }
        }
        let uid = self.random.below(6) as u32;
        (self.id(memory), uid.to_le_bytes())
    }

    fn select(&mut self, memory: &Memory) -> Vec<u8> {
        if !self.hidden && self.random.chance(12) {
            return record("SE", &[0, 0]);
        }
        record("SE", &self.id(memory))
    }

    fn drained(&mut self, memory: &Memory) -> Vec<u8> {
        let filled = memory.filled;
        let count = if self.random.chance(self.lean.whole_drains) {
            filled
        } else {
            let some = self.random.below(filled + 1);
            self.random.pick(&[0, some, some, filled / 2, filled + 1])
        };
        record("DR", &(count as u32).to_le_bytes())
    }

    /// Spoils an octet string in one of several ways; now and then it stays lawful.
    fn damage(&mut self, mut octets: Vec<u8>) -> Vec<u8> {
        let random = &mut self.random;
        match random.below(9) {
            0 => octets.truncate(random.below(octets.len() + 1)),
            1 => octets.extend((0..random.between(1, 3)).map(|place| place as u8)),
            2 => octets[2 + random.below(2)] = random.octet(),
            3 => octets[random.below(2)] ^= 0x20,
            4 => octets[random.below(2)] = random.pick(b"MBDLRNTEXPFSC"),
            5 => {
                octets.clear();
                octets.extend((0..random.below(12)).map(|_| random.octet()));
            }
            6 => counters::old_layout(&mut octets),
            _ if octets.len() > 4 => {
                let place = random.between(4, octets.len() - 1);
                octets[place] = random.octet();
            }
            _ => octets.push(0),
        }
        octets
    }
}

/// A whole stream from the empty start: the calls that a seed makes.
pub fn stream(
    seed: u64,
    count: usize,
    queue: usize,
    mailboxes: usize,
    messages: usize,
) -> Vec<Vec<u8>> {
    let mut generator = Generator::new(seed);
    let mut memory = Memory::new(queue, mailboxes, messages);
    (0..count)
        .map(|_| {
            let octets = generator.propose(&memory);
            crate::call_trusting(&mut memory, &octets);
            octets
        })
        .collect()
}
