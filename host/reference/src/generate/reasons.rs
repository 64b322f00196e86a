//! Streams for `why`, at its sizes. The usual ones hardly ever fill a queue of 8,192 octets, and seldom touch a message that the
//! client was not told of; so some are made for the one, some for the other.

use super::Generator;
use crate::call_trusting;
use crate::memory::*;
use crate::names::NAME_OCTETS;
use crate::notation;
use crate::random::Random;

fn record(line: &str) -> Vec<u8> {
    notation::assemble(line).expect("a record in text")
}

#[derive(Clone, Copy, PartialEq, Eq, Debug)]
enum Kind {
    Usual,
    /// Long answers, and no drain while groups stand.
    Full,
    /// In the selected mailbox messages come while a right is missing, and go or change when it is back; a mailbox comes or goes
    /// beneath it.
    Unseen,
    /// Both tables are nearly full from the start.
    Wide,
}

impl Kind {
    /// Of sixteen seeds one is wide, which makes a long stream.
    fn of(seed: u64) -> Kind {
        match seed % 16 {
            15 => Kind::Wide,
            place => [Kind::Usual, Kind::Full, Kind::Unseen][place as usize % 3],
        }
    }

    /// The records that such a stream begins with.
    fn opening(self) -> Vec<Vec<u8>> {
        match self {
            Kind::Usual | Kind::Unseen => Vec::new(),
            Kind::Full => (0..8).map(|place| mailbox(place, NAME_OCTETS)).collect(),
            Kind::Wide => {
                let mailboxes = (0..60).map(|place| mailbox(place, 1));
                mailboxes.chain((1..=1015).map(message)).collect()
            }
        }
    }
}

/// Ids that the usual streams don't speak of.
const CHILD_ID: u16 = 600;
const FIRST_ID: u16 = 700;

/// A quiet mailbox that groups meet by its attributes, with a name of at least so many octets.
fn mailbox(place: u16, octets: usize) -> Vec<u8> {
    let name = format!("{:n<octets$}", place.to_string());
    record(&format!("MB {} 0x37 1 4 1 {name}", FIRST_ID + place))
}

/// A message of the first such mailbox.
fn message(uid: u32) -> Vec<u8> {
    record(&format!("ME {FIRST_ID} {uid} 0 0 {}", uid + 1))
}

/// What comes next whatever chance says, in the selected mailbox.
#[derive(Clone, Copy, Debug)]
enum Step {
    Withdraw,
    Arrive,
    Restore,
    /// A mailbox beneath it comes or goes.
    Child,
    /// A message that the client was not told of goes or changes.
    Touch,
}

struct Stream {
    random: Random,
    usual: Generator,
    kind: Kind,
    /// The last first.
    planned: Vec<Step>,
}

/// The stream of a seed: so many records behind what its kind begins with, and mostly a torn one. One in eight has records that
/// are not as long as their length field says, so that it is cut elsewhere.
pub fn stream(seed: u64, count: usize) -> Vec<u8> {
    let kind = Kind::of(seed);
    let mut random = Random::new(seed ^ 0x7768_7921);
    let framed = random.chance(88);
    let mut stream = Stream {
        usual: Generator::new(random.number()),
        planned: Vec::new(),
        kind,
        random,
    };
    let mut memory = Memory::new(8192, MAILBOXES, MESSAGES);
    let mut octets = Vec::new();
    let mut opening = kind.opening().into_iter();
    for _ in 0..opening.len() + count {
        let record = opening.next();
        let record = record.unwrap_or_else(|| stream.next(&memory, framed));
        call_trusting(&mut memory, &record);
        octets.extend(record);
    }
    let last = stream.next(&memory, true);
    let torn = stream.random.below(last.len());
    octets.extend(&last[..torn]);
    octets
}

fn is_framed(octets: &[u8]) -> bool {
    let length = octets
        .get(2..4)
        .map(|two| u16::from_le_bytes([two[0], two[1]]));
    length.is_some_and(|length| octets.len() == 4 + usize::from(length))
}

impl Stream {
    fn next(&mut self, memory: &Memory, framed: bool) -> Vec<u8> {
        loop {
            let octets = self.wanted(memory);
            let octets = octets.unwrap_or_else(|| self.usual.propose(memory));
            let drains = octets.starts_with(b"DR") && memory.session.mode == SET;
            let kept = self.kind != Kind::Full || !drains;
            if kept && (!framed || is_framed(&octets)) {
                return octets;
            }
        }
    }

    /// What this kind of stream is made for, if it is time for it.
    fn wanted(&mut self, memory: &Memory) -> Option<Vec<u8>> {
        match self.kind {
            Kind::Usual | Kind::Wide => None,
            Kind::Full if self.random.chance(50) => self.filling(memory),
            Kind::Full => None,
            Kind::Unseen => self.unseen(memory),
        }
    }

    /// Where groups stand an answer that takes some room, much of much; where none do, room and groups again.
    fn filling(&mut self, memory: &Memory) -> Option<Vec<u8>> {
        let watched = memory.session.mode == SET;
        match memory.room() {
            ..2000 if !watched => Some(record(&format!("DR {}", memory.filled))),
            ..20 => None,
            20..120 => Some(record("CM x")),
            120..1500 => Some(record("CM t NOTIFY SET (personal (X))")),
            _ => Some(self.ask_all()),
        }
    }

    /// A command that asks for all there is, with a status of every mailbox.
    fn ask_all(&mut self) -> Vec<u8> {
        let selector = self.random.pick(&["selected", "selected-delayed"]);
        let messages = "MessageNew MessageExpunge FlagChange";
        let own = format!("({selector} ({messages}))");
        let others = format!("(personal ({messages} MailboxName SubscriptionChange))");
        let groups = self.random.pick(&[(&own, &others), (&others, &own)]);
        record(&format!("CM n NOTIFY SET STATUS {} {}", groups.0, groups.1))
    }

    fn unseen(&mut self, memory: &Memory) -> Option<Vec<u8>> {
        let row = memory.selected()?;
        if self.planned.is_empty() && self.random.chance(12) {
            use Step::*;
            self.planned = vec![Touch, Touch, Child, Restore, Child, Arrive, Withdraw];
            if self.random.chance(50) {
                return Some(self.ask_selected());
            }
        }
        let (id, counter) = (row.id, row.counter + 1);
        let line = match self.planned.pop()? {
            Step::Withdraw => format!("RT {id} {}", self.random.pick(&[0, LOOKUP, READ])),
            Step::Restore => format!("RT {id} {RIGHTS}"),
            Step::Arrive => format!("ME {id} {} 0 0 {counter}", row.uid_next),
            Step::Child if memory.mailbox(CHILD_ID).is_some() => format!("DL {CHILD_ID} 0"),
            Step::Child => {
                let name = String::from_utf8_lossy(row.name.as_octets());
                format!("MB {CHILD_ID} 0x31 0 1 1 {name}/x")
            }
            Step::Touch => {
                let uid = unknown(memory)?;
                let expunged = format!("XP {id} {uid} {counter}");
                let flagged = format!("FL {id} {uid} 1 {counter}");
                self.random.pick(&[&expunged, &flagged]).clone()
            }
        };
        Some(record(&line))
    }

    /// A command whose group about the selected mailbox asks for much, for little or for nothing.
    fn ask_selected(&mut self) -> Vec<u8> {
        let before = ["", "(inboxes NONE) ", "(personal (MailboxName)) "];
        let selector = ["selected", "selected", "selected-delayed"];
        let events = [
            "(MessageNew MessageExpunge FlagChange)",
            "(MessageNew MessageExpunge FlagChange)",
            "(MessageNew (UID) MessageExpunge)",
            "NONE",
        ];
        let (before, selector) = (self.random.pick(&before), self.random.pick(&selector));
        let events = self.random.pick(&events);
        record(&format!("CM n NOTIFY SET {before}({selector} {events})"))
    }
}

/// The UID of a message in the selected mailbox that the client was not told of.
fn unknown(memory: &Memory) -> Option<u32> {
    let session = &memory.session;
    let unknown = |entry: &&Message| entry.mailbox == session.selected && entry.uid >= session.told;
    memory.entries().iter().find(unknown).map(|entry| entry.uid)
}
