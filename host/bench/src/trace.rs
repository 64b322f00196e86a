//! A seeded trace: what fills the tables, and then records of every kind that keep them nearly full. None is refused but
//! those that are meant to be.

use borjavid::records::{self, Class, Notice};
use reference::memory::*;
use reference::random::Random;
use reference::{call_trusting, Memory};

pub const QUEUE: usize = QUEUE_MOST;

pub const KINDS: [&str; 18] = [
    "MB",
    "DL",
    "RN",
    "SB",
    "RT",
    "ME",
    "XP",
    "FL",
    "SE 0",
    "SE",
    "CE 0",
    "CE 1",
    "CM NOTIFY",
    "CM STATUS",
    "CM ESEARCH",
    "CM refused",
    "DR",
    "refused",
];

pub struct Trace {
    /// Mailboxes, messages and NOTIFY SET: not timed.
    pub start: Vec<Vec<u8>>,
    /// A place in `KINDS`, and the octets.
    pub records: Vec<(usize, Vec<u8>)>,
    /// How many mailboxes and messages there were, summed over the records.
    pub filled: (usize, usize),
}

/// Without STATUS, and with it.
const NOTIFY: [&str; 2] = [
    "n NOTIFY SET (selected (MessageNew (UID FLAGS RFC822.SIZE) MessageExpunge FlagChange)) \
     (subtree (Ops Plant) (MessageNew MessageExpunge FlagChange MailboxName)) \
     (mailboxes (INBOX \"Reports/Week 7\" Ops/Site-11) (MessageNew MessageExpunge)) \
     (subscribed (MessageNew MessageExpunge)) (personal (MailboxName SubscriptionChange))",
    "n NOTIFY SET STATUS (selected-delayed (MessageNew (UID) MessageExpunge FlagChange)) \
     (inboxes (MessageNew MessageExpunge)) (subtree Ops (MessageNew MessageExpunge FlagChange)) \
     (personal (MailboxName))",
];

const ESEARCH: [&str; 5] = [
    "s ESEARCH RETURN (COUNT) UNSEEN",
    "s ESEARCH IN (selected) RETURN (MIN MAX ALL) OR FLAGGED NOT SEEN",
    "s ESEARCH IN (mailboxes INBOX) RETURN (ALL) UID 1:* LARGER 1000",
    "s ESEARCH IN (subtree Ops) RETURN (COUNT MAX) FLAGGED UNDELETED",
    "s ESEARCH IN (personal subscribed) RETURN (MIN MAX COUNT ALL) OR (SEEN SMALLER 20000) (ANSWERED NOT DRAFT)",
];

const REFUSED: [&str; 3] = [
    "n NOTIFY SET (personal (AnnotationChange))",
    "n NOTIFY SET (selected (MessageNew))",
    "s ESEARCH IN (personal) RETURN (COUNT) SUBJECT alarm",
];

struct Maker {
    random: Random,
    memory: Memory,
    trace: Trace,
    named: usize,
}

pub fn trace(seed: u64, length: usize) -> Trace {
    let mut maker = Maker {
        random: Random::new(seed),
        memory: Memory::new(QUEUE, MAILBOXES, MESSAGES),
        trace: Trace {
            start: Vec::new(),
            records: Vec::with_capacity(length),
            filled: (0, 0),
        },
        named: 0,
    };
    maker.fill();
    while maker.trace.records.len() < length {
        maker.next();
    }
    maker.trace
}

impl Maker {
    fn fill(&mut self) {
        while self.memory.mailbox_count < MAILBOXES {
            let octets = self.create();
            self.begin(octets);
        }
        while self.memory.message_count < MESSAGES {
            let octets = self.arrival();
            self.begin(octets);
        }
        let octets = records::select(self.open());
        self.begin(octets);
        self.begin(records::command(NOTIFY[0].as_bytes()));
        self.begin(records::drained(self.memory.filled).to_vec());
    }

    fn begin(&mut self, octets: Vec<u8>) {
        assert_eq!(call_trusting(&mut self.memory, &octets).refusal, 0);
        self.trace.start.push(octets);
    }

    fn put(&mut self, kind: &str, octets: Vec<u8>) {
        let refusal = call_trusting(&mut self.memory, &octets).refusal;
        assert_eq!(refusal != 0, kind == "refused", "{kind} {octets:?}");
        assert_eq!(self.memory.session.mode, SET, "{kind} {octets:?}");
        let place = KINDS.iter().position(|&known| known == kind);
        self.trace.records.push((place.expect("a kind"), octets));
        self.trace.filled.0 += self.memory.mailbox_count;
        self.trace.filled.1 += self.memory.message_count;
    }

    /// One record, or a few that belong together.
    fn next(&mut self) {
        let round = self.trace.records.len();
        if self.memory.filled > QUEUE / 4 || self.random.chance(6) {
            let filled = self.memory.filled;
            let count = if self.random.chance(70) {
                filled
            } else {
                filled / 2
            };
            return self.put("DR", records::drained(count).to_vec());
        }
        if round % 64 == 0 {
            let line = self.random.pick(&ESEARCH);
            return self.put("CM ESEARCH", records::command(line.as_bytes()));
        }
        if round % 128 == 1 {
            let form = self.random.below(2);
            let kind = ["CM NOTIFY", "CM STATUS"][form];
            return self.put(kind, records::command(NOTIFY[form].as_bytes()));
        }
        if round % 128 == 65 {
            let line = self.random.pick(&REFUSED);
            return self.put("CM refused", records::command(line.as_bytes()));
        }
        if self.memory.mailbox_count < MAILBOXES {
            let octets = self.create();
            return self.put("MB", octets);
        }
        if self.memory.message_count < MESSAGES - 24 && self.random.chance(60) {
            let octets = self.arrival();
            return self.put("ME", octets);
        }
        let id = self.row().id;
        let notice = self.notice();
        match self.random.weighed(&[26, 22, 26, 10, 3, 3, 3, 3, 2, 2]) {
            0 if self.memory.message_count < MESSAGES => {
                let octets = self.arrival();
                self.put("ME", octets)
            }
            0 | 1 => {
                let entry = self.entry();
                let counter = self.counter_of(entry.mailbox);
                self.put("XP", records::expunge(entry.mailbox, entry.uid, counter))
            }
            2 => {
                let entry = self.entry();
                let flags = self.random.octet() & FLAG_BITS;
                let counter = self.counter_of(entry.mailbox);
                let record = records::flags(entry.mailbox, entry.uid, flags, counter);
                self.put("FL", record)
            }
            3 if self.random.chance(40) => self.put("CE 0", records::command_ended(Class::Fetch)),
            3 => self.put("CE 1", records::command_ended(Class::Rest)),
            4 if self.random.chance(20) => self.put("SE 0", records::select(0)),
            4 => {
                let id = self.open();
                self.put("SE", records::select(id))
            }
            5 => {
                let rights = self.random.pick(&[RIGHTS, RIGHTS, RIGHTS, LOOKUP, 0]);
                self.put("RT", records::rights(id, rights))
            }
            6 => {
                let subscribed = self.random.chance(50);
                self.put("SB", records::subscribe(id, subscribed, notice))
            }
            7 => {
                let name = self.name();
                self.put("RN", records::rename(id, notice, name.as_bytes()))
            }
            8 if id != self.memory.session.selected => self.put("DL", records::delete(id, notice)),
            _ => {
                let held = self.entry();
                let wrong = [
                    records::message(held.mailbox, held.uid, 0, 10, COUNTER_MOST),
                    records::flags(id, UID_MOST, 0, COUNTER_MOST),
                    records::select(self.fresh()),
                    records::command_ended(Class::Rest)[..4].to_vec(),
                ];
                let place = self.random.below(wrong.len());
                self.put("refused", wrong[place].clone())
            }
        }
    }

    fn row(&mut self) -> Mailbox {
        self.memory.mailboxes[self.random.below(self.memory.mailbox_count)]
    }

    /// A mailbox that may be selected.
    fn open(&mut self) -> u16 {
        loop {
            let row = self.row();
            if row.has(SELECTABLE | READ) {
                return row.id;
            }
        }
    }

    /// A message that is not gone.
    fn entry(&mut self) -> Message {
        loop {
            let entry = self.memory.messages[self.random.below(self.memory.message_count)];
            if !entry.is_expunged() {
                return entry;
            }
        }
    }

    fn notice(&mut self) -> Notice {
        self.random
            .pick(&[Notice::Owed, Notice::Owed, Notice::Quiet])
    }

    /// An id that no mailbox has.
    fn fresh(&mut self) -> u16 {
        loop {
            let id = self.random.number() as u16;
            if id != 0 && self.memory.mailbox(id).is_none() {
                return id;
            }
        }
    }

    fn create(&mut self) -> Vec<u8> {
        let id = self.fresh();
        let name = self.name();
        let some = self.random.octet() & (PERSONAL | DELIVERY | SUBSCRIBED);
        let notice = self.notice();
        let validity = self.random.between(1, 1 << 30) as u32;
        records::create(
            id,
            SELECTABLE | RIGHTS | some,
            notice,
            validity,
            1,
            name.as_bytes(),
        )
    }

    fn arrival(&mut self) -> Vec<u8> {
        let row = self.row();
        let uid = row.uid_next + self.random.below(3) as u32;
        let flags = self.random.octet() & FLAG_BITS;
        let size = self.random.below(60_000) as u32;
        records::message(row.id, uid, flags, size, row.counter + 1)
    }

    /// One above the mailbox's.
    fn counter_of(&self, id: u16) -> u64 {
        self.memory.mailbox(id).map_or(0, |row| row.counter) + 1
    }

    /// A name that no mailbox has had; INBOX is the first.
    fn name(&mut self) -> String {
        self.named += 1;
        let number = self.named;
        match self.random.below(5) {
            _ if number == 1 => "INBOX".to_string(),
            0 => format!("Ops/Site-{number}"),
            1 => format!("Plant/Hall {}/Feeder-{number}", number % 9),
            2 => format!("Reports/Week {number}"),
            3 => format!("Archive/{}/Mains and reserve/{number}", 2000 + number % 26),
            _ => format!("Projects/{number}"),
        }
    }
}
