//! Programs that go wrong, about change counters above all, and how that is seen: by the cases, or in the memory beside what the
//! records said.

use reference::cases::{stored, text, Case};
use reference::generate::Generator;
use reference::memory::{Mailbox, Message, COUNTER_MOST};
use reference::random::Random;
use reference::records::{read, Record};
use reference::{call, Memory};
use std::collections::BTreeMap;
use std::path::Path;

/// Counters as the records say that were taken.
#[derive(Default)]
struct Told {
    mailboxes: BTreeMap<u16, u64>,
    /// By mailbox and UID, of all that ever came since their mailbox did.
    messages: BTreeMap<(u16, u32), u64>,
}

impl Told {
    fn take(&mut self, record: &Record) {
        match *record {
            Record::Create { id, counter, .. } => {
                self.mailboxes.insert(id, counter);
                self.messages.retain(|message, _| message.0 != id);
            }
            Record::Message {
                id, uid, counter, ..
            }
            | Record::Flags {
                id, uid, counter, ..
            } => {
                self.raise(id, counter);
                self.messages.insert((id, uid), counter);
            }
            Record::Expunge { id, counter, .. } => self.raise(id, counter),
            _ => {}
        }
    }

    /// A later counter is a higher one.
    fn raise(&mut self, id: u16, counter: u64) {
        let before = self.mailboxes.insert(id, counter);
        assert!(before.is_some_and(|before| before < counter), "{counter}");
    }

    /// Does the memory have these, and no other, in its range?
    fn agrees(&self, memory: &Memory) -> bool {
        let row = |row: &Mailbox| self.mailboxes[&row.id] == row.counter;
        let entry = |entry: &Message| self.messages[&(entry.mailbox, entry.uid)] == entry.counter;
        memory.rows().iter().all(row)
            && memory.entries().iter().all(entry)
            && memory.rows().iter().all(|row| row.counter <= COUNTER_MOST)
    }
}

/// What a wrong program does before a call, and after it to memory that was like this.
#[derive(Clone, Copy)]
pub struct Wrong {
    pub before: fn(&mut Memory, &mut Vec<u8>),
    pub after: fn(&Memory, &Record, &mut Memory),
}

pub const RIGHT: Wrong = Wrong {
    before: |_, _| {},
    after: |_, _, _| {},
};

/// One call of a wrong program: refusal and count.
fn wrong_call(memory: &mut Memory, octets: &[u8], wrong: Wrong) -> (u8, Option<u32>) {
    let kept = memory.clone();
    let mut read_as = octets.to_vec();
    (wrong.before)(memory, &mut read_as);
    let answer = call(memory, &read_as);
    match read(octets).filter(|_| answer.refusal == 0) {
        Some(record) => (wrong.after)(&kept, &record, memory),
        None => *memory = kept,
    }
    (answer.refusal, answer.count)
}

/// Streams in which the memory's counters are not what the records say.
pub fn streams_that_differ(wrong: Wrong) -> usize {
    let differs = |seed: u64| {
        let mut random = Random::new(seed);
        let queue = random.pick(&[1024, 1100, 8192]);
        let mut generator = Generator::new(random.number());
        let mut memory = Memory::new(queue, 12, 40);
        let mut told = Told::default();
        (0..150).any(|_| {
            let octets = generator.propose(&memory);
            let (refusal, _) = wrong_call(&mut memory, &octets, wrong);
            if let Some(record) = read(&octets).filter(|_| refusal == 0) {
                told.take(&record);
            }
            !told.agrees(&memory)
        })
    };
    (0..2_000).filter(|&seed| differs(seed)).count()
}

/// The cases in which a call is answered or told otherwise.
pub fn cases_that_differ(wrong: Wrong) -> Vec<String> {
    let host = Path::new(env!("CARGO_MANIFEST_DIR")).join("..");
    let mut cases = stored::vectors(&host.join("vectors")).expect("vectors");
    cases.extend(text::folder(&host.join("cases")).expect("cases"));
    let differs = |case: &Case| {
        let mut memory = Memory::new(case.queue, case.mailboxes, case.messages);
        case.calls.iter().any(|wanted| {
            let (refusal, count) = wrong_call(&mut memory, &wanted.octets, wrong);
            (refusal, count) != (wanted.refusal, wanted.count) || memory.held() != wanted.held
        })
    };
    let wrong = cases.into_iter().filter(differs);
    wrong.map(|case| case.name).collect()
}

/// A case whose name has one of these words notices it.
#[track_caller]
pub fn noticed_by(words: [&str; 2], wrong: Wrong) {
    let names = cases_that_differ(wrong);
    println!("{} cases: {:?}", names.len(), names.first());
    let about = |name: &String| words.iter().any(|word| name.contains(word));
    assert!(names.iter().any(about), "{names:?}");
}

/// A case about counters notices it.
#[track_caller]
pub fn noticed(wrong: Wrong) {
    noticed_by(["(Counters ", "cr01/"], wrong)
}
