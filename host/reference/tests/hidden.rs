//! Demand 3: what is done to folders that hold no right leaves no trace. Two streams are run that
//! have the same records but for those about hidden ids; the rest must be answered alike and leave
//! alike queues.

mod support;

use reference::generate::pairs::{is_hidden, pair, Step, HIDDEN_IDS};
use reference::matching::asked_by_name;
use reference::memory::{MAILBOX_NAME, RIGHTS};
use reference::names::Name;
use reference::records::{read, Record};
use reference::{call_trusting, Answer, Memory};
use std::ops::AddAssign;
use support::contains;

const PAIRS: u64 = 20_000;
const RECORDS: usize = 70;

/// How often pairs show what would make the claim empty if it were missing.
#[derive(Default, Debug)]
struct Seen {
    filled_queues: usize,
    overflows: usize,
    refused_commands: usize,
    counts_above_zero: usize,
    hidden_taken: usize,
    hidden_refused: usize,
    hidden_messages: usize,
    hidden_above_all: usize,
    results: usize,
    hidden_parents: usize,
    hidden_children: usize,
    differing: usize,
}

impl AddAssign<&Run> for Seen {
    fn add_assign(&mut self, run: &Run) {
        let any = |test: fn(&Common) -> bool| usize::from(run.common.iter().any(test));
        self.filled_queues += any(|one| !one.queue.is_empty());
        self.overflows += any(|one| contains(&one.queue, "* OK [NOTIFICATIONOVERFLOW]"));
        self.refused_commands +=
            any(|one| one.record.starts_with(b"CM") && one.answer.refusal == 8);
        self.counts_above_zero += any(|one| one.answer.count.is_some_and(|count| count > 0));
        self.results += any(|one| contains(&one.queue, "* ESEARCH"));
        self.hidden_taken += run.hidden_taken;
        self.hidden_refused += run.hidden_refused;
        self.hidden_messages += run.hidden_messages;
        self.hidden_above_all += usize::from(run.hidden_above_all);
        self.hidden_children += run.hidden_children;
    }
}

/// A record that both streams have, and what it got.
#[derive(PartialEq, Eq, Debug)]
struct Common {
    record: Vec<u8>,
    answer: Answer,
    queue: Vec<u8>,
}

/// One stream run from the empty start.
struct Run {
    common: Vec<Common>,
    /// For each of these: is a parent told of that a hidden mailbox is?
    told_above: Vec<bool>,
    /// Hidden mailboxes that came or went beneath a name that a group asks for.
    hidden_children: usize,
    hidden_taken: usize,
    hidden_refused: usize,
    hidden_messages: usize,
    /// A hidden mailbox's counter ran ahead of every other's.
    hidden_above_all: bool,
}

/// Is the highest counter a hidden mailbox's?
fn hidden_above_all(memory: &Memory) -> bool {
    let highest = memory.rows().iter().max_by_key(|row| row.counter);
    memory.mailbox_count > 1 && highest.is_some_and(|row| HIDDEN_IDS.contains(&row.id))
}

/// The name above the mailbox of a record that makes it come or go.
fn above(memory: &Memory, octets: &[u8]) -> Option<Name> {
    match read(octets)? {
        Record::Create { name, .. } => name.parent(),
        Record::Delete { id, .. } | Record::Rights { id, .. } => memory.mailbox(id)?.name.parent(),
        _ => None,
    }
}

/// Is this the name of a hidden mailbox, and what was put in the queue tells of it?
fn tells_of_hidden(memory: &Memory, parent: &Name, filled: usize) -> bool {
    let row = memory.holder_of(parent);
    let hidden = row.is_some_and(|row| HIDDEN_IDS.contains(&row.id));
    let name = String::from_utf8_lossy(parent.as_octets());
    let line = format!("* LIST (\\NonExistent) \"/\" \"{name}\"\r\n");
    hidden && memory.filled > filled && contains(&memory.held()[filled..], &line)
}

fn run(sizes: (usize, usize, usize), steps: &[Step]) -> Run {
    let mut memory = Memory::new(sizes.0, sizes.1, sizes.2);
    let mut run = Run {
        common: Vec::new(),
        told_above: Vec::new(),
        hidden_children: 0,
        hidden_taken: 0,
        hidden_refused: 0,
        hidden_messages: 0,
        hidden_above_all: false,
    };
    for step in steps {
        let filled = memory.filled;
        let above = above(&memory, &step.octets);
        let asked = |name: &Name| asked_by_name(&memory.session, MAILBOX_NAME, name);
        let heard = above.as_ref().is_some_and(asked);
        let answer = call_trusting(&mut memory, &step.octets);
        assert_eq!(step.common, !is_hidden(&step.octets));
        for row in memory.rows() {
            let hidden = HIDDEN_IDS.contains(&row.id);
            assert!(!hidden || row.attributes & RIGHTS == 0, "the premise");
        }
        if step.common {
            assert!(!matches!(answer.refusal, 4 | 7), "the premise");
            let told = above.is_some_and(|parent| tells_of_hidden(&memory, &parent, filled));
            run.told_above.push(told);
            run.common.push(Common {
                record: step.octets.clone(),
                answer,
                queue: memory.held().to_vec(),
            });
        } else if answer.refusal == 0 {
            run.hidden_taken += 1;
            run.hidden_children += usize::from(heard);
            run.hidden_messages += usize::from(step.octets.starts_with(b"ME"));
            run.hidden_above_all |= hidden_above_all(&memory);
        } else {
            run.hidden_refused += 1;
        }
    }
    run
}

#[test]
fn hidden_records_change_nothing_seen() {
    let mut seen = Seen::default();
    for seed in 0..PAIRS {
        let pair = pair(seed, RECORDS);
        let sizes = (pair.queue, pair.mailboxes, pair.messages);
        let first = run(sizes, &pair.first);
        let second = run(sizes, &pair.second);
        assert_eq!(first.common.len(), second.common.len());
        for (place, (one, two)) in first.common.iter().zip(&second.common).enumerate() {
            assert_eq!(one, two, "pair {seed}, common record {place}");
        }
        let differ = pair.first.len() != pair.second.len()
            || (pair.first.iter().zip(&pair.second)).any(|(one, two)| one.octets != two.octets);
        seen.differing += usize::from(differ);
        let above = first.told_above.iter().zip(&second.told_above);
        seen.hidden_parents += above.filter(|(one, two)| one != two).count();
        seen += &first;
    }
    println!("{seen:?}");
    assert!(seen.filled_queues > PAIRS as usize / 2);
    assert!(seen.overflows > 100);
    assert!(seen.refused_commands > 100);
    assert!(seen.counts_above_zero > 100);
    assert!(seen.results > 1000);
    assert!(seen.hidden_taken > 10_000);
    assert!(seen.hidden_refused > 10_000);
    assert!(seen.hidden_messages > 10_000);
    assert!(seen.hidden_above_all > 1_000);
    // a parent told of as absent is hidden in the one stream and not there in the other
    assert!(seen.hidden_parents > 1_000);
    assert!(seen.hidden_children > 1_000);
    assert!(seen.differing > PAIRS as usize / 2);
}
