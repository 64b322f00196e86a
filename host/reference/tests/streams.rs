//! Random streams: what holds of every call.

mod support;

use reference::call::refusal_of;
use reference::generate::{record, Generator};
use reference::lawful::lawful;
use reference::memory::{Mailbox, Message};
use reference::random::Random;
use reference::records::{read, Record};
use reference::{call, call_trusting, Memory};
use std::collections::BTreeMap;
use support::contains;

/// Sizes of one stream, short tables and small queues among them.
fn sizes(random: &mut Random) -> (usize, usize, usize) {
    (
        random.pick(&[1024, 1024, 1100, 2000, 8192]),
        random.pick(&[64, 64, 64, 6, 6, 6, 3, 1, 0]),
        random.pick(&[1024, 1024, 1024, 20, 20, 20, 5, 1, 0]),
    )
}

fn each_call(seeds: u64, count: usize, mut test: impl FnMut(&mut Memory, &[u8])) {
    for seed in 0..seeds {
        let mut random = Random::new(seed);
        let (queue, mailboxes, messages) = sizes(&mut random);
        let mut memory = Memory::new(queue, mailboxes, messages);
        let mut generator = Generator::new(random.number());
        for _ in 0..count {
            let octets = generator.propose(&memory);
            test(&mut memory, &octets);
        }
    }
}

#[test]
fn memory_stays_lawful_and_refusals_change_nothing() {
    let mut refusals = [0usize; 9];
    each_call(4_000, 80, |memory, octets| {
        let before = memory.clone();
        let foreseen = refusal_of(memory, octets);
        let answer = call(memory, octets);
        refusals[answer.refusal as usize] += 1;
        assert!(lawful(memory));
        if answer.refusal != 0 {
            assert_eq!(*memory, before);
            assert_eq!(answer.count, None);
        }
        let command = matches!(read(octets), Some(Record::Command { .. }));
        assert!(answer.refusal == foreseen || command && answer.refusal == 8);
        let ended = matches!(read(octets), Some(Record::End { .. }));
        assert_eq!(answer.count.is_some(), ended && answer.refusal == 0);
        // what was freed is zero, and nothing else was ever written there
        let (rows, entries) = (memory.mailbox_count, memory.message_count);
        assert!(memory.mailboxes[rows..]
            .iter()
            .all(|row| *row == Mailbox::default()));
        assert!(memory.messages[entries..]
            .iter()
            .all(|entry| *entry == Message::default()));
        // a trusting call does the same
        let mut again = before;
        assert_eq!(call_trusting(&mut again, octets), answer);
        assert!(again == *memory);
    });
    println!("{refusals:?}");
    assert_eq!(refusals[1], 0);
    assert!(refusals[2..].iter().all(|&times| times > 100));
}

/// No answer and no queue depends on the order of rows or entries.
#[test]
fn order_of_the_tables_is_not_seen() {
    for seed in 0..3_000 {
        let mut random = Random::new(seed ^ 0x6F72_6465);
        let (queue, mailboxes, messages) = sizes(&mut random);
        let mut memory = Memory::new(queue, mailboxes, messages);
        let mut generator = Generator::new(random.number());
        let mut other = memory.clone();
        for step in 0..100 {
            if step % 7 == 0 {
                shuffle(&mut random, &mut other);
            }
            let octets = generator.propose(&memory);
            let answer = call_trusting(&mut memory, &octets);
            assert_eq!(call(&mut other, &octets), answer, "stream {seed}");
            assert_eq!(other.held(), memory.held(), "stream {seed}");
            assert_eq!(other.session, memory.session);
        }
    }
}

fn shuffle(random: &mut Random, memory: &mut Memory) {
    for place in 1..memory.mailbox_count {
        memory.mailboxes.swap(place, random.below(place + 1));
    }
    for place in 1..memory.message_count {
        memory.messages.swap(place, random.below(place + 1));
    }
}

/// The count of a command's end is the number of lines that later ends of its class write.
#[test]
fn counts_are_the_lines_left() {
    let (mut left, mut cut_short) = (0, 0);
    each_call(2_000, 250, |memory, octets| {
        let Some(Record::End { class }) = read(octets) else {
            call_trusting(memory, octets);
            return;
        };
        let lines = |memory: &Memory| {
            memory
                .held()
                .windows(2)
                .filter(|two| two == b"\r\n")
                .count()
        };
        let count = call_trusting(memory, octets).count.expect("a count") as usize;
        let mut other = memory.clone();
        let mut owed = count;
        while owed > 0 {
            other.filled = 0;
            let after = call_trusting(&mut other, &record("CE", &[class])).count;
            let after = after.expect("a count") as usize;
            assert!(after < owed);
            assert_eq!(owed - after, lines(&other));
            owed = after;
        }
        other.filled = 0;
        let answer = call_trusting(&mut other, &record("CE", &[class]));
        assert_eq!((answer.count, other.filled), (Some(0), 0));
        left += count;
        cut_short += usize::from(count > 0);
    });
    println!("{left} lines left by {cut_short} command ends");
    assert!(cut_short > 100 && left > cut_short);
}

/// Streams reach every kind of line and state that the rules speak of.
#[test]
fn streams_reach_everything() {
    let mut seen = BTreeMap::new();
    let shown = [
        "* LIST () \"/\" \"",
        "* LIST (\\Noselect) \"/\"",
        "* LIST (\\NonExistent) \"/\"",
        "* LIST (\\Subscribed) \"/\"",
        "* LIST (\\NoAccess) \"/\"",
        "(\"OLDNAME\" (\"",
        " (MESSAGES ",
        " MESSAGES 3 HIGHESTMODSEQ ",
        "\" (UIDVALIDITY ",
        " MODSEQ (42949672",
        "HIGHESTMODSEQ 92233720368547758",
        " EXISTS\r\n",
        " EXPUNGE\r\n",
        " FETCH (UID ",
        " FETCH (FLAGS (",
        " FETCH (RFC822.SIZE ",
        "* ESEARCH (TAG ",
        " UID MIN ",
        "[NOTIFICATIONOVERFLOW] stopped",
        "[NOTIFICATIONOVERFLOW] too large",
        "[LIMIT] too large",
        "[BADEVENT ",
        "[BADCHARSET ",
        "NO unsupported",
        "* BAD refused",
        " OK NOTIFY done",
        " OK ESEARCH done",
    ];
    let mut waiting = 0;
    let mut marked = 0;
    each_call(3_000, 80, |memory, octets| {
        let before = memory.filled;
        call_trusting(memory, octets);
        if memory.filled > before {
            for text in shown {
                let found = contains(&memory.held()[before..], text);
                *seen.entry(text).or_insert(0usize) += usize::from(found);
            }
        }
        waiting += usize::from(memory.entries().iter().any(|entry| entry.is_expunged()));
        marked += usize::from(memory.entries().iter().any(|entry| entry.is_marked()));
    });
    println!("{seen:#?} {waiting} {marked}");
    for text in shown {
        assert!(seen[text] > 20, "{text}: {}", seen[text]);
    }
    assert!(waiting > 1_000 && marked > 1_000);
}
