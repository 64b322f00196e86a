//! Random streams through the exported step and the independent program: the same answers, and every octet of the lent memory
//! as the independent program leaves it, in memory that was filled with 0xAA first. Guards around each piece are compared too.

mod support;

use borjavid::memory::{MAILBOXES, MESSAGES, QUEUE_LEAST, QUEUE_MOST};
use reference::generate::Generator;
use reference::random::Random;
use support::{image, Pieces};

const FILLING: u8 = 0xAA;
const RECORDS: usize = 300_000;

/// What the streams must show, or they prove little.
#[derive(Default, Debug)]
struct Seen {
    refusals: [usize; 9],
    counts: usize,
    overflows: usize,
    /// Calls that left fewer rows or entries than they found.
    freed_rows: usize,
    freed_entries: usize,
    full_tables: usize,
}

#[test]
fn every_octet_is_what_the_independent_program_leaves() {
    let mut seen = Seen::default();
    let mut random = Random::new(20261116);
    let mut left = RECORDS;
    while left > 0 {
        left -= stream(&mut random, left, &mut seen);
    }
    println!("{seen:?}");
    assert!(seen.refusals.iter().all(|&count| count > 0), "{seen:?}");
    assert!(seen.counts > 100 && seen.overflows > 100, "{seen:?}");
    assert!(
        seen.freed_rows > 100 && seen.freed_entries > 100 && seen.full_tables > 0,
        "{seen:?}"
    );
}

/// One stream of at most so many calls, and how many they were.
fn stream(random: &mut Random, most: usize, seen: &mut Seen) -> usize {
    let wide = random.chance(15);
    let (queue, mailboxes, messages) = sizes(random, wide);
    let length = if wide {
        random.between(500, 3000)
    } else {
        random.between(1, 400)
    };
    let seed = random.number();
    let mut generator = if wide {
        Generator::wide(seed)
    } else {
        Generator::new(seed)
    };
    let mut memory = reference::Memory::new(queue, mailboxes, messages);
    memory.queue.fill(FILLING);
    let words = 6 * messages + random.below(6);
    let mut lent = Pieces::start(FILLING, queue, mailboxes, words);
    let mut wanted = lent.clone();
    let length = length.min(most);
    for place in 0..length {
        let before = (memory.mailbox_count, memory.message_count);
        let record = generator.propose(&memory);
        let answer = reference::call(&mut memory, &record);
        image::write(&memory, wanted.lend());
        let got = step(&mut lent, &record);
        let about = format!("seed {seed}, Q {queue}, {mailboxes} rows, {messages} entries, call {place}: {record:?}");
        assert_eq!(
            (got.number(), got.count()),
            (answer.refusal, answer.count.map(u64::from)),
            "{about}"
        );
        assert!(
            lent.same(&wanted),
            "{about}: {:?}",
            lent.differences(&wanted)
        );
        seen.refusals[usize::from(answer.refusal)] += 1;
        seen.counts += usize::from(answer.count.is_some_and(|count| count > 0));
        let held = memory.held();
        seen.overflows += usize::from(held.ends_with(b"* OK [NOTIFICATIONOVERFLOW] stopped\r\n"));
        seen.freed_rows += usize::from(memory.mailbox_count < before.0);
        seen.freed_entries += usize::from(memory.message_count < before.1);
        let full = memory.message_count == MESSAGES && memory.mailbox_count == MAILBOXES;
        seen.full_tables += usize::from(full);
    }
    length
}

/// A call whose record stands between guards, which must stay too.
fn step(lent: &mut Pieces, record: &[u8]) -> borjavid::Answer {
    let octets = [&[FILLING; 16][..], record, &[FILLING; 16]].concat();
    let before = octets.clone();
    let answer = lent.lend().step(&octets[16..16 + record.len()]);
    assert_eq!(octets, before, "the record was written to");
    answer
}

fn sizes(random: &mut Random, wide: bool) -> (usize, usize, usize) {
    let small = random.between(QUEUE_LEAST, 2000);
    let any = random.between(QUEUE_LEAST, QUEUE_MOST);
    let queue = random.pick(&[
        QUEUE_LEAST,
        QUEUE_LEAST,
        small,
        small,
        8192,
        any,
        QUEUE_MOST,
    ]);
    if wide {
        return (queue, MAILBOXES, MESSAGES);
    }
    let (rows, entries) = (random.between(0, 12), random.between(0, 40));
    let mailboxes = random.pick(&[MAILBOXES, MAILBOXES, rows, rows, 0, MAILBOXES + 1]);
    let messages = random.pick(&[
        MESSAGES,
        MESSAGES,
        entries,
        entries,
        entries,
        0,
        MESSAGES + 1,
    ]);
    // seldom unlawful sizes
    match random.below(60) {
        0 => (QUEUE_LEAST - 1, mailboxes, messages),
        1 => (QUEUE_MOST + 1, mailboxes, messages),
        2..=5 => (queue, mailboxes, messages),
        _ => (queue, mailboxes.min(MAILBOXES), messages.min(MESSAGES)),
    }
}
