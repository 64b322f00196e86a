//! Change counters: at both ends of their range, not above the mailbox's, in lent memory that no calls would leave.

mod support;

use borjavid::records::{self, Notice, COUNTER_MOST};
use borjavid::{Answer, Mailbox, Memory, Refusal};
use support::scene::{in_use, kinds};
use support::Pieces;

const UNLAWFUL: Answer = Answer::Refused(Refusal::UnlawfulMemory);
const OUT_OF_RANGE: [u64; 3] = [0, COUNTER_MOST + 1, u64::MAX];

/// Where the counter stands in an entry, and how many words that has.
const COUNTER: usize = 5;
const ENTRY: usize = 6;

fn session() -> Pieces {
    in_use(1024, 4, 48)
}

/// The four kinds that have a counter, about mailbox 1; `MB` makes mailbox 9.
fn with_counter(counter: u64) -> [Vec<u8>; 4] {
    [
        records::create(9, 0x33, Notice::Owed, 1, counter, b"new"),
        records::message(1, 90, 0, 7, counter),
        records::expunge(1, 2, counter),
        records::flags(1, 2, 8, counter),
    ]
}

/// A record that is refused with this number, and changes nothing.
fn refused(pieces: &mut Pieces, record: &[u8], number: u8) {
    let before = pieces.clone();
    assert_eq!(pieces.lend().step(record).number(), number, "{record:?}");
    assert!(pieces.same(&before), "{record:?}");
}

/// All kinds are refused with 1, or none is.
fn judged(pieces: &Pieces, lawful: bool, about: &str) {
    for record in kinds() {
        let mut pieces = pieces.clone();
        if lawful {
            let answer = pieces.lend().step(&record);
            assert_ne!(answer, UNLAWFUL, "{about}: {record:?}");
        } else {
            refused(&mut pieces, &record, 1);
        }
    }
}

#[test]
fn both_ends_of_the_range() {
    for counter in OUT_OF_RANGE {
        for record in with_counter(counter) {
            refused(&mut session(), &record, 2);
        }
    }
    for record in with_counter(COUNTER_MOST) {
        let mut pieces = session();
        assert_eq!(pieces.lend().step(&record), Answer::Done, "{record:?}");
        let row = if &record[..2] == b"MB" { 3 } else { 0 };
        assert_eq!(pieces.lend().rows[row].counter(), COUNTER_MOST);
    }
    // at the top nothing more can come
    let mut pieces = session();
    assert_eq!(
        pieces.lend().step(&with_counter(COUNTER_MOST)[1]),
        Answer::Done
    );
    for record in &with_counter(COUNTER_MOST)[2..] {
        refused(&mut pieces, record, 5);
    }
}

#[test]
fn not_above_the_mailbox_s() {
    // the mailbox's is 7
    for counter in [1, 6, 7] {
        for record in &with_counter(counter)[1..] {
            refused(&mut session(), record, 5);
        }
    }
    for record in with_counter(8) {
        assert_eq!(session().lend().step(&record), Answer::Done, "{record:?}");
    }
    // beside an unknown id, and beside a full table
    refused(&mut session(), &records::message(8, 1, 0, 0, 1), 3);
    let mut full = in_use(1024, 3, 30);
    refused(&mut full, &records::message(1, 90, 0, 0, 7), 5);
    refused(&mut full, &records::message(1, 90, 0, 0, 8), 7);
    refused(&mut full, &with_counter(1)[0], 7);
}

/// A row's counter, and that of an entry of it.
#[test]
fn lent_counters_out_of_range() {
    judged(&session(), true, "as calls left it");
    for counter in OUT_OF_RANGE {
        for row in 0..3 {
            let mut pieces = session();
            pieces.lend().rows[row].set_counter(counter);
            judged(&pieces, false, &format!("{counter} in row {row}"));
        }
        for entry in 0..5 {
            let mut pieces = session();
            pieces.lend().words[entry * ENTRY + COUNTER] = counter;
            judged(&pieces, false, &format!("{counter} in entry {entry}"));
        }
    }
}

/// The five entries in use: mailbox 1 has UIDs 1, gone and kept for the client's view, 2, 3 and 4, mailbox 2 has UID 8.
#[test]
fn lent_counters_above_their_mailbox_s() {
    for entry in 0..5 {
        let mut pieces = session();
        let lent = pieces.lend();
        let row = usize::from(lent.words[entry * ENTRY] == 2);
        let highest = lent.rows[row].counter();
        let expunged = lent.words[entry * ENTRY + 4] & 1 == 1;
        assert_eq!(expunged, entry == 0);
        for (counter, lawful) in [(1, true), (highest, true), (highest + 1, false)] {
            pieces.lend().words[entry * ENTRY + COUNTER] = counter;
            judged(&pieces, lawful, &format!("{counter} in entry {entry}"));
        }
        // with the mailbox's raised as well it is lawful, in the high half alone too
        for counter in [highest + 1, 7 << 32, COUNTER_MOST] {
            let mut pieces = session();
            pieces.lend().words[entry * ENTRY + COUNTER] = counter;
            pieces.lend().rows[row].set_counter(counter);
            judged(&pieces, true, &format!("{counter} in both"));
            pieces.lend().rows[row].set_counter(counter - 1);
            judged(&pieces, false, &format!("{counter} in entry {entry}"));
        }
    }
}

/// Behind the counts nothing is judged, and what is freed has no counter left.
#[test]
fn what_is_not_in_use() {
    let mut pieces = session();
    for counter in OUT_OF_RANGE {
        pieces.lend().rows[3].set_counter(counter);
        pieces.lend().words[5 * ENTRY + COUNTER] = counter;
        judged(&pieces, true, "not in use");
    }
    assert_eq!(
        pieces.lend().step(&records::delete(2, Notice::Owed)),
        Answer::Done
    );
    let lent = pieces.lend();
    assert_eq!((lent.counts.mailboxes, lent.counts.messages), (2, 4));
    assert_eq!(lent.rows[2], Mailbox::EMPTY);
    assert_eq!(lent.words[4 * ENTRY..5 * ENTRY], [0; ENTRY]);
}

/// A change sets the message's own; an expunge raises the mailbox's alone.
#[test]
fn whose_counter_a_record_sets() {
    let mut pieces = session();
    let mut own = |record: &[u8], entry: usize| {
        let mut lent = pieces.lend();
        assert_eq!(lent.step(record), Answer::Done, "{record:?}");
        (
            lent.words[entry * ENTRY + COUNTER],
            lent.rows[0].counter(),
            lent.rows[1].counter(),
        )
    };
    assert_eq!(
        own(&records::flags(1, 3, 8, 1 << 40), 3),
        (1 << 40, 1 << 40, 2)
    );
    let next = (1 << 40) + 3;
    assert_eq!(
        own(&records::message(1, 90, 0, 7, next), 5),
        (next, next, 2)
    );
    assert_eq!(own(&records::expunge(1, 2, next + 1), 1), (4, next + 1, 2));
    assert_eq!(own(&records::rights(1, 0), 1), (4, next + 1, 2));
}

/// What reads lawfully is read so, whatever its writer meant.
#[test]
fn records_in_the_old_layout() {
    let mut memory = Memory::new(1024);
    let old = b"MB\x11\0\x01\0\x33\x01\x07\0\0\0Ops/Mains";
    assert_eq!(memory.step(old), Answer::Done);
    let row = memory.mailboxes()[0];
    assert_eq!(&row.name[..usize::from(row.namelen)], b"s");
    assert_eq!(row.counter(), u64::from_le_bytes(*b"Ops/Main"));
    for old in [
        &b"MB\x0d\0\x02\0\x33\x01\x07\0\0\0INBOX"[..],
        b"ME\x0b\0\x01\0\x01\0\0\0\0\0\0\0\0",
        b"XP\x06\0\x01\0\x01\0\0\0",
        b"FL\x07\0\x01\0\x01\0\0\0\0",
    ] {
        assert_eq!(memory.step(old), Answer::Refused(Refusal::BadRecord));
    }
}

#[test]
fn halves_are_joined() {
    let mut row = Mailbox::EMPTY;
    for counter in [0, 1, u64::from(u32::MAX), 1 << 32, COUNTER_MOST, u64::MAX] {
        row.set_counter(counter);
        assert_eq!(row.counter(), counter);
        let halves = [row.counterlow, row.counterhigh].map(u64::from);
        assert_eq!(halves, [counter & 0xFFFF_FFFF, counter >> 32]);
        row.set_counter(0);
        assert_eq!(row, Mailbox::EMPTY);
    }
}
