//! Every length that a host hands over arrives: a table is full at just its own length, a queue has just its own room, a
//! record ends where it ends. `tests/c/lengths.c` tries the same from C.

mod support;

use borjavid::records::{self, Class, Notice};
use borjavid::{Answer, Counts, Lent, Mailbox, Memory, Refusal, Session};
use support::Pieces;

const UNLAWFUL: Answer = Answer::Refused(Refusal::UnlawfulMemory);
const FULL: Answer = Answer::Refused(Refusal::TableFull);

fn mailbox(id: u16) -> Vec<u8> {
    let name = format!("m{id}");
    records::create(id, 0x33, Notice::Owed, 1, 1, name.as_bytes())
}

#[test]
fn rows() {
    for length in 0..=70 {
        let mut memory = Memory::with_tables(1024, length, 10);
        let wanted = if length > 64 { UNLAWFUL } else { FULL };
        for place in 0..=length as u16 {
            let fits = length <= 64 && usize::from(place) < length;
            let wanted = if fits { Answer::Done } else { wanted };
            assert_eq!(
                memory.step(&mailbox(place + 1)),
                wanted,
                "row {place} of {length}"
            );
        }
    }
}

/// Counters go on from here, with something in each half.
const FIRST: u64 = 5 << 32;

/// One mailbox, and as many entries in use as leave one free.
fn nearly_full(words: &mut [u64]) -> (Mailbox, Counts) {
    let used = (words.len() / 6).saturating_sub(1);
    for (place, entry) in words.chunks_exact_mut(6).take(used).enumerate() {
        let uid = place as u64 + 1;
        entry.copy_from_slice(&[1, uid, 0, 9, 0, FIRST + uid]);
    }
    let mut row = Mailbox {
        id: 1,
        attributes: 0x33,
        namelen: 1,
        uidvalidity: 1,
        uidnext: used as u32 + 1,
        ..Mailbox::EMPTY
    };
    row.name[0] = b'm';
    row.set_counter(FIRST + used as u64);
    let counts = Counts {
        mailboxes: 1,
        messages: used as u64,
        filled: 0,
    };
    (row, counts)
}

#[test]
fn words() {
    for length in 0..=6 * 1024 + 18 {
        let mut words = vec![0xAAAA_AAAA_AAAA_AAAA; length];
        let (row, mut counts) = nearly_full(&mut words);
        let next = row.uidnext;
        let message = |uid| records::message(1, uid, 0, 9, FIRST + u64::from(uid));
        let mut lent = Lent {
            rows: &mut [row],
            words: &mut words,
            counts: &mut counts,
            session: &mut Session::EMPTY.clone(),
            queue: &mut [0; 1024],
        };
        let first = match length / 6 {
            0 => FULL,
            1..=1024 => Answer::Done,
            _ => UNLAWFUL,
        };
        let second = if length / 6 > 1024 { UNLAWFUL } else { FULL };
        assert_eq!(lent.step(&message(next)), first, "{length} words");
        assert_eq!(lent.step(&message(next + 1)), second, "{length} words");
        let tail = &words[length / 6 * 6..];
        assert!(
            tail.iter().all(|&word| word == 0xAAAA_AAAA_AAAA_AAAA),
            "{length} words: the tail"
        );
    }
}

#[test]
fn queue() {
    // `* BAD refused` and its line end: 15 octets an answer, and 64 are kept
    let line = b"* BAD refused\r\n";
    for length in [
        0, 1, 63, 64, 1000, 1022, 1023, 1024, 1025, 1026, 1027, 2000, 65535, 65536, 65537, 70000,
    ] {
        let mut memory = Memory::new(length);
        if !(1024..=65536).contains(&length) {
            assert_eq!(memory.step(&records::command(b"")), UNLAWFUL, "Q {length}");
            continue;
        }
        let mut answers = 0;
        while memory.step(&records::command(b"")) == Answer::Done {
            answers += 1;
        }
        assert_eq!(
            memory.step(&records::command(b"")),
            Answer::Refused(Refusal::NoRoom)
        );
        assert_eq!(answers, (length - 64) / line.len(), "Q {length}");
        assert_eq!(memory.queue(), line.repeat(answers), "Q {length}");
    }
}

#[test]
fn records_end_where_they_end() {
    // all in one buffer, so that a length that is read too long finds more of the same
    let octets = records::command(&[b'x'; 1024]);
    for length in 0..=1024 {
        let mut record = octets.clone();
        record[2..4].copy_from_slice(&(length as u16).to_le_bytes());
        let mut memory = Memory::new(1024);
        assert_eq!(memory.step(&record[..4 + length]), Answer::Done, "{length}");
        if length > 0 {
            assert_eq!(
                memory.step(&record[..3 + length]),
                Answer::Refused(Refusal::BadRecord),
                "{length}"
            );
        }
        if length < 1024 {
            assert_eq!(
                memory.step(&record[..5 + length]),
                Answer::Refused(Refusal::BadRecord),
                "{length}"
            );
        }
    }
}

#[test]
fn names_and_rows_are_found_by_their_lengths() {
    let mut pieces = Pieces::start(0xAA, 1024, 64, 0);
    let mut lent = pieces.lend();
    for id in 1..=64 {
        let name = vec![b'n'; usize::from(id)];
        assert_eq!(
            lent.step(&records::create(id, 0x33, Notice::Quiet, 1, 1, &name)),
            Answer::Done
        );
        assert_eq!(lent.find_id(id), Some(usize::from(id) - 1));
        assert_eq!(lent.find_id(id + 1), None);
        assert_eq!(lent.find_name(&name), Some(usize::from(id) - 1));
        assert_eq!(lent.find_name(&[&name[..], b"n"].concat()), None);
    }
    assert_eq!((lent.find_id(0), lent.find_name(b"")), (None, None));
    let before = pieces.clone();
    let row = pieces.lend().rows[5];
    pieces.lend().set_row(64, row);
    pieces.lend().set_row(usize::MAX, row);
    assert!(pieces.same(&before), "no such row");
    let other = Mailbox { id: 999, ..row };
    pieces.lend().set_row(5, other);
    let mut wanted = before;
    wanted.lend().rows[5] = other;
    assert!(pieces.same(&wanted), "row 5 and nothing else");
    assert_eq!(
        pieces.lend().step(&records::command_ended(Class::Rest)),
        Answer::Counted(0)
    );
}
