//! The wrapper itself: records, the queue, draining, the view.

use borjavid::records::{self, Class, Notice};
use borjavid::{Answer, Memory, Refusal};
use std::io::{self, Write};

/// Every octet of it is another.
const COUNTER: u64 = 0x0102_0304_0506_0708;

#[test]
fn records_lie_as_01_and_request_1_say() {
    let wanted: [(Vec<u8>, &[u8]); 12] = [
        (
            records::create(0x0201, 0x37, Notice::Quiet, 7, COUNTER, b"INBOX"),
            b"MB\x15\0\x01\x02\x37\x01\x07\0\0\0\x08\x07\x06\x05\x04\x03\x02\x01INBOX",
        ),
        (records::delete(2, Notice::Owed), b"DL\x03\0\x02\0\0"),
        (
            records::rename(2, Notice::Quiet, b"a/b"),
            b"RN\x06\0\x02\0\x01a/b",
        ),
        (
            records::subscribe(2, true, Notice::Owed),
            b"SB\x04\0\x02\0\x01\0",
        ),
        (
            records::rights(2, records::LOOKUP | records::READ),
            b"RT\x03\0\x02\0\x30",
        ),
        (
            records::message(2, 5, records::SEEN, 0x01020304, COUNTER),
            b"ME\x13\0\x02\0\x05\0\0\0\x08\x04\x03\x02\x01\x08\x07\x06\x05\x04\x03\x02\x01",
        ),
        (
            records::expunge(2, 5, COUNTER),
            b"XP\x0e\0\x02\0\x05\0\0\0\x08\x07\x06\x05\x04\x03\x02\x01",
        ),
        (
            records::flags(2, 5, records::DRAFT, COUNTER),
            b"FL\x0f\0\x02\0\x05\0\0\0\x10\x08\x07\x06\x05\x04\x03\x02\x01",
        ),
        (records::select(0), b"SE\x02\0\0\0"),
        (records::command_ended(Class::Rest), b"CE\x01\0\x01"),
        (records::command(b"a X"), b"CM\x03\0a X"),
        (records::drained(0x10000).to_vec(), b"DR\x04\0\0\0\x01\0"),
    ];
    for (octets, wanted) in wanted {
        assert_eq!(octets, wanted);
    }
}

#[test]
fn a_name_that_no_record_can_hold_is_refused() {
    for length in [0, 65, 65_519, 65_520, 65_536, 131_072] {
        let mut memory = Memory::new(1024);
        let record = records::create(1, 0x33, Notice::Owed, 1, 1, &vec![b'a'; length]);
        assert_eq!(
            memory.step(&record),
            Answer::Refused(Refusal::BadRecord),
            "{length}"
        );
    }
    assert_eq!(
        Memory::new(1024).drain(usize::MAX),
        Answer::Refused(Refusal::WrongState)
    );
}

/// A session with one mailbox selected and everything at once.
fn watching() -> Memory {
    let mut memory = Memory::new(1024);
    for record in [
        records::create(1, 0x37, Notice::Quiet, 7, 1, b"INBOX"),
        records::select(1),
        records::command(b"a NOTIFY SET (selected (MessageNew (UID) MessageExpunge))"),
        records::message(1, 3, 0, 100, 2),
    ] {
        assert_eq!(memory.step(&record), Answer::Done);
    }
    memory
}

/// Takes so many octets, then fails.
struct Narrow {
    left: usize,
    taken: Vec<u8>,
}

impl Write for Narrow {
    fn write(&mut self, octets: &[u8]) -> io::Result<usize> {
        if self.left == 0 {
            return Err(io::ErrorKind::BrokenPipe.into());
        }
        let count = octets.len().min(self.left).min(7);
        self.left -= count;
        self.taken.extend_from_slice(&octets[..count]);
        Ok(count)
    }

    fn flush(&mut self) -> io::Result<()> {
        Ok(())
    }
}

#[test]
fn what_is_written_out_is_drained() {
    let mut memory = watching();
    let all = memory.queue().to_vec();
    assert_eq!(
        all,
        b"a OK NOTIFY done\r\n* 1 EXISTS\r\n* 1 FETCH (UID 3 MODSEQ (2))\r\n"
    );
    let mut out = Narrow {
        left: 20,
        taken: Vec::new(),
    };
    assert!(memory.drain_to(&mut out).is_err());
    assert_eq!((&out.taken[..], memory.queue()), all.split_at(20));
    out.left = 1000;
    assert_eq!(memory.drain_to(&mut out).unwrap(), all.len() - 20);
    assert_eq!(out.taken, all);
    assert!(memory.queue().is_empty());
    assert_eq!(memory.drain(1), Answer::Refused(Refusal::WrongState));
    assert_eq!(memory.drain(0), Answer::Done);
}

/// Memory that somebody else wrote to: the step refuses the drain, and the same octets would go out for ever.
#[test]
fn a_refused_drain_is_an_error() {
    let mut memory = watching();
    memory.lend().session.told = u32::MAX;
    for _ in 0..3 {
        let fault = memory.drain_to(&mut Vec::new()).expect_err("refused");
        let inner = fault.get_ref().and_then(|inner| inner.downcast_ref());
        assert_eq!(inner, Some(&Refusal::UnlawfulMemory), "{fault}");
    }
    // an empty queue doesn't hide it
    memory.lend().counts.filled = 0;
    assert!(memory.drain_to(&mut Vec::new()).is_err());
}

#[test]
fn a_refusal_is_an_error_with_a_sentence() {
    let mut memory = Memory::new(1024);
    assert_eq!(memory.step(&records::select(0)).ok(), Ok(None));
    let ended = records::command_ended(Class::Rest);
    assert_eq!(memory.step(&ended).ok(), Ok(Some(0)));
    assert_eq!(memory.step(b"??").ok(), Err(Refusal::BadRecord));
    let handed_on = || -> Result<(), Box<dyn std::error::Error>> {
        Memory::new(1023).step(&ended).ok()?;
        Ok(())
    };
    let said = handed_on().expect_err("refused").to_string();
    assert_eq!(said, "refused with 1: the lent memory can't be worked on");
}

/// Each has its number and a reason of its own.
#[test]
fn every_refusal_has_a_reason() {
    let all = [
        Refusal::UnlawfulMemory,
        Refusal::BadRecord,
        Refusal::WrongId,
        Refusal::NameHeld,
        Refusal::WrongUid,
        Refusal::WrongState,
        Refusal::TableFull,
        Refusal::NoRoom,
    ];
    let mut reasons = std::collections::BTreeSet::new();
    for (refusal, number) in all.into_iter().zip(1..) {
        assert_eq!(Answer::Refused(refusal).number(), number);
        let said = refusal.to_string();
        let reason = said.strip_prefix(&format!("refused with {number}: "));
        assert!(
            reasons.insert(reason.expect("a reason").to_string()),
            "{said}"
        );
    }
}

#[test]
fn the_view_numbers_messages() {
    let mut memory = watching();
    let wrong_uid = Answer::Refused(Refusal::WrongUid);
    for (uid, counter, wanted) in [
        (8, 3, Answer::Done),
        (5, 4, wrong_uid),
        (9, 4, Answer::Done),
    ] {
        assert_eq!(
            memory.step(&records::message(1, uid, 0, 1, counter)),
            wanted
        );
    }
    assert_eq!(memory.view(), [3, 8, 9]);
    assert_eq!(memory.room(), (63, 1021));
    assert_eq!(memory.step(&records::expunge(1, 8, 5)), Answer::Done);
    assert_eq!(memory.view(), [3, 9]);
    assert_eq!(memory.step(&records::select(0)), Answer::Done);
    assert_eq!(memory.view(), []);
    let row = memory.mailboxes()[0];
    assert_eq!((row.uidnext, row.counter()), (10, 5));
}

#[test]
fn a_count_is_told_from_done() {
    let mut memory = Memory::new(1024);
    assert_eq!(
        memory.step(&records::command_ended(Class::Fetch)),
        Answer::Counted(0)
    );
    assert_eq!(memory.step(&records::select(0)), Answer::Done);
}
