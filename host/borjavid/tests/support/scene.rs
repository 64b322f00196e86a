//! A session in use, and records for it.

use super::Pieces;
use borjavid::records::{self, Class, Notice};
use borjavid::Answer;

/// A record of each kind that a session in use takes.
pub fn kinds() -> [Vec<u8>; 12] {
    [
        records::create(9, 0x33, Notice::Owed, 1, 1, b"new"),
        records::delete(2, Notice::Owed),
        records::rename(2, Notice::Owed, b"other"),
        records::subscribe(2, true, Notice::Owed),
        records::rights(2, 0x10),
        records::message(1, 90, 0, 7, 90),
        records::expunge(1, 2, 90),
        records::flags(1, 2, 8, 90),
        records::select(2),
        records::command_ended(Class::Rest),
        records::command(b"t NOTIFY NONE"),
        records::drained(1).to_vec(),
    ]
}

/// A session in use: three mailboxes, messages seen and unseen, one mark and one expunge that wait, groups, a queue.
pub fn in_use(queue: usize, mailboxes: usize, words: usize) -> Pieces {
    let mut pieces = Pieces::start(0xAA, queue, mailboxes, words);
    let mut lent = pieces.lend();
    let all = [
        records::create(1, 0x37, Notice::Owed, 7, 1, b"inbox"),
        records::create(2, 0x31, Notice::Owed, 7, 1, b"Ops/Mains"),
        records::create(3, 0x01, Notice::Owed, 7, 1, b"Hidden"),
        records::message(1, 1, 0, 5, 2),
        records::message(1, 2, 1, 5, 3),
        records::message(2, 8, 2, 5, 2),
        records::select(1),
        records::flags(1, 2, 8, 4),
        records::message(1, 3, 0, 5, 5),
        records::command(b"a NOTIFY SET (selected-delayed (MessageNew MessageExpunge)) (subtree (Ops Other) (MessageNew MessageExpunge MailboxName))"),
        records::expunge(1, 1, 6),
        records::message(1, 4, 0, 5, 7),
    ];
    for record in all {
        assert_eq!(lent.step(&record), Answer::Done, "{record:?}");
    }
    assert!(!lent.queue().is_empty());
    pieces
}
