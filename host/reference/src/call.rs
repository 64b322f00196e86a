//! One call: one octet string against the memory.

use crate::answers;
use crate::lawful::{lawful, lengths_lawful};
use crate::lines::{self, Out};
use crate::memory::*;
use crate::records::{self, Record};
use crate::{mailboxes, messages, selected};

/// A refusal number, 0 for none, and the count that `CE` answers.
#[derive(Clone, Copy, Default, PartialEq, Eq, Debug)]
pub struct Answer {
    pub refusal: u8,
    pub count: Option<u32>,
}

fn refused(refusal: u8) -> Answer {
    Answer {
        refusal,
        count: None,
    }
}

/// A call on memory that anybody may have written: refusal 1 is tried in full.
pub fn call(memory: &mut Memory, octets: &[u8]) -> Answer {
    if !lawful(memory) {
        return refused(1);
    }
    step(memory, octets)
}

/// A call on memory that only calls have written since the empty start: of refusal 1 only the
/// lengths are tried, since the rest can't have come about.
pub fn call_trusting(memory: &mut Memory, octets: &[u8]) -> Answer {
    if !lengths_lawful(memory) {
        return refused(1);
    }
    step(memory, octets)
}

/// The refusal from 2 to 7 that an octet string would get of lawful memory, 0 for none. Nothing is
/// changed.
pub fn refusal_of(memory: &Memory, octets: &[u8]) -> u8 {
    records::read(octets).map_or(2, |record| refusal(memory, &record))
}

/// Refusals 3 to 7, the lowest that applies.
fn refusal(memory: &Memory, record: &Record) -> u8 {
    let unknown = |id: u16| memory.mailbox(id).is_none();
    match *record {
        Record::Create { id, name, .. } => {
            if !unknown(id) {
                3
            } else if memory.holder_of(&name).is_some() {
                4
            } else if memory.mailbox_count == memory.mailboxes.len() {
                7
            } else {
                0
            }
        }
        Record::Rename { id, name, .. } => {
            if unknown(id) {
                3
            } else if memory.holder_of(&name).is_some_and(|row| row.id != id) {
                4
            } else {
                0
            }
        }
        Record::Delete { id, .. } => {
            if unknown(id) {
                3
            } else if id == memory.session.selected {
                6
            } else {
                0
            }
        }
        Record::Subscribe { id, .. } | Record::Rights { id, .. } => 3 * u8::from(unknown(id)),
        Record::Message {
            id, uid, counter, ..
        } => match memory.mailbox(id) {
            None => 3,
            Some(row) if uid < row.uid_next || counter <= row.counter => 5,
            Some(_) if memory.message_count == memory.messages.len() => 7,
            Some(_) => 0,
        },
        Record::Expunge { id, uid, counter }
        | Record::Flags {
            id, uid, counter, ..
        } => {
            let there = |place: usize| !memory.messages[place].is_expunged();
            match memory.mailbox(id) {
                None => 3,
                Some(row) if counter <= row.counter => 5,
                Some(_) if memory.message_at(id, uid).is_some_and(there) => 0,
                Some(_) => 5,
            }
        }
        Record::Select { id: 0 } => 0,
        Record::Select { id } => match memory.mailbox(id) {
            None => 3,
            Some(row) if !row.has(SELECTABLE | READ) => 6,
            Some(_) => 0,
        },
        Record::Drained { count } => 6 * u8::from(count as usize > memory.filled),
        Record::End { .. } | Record::Command { .. } => 0,
    }
}

fn step(memory: &mut Memory, octets: &[u8]) -> Answer {
    let Some(record) = records::read(octets) else {
        return refused(2);
    };
    let number = refusal(memory, &record);
    if number != 0 {
        return refused(number);
    }
    match record {
        Record::End { class } => {
            return Answer {
                refusal: 0,
                count: Some(selected::command_ended(memory, class)),
            }
        }
        Record::Command { line } => return refused(answers::command(memory, line)),
        Record::Select { id } => selected::select(memory, id),
        Record::Drained { count } => drain(memory, count as usize),
        Record::Create {
            id,
            attributes,
            quiet,
            uid_validity,
            counter,
            name,
        } => {
            let row = Mailbox {
                id,
                attributes,
                uid_validity,
                uid_next: 1,
                counter,
                name,
            };
            mailboxes::create(memory, row, quiet)
        }
        Record::Delete { id, .. }
        | Record::Rename { id, .. }
        | Record::Subscribe { id, .. }
        | Record::Rights { id, .. }
        | Record::Message { id, .. }
        | Record::Expunge { id, .. }
        | Record::Flags { id, .. } => {
            if let Some(place) = memory.place_of(id) {
                known(memory, place, &record)
            }
        }
    }
    Answer::default()
}

/// Records about a mailbox that is in the table.
fn known(memory: &mut Memory, place: usize, record: &Record) {
    raise(&mut memory.mailboxes[place], record);
    match *record {
        Record::Delete { quiet, .. } => mailboxes::delete(memory, place, quiet),
        Record::Rename { quiet, name, .. } => mailboxes::rename(memory, place, name, quiet),
        Record::Subscribe {
            subscribed, quiet, ..
        } => mailboxes::subscribe(memory, place, subscribed, quiet),
        Record::Rights { rights, .. } => mailboxes::rights(memory, place, rights),
        Record::Message {
            id,
            uid,
            flags,
            size,
            counter,
        } => {
            let message = Message {
                mailbox: id,
                uid,
                flags,
                size,
                state: 0,
                counter,
            };
            messages::arrive(memory, place, message)
        }
        Record::Expunge { id, uid, .. } => {
            if let Some(entry) = memory.message_at(id, uid) {
                messages::expunge(memory, memory.mailboxes[place], entry)
            }
        }
        Record::Flags {
            id,
            uid,
            flags,
            counter,
        } => {
            if let Some(entry) = memory.message_at(id, uid) {
                memory.messages[entry].flags = flags;
                memory.messages[entry].counter = counter;
                messages::flags_changed(memory, memory.mailboxes[place], entry)
            }
        }
        _ => {}
    }
}

/// A change of messages raises their mailbox's counter, whoever hears of it.
fn raise(row: &mut Mailbox, record: &Record) {
    if let Record::Message { counter, .. }
    | Record::Expunge { counter, .. }
    | Record::Flags { counter, .. } = *record
    {
        row.counter = counter;
    }
}

/// `DR`: octets leave the front, the rest moves there.
fn drain(memory: &mut Memory, count: usize) {
    memory.queue.copy_within(count..memory.filled, 0);
    memory.filled -= count;
}

/// Queues one record's immediate lines, all or none. Where they don't fit the overflow is told in
/// their place and the groups are gone.
pub(crate) fn deliver(memory: &mut Memory, octets: &[u8]) -> bool {
    if octets.len() <= memory.room() {
        memory.append(octets);
        return true;
    }
    let mut out = Out::new();
    lines::overflow(&mut out);
    memory.append(&out);
    memory.session.silence();
    false
}
