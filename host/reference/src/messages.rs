//! Records about messages: `ME`, `XP`, `FL`. None of them is refused any more here.

use crate::call::deliver;
use crate::lines::{self, Out};
use crate::matching::{asked, selected_group};
use crate::memory::*;
use crate::selected::{by_uid, number_of};

/// How an event of the selected mailbox is told at once, if it is: by which group.
fn at_once(memory: &Memory, row: &Mailbox, event: u8) -> Option<Group> {
    if !row.has(RIGHTS) {
        return None;
    }
    let group = selected_group(&memory.session.groups)?;
    let delayed = event == EXPUNGE && group.selector == IS_DELAYED;
    (group.events & event != 0 && !delayed).then_some(*group)
}

/// STATUS of a mailbox that is not selected, where the event is asked.
fn tell_status(memory: &mut Memory, row: &Mailbox, event: u8) {
    if row.has(RIGHTS) && asked(&memory.session, event, &row.name, row.attributes) {
        let mut out = Out::new();
        if event == FLAGS {
            lines::status_flags(&mut out, &row.name, row.uid_validity, row.counter);
        } else {
            let messages = memory.count_in(row.id);
            lines::status_later(&mut out, &row.name, row.uid_next, messages, row.counter);
        }
        deliver(memory, &out);
    }
}

pub fn arrive(memory: &mut Memory, place: usize, message: Message) {
    memory.messages[memory.message_count] = message;
    memory.message_count += 1;
    memory.mailboxes[place].uid_next = message.uid + 1;
    let row = memory.mailboxes[place];
    if row.id != memory.session.selected {
        return tell_status(memory, &row, NEW);
    }
    let Some(group) = at_once(memory, &row, NEW) else {
        return;
    };
    let mut out = Out::new();
    announce(memory, &row, group.attributes, &mut out);
    if deliver(memory, &out) {
        memory.session.told = row.uid_next;
    }
}

/// EXISTS, and a FETCH for each message it announces, older ones too.
fn announce(memory: &Memory, row: &Mailbox, attributes: u8, out: &mut Out) {
    lines::exists(out, memory.count_in(row.id));
    if attributes == 0 {
        return;
    }
    for (number, place) in (1..).zip(by_uid(memory, row.id)) {
        let entry = &memory.entries()[place as usize];
        if entry.uid >= memory.session.told {
            lines::fetch(out, number, attributes, entry);
        }
    }
}

pub fn expunge(memory: &mut Memory, row: Mailbox, entry: usize) {
    let uid = memory.messages[entry].uid;
    if row.id != memory.session.selected {
        memory.free_entry(entry);
        return tell_status(memory, &row, EXPUNGE);
    }
    if uid >= memory.session.told {
        return memory.free_entry(entry);
    }
    if at_once(memory, &row, EXPUNGE).is_some() {
        let mut out = Out::new();
        lines::expunge(&mut out, number_of(memory, row.id, uid));
        if deliver(memory, &out) {
            return memory.free_entry(entry);
        }
    }
    // it waits, and a mark it had has ended
    memory.messages[entry].state = EXPUNGED;
}

/// The entry has its new flags already; it is told even if they are the old ones.
pub fn flags_changed(memory: &mut Memory, row: Mailbox, entry: usize) {
    let message = memory.messages[entry];
    if row.id != memory.session.selected {
        return tell_status(memory, &row, FLAGS);
    }
    if message.uid >= memory.session.told {
        return;
    }
    if memory.session.mode == FRESH {
        if row.has(RIGHTS) {
            memory.messages[entry].state |= MARKED;
        }
    } else if at_once(memory, &row, FLAGS).is_some() {
        let mut out = Out::new();
        let number = number_of(memory, row.id, message.uid);
        lines::fetch(&mut out, number, WITH_UID | WITH_FLAGS, &message);
        if deliver(memory, &out) {
            memory.messages[entry].state &= !MARKED;
        }
    }
}
