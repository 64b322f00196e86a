//! Records about mailboxes: `MB`, `DL`, `RN`, `SB`, `RT`. None of them is refused any more here.

use crate::call::deliver;
use crate::lines::{self, Out};
use crate::matching::{asked, asked_by_name};
use crate::memory::*;
use crate::names::Name;

/// Is MailboxName asked of a mailbox that may be listed and read?
fn heard(memory: &Memory, name: &Name, attributes: u8) -> bool {
    attributes & RIGHTS == RIGHTS && asked(&memory.session, MAILBOX_NAME, name, attributes)
}

/// A mailbox came or went: its own line, and behind it that of its parent, which is affected too. The attributes are those
/// on the side where the mailbox is; a client that cannot list and read it hears of neither.
fn tell(memory: &mut Memory, name: &Name, attributes: u8, kind: &str) {
    if attributes & RIGHTS != RIGHTS {
        return;
    }
    let mut out = Out::new();
    if asked(&memory.session, MAILBOX_NAME, name, attributes) {
        lines::list(&mut out, kind, name);
    }
    if let Some(parent) = name.parent() {
        tell_parent(memory, &parent, &mut out);
    }
    deliver(memory, &out);
}

/// A listed parent is met as any mailbox is, whether it may be read or not. Of any other only the name may count, lest an
/// absent one be told from a hidden one.
fn tell_parent(memory: &Memory, parent: &Name, out: &mut Out) {
    let session = &memory.session;
    match memory.holder_of(parent).filter(|row| row.has(LOOKUP)) {
        Some(row) if asked(session, MAILBOX_NAME, parent, row.attributes) => {
            lines::list(out, lines::kind(row.attributes), parent)
        }
        None if asked_by_name(session, MAILBOX_NAME, parent) => {
            lines::list(out, "\\NonExistent", parent)
        }
        _ => {}
    }
}

pub fn create(memory: &mut Memory, row: Mailbox, quiet: bool) {
    memory.mailboxes[memory.mailbox_count] = row;
    memory.mailbox_count += 1;
    if !quiet {
        tell(
            memory,
            &row.name,
            row.attributes,
            lines::kind(row.attributes),
        );
    }
}

pub fn delete(memory: &mut Memory, place: usize, quiet: bool) {
    let row = memory.mailboxes[place];
    memory.free_row(place);
    memory.keep_entries(|entry| entry.mailbox != row.id);
    if !quiet {
        tell(memory, &row.name, row.attributes, "\\NonExistent");
    }
}

/// A rename is heard by whoever asks for the old name or the new; it affects no parent.
pub fn rename(memory: &mut Memory, place: usize, new: Name, quiet: bool) {
    let Mailbox {
        name: old,
        attributes,
        ..
    } = memory.mailboxes[place];
    memory.mailboxes[place].name = new;
    if !quiet && (heard(memory, &old, attributes) || heard(memory, &new, attributes)) {
        let mut out = Out::new();
        lines::renamed(&mut out, lines::kind(attributes), &new, &old);
        deliver(memory, &out);
    }
}

/// A change of subscription is heard by `subscribed` groups in either direction.
pub fn subscribe(memory: &mut Memory, place: usize, subscribed: bool, quiet: bool) {
    let row = &mut memory.mailboxes[place];
    if row.has(SUBSCRIBED) == subscribed {
        return;
    }
    row.attributes ^= SUBSCRIBED;
    let row = *row;
    let heard = row.has(RIGHTS)
        && asked(
            &memory.session,
            SUBSCRIPTION,
            &row.name,
            row.attributes | SUBSCRIBED,
        );
    if !quiet && heard {
        let mut out = Out::new();
        let attribute = if subscribed { "\\Subscribed" } else { "" };
        lines::list(&mut out, attribute, &row.name);
        deliver(memory, &out);
    }
}

/// To gain l is to appear, to lose it to vanish; r must be held on the side where l is.
pub fn rights(memory: &mut Memory, place: usize, rights: u8) {
    let row = &mut memory.mailboxes[place];
    let before = row.attributes;
    row.attributes = before & !RIGHTS | rights;
    let Mailbox {
        name,
        attributes: after,
        ..
    } = *row;
    match (before & LOOKUP != 0, after & LOOKUP != 0) {
        (false, true) => tell(memory, &name, after, lines::kind(after)),
        (true, false) => tell(memory, &name, before, "\\NonExistent"),
        _ => {}
    }
}
