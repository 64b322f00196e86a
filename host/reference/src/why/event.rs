//! What a record brings about, and by what a group can meet it.

use crate::matching::{meets, named, selected_group};
use crate::memory::*;
use crate::names::Name;
use crate::records::Record;

pub struct Event {
    pub kind: u8,
    /// Both rights are held, on the side of the record where the mailbox is seen.
    pub permitted: bool,
    about: About,
    /// The message went or changed before the client knew of it.
    pub unannounced: bool,
    /// The lowest class whose command end tells it, where it isn't told at once and isn't dropped.
    pub waits: Option<u8>,
}

enum About {
    /// Messages of the selected mailbox: no group but its own counts.
    View,
    /// Any of these is enough.
    Mailboxes(Vec<Met>),
}

/// A mailbox under a name.
struct Met {
    name: Name,
    /// None where the client may know no more than the name.
    attributes: Option<u8>,
    selected: bool,
}

fn about_selected(group: &Group) -> bool {
    matches!(group.selector, IS_SELECTED | IS_DELAYED)
}

impl Met {
    fn by(&self, groups: &Groups, group: &Group) -> bool {
        match self.attributes {
            _ if about_selected(group) => self.selected,
            Some(attributes) => meets(groups, group, &self.name, attributes),
            None => named(groups, group, &self.name),
        }
    }
}

impl Event {
    pub fn met_by(&self, groups: &Groups, group: &Group) -> bool {
        match &self.about {
            About::View => about_selected(group),
            About::Mailboxes(met) => met.iter().any(|one| one.by(groups, group)),
        }
    }
}

/// The event of a record that is taken on this memory, if it has one.
pub fn of(memory: &Memory, record: &Record) -> Option<Event> {
    match *record {
        Record::Create {
            attributes, name, ..
        } => {
            let made = Mailbox {
                attributes,
                name,
                ..Mailbox::default()
            };
            Some(listed(memory, &made))
        }
        Record::Delete { id, .. } => Some(listed(memory, memory.mailbox(id)?)),
        Record::Rename { id, name, .. } => {
            let row = memory.mailbox(id)?;
            let (old, new) = (own(memory, row), own(memory, &Mailbox { name, ..*row }));
            Some(changed(MAILBOX_NAME, row, vec![old, new]))
        }
        Record::Subscribe { id, subscribed, .. } => {
            let row = *memory.mailbox(id)?;
            let attributes = row.attributes | SUBSCRIBED;
            let met = own(memory, &Mailbox { attributes, ..row });
            let differs = row.has(SUBSCRIBED) != subscribed;
            differs.then(|| changed(SUBSCRIPTION, &row, vec![met]))
        }
        Record::Rights { id, rights } => {
            let before = *memory.mailbox(id)?;
            let attributes = before.attributes & !RIGHTS | rights;
            let after = Mailbox {
                attributes,
                ..before
            };
            let seen = if after.has(LOOKUP) { &after } else { &before };
            (before.has(LOOKUP) != after.has(LOOKUP)).then(|| listed(memory, seen))
        }
        Record::Message { id, .. } => message(memory, NEW, id, None),
        Record::Expunge { id, uid, .. } => message(memory, EXPUNGE, id, Some(uid)),
        Record::Flags { id, uid, .. } => message(memory, FLAGS, id, Some(uid)),
        Record::Select { .. }
        | Record::End { .. }
        | Record::Command { .. }
        | Record::Drained { .. } => None,
    }
}

fn own(memory: &Memory, row: &Mailbox) -> Met {
    Met {
        name: row.name,
        attributes: Some(row.attributes),
        // a mailbox that is being made has no id here, and no selection has either
        selected: row.id != 0 && row.id == memory.session.selected,
    }
}

/// The mailbox above, be it there or not.
fn above(memory: &Memory, row: &Mailbox) -> Option<Met> {
    let name = row.name.parent()?;
    let listed = memory.holder_of(&name).filter(|row| row.has(LOOKUP));
    Some(match listed {
        Some(row) => own(memory, row),
        None => Met {
            name,
            attributes: None,
            selected: false,
        },
    })
}

/// A mailbox comes or goes, and the one above it is affected too.
fn listed(memory: &Memory, row: &Mailbox) -> Event {
    let met = [own(memory, row)].into_iter().chain(above(memory, row));
    changed(MAILBOX_NAME, row, met.collect())
}

/// A change that never waits.
fn changed(kind: u8, row: &Mailbox, met: Vec<Met>) -> Event {
    Event {
        kind,
        permitted: row.has(RIGHTS),
        about: About::Mailboxes(met),
        unannounced: false,
        waits: None,
    }
}

/// A message came, or the one with this UID went or changed.
fn message(memory: &Memory, kind: u8, id: u16, uid: Option<u32>) -> Option<Event> {
    let row = memory.mailbox(id)?;
    let session = &memory.session;
    if id != session.selected {
        return Some(changed(kind, row, vec![own(memory, row)]));
    }
    let unannounced = uid.is_some_and(|uid| uid >= session.told);
    Some(Event {
        kind,
        permitted: row.has(RIGHTS),
        about: About::View,
        unannounced,
        waits: released_by(session, kind).filter(|_| !unannounced),
    })
}

/// The lowest class that releases an event of the selected mailbox, if that waits.
fn released_by(session: &Session, kind: u8) -> Option<u8> {
    let at_once = |group: &Group| {
        let delayed = kind == EXPUNGE && group.selector == IS_DELAYED;
        group.events & kind != 0 && !delayed
    };
    match kind {
        _ if selected_group(&session.groups).is_some_and(at_once) => None,
        NEW => Some(0),
        EXPUNGE => Some(1),
        // only before the first NOTIFY is a change of flags kept as a mark
        _ => (session.mode == FRESH).then_some(0),
    }
}
