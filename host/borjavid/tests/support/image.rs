//! The independent program's memory, as it lies in lent memory, and back.

use borjavid::{Group, Lent, Mailbox, Name, Session};
use reference::memory as other;

const ENTRY: usize = 6;

/// The independent program's selectors, by the number that is lent.
const SELECTORS: [u8; 7] = [
    other::IS_SELECTED,
    other::IS_DELAYED,
    other::IS_INBOXES,
    other::IS_PERSONAL,
    other::IS_SUBSCRIBED,
    other::IS_SUBTREE,
    other::IS_MAILBOXES,
];

/// Lent memory becomes what the independent program's is: in the tables what was in use before and is no longer becomes
/// zero, and what lies behind stays.
pub fn write(memory: &other::Memory, lent: Lent) {
    let rows = memory.rows();
    for (place, row) in rows.iter().enumerate() {
        lent.rows[place] = row_of(row);
    }
    for row in unused(lent.rows, rows.len(), lent.counts.mailboxes, 1) {
        *row = Mailbox::EMPTY;
    }
    let entries = memory.entries();
    for (place, entry) in entries.iter().enumerate() {
        lent.words[place * ENTRY..][..ENTRY].copy_from_slice(&words_of(entry));
    }
    unused(lent.words, entries.len(), lent.counts.messages, ENTRY).fill(0);
    lent.counts.mailboxes = memory.mailbox_count as u64;
    lent.counts.messages = memory.message_count as u64;
    lent.counts.filled = memory.filled as u64;
    *lent.session = session_of(&memory.session);
    lent.queue.copy_from_slice(&memory.queue);
}

fn unused<T>(table: &mut [T], used: usize, before: u64, size: usize) -> &mut [T] {
    let end = (before as usize).max(used);
    &mut table[used * size..end * size]
}

fn row_of(row: &other::Mailbox) -> Mailbox {
    let mut lent = Mailbox {
        id: row.id,
        attributes: row.attributes,
        namelen: row.name.len,
        uidvalidity: row.uid_validity,
        uidnext: row.uid_next,
        name: row.name.octets,
        ..Mailbox::EMPTY
    };
    lent.set_counter(row.counter);
    lent
}

fn words_of(entry: &other::Message) -> [u64; ENTRY] {
    [
        entry.mailbox.into(),
        entry.uid.into(),
        entry.flags.into(),
        entry.size.into(),
        entry.state.into(),
        entry.counter,
    ]
}

fn session_of(session: &other::Session) -> Session {
    let mut lent = Session::EMPTY;
    lent.selected = session.selected;
    lent.notified = u8::from(session.mode != other::FRESH);
    lent.groupcount = session.groups.count;
    lent.told = session.told;
    for (place, group) in session.groups.used().iter().enumerate() {
        let number = SELECTORS.iter().position(|&one| one == group.selector);
        lent.groups[place] = Group {
            selector: number.unwrap_or(usize::MAX) as u8,
            first: group.first_name,
            count: group.name_count,
            events: group.events,
            attributes: group.attributes,
        };
    }
    lent.names = session.groups.name.map(|name| Name {
        len: name.len,
        octets: name.octets,
    });
    lent
}

/// The memory that lent memory holds for the independent program; none where a field holds more than a field there could,
/// which refusal 1 is for.
pub fn read(lent: &Lent) -> Option<other::Memory> {
    let mut memory =
        other::Memory::new(lent.queue.len(), lent.rows.len(), lent.words.len() / ENTRY);
    memory.queue.copy_from_slice(lent.queue);
    memory.filled = usize::try_from(lent.counts.filled).ok()?;
    memory.mailbox_count = usize::try_from(lent.counts.mailboxes).ok()?;
    memory.message_count = usize::try_from(lent.counts.messages).ok()?;
    for (place, row) in lent.rows.iter().take(memory.mailbox_count).enumerate() {
        memory.mailboxes[place] = other::Mailbox {
            id: row.id,
            attributes: row.attributes,
            uid_validity: row.uidvalidity,
            uid_next: row.uidnext,
            counter: row.counter(),
            name: reference::names::Name {
                len: row.namelen,
                octets: row.name,
            },
        };
    }
    let entries = lent.words.chunks_exact(ENTRY);
    for (place, entry) in entries.take(memory.message_count).enumerate() {
        memory.messages[place] = other::Message {
            mailbox: entry[0].try_into().ok()?,
            uid: entry[1].try_into().ok()?,
            flags: entry[2].try_into().ok()?,
            size: entry[3].try_into().ok()?,
            state: entry[4].try_into().ok()?,
            counter: entry[5],
        };
    }
    memory.session = read_session(lent.session)?;
    Some(memory)
}

fn read_session(lent: &Session) -> Option<other::Session> {
    let mut session = other::Session {
        selected: lent.selected,
        told: lent.told,
        ..Default::default()
    };
    session.mode = match (lent.notified, lent.groupcount) {
        (0, 0) => other::FRESH,
        (1, 0) => other::NONE,
        (1, 1..=8) => other::SET,
        _ => return None,
    };
    session.groups.count = lent.groupcount;
    let mut names: u8 = 0;
    for (place, group) in lent.groups.iter().enumerate() {
        if place < usize::from(lent.groupcount) {
            names = names.checked_add(group.count)?;
            session.groups.group[place] = other::Group {
                selector: *SELECTORS.get(usize::from(group.selector))?,
                events: group.events,
                attributes: group.attributes,
                first_name: group.first,
                name_count: group.count,
            };
        } else if *group != Session::EMPTY.groups[0] {
            return None;
        }
    }
    session.groups.name_count = names;
    session.groups.name = lent.names.map(|name| reference::names::Name {
        len: name.len,
        octets: name.octets,
    });
    Some(session)
}
