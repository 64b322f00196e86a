//! Refusal 1: may lent memory be worked on at all?

use crate::memory::*;
use crate::places::Places;

/// Lengths of queue and tables.
pub fn lengths_lawful(memory: &Memory) -> bool {
    (QUEUE_LEAST..=QUEUE_MOST).contains(&memory.queue.len())
        && memory.mailboxes.len() <= MAILBOXES
        && memory.messages.len() <= MESSAGES
}

/// All of it. What lies behind the three counts is not looked at. Each table is gone over once, as long as the UIDs of a
/// mailbox come in rising order.
pub fn lawful(memory: &Memory) -> bool {
    lengths_lawful(memory)
        && counts_lawful(memory)
        && groups_lawful(&memory.session)
        && memory.rows().iter().all(row_lawful)
        && Places::of(memory.rows())
            .is_some_and(|places| view_lawful(memory, &places) && messages_lawful(memory, &places))
}

fn counts_lawful(memory: &Memory) -> bool {
    let free = if memory.session.mode == SET {
        RESERVE
    } else {
        0
    };
    memory.mailbox_count <= memory.mailboxes.len()
        && memory.message_count <= memory.messages.len()
        && memory.filled <= memory.queue.len() - free
}

fn row_lawful(row: &Mailbox) -> bool {
    row.id != 0
        && row.attributes <= 0x3F
        && row.uid_validity != 0
        && row.uid_next != 0
        && (1..=COUNTER_MOST).contains(&row.counter)
        && row.name.is_lawful()
}

/// Groups that some accepted NOTIFY makes, and zero where no group or name stands.
fn groups_lawful(session: &Session) -> bool {
    let groups = &session.groups;
    let (count, names) = (groups.count as usize, groups.name_count as usize);
    if count > GROUPS || names > NAMES || session.mode > SET {
        return false;
    }
    // names are handed out to the groups in order, all of them
    let mut next = 0;
    let mut about_selected = 0;
    for group in groups.used() {
        if !group_lawful(group, next) {
            return false;
        }
        next += usize::from(group.name_count);
        about_selected += usize::from(group.selector <= IS_DELAYED);
    }
    let zero = Group::default();
    (session.mode == SET) == (count > 0)
        && about_selected <= 1
        && next == names
        && groups.name[..names]
            .iter()
            .all(|name| *name == Default::default() || name.is_lawful())
        && groups.name[names..]
            .iter()
            .all(|name| *name == Default::default())
        && groups.group[count..].iter().all(|group| *group == zero)
}

fn group_lawful(group: &Group, next: usize) -> bool {
    let about_selected = matches!(group.selector, IS_SELECTED | IS_DELAYED);
    let named = matches!(group.selector, IS_SUBTREE | IS_MAILBOXES);
    let asks = |event: u8| group.events & event != 0;
    let names = if named {
        usize::from(group.first_name) == next && group.name_count > 0
    } else {
        group.first_name == 0 && group.name_count == 0
    };
    (IS_SELECTED..=IS_MAILBOXES).contains(&group.selector)
        && group.events <= MESSAGE_EVENTS | MAILBOX_EVENTS
        && paired(group.events)
        && !(about_selected && asks(MAILBOX_EVENTS))
        && group.attributes <= WITH_UID | WITH_FLAGS | WITH_SIZE
        && (group.attributes == 0 || about_selected && asks(NEW))
        && names
}

/// New and expunged messages are asked together, flag changes with both.
pub fn paired(events: u8) -> bool {
    let both = NEW | EXPUNGE;
    events & both == both || events & (both | FLAGS) == 0
}

/// With none selected the view is nothing; else it reaches no further than UIDs ever used.
fn view_lawful(memory: &Memory, places: &Places) -> bool {
    let session = &memory.session;
    match session.selected {
        0 => session.told == 0,
        id => places
            .find(id)
            .is_some_and(|place| session.told <= memory.mailboxes[place].uid_next),
    }
}

/// The fields of every entry, and no UID twice in a mailbox: seen on the way where UIDs rise, else by sorting.
fn messages_lawful(memory: &Memory, places: &Places) -> bool {
    let session = &memory.session;
    let rows = memory.rows();
    let mut last = [0; MAILBOXES];
    let mut rising = true;
    for entry in memory.entries() {
        // no row has id 0
        let Some(place) = places.find(entry.mailbox) else {
            return false;
        };
        let in_view = entry.mailbox == session.selected && entry.uid < session.told;
        let state =
            entry.state == 0 || (entry.state == EXPUNGED || entry.state == MARKED) && in_view;
        let uid = entry.uid != 0 && entry.uid < rows[place].uid_next;
        let counter = entry.counter != 0 && entry.counter <= rows[place].counter;
        if !(state && uid && counter && entry.flags <= FLAG_BITS) {
            return false;
        }
        rising &= last[place] < entry.uid;
        last[place] = entry.uid;
    }
    rising || apart(memory.entries())
}

/// No two entries have mailbox and UID in common.
fn apart(entries: &[Message]) -> bool {
    let mut keys = [0; MESSAGES];
    let keys = &mut keys[..entries.len()];
    for (key, entry) in keys.iter_mut().zip(entries) {
        *key = u64::from(entry.mailbox) << 32 | u64::from(entry.uid);
    }
    keys.sort_unstable();
    keys.windows(2).all(|pair| pair[0] != pair[1])
}
