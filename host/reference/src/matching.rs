//! Which groups or sources meet which mailbox.

use crate::memory::*;
use crate::names::{in_level, in_subtree, Name};

/// Does a group that is not about the selected mailbox meet one with this name and these
/// attributes?
pub fn meets(groups: &Groups, group: &Group, name: &Name, attributes: u8) -> bool {
    let has = |bits: u8| attributes & bits == bits;
    match group.selector {
        IS_PERSONAL => has(SELECTABLE | PERSONAL),
        IS_INBOXES => has(SELECTABLE | PERSONAL | DELIVERY),
        IS_SUBSCRIBED => has(SUBSCRIBED),
        IS_SUBTREE | IS_LEVEL => has(SELECTABLE) && named(groups, group, name),
        IS_MAILBOXES => named(groups, group, name),
        _ => false,
    }
}

/// Is the name among those that a group lists, or beneath one where that counts?
pub fn named(groups: &Groups, group: &Group, name: &Name) -> bool {
    let test = match group.selector {
        IS_SUBTREE => in_subtree,
        IS_LEVEL => in_level,
        // an empty name is in the list where the argument was none, and no mailbox or parent has it
        IS_MAILBOXES => |wanted: &[u8], name: &[u8]| wanted == name,
        _ => return false,
    };
    let mut listed = groups.names_of(group).iter();
    listed.any(|top| test(top.as_octets(), name.as_octets()))
}

/// Is any of these events asked of such a mailbox by a group other than the selected one?
pub fn asked(session: &Session, events: u8, name: &Name, attributes: u8) -> bool {
    let groups = &session.groups;
    groups
        .used()
        .iter()
        .any(|group| group.events & events != 0 && meets(groups, group, name, attributes))
}

/// The same of a mailbox of which the client may know nothing but the name.
pub fn asked_by_name(session: &Session, events: u8, name: &Name) -> bool {
    let groups = &session.groups;
    groups
        .used()
        .iter()
        .any(|group| group.events & events != 0 && named(groups, group, name))
}

/// The group about the selected mailbox, if one stands.
pub fn selected_group(groups: &Groups) -> Option<&Group> {
    groups
        .used()
        .iter()
        .find(|group| matches!(group.selector, IS_SELECTED | IS_DELAYED))
}

/// Does an event that these groups ask apply to the mailbox? Message events of the selected one
/// come from its own group alone.
pub fn concerns(groups: &Groups, row: &Mailbox, selected: u16) -> bool {
    let here = row.id == selected;
    groups.used().iter().any(|group| match group.selector {
        IS_SELECTED | IS_DELAYED => here && group.events != 0,
        _ => {
            let events = if here {
                group.events & MAILBOX_EVENTS
            } else {
                group.events
            };
            events != 0 && meets(groups, group, &row.name, row.attributes)
        }
    })
}

/// Are message events asked of a mailbox that is not selected?
pub fn watches_messages(groups: &Groups, row: &Mailbox) -> bool {
    groups.used().iter().any(|group| {
        group.events & MESSAGE_EVENTS != 0 && meets(groups, group, &row.name, row.attributes)
    })
}

/// May a search by these sources look into the mailbox? One source that admits it is enough.
pub fn admits(sources: &Groups, row: &Mailbox, selected: u16) -> bool {
    row.has(READ)
        && sources.used().iter().any(|source| match source.selector {
            IS_SELECTED => row.id == selected,
            IS_MAILBOXES => meets(sources, source, &row.name, row.attributes),
            _ => row.has(LOOKUP) && meets(sources, source, &row.name, row.attributes),
        })
}

/// Places of the rows that pass, by name in octet order.
pub fn by_name(memory: &Memory, pass: impl Fn(&Mailbox) -> bool) -> Vec<usize> {
    let rows = memory.rows();
    let mut places: Vec<usize> = (0..rows.len())
        .filter(|&place| pass(&rows[place]))
        .collect();
    places.sort_unstable_by(|&a, &b| rows[a].name.as_octets().cmp(rows[b].name.as_octets()));
    places
}
