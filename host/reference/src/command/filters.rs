//! Mailbox filters, which NOTIFY's groups and ESEARCH's sources share.

use super::reader::Reader;
use crate::memory::*;

/// Groups or sources as they are read. The totals go on past what there is room for: a line is
/// read to its end before any limit is spoken of.
#[derive(Clone, Default, PartialEq, Eq, Debug)]
pub struct Filters {
    pub groups: Groups,
    pub total: usize,
    pub name_total: usize,
}

impl Filters {
    pub fn too_many(&self) -> bool {
        self.total > GROUPS || self.name_total > NAMES
    }

    /// Reads one filter into a group that asks nothing yet.
    pub fn read(&mut self, reader: &mut Reader, search: bool) -> Option<Group> {
        let word = reader.atom()?;
        let is = |text: &str| word.eq_ignore_ascii_case(text.as_bytes());
        let selector = match () {
            _ if is("selected") => IS_SELECTED,
            _ if is("selected-delayed") => IS_DELAYED,
            _ if is("personal") => IS_PERSONAL,
            _ if is("inboxes") => IS_INBOXES,
            _ if is("subscribed") => IS_SUBSCRIBED,
            _ if is("subtree") => IS_SUBTREE,
            _ if is("mailboxes") => IS_MAILBOXES,
            _ if is("subtree-one") && search => IS_LEVEL,
            _ => return None,
        };
        let mut group = Group {
            selector,
            ..Group::default()
        };
        if matches!(selector, IS_SUBTREE | IS_MAILBOXES | IS_LEVEL) {
            let first = self.name_total;
            reader.space()?;
            if reader.peek() == Some(b'(') {
                reader.listed(|reader| self.name(reader))?;
            } else {
                self.name(reader)?;
            }
            if self.name_total <= NAMES {
                group.first_name = first as u8;
                group.name_count = (self.name_total - first) as u8;
            }
        }
        Some(group)
    }

    fn name(&mut self, reader: &mut Reader) -> Option<()> {
        let text = reader.astring()?;
        if let Some(slot) = self.groups.name.get_mut(self.name_total) {
            *slot = text.name();
            self.groups.name_count += 1;
        }
        self.name_total += 1;
        Some(())
    }

    /// Takes a finished group in, if there is room.
    pub fn push(&mut self, group: Group) {
        if let Some(slot) = self.groups.group.get_mut(self.total) {
            *slot = group;
            self.groups.count += 1;
        }
        self.total += 1;
    }
}
