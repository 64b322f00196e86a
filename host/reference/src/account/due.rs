//! What a taken call owes the client, and the change it makes in what exists.

use super::store::Mailbox;
use super::written::line;
use super::{Account, Cause, Rule, Wait};
use crate::command::{self, Command};
use crate::lines;
use crate::matching::meets;
use crate::memory::*;
use crate::names::Name;
use crate::records::Record;

pub(super) enum Due {
    Nothing(Rule),
    /// Nothing now, and the client hears of it later.
    Later(Wait, Cause),
    Now(Asked),
    /// Lines that tell of older calls.
    Older(Vec<Vec<u8>>),
}

/// Owed at once.
pub(super) struct Asked {
    /// All of them or none.
    pub lines: Vec<Vec<u8>>,
    /// The first group that asks, counted from 1.
    pub group: usize,
    /// Without room it waits so, or is lost.
    pub missed: Option<Wait>,
}

/// One line, and by which names and attributes a group can meet what it tells of.
struct Notice {
    names: Vec<Name>,
    attributes: u8,
    /// It tells of the selected mailbox.
    selected: bool,
    line: Vec<u8>,
}

impl Account {
    /// Takes in what a record changes. What the call wrote is asked for a command's acceptance
    /// alone, and the view is left to the lines.
    pub(super) fn take(&mut self, record: &Record, written: &[&[u8]]) -> Due {
        self.event(record, written)
            .unwrap_or(Due::Nothing(Rule::NoEvent))
    }

    /// What is owed, or none where nothing came about.
    fn event(&mut self, record: &Record, written: &[&[u8]]) -> Option<Due> {
        match *record {
            Record::Create {
                id,
                attributes,
                quiet,
                uid_validity,
                counter,
                name,
            } => {
                let made = Mailbox::new(name, attributes, uid_validity, counter);
                self.mailboxes.insert(id, made);
                Some(self.listed(quiet, id, &name, attributes, lines::kind(attributes)))
            }
            Record::Delete { id, quiet } => {
                let gone = self.mailboxes.remove(&id)?;
                Some(self.listed(quiet, id, &gone.name, gone.attributes, "\\NonExistent"))
            }
            Record::Rename { id, quiet, name } => self.renamed(id, quiet, name),
            Record::Subscribe {
                id,
                subscribed,
                quiet,
            } => self.subscribed(id, subscribed, quiet),
            Record::Rights { id, rights } => self.rights(id, rights),
            Record::Message {
                id,
                uid,
                flags,
                size,
                counter,
            } => self.arrived(Message {
                mailbox: id,
                uid,
                flags,
                size,
                state: 0,
                counter,
            }),
            Record::Expunge { id, uid, counter } => self.expunged(id, uid, counter),
            Record::Flags {
                id,
                uid,
                flags,
                counter,
            } => self.flagged(id, uid, flags, counter),
            Record::Select { id } => self.select(id),
            Record::End { class } => Some(Due::Older(self.fitting(self.owed_to(class)))),
            Record::Command { line } => self.command(line, written),
            Record::Drained { count } => {
                self.filled = self.filled.saturating_sub(count as usize);
                None
            }
        }
    }

    fn renamed(&mut self, id: u16, quiet: bool, name: Name) -> Option<Due> {
        let mailbox = self.mailboxes.get_mut(&id)?;
        let attributes = mailbox.attributes;
        let old = std::mem::replace(&mut mailbox.name, name);
        if quiet {
            return Some(Due::Nothing(Rule::Quiet));
        }
        let line = line(|out| lines::renamed(out, lines::kind(attributes), &name, &old));
        Some(self.notice(MAILBOX_NAME, id, vec![old, name], attributes, line))
    }

    fn subscribed(&mut self, id: u16, subscribed: bool, quiet: bool) -> Option<Due> {
        let mailbox = self.mailboxes.get_mut(&id)?;
        let changes = (mailbox.attributes & SUBSCRIBED != 0) != subscribed;
        if changes {
            mailbox.attributes ^= SUBSCRIBED;
        }
        let (name, attributes) = (mailbox.name, mailbox.attributes | SUBSCRIBED);
        // quiet is said first, even of nothing
        if quiet {
            return Some(Due::Nothing(Rule::Quiet));
        }
        if !changes {
            return None;
        }
        let kind = if subscribed { "\\Subscribed" } else { "" };
        let line = line(|out| lines::list(out, kind, &name));
        Some(self.notice(SUBSCRIPTION, id, vec![name], attributes, line))
    }

    /// Only l makes a mailbox appear or vanish; both rights count on the side where it is seen.
    fn rights(&mut self, id: u16, rights: u8) -> Option<Due> {
        let mailbox = self.mailboxes.get_mut(&id)?;
        let (name, before) = (mailbox.name, mailbox.attributes);
        let after = before & !RIGHTS | rights;
        mailbox.attributes = after;
        match (before & LOOKUP != 0, after & LOOKUP != 0) {
            (false, true) => Some(self.listed(false, id, &name, after, lines::kind(after))),
            (true, false) => Some(self.listed(false, id, &name, before, "\\NonExistent")),
            _ => None,
        }
    }

    /// A mailbox's coming or going, which is an event of the mailbox above it too: the one's line, then the other's.
    fn listed(&self, quiet: bool, id: u16, name: &Name, attributes: u8, kind: &str) -> Due {
        if quiet {
            return Due::Nothing(Rule::Quiet);
        }
        if attributes & RIGHTS != RIGHTS {
            return Due::Nothing(Rule::RightMissing);
        }
        let own = Notice {
            names: vec![*name],
            attributes,
            selected: id == self.selected,
            line: line(|out| lines::list(out, kind, name)),
        };
        let both = [own].into_iter().chain(self.above(name)).collect();
        self.owed(MAILBOX_NAME, both)
    }

    /// The notice about the mailbox above. Where the client may not list it, whether it is there or not, it is made up as
    /// selectable and nothing else: then no group but one that names it can meet it.
    fn above(&self, name: &Name) -> Option<Notice> {
        let parts: Vec<&[u8]> = name.as_octets().split(|&octet| octet == b'/').collect();
        let (_, upper) = parts.split_last()?;
        let above = Name::read(&upper.join(&b'/'))?;
        let listed = |(_, mailbox): &(&u16, &Mailbox)| {
            mailbox.name == above && mailbox.attributes & LOOKUP != 0
        };
        let found = self.mailboxes.iter().find(listed);
        let (attributes, kind) = match found {
            Some((_, mailbox)) => (mailbox.attributes, lines::kind(mailbox.attributes)),
            None => (SELECTABLE, "\\NonExistent"),
        };
        Some(Notice {
            names: vec![above],
            attributes,
            selected: found.is_some_and(|(id, _)| *id == self.selected),
            line: line(|out| lines::list(out, kind, &above)),
        })
    }

    /// The numbers of a mailbox that is not selected.
    pub(super) fn counted(&self, id: u16, event: u8) -> Option<Due> {
        let mailbox = self.mailboxes.get(&id)?;
        let (name, highest) = (&mailbox.name, mailbox.counter);
        let messages = mailbox.messages.len() as u32;
        let line = line(|out| match event {
            FLAGS => lines::status_flags(out, name, mailbox.uid_validity, highest),
            _ => lines::status_later(out, name, mailbox.uid_next, messages, highest),
        });
        Some(self.notice(event, id, vec![*name], mailbox.attributes, line))
    }

    /// A notice about one mailbox, by any of the names.
    fn notice(&self, event: u8, id: u16, names: Vec<Name>, attributes: u8, line: Vec<u8>) -> Due {
        if attributes & RIGHTS != RIGHTS {
            return Due::Nothing(Rule::RightMissing);
        }
        let only = Notice {
            names,
            attributes,
            selected: id == self.selected,
            line,
        };
        self.owed(event, vec![only])
    }

    /// Of these notices those that any group asks for. The selected mailbox is met by its own group, which never asks for them.
    fn owed(&self, event: u8, notices: Vec<Notice>) -> Due {
        let groups = self.groups.unwrap_or_default();
        let met = |group: &Group, notice: &Notice| match group.selector {
            IS_SELECTED | IS_DELAYED => notice.selected,
            _ => {
                let mut names = notice.names.iter();
                names.any(|name| meets(&groups, group, name, notice.attributes))
            }
        };
        let asks = |group: &Group, notice: &Notice| group.events & event != 0 && met(group, notice);
        let groups = || groups.used().iter();
        if !groups().any(|group| notices.iter().any(|notice| met(group, notice))) {
            return Due::Nothing(Rule::NoGroup);
        }
        let first = groups().position(|group| notices.iter().any(|notice| asks(group, notice)));
        let Some(first) = first else {
            return Due::Nothing(Rule::NotAsked);
        };
        let asked = notices
            .iter()
            .filter(|notice| groups().any(|group| asks(group, notice)));
        Due::Now(Asked {
            lines: asked.map(|notice| notice.line.clone()).collect(),
            group: first + 1,
            missed: None,
        })
    }

    /// NOTIFY counts if its answer accepts it; no other command changes or owes anything.
    fn command(&mut self, line: &[u8], written: &[&[u8]]) -> Option<Due> {
        let (tag, rest) = command::split(line)?;
        let accepted = [tag, b" OK NOTIFY done\r\n"].concat();
        if *written.last()? != accepted {
            return None;
        }
        match command::read(rest)? {
            Command::NotifyNone => {
                self.groups = Some(Groups::default());
                None
            }
            Command::NotifySet(notify) => {
                self.groups = Some(notify.filters.groups);
                Some(Due::Older(self.owed_to(1)))
            }
            Command::Search(_) => None,
        }
    }
}
