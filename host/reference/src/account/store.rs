//! What exists, as the records that were taken say.

use super::Account;
use crate::memory::{Message, RIGHTS};
use crate::names::Name;
use std::collections::BTreeMap;

#[derive(Clone, Debug)]
pub struct Mailbox {
    pub name: Name,
    pub attributes: u8,
    pub uid_validity: u32,
    pub uid_next: u32,
    pub counter: u64,
    /// By UID, none that was expunged.
    pub messages: BTreeMap<u32, Message>,
}

impl Mailbox {
    pub fn new(name: Name, attributes: u8, uid_validity: u32, counter: u64) -> Mailbox {
        Mailbox {
            name,
            attributes,
            uid_validity,
            uid_next: 1,
            counter,
            messages: BTreeMap::new(),
        }
    }
}

impl Account {
    /// The selected mailbox, rights held or not.
    pub(super) fn open(&self) -> Option<&Mailbox> {
        self.mailboxes.get(&self.selected)
    }

    /// Are both rights held on the selected mailbox?
    pub(super) fn both_rights(&self) -> bool {
        self.open()
            .is_some_and(|mailbox| mailbox.attributes & RIGHTS == RIGHTS)
    }

    /// A message of the selected mailbox that exists.
    pub(super) fn message(&self, uid: u32) -> Option<&Message> {
        self.open()?.messages.get(&uid)
    }

    /// Messages of the selected mailbox that the client doesn't know, by UID.
    pub(super) fn unannounced(&self) -> Vec<&Message> {
        let known = |message: &&Message| !self.view.contains(&message.uid);
        self.open()
            .map(|mailbox| mailbox.messages.values().filter(known).collect())
            .unwrap_or_default()
    }
}
