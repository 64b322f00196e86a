//! Every change of the store: it is made, and then told as a record to every session whose library has the mailbox. The
//! session that acted, `by`, gets the records quiet that can be.

use crate::names;
use crate::push::{records, Answer, Notice, Refusal};
use crate::session::{Session, State};
use crate::store::{Mailbox, Message, Store, ALL_RIGHTS, ANYONE};
use std::collections::{BTreeMap, BTreeSet};
use std::sync::Arc;

fn notice(session: &Session, by: u64) -> Notice {
    match session.number == by {
        true => Notice::Quiet,
        false => Notice::Owed,
    }
}

impl Store {
    /// Every session, and then their writers are woken: woken in between they would take the processor from the rest.
    fn each(&self, mut act: impl FnMut(&Session, &mut State)) {
        let mut woken = Vec::new();
        for session in &self.sessions {
            let mut state = session.lock();
            if state.closing {
                continue;
            }
            act(session, &mut state);
            if state.is_waiting() || state.closing {
                woken.push(session);
            }
        }
        woken.iter().for_each(|session| session.wake());
    }

    fn tell(&self, id: u16, record: &[u8]) {
        self.each(|_, state| {
            if state.handed.contains(&id)
                && state.feed(self, record) == Answer::Refused(Refusal::TableFull)
            {
                self.cut_off(state, &self.mailboxes[&id], record);
            }
            state.look(self, id);
        });
    }

    /// None if there are too many mailboxes.
    pub fn create(&mut self, user: &str, name: &str, by: u64) -> Option<()> {
        self.make(user, name, |session| notice(session, by))
    }

    fn make(&mut self, user: &str, name: &str, notice: impl Fn(&Session) -> Notice) -> Option<()> {
        let id = self.free_id()?;
        let shared = names::is_shared(name);
        let owner = (!shared).then(|| user.to_string());
        let maker = shared.then(|| (user.to_string(), ALL_RIGHTS.to_string()));
        let mailbox = Mailbox {
            id,
            name: name.into(),
            uid_validity: self.new_validity(&owner, name),
            owner,
            rights: BTreeMap::from_iter(maker),
            delivery: name == names::INBOX,
            uid_next: 1,
            counter: 1,
            messages: Vec::new(),
            expunged: Vec::new(),
            subscribers: BTreeSet::new(),
        };
        self.mailboxes.insert(id, mailbox);
        let mailbox = &self.mailboxes[&id];
        self.each(|session, state| {
            if mailbox.is_visible(&state.user) {
                self.offer(state, mailbox, notice(session));
            }
        });
        Some(())
    }

    pub fn delete(&mut self, id: u16, by: u64) {
        self.mailboxes.remove(&id);
        self.each(|session, state| {
            if state.selected() == id {
                state.deselect(self);
                state.own(b"* OK [CLOSED] mailbox deleted\r\n".to_vec());
            }
            if state.handed.contains(&id) {
                self.withdraw(state, id, notice(session, by));
            }
        });
    }

    /// The mailbox and all beneath it, which go quietly. Beneath INBOX all stays, and a fresh INBOX takes its place.
    pub fn rename(&mut self, id: u16, new: &str, by: u64) {
        let (old, owner) = {
            let mailbox = &self.mailboxes[&id];
            (mailbox.name.clone(), mailbox.owner.clone())
        };
        self.rename_one(id, new, |session| notice(session, by));
        if old == names::INBOX {
            let user = owner.unwrap_or_default();
            self.make(&user, names::INBOX, |_| Notice::Quiet);
            return;
        }
        let beneath: Vec<(u16, String)> = (self.mailboxes.values())
            .filter(|m| m.owner == owner && names::is_beneath(&m.name, &old))
            .map(|m| (m.id, format!("{new}{}", &m.name[old.len()..])))
            .collect();
        for (id, name) in beneath {
            self.rename_one(id, &name, |_| Notice::Quiet);
        }
    }

    fn rename_one(&mut self, id: u16, new: &str, notice: impl Fn(&Session) -> Notice) {
        let Some(mailbox) = self.mailboxes.get_mut(&id) else {
            return;
        };
        mailbox.name = new.into();
        let (owner, validity) = (mailbox.owner.clone(), mailbox.uid_validity);
        self.keep_validity(&owner, new, validity);
        self.each(|session, state| {
            if state.handed.contains(&id) {
                let record = records::rename(id, notice(session), new.as_bytes());
                let _ = state.feed(self, &record);
            }
        });
    }

    pub fn subscribe(&mut self, id: u16, user: &str, on: bool, by: u64) {
        let Some(mailbox) = self.mailboxes.get_mut(&id) else {
            return;
        };
        match on {
            true => mailbox.subscribers.insert(user.into()),
            false => mailbox.subscribers.remove(user),
        };
        self.each(|session, state| {
            if state.user == user && state.handed.contains(&id) {
                let _ = state.feed(self, &records::subscribe(id, on, notice(session, by)));
            }
        });
    }

    pub fn set_rights(&mut self, id: u16, user: &str, rights: &str) {
        let Some(mailbox) = self.mailboxes.get_mut(&id) else {
            return;
        };
        match rights.is_empty() {
            true => mailbox.rights.remove(user),
            false => mailbox.rights.insert(user.into(), rights.into()),
        };
        let mailbox = &self.mailboxes[&id];
        self.each(|_, state| {
            let meant = state.user == user || user == ANYONE;
            if !meant || state.user.is_empty() {
                return;
            }
            if state.handed.contains(&id) {
                self.regrant(state, mailbox);
            } else if mailbox.is_visible(&state.user) {
                self.offer(state, mailbox, Notice::Owed);
            }
        });
    }

    /// Answers the message's UID; none if the mailbox has no UID or counter left.
    pub fn append(&mut self, id: u16, flags: u8, date: String, octets: Arc<[u8]>) -> Option<u32> {
        let mailbox = self.mailboxes.get_mut(&id)?;
        let uid = mailbox.uid_next;
        let next = uid.checked_add(1)?;
        let counter = mailbox.count()?;
        mailbox.uid_next = next;
        let size = octets.len() as u32;
        mailbox.messages.push(Message {
            uid,
            flags,
            counter,
            date,
            octets,
        });
        self.tell(id, &records::message(id, uid, flags, size, counter));
        Some(uid)
    }

    /// Answers whether that is a change. What the message has already is none, and takes no counter.
    pub fn set_flags(&mut self, id: u16, uid: u32, flags: u8) -> bool {
        let changed = self.change_flags(id, uid, flags);
        if let Some(counter) = changed {
            self.tell(id, &records::flags(id, uid, flags, counter));
        }
        changed.is_some()
    }

    fn change_flags(&mut self, id: u16, uid: u32, flags: u8) -> Option<u64> {
        let mailbox = self.mailboxes.get_mut(&id)?;
        let place = mailbox.place(uid)?;
        if mailbox.messages[place].flags == flags {
            return None;
        }
        let counter = mailbox.count()?;
        mailbox.messages[place].flags = flags;
        mailbox.messages[place].counter = counter;
        Some(counter)
    }

    pub fn expunge(&mut self, id: u16, uid: u32) {
        let Some(mailbox) = self.mailboxes.get_mut(&id) else {
            return;
        };
        let Some(place) = mailbox.place(uid) else {
            return;
        };
        let Some(counter) = mailbox.count() else {
            return;
        };
        mailbox.messages.remove(place);
        if self.options.adapt {
            mailbox.expunged.push((uid, counter));
        }
        self.tell(id, &records::expunge(id, uid, counter));
    }
}
