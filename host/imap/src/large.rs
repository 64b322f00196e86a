//! A selected mailbox that is too large for the library. The host keeps the client's view of it itself, and compares that with
//! the store at each command's end, and in IDLE at each change. Nothing that was proved speaks of these lines.

use crate::fetch;
use crate::parse::joined;
use crate::push::Class;
use crate::session::State;
use crate::store::{Mailbox, Message, Store};
use std::iter::Peekable;
use std::slice::Iter;

/// Lines, or UIDs that are gone, that are told at a time.
const MOST: usize = 1000;

pub struct Large {
    pub id: u16,
    /// The UIDs by their numbers, each with the counter that the client knows.
    view: Vec<(u32, u64)>,
    /// Messages below this UID were announced.
    next: u32,
    /// The mailbox's counter when all was told.
    settled: u64,
    /// VANISHED was written, and no counter behind it yet.
    vanished: bool,
    /// The client is never told of some change that the library was to tell, so no counter may say that it knows all.
    pub lost: bool,
}

impl State {
    /// Selects a mailbox that the library can't have.
    pub fn open_large(&mut self, mailbox: &Mailbox) {
        self.log_large(mailbox);
        self.large = Some(Large::new(mailbox));
    }

    /// The selected mailbox has outgrown the library: the view goes on as the library left it, what waits goes on waiting.
    pub fn take_over(&mut self, store: &Store, mailbox: &Mailbox) {
        self.log_large(mailbox);
        let (view, next) = self.push.known();
        let lost = self.has_lost();
        self.deselect(store);
        self.large = Some(Large {
            view,
            next,
            settled: 0,
            lost,
            ..Large::new(mailbox)
        });
    }

    fn log_large(&self, mailbox: &Mailbox) {
        let (name, count, user) = (&mailbox.name, mailbox.messages.len(), &self.user);
        let why = "too many for the library";
        eprintln!("imap: {name} has {count} messages, {why}: {user} has it without");
    }

    /// As `owes`: whether anything is left.
    pub fn owes_large(&mut self, store: &Store, class: Class) -> u64 {
        let qresync = self.is_resynced();
        let Some(large) = &mut self.large else {
            return 0;
        };
        let mailbox = store.mailboxes.get(&large.id);
        let Some(mailbox) = mailbox.filter(|m| m.is_open(&self.user)) else {
            return 0;
        };
        let (lines, owes) = large.tell(mailbox, class, qresync);
        if !lines.is_empty() {
            self.own(lines);
        }
        u64::from(owes)
    }

    /// A change of a mailbox that the library doesn't have.
    pub fn look(&mut self, store: &Store, id: u16) {
        if self.large.as_ref().is_some_and(|large| large.id == id) {
            self.idle_turn(store);
        }
    }
}

/// The message of this UID, if it is there. They are gone through by rising UIDs, as the view is.
fn reach<'a>(messages: &mut Peekable<Iter<'a, Message>>, uid: u32) -> Option<&'a Message> {
    while messages.next_if(|message| message.uid < uid).is_some() {}
    messages.next_if(|message| message.uid == uid)
}

fn known(message: &Message) -> (u32, u64) {
    (message.uid, message.counter)
}

impl Large {
    pub fn new(mailbox: &Mailbox) -> Large {
        Large {
            id: mailbox.id,
            view: mailbox.messages.iter().map(known).collect(),
            next: mailbox.uid_next,
            settled: mailbox.counter,
            vanished: false,
            lost: false,
        }
    }

    pub fn view(&self) -> Vec<u32> {
        self.view.iter().map(|&(uid, _)| uid).collect()
    }

    /// What the class may hear, in the library's order, and whether more is owed. A client of QRESYNC hears VANISHED.
    pub fn tell(&mut self, mailbox: &Mailbox, class: Class, qresync: bool) -> (Vec<u8>, bool) {
        let mut lines = Vec::new();
        if self.settled == mailbox.counter {
            return (lines, false);
        }
        let mut told = 0;
        if class == Class::Rest {
            told += self.tell_gone(mailbox, qresync, &mut lines);
        }
        if told < MOST {
            self.tell_new(mailbox, &mut lines);
            told += self.tell_changed(mailbox, MOST - told, &mut lines);
        }
        let owed = told >= MOST;
        if class == Class::Rest && !owed {
            self.settle(mailbox.counter, &mut lines);
        }
        (lines, owed)
    }

    fn tell_gone(&mut self, mailbox: &Mailbox, qresync: bool, lines: &mut Vec<u8>) -> usize {
        let (mut gone, mut kept) = (Vec::new(), 0);
        let mut messages = mailbox.messages.iter().peekable();
        self.view.retain(|&(uid, _)| {
            let stays = gone.len() == MOST || reach(&mut messages, uid).is_some();
            match stays {
                true => kept += 1,
                false => gone.push((uid, kept + 1)),
            }
            stays
        });
        let uids: Vec<u32> = gone.iter().map(|&(uid, _)| uid).collect();
        if qresync && !uids.is_empty() {
            self.vanished = true;
            lines.extend(format!("* VANISHED {}\r\n", joined(&uids)).bytes());
        }
        for (_, number) in gone.iter().filter(|_| !qresync) {
            lines.extend(format!("* {number} EXPUNGE\r\n").bytes());
        }
        gone.len()
    }

    fn tell_new(&mut self, mailbox: &Mailbox, lines: &mut Vec<u8>) {
        let messages = mailbox.messages.iter();
        let before = self.view.len();
        let new = messages.rev().take_while(|m| m.uid >= self.next).map(known);
        self.view.extend(new);
        self.view[before..].reverse();
        self.next = mailbox.uid_next;
        if self.view.len() > before {
            lines.extend(format!("* {} EXISTS\r\n", self.view.len()).bytes());
        }
    }

    fn tell_changed(&mut self, mailbox: &Mailbox, most: usize, lines: &mut Vec<u8>) -> usize {
        let mut told = 0;
        let mut messages = mailbox.messages.iter().peekable();
        for (number, (uid, counter)) in (1..).zip(&mut self.view) {
            let changed = reach(&mut messages, *uid).filter(|m| m.counter > *counter);
            if let Some(message) = changed.filter(|_| told < most) {
                lines.extend(fetch::line(number, &fetch::CHANGED, message));
                *counter = message.counter;
                told += 1;
            }
        }
        told
    }

    /// All was told up to this counter.
    fn settle(&mut self, counter: u64, lines: &mut Vec<u8>) {
        self.settled = counter;
        if std::mem::take(&mut self.vanished) && !self.lost {
            lines.extend(fetch::highest(counter).bytes());
        }
    }
}
