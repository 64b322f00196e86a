//! Which mailboxes a session's library has: those on which the user has l or r, as long as the tables hold them.

use crate::history;
use crate::push::{self, records, Answer, Notice};
use crate::session::State;
use crate::store::{Mailbox, Store};

impl Store {
    /// At login, before any NOTIFY, so nothing is written. An account that doesn't fit is found here, and handed over only as
    /// its mailboxes are selected.
    pub fn load(&self, state: &mut State) {
        let user = state.user.clone();
        let messages: usize = self.visible(&user).map(|m| m.messages.len()).sum();
        let gone = self.visible(&user).any(|m| m.gone().is_some());
        if !push::fits(self.visible(&user).count(), messages + usize::from(gone)) {
            state.outgrown = true;
            return;
        }
        for mailbox in self.visible(&user) {
            self.hand(state, mailbox, Notice::Quiet);
        }
    }

    /// A mailbox with all that came to it. One that finds no room is left out, and so is one whose counters no history gives.
    pub fn hand(&self, state: &mut State, mailbox: &Mailbox, notice: Notice) {
        let entries = mailbox.messages.len() + usize::from(mailbox.gone().is_some());
        if !state.push.has_room(entries) {
            return state.outgrow(self);
        }
        if mailbox.uid_next == 1 {
            let attributes = mailbox.attributes(&state.user);
            let _ = self.hand_row(state, mailbox, attributes, notice, mailbox.counter);
            return;
        }
        match history::of(mailbox) {
            None => state.outgrow(self),
            Some(history) => self.hand_used(state, mailbox, &history),
        }
    }

    fn hand_row(
        &self,
        state: &mut State,
        mailbox: &Mailbox,
        attributes: u8,
        notice: Notice,
        counter: u64,
    ) -> Answer {
        let (id, validity) = (mailbox.id, mailbox.uid_validity);
        let name = mailbox.name.as_bytes();
        let record = records::create(id, attributes, notice, validity, counter, name);
        let answer = state.feed(self, &record);
        if answer == Answer::Done {
            state.handed.insert(id);
        }
        answer
    }

    /// The rights come last: the client reads of the mailbox and its parent once, and not a STATUS for each message.
    fn hand_used(&self, state: &mut State, mailbox: &Mailbox, history: &[Vec<u8>]) {
        let rights = mailbox.bits(&state.user);
        let attributes = mailbox.attributes(&state.user) & !rights;
        let quiet = Notice::Quiet;
        if self.hand_row(state, mailbox, attributes, quiet, history::LOWEST) != Answer::Done {
            return;
        }
        for record in history {
            let _ = state.feed(self, record);
        }
        let _ = state.feed(self, &records::rights(mailbox.id, rights));
    }

    /// For a session whose account doesn't fit: the tables serve the mailbox that is to be selected, and no other.
    pub fn hand_only(&self, state: &mut State, mailbox: &Mailbox) {
        for id in std::mem::take(&mut state.handed) {
            let _ = state.feed(self, &records::delete(id, Notice::Quiet));
        }
        self.hand(state, mailbox, Notice::Quiet);
    }

    /// A mailbox that the user may see from now on, or that is new.
    pub fn offer(&self, state: &mut State, mailbox: &Mailbox, notice: Notice) {
        if !state.outgrown {
            self.hand(state, mailbox, notice);
        }
    }

    /// The user's rights on a mailbox that the library has. Where none is left it goes, since what the user may not see
    /// must take no room; a selected one goes when it is left.
    pub fn regrant(&self, state: &mut State, mailbox: &Mailbox) {
        let bits = mailbox.bits(&state.user);
        let _ = state.feed(self, &records::rights(mailbox.id, bits));
        if bits == 0 && state.push.selected() != mailbox.id {
            self.withdraw(state, mailbox.id, Notice::Quiet);
        }
    }

    pub fn withdraw(&self, state: &mut State, id: u16, notice: Notice) {
        let _ = state.feed(self, &records::delete(id, notice));
        state.handed.remove(&id);
    }

    /// No mailbox is selected any more. One that was revoked meanwhile goes now.
    pub fn leave(&self, state: &mut State) {
        let id = state.selected();
        if id == 0 {
            return;
        }
        state.deselect(self);
        let seen = self
            .mailboxes
            .get(&id)
            .is_some_and(|m| m.is_visible(&state.user));
        if !seen && state.handed.contains(&id) {
            self.withdraw(state, id, Notice::Quiet);
        }
    }

    /// The library had no room for a message. A mailbox that it knows in part would be shown with wrong numbers, so it goes; but
    /// the selected one gets the room of all others, and if that is too little the host goes on without the library.
    pub fn cut_off(&self, state: &mut State, mailbox: &Mailbox, record: &[u8]) {
        let id = mailbox.id;
        if state.push.selected() != id {
            return self.withdraw(state, id, Notice::Quiet);
        }
        let others: Vec<u16> = state.handed.iter().copied().collect();
        for other in others.into_iter().filter(|&other| other != id) {
            self.withdraw(state, other, Notice::Quiet);
        }
        if state.feed(self, record) != Answer::Done {
            state.take_over(self, mailbox);
            self.withdraw(state, id, Notice::Quiet);
        }
    }
}
