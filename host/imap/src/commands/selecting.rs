//! SELECT, EXAMINE, CLOSE, UNSELECT.

use super::{done, no, End, Run};
use crate::adapt::{self, Known};
use crate::condstore;
use crate::flags::{self, SEEN};
use crate::parse::{Read, Reader};
use crate::push::{records, Answer};
use crate::store::Mailbox;

impl Run<'_> {
    pub(super) fn select(&mut self, examine: bool, reader: &mut Reader) -> Read<End> {
        reader.space()?;
        let name = reader.mailbox()?;
        let known = match reader.eat(b' ') {
            true => self.parameter(reader)?,
            false => None,
        };
        reader.end()?;
        self.leave();
        let mailbox = self.find(&name, 'r')?;
        let mut state = self.state();
        if !state.handed.contains(&mailbox.id) && state.outgrown {
            self.store().hand_only(&mut state, mailbox);
        }
        if !state.handed.contains(&mailbox.id) {
            state.open_large(mailbox);
        } else if state.call(self.store(), &records::select(mailbox.id)) != Answer::Done {
            return no("[CANNOT] not selectable");
        }
        let changes = ['w', 's', 't', 'e', 'i'];
        state.read_only = examine || !mailbox.rights(&self.user).contains(changes);
        let (read_only, exists) = (state.read_only, state.view().len());
        drop(state);
        let mut told = opened(mailbox, exists, read_only).into_bytes();
        if self.state().is_resynced() {
            told.extend(adapt::selected(mailbox, known));
        }
        self.out.extend(told);
        Ok(End::Ok(match read_only {
            true => "[READ-ONLY] done".into(),
            false => "[READ-WRITE] done".into(),
        }))
    }

    fn parameter(&self, reader: &mut Reader) -> Read<Option<Known>> {
        let mut state = self.state();
        let known = match &state.adapted {
            Some(_) => adapt::select_parameter(reader)?,
            None => condstore::select_parameter(reader).map(|()| None)?,
        };
        state.condstore = true;
        Ok(known)
    }

    /// What the old mailbox still owes goes with it, whether the new one can be had or not.
    fn leave(&mut self) {
        let mut state = self.state();
        let was_open = state.selected() != 0;
        self.store().leave(&mut state);
        let says = state.condstore;
        drop(state);
        if was_open && says {
            self.line("* OK [CLOSED] old mailbox");
        }
    }

    pub(super) fn unselect(&mut self) -> Read<End> {
        self.selected()?;
        self.store().leave(&mut self.state());
        done()
    }

    /// The client hears of none of the expunges: it has left before they are made.
    pub(super) fn close(&mut self) -> Read<End> {
        let mailbox = self.selected()?;
        let id = mailbox.id;
        let expunges = mailbox.may(&self.user, 'e') && !self.state().read_only;
        self.store().leave(&mut self.state());
        if expunges {
            self.expunge_deleted(id, None)?;
        }
        done()
    }
}

fn opened(mailbox: &Mailbox, exists: usize, read_only: bool) -> String {
    let flags = flags::NAMES.join(" ");
    let permanent = if read_only { "" } else { &flags };
    let mut text = format!(
        "* FLAGS ({flags})\r\n\
         * OK [PERMANENTFLAGS ({permanent})] kept\r\n\
         * {exists} EXISTS\r\n\
         * 0 RECENT\r\n\
         * OK [UIDVALIDITY {}] ok\r\n\
         * OK [UIDNEXT {}] ok\r\n\
         * OK [HIGHESTMODSEQ {}] ok\r\n",
        mailbox.uid_validity, mailbox.uid_next, mailbox.counter
    );
    let unseen = mailbox.messages.iter().position(|m| m.flags & SEEN == 0);
    if let Some(place) = unseen {
        text += &format!("* OK [UNSEEN {}] ok\r\n", place + 1);
    }
    text
}
