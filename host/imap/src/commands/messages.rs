//! FETCH, STORE and EXPUNGE. Numbers are places in the client's view, which the library keeps; a command over many messages
//! goes through them a few at a time, by UID.

use super::{done, no, End, Run};
use crate::adapt;
use crate::condstore;
use crate::fetch::{self, Item};
use crate::flags::{self, DELETED, SEEN};
use crate::parse::{bad, is_within, joined, Read, Reader, Set};
use crate::store::Mailbox;

/// Octets of the queue for each message that a command goes through before it waits: no line is longer than this.
const LINE: usize = 256;
/// Octets of its own that a command puts together before it waits.
const MOST: usize = 1 << 20;

/// What a FETCH asks for.
struct Asked {
    items: Vec<Item>,
    /// Only messages that changed since then.
    since: u64,
    sets_seen: bool,
}

impl Run<'_> {
    /// How many messages' lines have room in the queue.
    fn few(&self) -> usize {
        self.store().options.queue / LINE
    }

    /// UIDs of the view that a set of numbers or UIDs names.
    pub(super) fn chosen(&self, set: &Set, uid: bool) -> Vec<u32> {
        let view = self.state().view();
        let (last, last_uid) = (view.len() as u32, view.last().copied().unwrap_or(0));
        let is_chosen = |&(number, message): &(u32, u32)| match uid {
            true => is_within(set, message, last_uid),
            false => is_within(set, number, last),
        };
        (1..)
            .zip(view)
            .filter(is_chosen)
            .map(|(_, uid)| uid)
            .collect()
    }

    /// Does something with each message that is still there to be read, a few at a time. It is given the mailbox, and the
    /// message's number and UID.
    pub(super) fn with_each(
        &mut self,
        uids: &[u32],
        mut act: impl FnMut(&mut Self, u16, usize, u32) -> Read<()>,
    ) -> Read<()> {
        let id = self.selected()?.id;
        let (mut view, mut left) = (self.state().view(), self.few());
        for &uid in uids {
            if left == 0 || self.out.len() > MOST {
                self.pause()?;
                (view, left) = (self.state().view(), self.few());
            }
            left -= 1;
            let there = |mailbox: &Mailbox| mailbox.id == id && mailbox.has(uid, &self.user);
            let there = self.selected().is_ok_and(there);
            if let (true, Ok(place)) = (there, view.binary_search(&uid)) {
                act(self, id, place + 1, uid)?;
            }
        }
        Ok(())
    }

    /// A right on the selected mailbox: it may have gone since.
    fn needs(&self, rights: &[char]) -> Read<()> {
        match self.selected()?.rights(&self.user).contains(rights) {
            true => Ok(()),
            false => no("[NOPERM] denied"),
        }
    }

    fn needs_to_change(&self, rights: &[char]) -> Read<()> {
        self.needs(rights)?;
        match self.state().read_only {
            true => no("[NOPERM] read-only"),
            false => Ok(()),
        }
    }

    pub(super) fn fetch(&mut self, reader: &mut Reader, uid: bool) -> Read<End> {
        reader.space()?;
        let set = reader.set()?;
        reader.space()?;
        let mut items = fetch::items(reader)?;
        let adapts = self.store().options.adapt;
        let (mut since, mut vanished) = (None, false);
        if reader.eat(b' ') {
            since = condstore::changed_since(reader, |word| {
                vanished = adapts && word == "VANISHED";
                vanished
            })?;
        }
        reader.end()?;
        self.needs(&['r'])?;
        if uid && !items.contains(&Item::Uid) {
            items.insert(0, Item::Uid);
        }
        self.show_counters(&mut items, since.is_some());
        let since = since.unwrap_or(0);
        if vanished {
            let text = adapt::vanished(self.selected()?, since, &set);
            self.out.extend(text.bytes());
        }
        let sets_seen = items.iter().any(Item::sets_seen) && self.needs_to_change(&['s']).is_ok();
        let asked = Asked {
            items,
            since,
            sets_seen,
        };
        self.with_each(&self.chosen(&set, uid), |run, id, number, uid| {
            run.fetch_one(id, number, uid, &asked);
            Ok(())
        })?;
        done()
    }

    /// MODSEQ where it goes without saying. Who asks for it, or for what changed, is a client of CONDSTORE.
    fn show_counters(&self, items: &mut Vec<Item>, changed: bool) {
        let mut state = self.state();
        let always = state.is_resynced();
        let asked = items.contains(&Item::Modseq);
        state.condstore |= asked || changed;
        if (always || changed) && !asked {
            items.push(Item::Modseq);
        }
    }

    fn fetch_one(&mut self, id: u16, number: usize, uid: u32, asked: &Asked) {
        let found = self.store().mailboxes[&id].message(uid);
        let Some(message) = found.filter(|message| message.counter > asked.since) else {
            return;
        };
        let flags = message.flags;
        if asked.sets_seen && flags & SEEN == 0 {
            self.store_mut().set_flags(id, uid, flags | SEEN);
        }
        if let Some(message) = self.store().mailboxes[&id].message(uid) {
            let line = fetch::line(number, &asked.items, message);
            self.out.extend(line);
        }
    }

    pub(super) fn store_flags(&mut self, reader: &mut Reader, uid: bool) -> Read<End> {
        reader.space()?;
        let set = reader.set()?;
        reader.space()?;
        let unchanged_since = condstore::unchanged_since(reader)?;
        let (how, silent, given) = flag_change(reader)?;
        self.needs_to_change(&['w', 's', 't'])?;
        self.state().condstore |= unchanged_since.is_some();
        let mut failed = Vec::new();
        self.with_each(&self.chosen(&set, uid), |run, id, number, message| {
            let Some(found) = run.store().mailboxes[&id].message(message) else {
                return Ok(());
            };
            if unchanged_since.is_some_and(|since| found.counter > since) {
                failed.push(if uid { message } else { number as u32 });
                return Ok(());
            }
            let flags = match how {
                b'+' => found.flags | given,
                b'-' => found.flags & !given,
                _ => given,
            };
            run.store_one(id, number, message, flags, silent);
            Ok(())
        })?;
        match failed.is_empty() {
            true => done(),
            false => Ok(End::Ok(format!("[MODIFIED {}] not all", joined(&failed)))),
        }
    }

    /// Where the library tells the change to this client too, the host's own FETCH is left out.
    fn store_one(&mut self, id: u16, number: usize, uid: u32, flags: u8, silent: bool) {
        let before = self.state().push.told();
        let changed = self.store_mut().set_flags(id, uid, flags);
        let mailbox = &self.store().mailboxes[&id];
        let state = self.state();
        let waits = state.large.is_some() || !state.push.notified();
        let waits = waits && mailbox.is_open(&self.user);
        let told = changed && waits || state.push.told() > before;
        let wanted = !silent || state.condstore;
        drop(state);
        if told || !wanted {
            return;
        }
        if let Some(message) = mailbox.message(uid) {
            let line = fetch::line(number, &fetch::CHANGED, message);
            self.out.extend(line);
        }
    }

    pub(super) fn expunge(&mut self, uids: Option<Set>) -> Read<End> {
        let id = self.selected()?.id;
        self.needs_to_change(&['e'])?;
        let any = self.expunge_deleted(id, uids)?;
        let counter = self.state().highest(self.store()).filter(|_| any);
        match counter {
            Some(counter) => Ok(End::Ok(format!("[HIGHESTMODSEQ {counter}] done"))),
            None => done(),
        }
    }

    /// All that has \Deleted, or those among the UIDs. Answers whether there were any.
    pub(super) fn expunge_deleted(&mut self, id: u16, uids: Option<Set>) -> Read<bool> {
        let last = self.state().view().last().copied().unwrap_or(0);
        let messages = self.store().mailboxes[&id].messages.iter();
        let gone: Vec<u32> = (messages.filter(|m| m.flags & DELETED != 0))
            .map(|m| m.uid)
            .filter(|&uid| uids.as_ref().is_none_or(|set| is_within(set, uid, last)))
            .collect();
        for few in gone.chunks(self.few()) {
            for &uid in few {
                self.store_mut().expunge(id, uid);
            }
            self.pause()?;
            let mailbox = self.store().mailboxes.get(&id);
            if !mailbox.is_some_and(|m| m.may(&self.user, 'e')) {
                break;
            }
        }
        Ok(!gone.is_empty())
    }
}

/// `[+-]FLAGS[.SILENT] flags`: the sign, whether it is silent, and the flags.
fn flag_change(reader: &mut Reader) -> Read<(u8, bool, u8)> {
    let word = reader.word()?;
    let (word, silent) = match word.strip_suffix(".SILENT") {
        Some(word) => (word, true),
        None => (&word[..], false),
    };
    let sign = match word {
        "FLAGS" => b'=',
        "+FLAGS" => b'+',
        "-FLAGS" => b'-',
        _ => return bad("no such change of flags"),
    };
    reader.space()?;
    let mut names = Vec::new();
    if reader.peek() == b'(' {
        names = reader.list(|reader| reader.flag())?;
    } else {
        names.push(reader.flag()?);
        while reader.eat(b' ') {
            names.push(reader.flag()?);
        }
    }
    reader.end()?;
    Ok((sign, silent, flags::bits(&names)))
}
