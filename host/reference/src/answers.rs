//! `CM`: the answer is chosen first, whatever the queue holds; then it fits or the call is refused.

use crate::command::keys::{Key, Keys, Part};
use crate::command::notify::Notify;
use crate::command::search::Search;
use crate::command::{self, Command, Verdict};
use crate::lines::{self, Out};
use crate::matching::{admits, by_name, concerns, watches_messages};
use crate::memory::*;
use crate::selected::{by_uid, settle, write_owed, Owed};

const BAD: &str = "BAD refused";
const BAD_EVENT: &str = "NO [BADEVENT (MessageNew MessageExpunge FlagChange MailboxName \
                         SubscriptionChange)] unsupported";
const UNSUPPORTED: &str = "NO unsupported";
const BAD_CHARSET: &str = "NO [BADCHARSET (US-ASCII UTF-8)] charset";

/// Answers a line: 0, or 8 where the answer has no room.
pub fn command(memory: &mut Memory, line: &[u8]) -> u8 {
    let mut out = Out::new();
    let Some((tag, rest)) = command::split(line) else {
        lines::tagged(&mut out, b"*", BAD);
        return send(memory, &out);
    };
    let command = command::read(rest);
    let selected = memory.session.selected != 0;
    let verdict = command
        .as_ref()
        .map_or(Verdict::Bad, |command| command.verdict(selected));
    let (too_large, ok) = match command {
        Some(Command::Search(_)) => ("NO [LIMIT] too large", "OK ESEARCH done"),
        _ => ("NO [NOTIFICATIONOVERFLOW] too large", "OK NOTIFY done"),
    };
    let text = match verdict {
        Verdict::Bad => BAD,
        Verdict::BadEvent => BAD_EVENT,
        Verdict::Unsupported => UNSUPPORTED,
        Verdict::BadCharset => BAD_CHARSET,
        Verdict::TooLarge => too_large,
        Verdict::Ok => ok,
    };
    if verdict != Verdict::Ok {
        lines::tagged(&mut out, tag, text);
        return send(memory, &out);
    }
    let mut owed = Owed::default();
    match &command {
        Some(Command::NotifySet(notify)) => owed = first_lines(memory, notify, &mut out),
        Some(Command::Search(search)) => results(memory, search, tag, &mut out),
        _ => {}
    }
    lines::tagged(&mut out, tag, ok);
    if out.len() > memory.queue.len() - RESERVE {
        out.clear();
        lines::tagged(&mut out, tag, too_large);
        return send(memory, &out);
    }
    let refusal = send(memory, &out);
    if refusal == 0 {
        match command {
            Some(Command::NotifyNone) => memory.session.silence(),
            Some(Command::NotifySet(notify)) => {
                settle(memory, &owed);
                memory.session.mode = SET;
                memory.session.groups = notify.filters.groups;
            }
            _ => {}
        }
    }
    refusal
}

fn send(memory: &mut Memory, octets: &[u8]) -> u8 {
    if octets.len() > memory.room() {
        return 8;
    }
    memory.append(octets);
    0
}

/// What NOTIFY SET writes before its answer: all that waits, then what the new groups meet.
fn first_lines(memory: &Memory, notify: &Notify, out: &mut Out) -> Owed {
    let owed = write_owed(memory, 1, usize::MAX, out);
    let groups = &notify.filters.groups;
    let selected = memory.session.selected;
    let listed = |row: &Mailbox| row.has(LOOKUP) && concerns(groups, row, selected);
    for place in by_name(memory, listed) {
        let row = &memory.rows()[place];
        if !row.has(READ) {
            lines::list(out, "\\NoAccess", &row.name);
        } else if notify.status && row.id != selected && watches_messages(groups, row) {
            let messages = memory.count_in(row.id);
            let (next, validity) = (row.uid_next, row.uid_validity);
            lines::status_first(out, &row.name, messages, next, validity, row.counter);
        }
    }
    owed
}

/// One line for each mailbox that a source admits and that holds a match.
fn results(memory: &Memory, search: &Search, tag: &[u8], out: &mut Out) {
    let selected = memory.session.selected;
    let sources = &search.sources.groups;
    let mut uids = Vec::new();
    for place in by_name(memory, |row| admits(sources, row, selected)) {
        let row = &memory.rows()[place];
        uids.clear();
        matches(memory, row, &search.keys, &mut uids);
        lines::search(out, tag, &row.name, row.uid_validity, search.wanted, &uids);
    }
}

/// UIDs of a mailbox's matches. The selected one is searched as its client knows it: numbers are
/// places in the view, where expunged messages keep theirs without matching.
fn matches(memory: &Memory, row: &Mailbox, keys: &Keys, uids: &mut Vec<u32>) {
    let entries = memory.entries();
    let mut places = by_uid(memory, row.id);
    if row.id == memory.session.selected {
        let told = memory.session.told;
        places.retain(|&place| entries[place as usize].uid < told);
    }
    let Some(&last) = places.last() else {
        return;
    };
    let mailbox = Searched {
        keys,
        last_number: places.len() as u32,
        last_uid: entries[last as usize].uid,
    };
    for (number, &place) in (1..).zip(&places) {
        let message = &entries[place as usize];
        if !message.is_expunged() && mailbox.all_hold(0, keys.nodes.len(), number, message) {
            uids.push(message.uid);
        }
    }
}

/// Keys against one mailbox, for which `*` has a meaning.
struct Searched<'a> {
    keys: &'a Keys,
    last_number: u32,
    last_uid: u32,
}

impl Searched<'_> {
    /// Do all keys of a row hold, up to the first that doesn't?
    fn all_hold(&self, mut at: usize, end: usize, number: u32, message: &Message) -> bool {
        while at < end {
            if !self.holds(at, number, message) {
                return false;
            }
            at = self.keys.nodes[at].end;
        }
        true
    }

    fn holds(&self, at: usize, number: u32, message: &Message) -> bool {
        let node = &self.keys.nodes[at];
        match node.key {
            Key::All => true,
            Key::Flag(bit, set) => (message.flags & bit != 0) == set,
            Key::Larger(size) => message.size > size,
            Key::Smaller(size) => message.size < size,
            Key::Uids(first, end) => {
                within(&self.keys.parts[first..end], self.last_uid, message.uid)
            }
            Key::Numbers(first, end) => {
                within(&self.keys.parts[first..end], self.last_number, number)
            }
            Key::Not => !self.holds(at + 1, number, message),
            Key::Or => {
                let second = self.keys.nodes[at + 1].end;
                self.holds(at + 1, number, message) || self.holds(second, number, message)
            }
            Key::List => self.all_hold(at + 1, node.end, number, message),
            Key::Foreign => false,
        }
    }
}

/// Is the value in a part of the set? A part's ends may stand in either order.
fn within(parts: &[Part], last: u32, value: u32) -> bool {
    let meant = |end: u32| if end == 0 { last } else { end };
    parts.iter().any(|&(from, to)| {
        let (from, to) = (meant(from), meant(to));
        (from.min(to)..=from.max(to)).contains(&value)
    })
}
