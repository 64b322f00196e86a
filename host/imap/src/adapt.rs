//! OUTSIDE THE PROMISES, and off unless `--adapt` is given: lines in another form than the library writes, for clients that
//! must have it. A client's NOTIFY may ask for any fetch attribute, and EXPUNGE becomes VANISHED, with what else QRESYNC
//! (RFC 7162) asks of a server. Nothing that was proved speaks of lines that went through here.

use crate::fetch::{self, Item};
use crate::parse::{bad, is_within, joined, Read, Reader, Set};
use crate::push::{Answer, Push};
use crate::session::State;
use crate::store::{Mailbox, Message, Store};
use std::collections::VecDeque;

pub const CAPABILITY: &str = " QRESYNC";

#[derive(Default)]
pub struct Adapted {
    /// The client wants VANISHED.
    pub qresync: bool,
    /// What NOTIFY asked for beyond the three attributes that the library writes.
    more: Vec<Item>,
    /// Each line of the queue: its octets there, and what is written for it.
    lines: VecDeque<(usize, Vec<u8>)>,
    followed: Followed,
}

/// What a client of QRESYNC knows of the selected mailbox. A counter tells it that it knows of all changes up to there: one that
/// is told too early loses changes for it.
#[derive(Default)]
struct Followed {
    mailbox: u16,
    /// The mailbox's counter at the last record.
    counter: u64,
    /// There was a change that it is never told of.
    lost: bool,
    /// VANISHED was written, and no counter behind it yet.
    vanished: bool,
}

impl Followed {
    /// Flags that nobody asked for are lost, and so is what changes while a right is missing.
    fn follow(&mut self, mailbox: &Mailbox, user: &str, drops_flags: bool) {
        if self.mailbox != mailbox.id {
            *self = Followed {
                mailbox: mailbox.id,
                counter: mailbox.counter,
                ..Followed::default()
            };
        }
        let changed = mailbox.counter > self.counter;
        self.counter = mailbox.counter;
        self.lost |= (changed && drops_flags) || !mailbox.is_open(user);
    }

    /// Whether a counter is due: nothing waits for a command's end.
    fn is_due(&self, push: &Push, mailbox: &Mailbox) -> bool {
        let uids = mailbox.messages.iter().map(|m| m.uid);
        self.vanished && !self.lost && push.view().into_iter().eq(uids)
    }
}

impl Adapted {
    /// One record; what it puts into the queue is rewritten at once, while the store is as the line says.
    pub fn call(&mut self, push: &mut Push, store: &Store, user: &str, record: &[u8]) -> Answer {
        let (view, before) = (push.view(), push.queue().len());
        let answer = push.call(record);
        let (wrote, flags) = self.rewrite(push, store, view, before);
        let Some(mailbox) = store.mailboxes.get(&push.selected()) else {
            self.followed = Followed::default();
            return answer;
        };
        let drops_flags = record.starts_with(b"FL") && push.notified() && !flags;
        self.followed.follow(mailbox, user, drops_flags);
        // before the first NOTIFY only a command's end tells all
        let ended = record.starts_with(b"CE") && answer.count() == Some(0);
        if wrote && (push.notified() || ended) && self.followed.is_due(push, mailbox) {
            self.tell_counter(mailbox);
        }
        answer
    }

    /// The queue's lines from there on, by the view before them. Answers whether there are any, and one of changed flags.
    fn rewrite(
        &mut self,
        push: &Push,
        store: &Store,
        mut view: Vec<u32>,
        before: usize,
    ) -> (bool, bool) {
        let new = &push.queue()[before..];
        let (mut announced, mut flags) = (false, false);
        for line in new.split_inclusive(|&octet| octet == b'\n') {
            let text = String::from_utf8_lossy(line);
            let words: Vec<&str> = text.trim_end().splitn(4, ' ').collect();
            let number = words.get(1).and_then(|word| word.parse::<usize>().ok());
            let written = match (number, words.get(2).copied()) {
                (Some(number), Some("EXPUNGE")) if number <= view.len() => {
                    let uid = view.remove(number - 1);
                    self.followed.vanished = self.qresync;
                    self.qresync.then(|| format!("* VANISHED {uid}\r\n").into())
                }
                (Some(_), Some("EXISTS")) => {
                    view = push.view();
                    announced = true;
                    None
                }
                (Some(number), Some("FETCH")) if announced && number <= view.len() => {
                    let mailbox = store.mailboxes.get(&push.selected());
                    mailbox.and_then(|m| self.fetch_line(line, m, view[number - 1]))
                }
                (Some(_), Some("FETCH")) => {
                    flags = true;
                    None
                }
                _ => None,
            };
            let written = written.unwrap_or_else(|| line.to_vec());
            self.lines.push_back((line.len(), written));
        }
        (!new.is_empty(), flags)
    }

    /// Behind the last line, which is new: an older one may be with the writer.
    fn tell_counter(&mut self, mailbox: &Mailbox) {
        if let Some((_, last)) = self.lines.back_mut() {
            last.extend(fetch::highest(mailbox.counter).bytes());
            self.followed.vanished = false;
        }
    }

    fn fetch_line(&self, line: &[u8], mailbox: &Mailbox, uid: u32) -> Option<Vec<u8>> {
        let message = mailbox.message(uid)?;
        let mut written = line.strip_suffix(b")\r\n")?.to_vec();
        for item in &self.more {
            written.push(b' ');
            fetch::write(&mut written, item, message);
        }
        written.extend(b")\r\n");
        Some(written)
    }

    /// What is written for a stretch of the queue, which is whole lines.
    pub fn written(&self, from: usize, count: usize) -> Vec<u8> {
        let mut at = 0;
        let mut written = Vec::new();
        for (len, line) in &self.lines {
            if (from..from + count).contains(&at) {
                written.extend(line);
            }
            at += len;
        }
        written
    }

    pub fn drained(&mut self, count: usize) {
        let mut left = count;
        while let Some((len, _)) = self.lines.front().filter(|_| left > 0) {
            left -= len;
            self.lines.pop_front();
        }
    }

    /// A NOTIFY was accepted, or not: what the host adds to the FETCH lines of new messages.
    pub fn asked(&mut self, push: &Push, tag: &str, more: Vec<Item>) {
        let accepted = format!("{tag} OK ");
        let queue = push.queue();
        let last = queue.split_inclusive(|&octet| octet == b'\n').next_back();
        if last.is_some_and(|line| line.starts_with(accepted.as_bytes())) {
            self.more = more;
        }
    }
}

impl State {
    /// Whether the client wants VANISHED.
    pub fn is_resynced(&self) -> bool {
        self.adapted.as_ref().is_some_and(|a| a.qresync)
    }

    /// The counter up to which such a client knows of all changes when its command has ended.
    pub fn highest(&self, store: &Store) -> Option<u64> {
        let mailbox = store.mailboxes.get(&self.selected())?;
        let knows = match &self.large {
            Some(large) => !large.lost && mailbox.is_open(&self.user),
            None => !self.has_lost(),
        };
        (self.is_resynced() && knows).then_some(mailbox.counter)
    }

    /// Whether the client is never told of some change in the mailbox that the library has selected.
    pub fn has_lost(&self) -> bool {
        self.adapted.as_ref().is_some_and(|a| a.followed.lost)
    }
}

/// A NOTIFY whose MessageNew asks for more than the library writes: the line for the library, and what the host adds.
pub fn narrowed(line: Vec<u8>) -> (Vec<u8>, Vec<Item>) {
    narrow(&line).unwrap_or((line, Vec::new()))
}

fn narrow(line: &[u8]) -> Option<(Vec<u8>, Vec<Item>)> {
    let key = b"MESSAGENEW (";
    let capitals = line.to_ascii_uppercase();
    let at = capitals.windows(key.len()).position(|w| w == key)? + key.len() - 1;
    let mut reader = Reader { octets: line, at };
    let mut more = reader.list(fetch::item).ok()?.concat();
    let three = [Item::Uid, Item::Flags, Item::Size];
    let names = ["UID", "FLAGS", "RFC822.SIZE"];
    let kept: Vec<&str> = (0..3)
        .filter(|&at| at == 0 || more.contains(&three[at]))
        .map(|at| names[at])
        .collect();
    if more.iter().all(|item| three.contains(item)) {
        return None;
    }
    // the library writes MODSEQ unasked
    more.retain(|item| !three.contains(item) && *item != Item::Modseq);
    let mut narrow = line[..at].to_vec();
    narrow.extend(format!("({})", kept.join(" ")).bytes());
    narrow.extend(reader.rest());
    Some((narrow, more))
}

/// What a client knew when it last had the mailbox selected.
pub struct Known {
    validity: u64,
    counter: u64,
    uids: Set,
}

/// `(CONDSTORE)` or `(QRESYNC (validity modseq [uids [(numbers uids)]]))` behind SELECT.
pub fn select_parameter(reader: &mut Reader) -> Read<Option<Known>> {
    reader.need(b'(')?;
    let known = match reader.word()?.as_str() {
        "CONDSTORE" => None,
        "QRESYNC" => {
            reader.space()?;
            Some(known(reader)?)
        }
        _ => return bad("no such parameter"),
    };
    reader.need(b')')?;
    Ok(known)
}

fn known(reader: &mut Reader) -> Read<Known> {
    reader.need(b'(')?;
    let validity = reader.number()?;
    reader.space()?;
    let counter = reader.number()?;
    let mut uids = vec![(1, u32::MAX)];
    if reader.eat(b' ') && reader.peek() != b'(' {
        uids = reader.set()?;
        reader.eat(b' ');
    }
    if reader.eat(b'(') {
        reader.set()?;
        reader.space()?;
        reader.set()?;
        reader.need(b')')?;
    }
    reader.need(b')')?;
    Ok(Known {
        validity,
        counter,
        uids,
    })
}

/// What SELECT tells such a client.
pub fn selected(mailbox: &Mailbox, known: Option<Known>) -> Vec<u8> {
    let valid = |known: &Known| known.validity == u64::from(mailbox.uid_validity);
    let Some(known) = known.filter(valid) else {
        return Vec::new();
    };
    let mut told = vanished(mailbox, known.counter, &known.uids).into_bytes();
    let changed =
        |m: &Message| m.counter > known.counter && is_within(&known.uids, m.uid, u32::MAX);
    for (number, message) in (1..).zip(&mailbox.messages) {
        if changed(message) {
            told.extend(fetch::line(number, &fetch::CHANGED, message));
        }
    }
    told
}

/// The line for what is gone since then, if anything is.
pub fn vanished(mailbox: &Mailbox, since: u64, uids: &Set) -> String {
    let gone = |&&(uid, when): &&(u32, u64)| when > since && is_within(uids, uid, u32::MAX);
    let mut gone: Vec<u32> = mailbox.expunged.iter().filter(gone).map(|g| g.0).collect();
    gone.sort_unstable();
    match gone.is_empty() {
        true => String::new(),
        false => format!("* VANISHED (EARLIER) {}\r\n", joined(&gone)),
    }
}
