//! Mailboxes, messages and rights, all under one lock. What changes them stands in `changes`.

use crate::options::Options;
use crate::push::records;
use crate::session::Session;
use std::collections::hash_map::DefaultHasher;
use std::collections::{BTreeMap, BTreeSet, HashMap};
use std::hash::{Hash, Hasher};
use std::sync::Arc;
use std::time::{Duration, UNIX_EPOCH};

pub const USERS: [&str; 3] = ["alice", "bob", "carol"];
pub const PASSWORD: &str = "pw";
/// What is given to this one every user has.
pub const ANYONE: &str = "anyone";
/// Who makes the mailboxes beneath `Shared/`.
pub const ADMINISTRATOR: &str = "alice";
pub const ALL_RIGHTS: &str = "lrswipkxtea";

/// A name's part of its UIDVALIDITY is below this.
const NAMES_PART: u32 = 1 << 28;
/// From 1970 to 2026.
const EPOCH: Duration = Duration::from_secs(1_767_225_600);

pub struct Message {
    pub uid: u32,
    pub flags: u8,
    /// Of its arrival or its last change.
    pub counter: u64,
    pub date: String,
    pub octets: Arc<[u8]>,
}

pub struct Mailbox {
    pub id: u16,
    pub name: String,
    /// None where it is shared, and ruled by `rights`.
    pub owner: Option<String>,
    pub rights: BTreeMap<String, String>,
    /// Mail for the owner comes here. It stays so when INBOX is renamed: no record takes the bit away.
    pub delivery: bool,
    pub uid_validity: u32,
    pub uid_next: u32,
    /// The highest change counter so far. Each change of each message has one of its own, also where a command makes many.
    pub counter: u64,
    pub messages: Vec<Message>,
    /// UIDs that are gone, and when; kept for `adapt` alone.
    pub expunged: Vec<(u32, u64)>,
    pub subscribers: BTreeSet<String>,
}

impl Mailbox {
    /// What a shared one's list says of the user.
    pub fn given(&self, user: &str) -> &str {
        self.rights.get(user).map_or("", |rights| rights)
    }

    pub fn may(&self, user: &str, right: char) -> bool {
        match &self.owner {
            Some(owner) => owner == user,
            None => self.given(user).contains(right) || self.given(ANYONE).contains(right),
        }
    }

    pub fn rights(&self, user: &str) -> String {
        let has = |&right: &char| self.may(user, right);
        ALL_RIGHTS.chars().filter(has).collect()
    }

    /// The two rights that the library knows.
    pub fn bits(&self, user: &str) -> u8 {
        let bit = |right, bit| if self.may(user, right) { bit } else { 0 };
        bit('l', records::LOOKUP) | bit('r', records::READ)
    }

    /// Whether there is such a mailbox, as far as the user can know.
    pub fn is_visible(&self, user: &str) -> bool {
        self.bits(user) != 0
    }

    /// Whether the user hears of what happens there.
    pub fn is_open(&self, user: &str) -> bool {
        self.bits(user) == records::LOOKUP | records::READ
    }

    pub fn attributes(&self, user: &str) -> u8 {
        let own = self.owner.as_deref() == Some(user);
        let bit = |on, bit| if on { bit } else { 0 };
        records::SELECTABLE
            | bit(own, records::PERSONAL)
            | bit(own && self.delivery, records::DELIVERY)
            | bit(self.subscribers.contains(user), records::SUBSCRIBED)
            | self.bits(user)
    }

    pub fn message(&self, uid: u32) -> Option<&Message> {
        self.place(uid).map(|place| &self.messages[place])
    }

    /// Whether there is such a message for the user.
    pub fn has(&self, uid: u32, user: &str) -> bool {
        self.may(user, 'r') && self.place(uid).is_some()
    }

    pub fn place(&self, uid: u32) -> Option<usize> {
        self.messages.binary_search_by_key(&uid, |m| m.uid).ok()
    }

    /// The counter of the next change, which is made now. None at the end of the range: nothing can change any more.
    pub fn count(&mut self) -> Option<u64> {
        let next = self.counter + 1;
        self.counter = Some(next).filter(|&next| next <= records::COUNTER_MOST)?;
        Some(next)
    }

    /// A UID that is gone, where what is left doesn't show all: UIDNEXT is above the messages', or an expunge came last.
    pub fn gone(&self) -> Option<u32> {
        let last = self.uid_next - 1;
        let is_gone = |&uid: &u32| self.place(uid).is_none();
        let expunged_last = self.messages.iter().all(|m| m.counter < self.counter);
        let least = if expunged_last { 1 } else { last.max(1) };
        (least..=last).rev().find(is_gone)
    }

    /// Whether the name is one of the user's names: their own, or a shared one.
    fn is_named_for(&self, user: &str) -> bool {
        self.owner.as_deref().is_none_or(|owner| owner == user)
    }
}

pub struct Store {
    pub mailboxes: BTreeMap<u16, Mailbox>,
    pub sessions: Vec<Arc<Session>>,
    pub options: Options,
    last_id: u16,
    /// When the server started, by `start`.
    start: u32,
    /// The last UIDVALIDITY of each name. One counter for all would tell everybody of mailboxes that they may not see.
    validities: HashMap<(Option<String>, String), u32>,
}

impl Store {
    pub fn new(options: Options) -> Store {
        Store {
            mailboxes: BTreeMap::new(),
            sessions: Vec::new(),
            options,
            last_id: 0,
            start: start(),
            validities: HashMap::new(),
        }
    }

    /// The mailbox that has the name for this user, whether visible or not.
    pub fn named(&self, user: &str, name: &str) -> Option<&Mailbox> {
        self.mailboxes
            .values()
            .find(|mailbox| mailbox.name == name && mailbox.is_named_for(user))
    }

    /// All that the user may know of.
    pub fn visible<'a>(&'a self, user: &'a str) -> impl Iterator<Item = &'a Mailbox> {
        self.mailboxes
            .values()
            .filter(move |mailbox| mailbox.is_visible(user))
    }

    /// An id that no mailbox has. None when there are as many as a record can name.
    pub fn free_id(&mut self) -> Option<u16> {
        if self.mailboxes.len() >= usize::from(u16::MAX) {
            return None;
        }
        loop {
            self.last_id = self.last_id.wrapping_add(1);
            if self.last_id != 0 && !self.mailboxes.contains_key(&self.last_id) {
                return Some(self.last_id);
            }
        }
    }

    /// The UIDVALIDITY of a new mailbox: drawn from its name and the server's start at first, then one above the name's
    /// last. The name's part keeps it from that of another mailbox which is renamed to it.
    pub fn new_validity(&mut self, owner: &Option<String>, name: &str) -> u32 {
        let key = (owner.clone(), name.to_string());
        let mut hasher = DefaultHasher::new();
        key.hash(&mut hasher);
        let first = hasher.finish() as u32 % NAMES_PART + self.start + 1;
        let validity = self.validities.get(&key).map_or(first, |last| last + 1);
        self.validities.insert(key, validity);
        validity
    }

    /// A renamed mailbox brings its UIDVALIDITY along: the next of that name must be above it.
    pub fn keep_validity(&mut self, owner: &Option<String>, name: &str, validity: u32) {
        let key = (owner.clone(), name.to_string());
        let last = self.validities.entry(key).or_insert(validity);
        *last = validity.max(*last);
    }
}

/// The server's start in eighths of a second from 2026 on: after a restart nothing is kept, and a name's first UIDVALIDITY must
/// be above those it was given before. They last until 2040. IMAP_START gives the number instead, for runs that must agree.
fn start() -> u32 {
    let given = std::env::var("IMAP_START").ok();
    let eighths = given.and_then(|text| text.parse().ok()).unwrap_or_else(|| {
        let since = (UNIX_EPOCH + EPOCH).elapsed();
        since.unwrap_or_default().as_millis() / 125
    });
    // the name's part, and as many uses of a name, have room above it
    (eighths % u128::from(u32::MAX - 2 * NAMES_PART)) as u32
}
