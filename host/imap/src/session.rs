//! One connection's state: the library's memory, what is on its way, and who the user is. It is locked inside the store's
//! lock or without it, and the store is never locked inside it.

use crate::adapt::Adapted;
use crate::large::Large;
use crate::options::Options;
use crate::outgoing::{Batch, Outgoing, Part};
use crate::push::{records, Answer, Class, Push, Refusal};
use crate::recording::Recording;
use crate::store::Store;
use crate::transcript::Transcript;
use std::collections::HashSet;
use std::sync::{Condvar, Mutex, MutexGuard};
use std::time::Duration;

/// How many octets of answers may wait for the writer when the next command is read.
const BEHIND: u64 = 1 << 16;

pub struct Session {
    pub number: u64,
    state: Mutex<State>,
    changed: Condvar,
    pub transcript: Transcript,
}

pub struct State {
    pub push: Push,
    /// Empty before login.
    pub user: String,
    /// The mailboxes that the library has.
    pub handed: HashSet<u16>,
    /// The selected mailbox, where it is too large for the library.
    pub large: Option<Large>,
    pub read_only: bool,
    /// The account is larger than the tables: no NOTIFY and no ESEARCH on this connection.
    pub outgrown: bool,
    /// NOTIFY is to be ended as soon as the queue has room for the answer.
    ending: bool,
    idle: bool,
    /// In IDLE: lines that found no room in the queue.
    owed: u64,
    outgoing: Outgoing,
    /// What is on its way goes out, and nothing after it.
    pub closing: bool,
    /// The socket is gone.
    pub dead: bool,
    /// The client asked for counters, so it hears of one even where it wants no flags.
    pub condstore: bool,
    pub adapted: Option<Adapted>,
}

impl Session {
    pub fn new(number: u64, options: &Options) -> Session {
        let recording = Recording::new(options.record.as_deref(), number);
        let state = State {
            push: Push::new(options.queue, recording),
            user: String::new(),
            handed: HashSet::new(),
            large: None,
            read_only: false,
            outgrown: false,
            ending: false,
            idle: false,
            owed: 0,
            outgoing: Outgoing::default(),
            closing: false,
            dead: false,
            condstore: false,
            adapted: options.adapt.then(Adapted::default),
        };
        Session {
            number,
            state: Mutex::new(state),
            changed: Condvar::new(),
            transcript: Transcript::new(options.log.as_deref(), number),
        }
    }

    pub fn lock(&self) -> MutexGuard<'_, State> {
        self.state.lock().unwrap()
    }

    pub fn wake(&self) {
        self.changed.notify_all();
    }

    pub fn wait<'a>(&self, state: MutexGuard<'a, State>) -> MutexGuard<'a, State> {
        self.changed.wait(state).unwrap()
    }

    /// As `wait`, but not longer than so.
    pub fn wait_for<'a>(
        &self,
        state: MutexGuard<'a, State>,
        time: Duration,
    ) -> MutexGuard<'a, State> {
        self.changed.wait_timeout(state, time).unwrap().0
    }

    /// A line of the host's own.
    pub fn say(&self, line: &str) {
        self.lock().own(format!("{line}\r\n").into_bytes());
        self.wake();
    }

    /// Waits until all that is on its way by now was written, and says whether it was. Never called with the store locked: a
    /// client that doesn't read makes its own commands wait and nobody else's.
    pub fn all_written(&self) -> bool {
        let mut state = self.lock();
        let until = state.place();
        self.wake();
        while !state.dead && !state.outgoing.is_done(until) {
            state = self.wait(state);
        }
        !state.dead
    }

    /// Waits while much of earlier answers waits for the writer: what a client doesn't read makes its own commands wait.
    pub fn caught_up(&self) -> bool {
        let mut state = self.lock();
        while !state.dead && state.is_behind() {
            state = self.wait(state);
        }
        !state.dead
    }

    /// The end of a command: what its class may hear, however often that fills the queue, and only then the last line.
    pub fn end(&self, store: &Mutex<Store>, class: Class, last: &str) -> bool {
        loop {
            let all = store.lock().unwrap();
            let mut state = self.lock();
            if state.owes(&all, class) == 0 {
                state.own(format!("{last}\r\n").into_bytes());
                drop(state);
                self.wake();
                return true;
            }
            drop(state);
            drop(all);
            if !self.all_written() {
                return false;
            }
        }
    }
}

impl State {
    /// One record.
    pub fn call(&mut self, store: &Store, record: &[u8]) -> Answer {
        match &mut self.adapted {
            None => self.push.call(record),
            Some(adapted) => adapted.call(&mut self.push, store, &self.user, record),
        }
    }

    /// A change of the store. In IDLE what waits may go at once. A refusal is dealt with here, so its answer may be dropped.
    pub fn feed(&mut self, store: &Store, record: &[u8]) -> Answer {
        let answer = self.call(store, record);
        match answer {
            Answer::Refused(Refusal::TableFull) => self.outgrow(store),
            Answer::Refused(why) => self.apart(why, record),
            _ => {}
        }
        self.idle_turn(store);
        answer
    }

    /// The selected mailbox, 0 for none.
    pub fn selected(&self) -> u16 {
        let large = self.large.as_ref().map(|large| large.id);
        large.unwrap_or_else(|| self.push.selected())
    }

    /// UIDs of the client's view: message n is at n - 1.
    pub fn view(&self) -> Vec<u32> {
        let large = self.large.as_ref().map(Large::view);
        large.unwrap_or_else(|| self.push.view())
    }

    pub fn deselect(&mut self, store: &Store) {
        if self.large.take().is_none() {
            let _ = self.call(store, &records::select(0));
        }
    }

    /// `CE`: what the class may hear now. Answers how many lines found no room.
    pub fn owes(&mut self, store: &Store, class: Class) -> u64 {
        if self.large.is_some() {
            return self.owes_large(store, class);
        }
        self.call(store, &records::command_ended(class))
            .count()
            .unwrap_or(0)
    }

    /// ENABLE of CONDSTORE, or of QRESYNC where there is that, which has the other in it.
    pub fn enable(&mut self, word: &str) -> bool {
        let known = match &mut self.adapted {
            Some(adapted) if word == "QRESYNC" => {
                adapted.qresync = true;
                true
            }
            _ => word == "CONDSTORE",
        };
        self.condstore |= known;
        known
    }

    pub fn set_idle(&mut self, on: bool) {
        self.idle = on;
        self.owed = 0;
    }

    pub fn idle_turn(&mut self, store: &Store) {
        // no queue limits the lines of a large mailbox: they wait where the client doesn't read
        let waits = self.large.is_some() && self.is_behind();
        if self.idle {
            self.owed = if waits {
                1
            } else {
                self.owes(store, Class::Rest)
            };
        }
    }

    /// Lines of the host's own, behind all that the queue holds.
    pub fn own(&mut self, octets: Vec<u8>) {
        self.outgoing.own(self.push.queue().len(), octets);
    }

    /// Whether much of earlier lines waits for the writer.
    pub fn is_behind(&self) -> bool {
        self.outgoing.behind() > BEHIND
    }

    fn place(&mut self) -> u64 {
        self.outgoing.place(self.push.queue().len())
    }

    pub fn bye(&mut self, why: &str) {
        self.own(format!("* BYE {why}\r\n").into_bytes());
        self.close();
    }

    pub fn close(&mut self) {
        self.outgoing.seal();
        self.closing = true;
    }

    /// The tables are full. The library can't tell the client all that it asked for any more, so NOTIFY ends, and the client
    /// is told.
    pub fn outgrow(&mut self, store: &Store) {
        self.outgrown = true;
        if self.push.watches() {
            self.end_notify(store);
        }
    }

    /// Only a command ends NOTIFY; this one is not the client's, so its tagged line is skipped. Without room for that line it
    /// is tried again when the queue was drained.
    fn end_notify(&mut self, store: &Store) {
        self.place();
        let answer = self.call(store, &records::command(b"x NOTIFY NONE"));
        self.ending = answer != Answer::Done;
        if !self.ending {
            self.outgoing.skip(self.push.queue().len());
            self.own(b"* OK [NOTIFICATIONOVERFLOW] account too large\r\n".to_vec());
        }
    }

    /// Store and library have come apart, which is a fault of this host: nothing more is told to this client.
    fn apart(&mut self, why: Refusal, record: &[u8]) {
        let kind = String::from_utf8_lossy(&record[..2]);
        eprintln!("imap: {kind} for {} refused: {why:?}", self.user);
        self.bye("internal fault");
    }

    pub fn is_waiting(&self) -> bool {
        self.outgoing.is_waiting(self.push.queue().len())
    }

    /// What the writer is to write now, and what that is in octets.
    pub fn take(&mut self) -> (Batch, Vec<u8>) {
        let mut batch = self.outgoing.take(self.push.queue().len());
        let mut octets = Vec::new();
        for part in std::mem::take(&mut batch.parts) {
            match part {
                Part::Own(own) => octets.extend(own),
                Part::Queue(from, count) => match &self.adapted {
                    None => octets.extend(&self.push.queue()[from..from + count]),
                    Some(adapted) => octets.extend(adapted.written(from, count)),
                },
            }
        }
        (batch, octets)
    }

    /// It was written: only now the queue is drained of it.
    pub fn finish(&mut self, batch: &Batch) {
        if batch.drains > 0 {
            if let Answer::Refused(why) = self.push.drained(batch.drains) {
                self.apart(why, b"DR");
            }
            if let Some(adapted) = &mut self.adapted {
                adapted.drained(batch.drains);
            }
        }
        self.outgoing.finish(batch);
    }

    /// Whether a drained queue has work for the writer.
    pub fn has_more(&self) -> bool {
        self.ending || (self.idle && self.owed > 0)
    }

    /// What a drained queue makes room for.
    pub fn go_on(&mut self, store: &Store) {
        if self.ending {
            self.end_notify(store);
        }
        if self.owed > 0 {
            self.idle_turn(store);
        }
    }
}
