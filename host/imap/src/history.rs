//! A mailbox that has messages, as records for a library that doesn't know it. The library takes a change only if its counter is
//! above all before it in that mailbox, and the store's counters don't rise with the UIDs. So the mailbox is told as its history
//! could have been: each message comes by rising UID, with its own counter where that rises too, else with one that no change
//! has; what changed later follows as a change of its own. In the end UIDNEXT and all counters are the store's.

use crate::push::records;
use crate::store::{Mailbox, Message};
use std::collections::BTreeMap;

/// The counter of `MB` where records follow it: below all that the store gives to messages.
pub const LOWEST: u64 = 1;

/// Records behind their counters.
type History = BTreeMap<u64, Vec<u8>>;

/// The records behind `MB`, by rising counters; they need an entry for each message, and one for a UID that is gone. None where
/// the counters can't have come about one change after another, which those of this store have.
pub fn of(mailbox: &Mailbox) -> Option<Vec<Vec<u8>>> {
    let id = mailbox.id;
    let change = |m: &Message| (m.counter, records::flags(id, m.uid, m.flags, m.counter));
    let mut history: History = mailbox.messages.iter().map(change).collect();
    if history.len() < mailbox.messages.len() {
        return None;
    }
    let gone = mailbox.gone();
    if let Some(uid) = gone {
        let counter = free(&history, mailbox.counter.checked_add(1)?)?;
        history.insert(counter, records::expunge(id, uid, counter));
    }
    if history.keys().next_back() != Some(&mailbox.counter) {
        return None;
    }
    arrive(&mut history, mailbox, gone)?;
    Some(history.into_values().collect())
}

/// From the highest UID down each arrival is as late as can be, so that those before it have all the room that there is.
fn arrive(history: &mut History, mailbox: &Mailbox, gone: Option<u32>) -> Option<()> {
    let id = mailbox.id;
    let messages = mailbox.messages.iter();
    let mut uids: Vec<(u32, Option<&Message>)> = messages.map(|m| (m.uid, Some(m))).collect();
    uids.extend(gone.map(|uid| (uid, None)));
    uids.sort_unstable_by_key(|&(uid, _)| uid);
    let mut next = mailbox.counter.checked_add(1)?;
    for (uid, message) in uids.into_iter().rev() {
        let own = message.map(|m| m.counter).filter(|&own| own < next);
        next = own.map_or_else(|| free(history, next), Some)?;
        let (flags, size) = message.map_or((0, 0), |m| (m.flags, m.octets.len() as u32));
        history.insert(next, records::message(id, uid, flags, size, next));
    }
    (next > LOWEST).then_some(())
}

/// The highest counter below this one that no record has.
fn free(history: &History, below: u64) -> Option<u64> {
    (LOWEST + 1..below)
        .rev()
        .find(|counter| !history.contains_key(counter))
}

#[cfg(test)]
mod tests {
    use super::*;
    use crate::options::{self, Asked};
    use crate::push::{Answer, Notice, Push};
    use crate::store::Store;

    const NAME: &str = "box";

    fn store() -> Store {
        match options::read(std::iter::empty()) {
            Ok(Asked::Serve(options)) => Store::new(options),
            _ => panic!("no options"),
        }
    }

    /// Sets a flag, or takes it away again: either is a change.
    fn flag(store: &mut Store, id: u16, uid: u32) {
        let message = store.mailboxes[&id].message(uid);
        let flags = message.expect("it is there").flags ^ 1;
        assert!(store.set_flags(id, uid, flags));
    }

    /// A mailbox after changes, each a letter and a UID: `a` arrives (the next UID), `f` is flagged, `x` is expunged.
    fn after(changes: &str) -> Mailbox {
        let mut store = store();
        store.create("alice", NAME, 0);
        let id = store.named("alice", NAME).expect("it is there").id;
        for change in changes.split_whitespace() {
            let uid = change[1..].parse().expect("a UID");
            match &change[..1] {
                "a" => assert_eq!(
                    store.append(id, 0, String::new(), [0; 3].into()),
                    Some(uid),
                    "{change}"
                ),
                "f" => flag(&mut store, id, uid),
                _ => store.expunge(id, uid),
            }
        }
        store.mailboxes.remove(&id).expect("it is there")
    }

    /// What a library has of the mailbox behind its records, all of which it takes.
    fn handed(mailbox: &Mailbox) -> (u32, u64, Vec<(u32, u64)>) {
        let mut push = Push::new(1024, None);
        let name = mailbox.name.as_bytes();
        let row = records::create(mailbox.id, 0x33, Notice::Quiet, 7, LOWEST, name);
        assert_eq!(push.call(&row), Answer::Done);
        for record in of(mailbox).expect("a history") {
            assert_eq!(push.call(&record), Answer::Done, "{record:?}");
        }
        push.counters(mailbox.id)
    }

    fn kept(mailbox: &Mailbox) -> (u32, u64, Vec<(u32, u64)>) {
        let own = mailbox.messages.iter().map(|m| (m.uid, m.counter));
        (mailbox.uid_next, mailbox.counter, own.collect())
    }

    #[test]
    fn every_counter_is_the_store_s() {
        for changes in [
            "a1",
            "a1 a2 a3",
            "a1 f1 f1",
            "a1 a2 a3 f2 f1 f3",
            "a1 a2 a3 f3 f2 f1",
            "a1 f1 a2 f1 a3 f2 f1",
            // gone, and then the last, in the middle, all of them
            "a1 x1",
            "a1 a2 a3 x3",
            "a1 a2 a3 x1",
            "a1 a2 a3 f1 x2",
            "a1 a2 x2 f1",
            "a1 a2 x2 f1 x1",
            "a1 a2 a3 x2 a4 f1 x3 f4 x1",
        ] {
            let mailbox = after(changes);
            assert_eq!(handed(&mailbox), kept(&mailbox), "{changes}");
        }
    }

    #[test]
    fn a_history_as_it_was() {
        let mailbox = after("a1 a2 a3 f1 x2");
        let id = mailbox.id;
        let told = [
            records::message(id, 1, 1, 3, 2),
            records::message(id, 2, 0, 0, 3),
            records::message(id, 3, 0, 3, 4),
            records::flags(id, 1, 1, 5),
            records::expunge(id, 2, 6),
        ];
        assert_eq!(of(&mailbox).expect("a history"), told);
    }

    /// All short runs of changes, or some 2,000 of each length.
    #[test]
    fn short_runs() {
        let mut runs = vec![(String::from("a1"), 1)];
        for length in 2..=9 {
            let longer = |(run, last): &(String, u32)| {
                let mut all = vec![(format!("{run} a{}", last + 1), last + 1)];
                for uid in 1..=*last {
                    if !run.contains(&format!("x{uid}")) {
                        all.push((format!("{run} f{uid}"), *last));
                        all.push((format!("{run} x{uid}"), *last));
                    }
                }
                all
            };
            runs = runs.iter().flat_map(longer).collect();
            let step = runs.len().div_ceil(2_000);
            for (run, _) in runs.iter().step_by(step) {
                let mailbox = after(run);
                assert_eq!(handed(&mailbox), kept(&mailbox), "{length}: {run}");
            }
        }
    }

    /// Counters that no changes one after another give: another store might have them, this one has not.
    #[test]
    fn none_where_there_can_be_none() {
        // two messages share one
        let mut mailbox = after("a1 a2 f1 f2");
        mailbox.messages[0].counter = mailbox.counter;
        assert_eq!(of(&mailbox), None);
        // none is left below a message's for those before it, or for MB
        let mut mailbox = after("a1 a2");
        mailbox.messages[1].counter = 2;
        mailbox.messages[0].counter = 3;
        assert_eq!(of(&mailbox), None);
        let mut mailbox = after("a1");
        (mailbox.messages[0].counter, mailbox.counter) = (1, 1);
        assert_eq!(of(&mailbox), None);
        // above all messages', and no UID is gone
        let mut mailbox = after("a1 a2");
        mailbox.counter += 1;
        assert_eq!(of(&mailbox), None);
    }

    #[test]
    fn at_the_top() {
        let mut mailbox = after("a1 a2 a3 f1");
        mailbox.messages[0].counter = records::COUNTER_MOST;
        mailbox.counter = records::COUNTER_MOST;
        assert_eq!(handed(&mailbox), kept(&mailbox));
        assert_eq!(mailbox.count(), None);
        assert_eq!(mailbox.counter, records::COUNTER_MOST);
    }
}
