//! Reasons on random streams: the account has the same word for every record, what is written and what waits is as they say, and
//! each comes up with every kind of record that can have it.

mod support;

use reference::account::{Account, Call, Cause, Fate, Rule, Wait};
use reference::generate::{reasons, Generator};
use reference::memory::Message;
use reference::random::Random;
use reference::records::{cut, read, Record};
use reference::why::{reason, Reason};
use reference::{call_trusting, Answer, Memory};
use std::collections::BTreeMap;
use support::crowded::Crowded;
use support::*;

const OVERFLOW: &[u8] = b"* OK [NOTIFICATIONOVERFLOW] stopped\r\n";

/// One call: the memory on both sides of it, its answer and what it wrote.
struct Seen<'a> {
    octets: &'a [u8],
    before: &'a Memory,
    after: &'a Memory,
    answer: Answer,
    written: &'a [u8],
    reason: Reason,
}

/// Calls of a stream on fresh memory of this Q, as many as `propose` has.
fn run(
    queue: usize,
    mut propose: impl FnMut(&Memory) -> Option<Vec<u8>>,
    mut look: impl FnMut(&Seen),
) {
    let mut memory = Memory::new(queue, 64, 1024);
    while let Some(octets) = propose(&memory) {
        let before = memory.clone();
        let (answer, written) = observe(&mut memory, &octets);
        look(&Seen {
            octets: &octets,
            before: &before,
            after: &memory,
            answer,
            written: &written,
            reason: reason(&before, &octets),
        });
    }
}

/// Streams as the gate has them, as they are cut.
fn of_the_gate(seed: u64, look: impl FnMut(&Seen)) {
    let stream = reasons::stream(seed, 150);
    let mut records = cut(&stream).into_iter();
    run(8192, |_| records.next().map(<[u8]>::to_vec), look);
}

/// Streams of every kind at many sizes, so many records of each.
fn of_many_sizes(seed: u64, look: impl FnMut(&Seen)) {
    let mut random = Random::new(seed ^ 0x7265_6173);
    let queue = random.pick(&[1024, 1024, 1100, 2000, 8192]);
    let (mut usual, mut crowded) = (Generator::new(seed), Crowded::new(seed));
    let mut left = 0..150;
    let propose = |memory: &Memory| {
        left.next().map(|_| match seed % 2 {
            0 => usual.propose(memory),
            _ => crowded.propose(memory),
        })
    };
    run(queue, propose, look);
}

/// What the account calls the last call.
fn word(account: &Account, answer: Answer) -> Option<Reason> {
    Some(match *account.fates().last()? {
        Fate::Refused => Reason::Refused(answer.refusal),
        Fate::Unowed(rule) => match rule {
            Rule::Quiet => Reason::Quiet,
            Rule::NoEvent => Reason::NoEvent,
            Rule::RightMissing => Reason::RightMissing,
            Rule::NoGroup => Reason::NoGroup,
            Rule::NotAsked => Reason::NotAsked,
            Rule::Unannounced => Reason::Unannounced,
        },
        Fate::Waiting(_, Cause::RightMissing) => Reason::RightMissing,
        Fate::Waiting(_, Cause::Overflow) | Fate::Lost => Reason::Overflow,
        Fate::Waiting(Wait::Arrival(_) | Wait::Mark(_), _) => Reason::Waiting(0),
        Fate::Waiting(Wait::Removal(_), _) => Reason::Waiting(1),
        Fate::Told { .. } => Reason::Written(account.asked_by()?),
        Fate::Dropped { .. } | Fate::Silent => return None,
    })
}

/// Enters calls and compares the words.
fn accounted(queue: usize, place: String) -> impl FnMut(&Seen) {
    let mut account = Account::new(queue);
    move |seen: &Seen| {
        let call = Call {
            octets: seen.octets,
            answer: seen.answer,
            written: seen.written,
        };
        let place = format!("{place}, {}", hex(seen.octets));
        assert_eq!(account.enter(&call), [], "{place}");
        assert_eq!(word(&account, seen.answer), Some(seen.reason), "{place}");
    }
}

#[test]
fn the_account_has_the_same_word() {
    for seed in 0..600 {
        of_the_gate(seed, accounted(8192, format!("stream {seed}")));
    }
}

#[test]
fn the_account_has_the_same_word_at_many_sizes() {
    for seed in 0..2_000 {
        let mut enter = None;
        of_many_sizes(seed, |seen| {
            let queue = seen.before.queue.len();
            let enter = enter.get_or_insert_with(|| accounted(queue, format!("stream {seed}")));
            enter(seen);
        });
    }
}

/// Only `written` and `overflow` go with lines of a record's own; the others are silence.
#[test]
fn what_is_written_is_as_the_reason_says() {
    let look = |seen: &Seen| {
        let nothing = seen.written.is_empty();
        let place = || format!("{:?}, {}", seen.reason, hex(seen.octets));
        match seen.reason {
            Reason::Written(group) => {
                let groups = &seen.before.session.groups;
                assert!(!nothing && seen.written != OVERFLOW, "{}", place());
                assert!(
                    (1..=usize::from(groups.count)).contains(&group),
                    "{}",
                    place()
                );
                assert_eq!(seen.before.session.groups, seen.after.session.groups);
            }
            Reason::Overflow => assert_eq!(seen.written, OVERFLOW, "{}", place()),
            // a command's end and a command write what older records owe, and answers
            Reason::NoEvent => {
                let speaks = matches!(
                    read(seen.octets),
                    Some(Record::End { .. } | Record::Command { .. })
                );
                assert!(nothing || speaks, "{}", place());
            }
            _ => assert!(nothing, "{}", place()),
        }
    };
    (0..300).for_each(|seed| of_the_gate(seed, look));
    (0..600).for_each(|seed| of_many_sizes(seed, look));
}

/// Memory behind the end of a command of this class, the queue being empty before it.
fn ended(memory: &Memory, class: u8) -> Memory {
    let mut memory = memory.clone();
    memory.filled = 0;
    call_trusting(&mut memory, &assemble(&format!("CE {class}")));
    memory
}

/// What a record about the selected mailbox brought is told once a command of that class ends, and by no lower one.
#[test]
fn what_waits_is_told_by_its_class() {
    let mut waits = [0; 3];
    let mut look = |seen: &Seen| {
        let Reason::Waiting(class) = seen.reason else {
            return;
        };
        let told = |class: u8| {
            let after = ended(seen.after, class);
            let entry = |uid: u32| {
                let of = |entry: &&Message| {
                    (entry.mailbox, entry.uid) == (seen.after.session.selected, uid)
                };
                after.entries().iter().find(of).copied()
            };
            match read(seen.octets) {
                Some(Record::Message { uid, .. }) => (0, after.session.told > uid),
                Some(Record::Expunge { uid, .. }) => (1, entry(uid).is_none()),
                Some(Record::Flags { uid, .. }) => {
                    let fetched = contains(after.held(), &format!(" FETCH (UID {uid} FLAGS ("));
                    (
                        2,
                        fetched && entry(uid).is_some_and(|entry| !entry.is_marked()),
                    )
                }
                other => panic!("{other:?} waits"),
            }
        };
        let (kind, now) = told(class);
        waits[kind] += 1;
        assert!(now, "{}", hex(seen.octets));
        assert!(
            (0..class).all(|lower| !told(lower).1),
            "{}",
            hex(seen.octets)
        );
    };
    (0..300).for_each(|seed| of_the_gate(seed, &mut look));
    (0..600).for_each(|seed| of_many_sizes(seed, &mut look));
    println!("{waits:?}");
    assert!(waits.iter().all(|&times| times > 200), "{waits:?}");
}

/// The reasons that a kind of record can have, by the first word of each.
fn possible(mark: &str) -> &'static [&'static str] {
    match mark {
        "MB" | "DL" | "RN" => &[
            "refused", "quiet", "right", "no group", "group", "overflow", "written",
        ],
        "SB" => &[
            "refused", "quiet", "no event", "right", "no group", "group", "overflow", "written",
        ],
        "RT" => &[
            "refused", "no event", "right", "no group", "group", "overflow", "written",
        ],
        "ME" => &[
            "refused",
            "right",
            "no group",
            "group",
            "waiting 0",
            "overflow",
            "written",
        ],
        "XP" => &[
            "refused",
            "right",
            "no group",
            "group",
            "unannounced",
            "waiting 1",
            "overflow",
            "written",
        ],
        "FL" => &[
            "refused",
            "right",
            "no group",
            "group",
            "unannounced",
            "waiting 0",
            "overflow",
            "written",
        ],
        "SE" | "CE" | "CM" | "DR" => &["refused", "no event"],
        _ => &["refused 2"],
    }
}

/// The streams of the gate show each of these often, and no other.
#[test]
fn every_record_has_each_of_its_reasons() {
    let mut tally: BTreeMap<(String, &str), usize> = BTreeMap::new();
    for seed in 0..600 {
        of_the_gate(seed, |seen| {
            let mark = String::from_utf8_lossy(&seen.octets[..seen.octets.len().min(2)]);
            let text = seen.reason.to_string();
            let mut fitting = possible(&mark)
                .iter()
                .filter(|word| text.starts_with(**word));
            let word = fitting.next().unwrap_or_else(|| panic!("{mark}: {text}"));
            let known = possible(&mark).len() > 1;
            let mark = if known { &mark } else { "other" };
            *tally.entry((mark.to_string(), word)).or_default() += 1;
        });
    }
    println!("{tally:#?}");
    for mark in "MB DL RN SB RT ME XP FL SE CE CM DR other".split(' ') {
        for &word in possible(mark) {
            let times = tally.get(&(mark.to_string(), word)).copied().unwrap_or(0);
            assert!(times >= 5, "{mark} {word}: {times}");
        }
    }
}
