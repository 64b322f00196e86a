//! The account against the program on random streams, and against what the vectors answer.

mod support;

use reference::account::{Account, Call, Fate, Wait};
use reference::generate::Generator;
use reference::random::Random;
use reference::{Answer, Memory};
use std::collections::BTreeMap;
use support::crowded::Crowded;
use support::*;

const STREAMS: u64 = 1_500;
const RECORDS: usize = 150;

/// How often each fate has to come up, lest the comparison be empty.
const LEAST: usize = 40;

/// Every way in which a call may begin its account.
const FIRST_FATES: [&str; 22] = [
    "refused",
    "unowed: Quiet",
    "unowed: NoEvent",
    "unowed: RightMissing",
    "unowed: NoGroup",
    "unowed: NotAsked",
    "unowed: Unannounced",
    "told at once",
    "lost",
    "arrival waits: BeforeNotify",
    "arrival waits: RightMissing",
    "arrival waits: NoGroup",
    "arrival waits: NotAsked",
    "arrival waits: Overflow",
    "removal waits: BeforeNotify",
    "removal waits: RightMissing",
    "removal waits: NoGroup",
    "removal waits: NotAsked",
    "removal waits: Delayed",
    "removal waits: Overflow",
    "mark waits: BeforeNotify",
    "command end with lines left",
];

/// Every way in which waiting may end, by the mark of the call that ends it.
const LAST_FATES: [&str; 16] = [
    "arrival told by ME",
    "arrival told by CE",
    "arrival told by CM",
    "removal told by CE",
    "removal told by CM",
    "mark told by FL",
    "mark told by CE",
    "mark told by CM",
    "arrival dropped by SE",
    "arrival dropped by XP",
    "removal dropped by SE",
    "mark dropped by SE",
    "mark dropped by XP",
    "arrival waits at the end",
    "removal waits at the end",
    "mark waits at the end",
];

type Tally = BTreeMap<String, usize>;

fn kind(wait: Wait) -> &'static str {
    match wait {
        Wait::Arrival(_) => "arrival",
        Wait::Removal(_) => "removal",
        Wait::Mark(_) => "mark",
    }
}

fn count(tally: &mut Tally, label: impl Into<String>) {
    *tally.entry(label.into()).or_default() += 1;
}

/// Enters a call and counts the fate it begins and those it ends.
fn enter(account: &mut Account, call: &Call, tally: &mut Tally, place: &str) {
    let before = account.waiting();
    let faults = account.enter(call);
    assert!(faults.is_empty(), "{place}: {faults:#?}");
    if call.answer.count.is_some_and(|left| left > 0) {
        count(tally, "command end with lines left");
    }
    let own = account.fates().len() - 1;
    count(
        tally,
        match account.fates()[own] {
            Fate::Refused => "refused".to_string(),
            Fate::Unowed(rule) => format!("unowed: {rule:?}"),
            Fate::Told { by } if by == own => "told at once".to_string(),
            Fate::Waiting(wait, cause) => format!("{} waits: {cause:?}", kind(wait)),
            Fate::Lost => "lost".to_string(),
            other => panic!("{place}: {other:?} for a fate to begin with"),
        },
    );
    let mark = String::from_utf8_lossy(&call.octets[..call.octets.len().min(2)]);
    for (number, wait) in before {
        match account.fates()[number] {
            Fate::Told { .. } => count(tally, format!("{} told by {mark}", kind(wait))),
            Fate::Dropped { .. } => count(tally, format!("{} dropped by {mark}", kind(wait))),
            _ => {}
        }
    }
}

/// Runs one stream beside its account, and shows both after each call.
fn run(
    seed: u64,
    tally: &mut Tally,
    mut propose: impl FnMut(&Memory) -> Vec<u8>,
    show: impl Fn(&Account, &Memory, &str),
) {
    let mut random = Random::new(seed ^ 0x6163_636F);
    let queue = random.pick(&[1024, 1024, 1024, 1100, 1500, 2000, 8192, 65536]);
    let mailboxes = random.pick(&[64, 64, 6, 6, 3, 2]);
    let messages = random.pick(&[1024, 1024, 20, 20, 5, 2]);
    let mut memory = Memory::new(queue, mailboxes, messages);
    let mut account = Account::new(queue);
    for step in 0..RECORDS {
        let octets = propose(&memory);
        let (answer, written) = observe(&mut memory, &octets);
        let call = Call {
            octets: &octets,
            answer,
            written: &written,
        };
        let place = format!("stream {seed}, call {step}, {}", hex(&octets));
        enter(&mut account, &call, tally, &place);
        show(&account, &memory, &place);
    }
    assert_eq!(account.fates().len(), RECORDS);
    for (_, wait) in account.waiting() {
        count(tally, format!("{} waits at the end", kind(wait)));
    }
}

/// Streams with much to account for, seen from outside alone: each fate comes up, and no other.
#[test]
fn every_call_of_a_crowded_stream_has_its_fate() {
    let mut tally = Tally::new();
    for seed in 0..STREAMS {
        let mut crowded = Crowded::new(seed);
        let propose = |memory: &Memory| crowded.propose(memory);
        run(seed, &mut tally, propose, |_, _, _| {});
    }
    println!("{tally:#?}");
    let listed: Vec<&str> = FIRST_FATES.into_iter().chain(LAST_FATES).collect();
    for label in tally.keys() {
        assert!(listed.contains(&&label[..]), "{label} is no fate");
    }
    for label in listed {
        let times = tally.get(label).copied().unwrap_or(0);
        assert!(times >= LEAST, "{label}: {times}");
    }
}

/// Streams of every kind. Here the program's own table is looked at as well, after the account
/// has spoken: what waits by the one waits by the other.
#[test]
fn every_call_of_any_stream_has_its_fate() {
    let mut tally = Tally::new();
    for seed in 0..STREAMS {
        let mut generator = Generator::new(seed);
        let propose = |memory: &Memory| generator.propose(memory);
        run(seed, &mut tally, propose, |account, memory, place| {
            let mut waits: Vec<Wait> = account.waiting().iter().map(|one| one.1).collect();
            waits.sort_unstable();
            // several calls may wait for one mark
            waits.dedup();
            assert_eq!(waits, in_table(memory), "{place}");
        });
    }
    println!("{tally:#?}");
    assert!(tally["told at once"] > 1_000 && tally["refused"] > 1_000);
}

/// What waits by the states of the program's entries and the number of its view.
fn in_table(memory: &Memory) -> Vec<Wait> {
    let session = &memory.session;
    let mut waits = Vec::new();
    for entry in memory.entries() {
        if entry.mailbox == session.selected && entry.uid >= session.told {
            waits.push(Wait::Arrival(entry.uid));
        }
        if entry.is_expunged() {
            waits.push(Wait::Removal(entry.uid));
        }
        if entry.is_marked() {
            waits.push(Wait::Mark(entry.uid));
        }
    }
    waits.sort_unstable();
    waits
}

/// The vectors' answers come from elsewhere, so they judge the account and not the program.
#[test]
fn the_vectors_answers_have_their_fates() {
    for listed in index() {
        let mut account = Account::new(listed.queue);
        let mut before = Vec::new();
        let answers = vector(&format!("{}.out", listed.number));
        let records = records(&vector(&format!("{}.txt", listed.number)));
        for (octets, line) in records.iter().zip(answers.lines()) {
            let (answer, after) = answered(line);
            let written = written(&before, octets, answer, &after);
            let call = Call {
                octets,
                answer,
                written: &written,
            };
            let faults = account.enter(&call);
            assert!(faults.is_empty(), "{} {line}: {faults:#?}", listed.number);
            before = after;
        }
        assert_eq!(account.fates().len(), records.len());
    }
}

/// A line of the vectors' answers: refusal, count, queue.
fn answered(line: &str) -> (Answer, Vec<u8>) {
    let words: Vec<&str> = line.split(' ').collect();
    let answer = Answer {
        refusal: words[0].parse().expect("a refusal"),
        count: words[1].parse().ok(),
    };
    (
        answer,
        assemble(&format!("HEX {}", words[2].replace('-', ""))),
    )
}
