//! Wrong programs that the account has to notice: what a right one writes is spoiled on the way to
//! the account, or what it remembers is spoiled behind its back.

mod support;

use reference::account::{whole_lines, Account, Call, Fault, Wait};
use reference::memory::{Message, MARKED};
use reference::random::Random;
use reference::records::{read, Record};
use reference::{Answer, Memory};
use std::collections::BTreeMap;
use support::crowded::Crowded;
use support::*;

const STREAMS: u64 = 250;
const RECORDS: usize = 150;
const OVERFLOW: &str = "* OK [NOTIFICATIONOVERFLOW] stopped\r\n";

/// One call on its way to the account.
struct Seen {
    octets: Vec<u8>,
    answer: Answer,
    lines: Vec<String>,
}

impl Seen {
    fn new(octets: Vec<u8>, answer: Answer, written: &[u8]) -> Seen {
        let text = |line: &&[u8]| String::from_utf8(line.to_vec()).expect("lines are ASCII");
        let lines = whole_lines(written).iter().map(text).collect();
        Seen {
            octets,
            answer,
            lines,
        }
    }

    fn enter(&self, account: &mut Account) -> Vec<Fault> {
        account.enter(&Call {
            octets: &self.octets,
            answer: self.answer,
            written: self.lines.concat().as_bytes(),
        })
    }

    /// The last line of this kind; behind a command only lines with a number are no answer.
    fn find(&self, part: &str) -> Option<usize> {
        let commanded = self.octets.starts_with(b"CM");
        let number = |line: &str| line.split(' ').nth(1)?.parse::<u32>().ok();
        self.lines
            .iter()
            .rposition(|line| line.contains(part) && (!commanded || number(line).is_some()))
    }

    fn leave_out(&mut self, part: &str) -> bool {
        let place = self.find(part);
        place.map(|place| self.lines.remove(place)).is_some()
    }

    /// Changes the number of a line.
    fn renumber(&mut self, part: &str, change: fn(u32) -> u32) -> bool {
        let Some(place) = self.find(part) else {
            return false;
        };
        let words: Vec<&str> = self.lines[place].splitn(3, ' ').collect();
        let number: u32 = words[1].parse().expect("a number");
        self.lines[place] = format!("* {} {}", change(number), words[2]);
        true
    }
}

fn kind(fault: &Fault) -> &'static str {
    match fault {
        Fault::Unread => "unread",
        Fault::Lines { .. } => "lines",
        Fault::Place(_) => "place",
        Fault::Silent => "silent",
        Fault::Unexplained(_) => "unexplained",
        Fault::Forgotten(_) => "forgotten",
        Fault::Count { .. } => "count",
        Fault::Unsettled => "unsettled",
        Fault::Overflow => "overflow",
        Fault::Ended(_) => "ended",
    }
}

/// Spoils one call of each stream; the account has to say so at that call. These kinds of fault
/// must be among what it says, over all streams.
#[track_caller]
fn noticed_at_once(kinds: &[&str], spoil: impl Fn(&mut Seen) -> bool) {
    let mut found: BTreeMap<&str, usize> = BTreeMap::new();
    let mut planted = 0;
    for seed in 0..STREAMS {
        let mut random = Random::new(seed);
        let mut left = random.below(3);
        let queue = random.pick(&[1024, 1100, 8192]);
        let mut memory = Memory::new(queue, 64, 1024);
        let mut crowded = Crowded::new(seed);
        let mut account = Account::new(queue);
        for _ in 0..RECORDS {
            let octets = crowded.propose(&memory);
            let (answer, written) = observe(&mut memory, &octets);
            let mut seen = Seen::new(octets.clone(), answer, &written);
            let spoiled = spoil(&mut seen);
            if spoiled && left == 0 {
                let faults = seen.enter(&mut account);
                assert!(!faults.is_empty(), "stream {seed}: {}", hex(&octets));
                for fault in &faults {
                    *found.entry(kind(fault)).or_default() += 1;
                }
                planted += 1;
                break;
            }
            left -= usize::from(spoiled);
            let faults = Seen::new(octets, answer, &written).enter(&mut account);
            assert_eq!(faults, []);
        }
    }
    println!("{planted} planted, {found:?}");
    assert!(planted >= 20);
    for kind in kinds {
        assert!(found.contains_key(kind), "{kind} in {found:?}");
    }
}

#[test]
fn a_line_left_out() {
    noticed_at_once(&["lines", "silent", "count", "unsettled"], |seen| {
        seen.leave_out(" EXPUNGE\r\n")
    });
    noticed_at_once(&["lines", "silent", "count", "unsettled"], |seen| {
        seen.leave_out(" EXISTS\r\n")
    });
    noticed_at_once(&["lines", "silent", "count"], |seen| {
        seen.leave_out(" FETCH (UID")
    });
    noticed_at_once(&["lines", "silent"], |seen| seen.leave_out("* LIST ("));
    noticed_at_once(&["lines", "silent"], |seen| seen.leave_out("(UIDNEXT"));
    noticed_at_once(&["lines", "silent"], |seen| seen.leave_out("(UIDVALIDITY"));
}

#[test]
fn an_overflow_untold_or_untrue() {
    noticed_at_once(&["lines", "silent"], |seen| seen.leave_out(OVERFLOW));
    noticed_at_once(&["lines"], |seen| {
        let told = !seen.octets.starts_with(b"C") && !seen.lines.is_empty();
        let stopped = seen.lines.contains(&OVERFLOW.to_string());
        seen.lines = vec![OVERFLOW.to_string()];
        told && !stopped
    });
    // where nothing was to be told at all
    noticed_at_once(&["lines", "overflow"], |seen| {
        let nothing = seen.lines.is_empty();
        seen.lines.push(OVERFLOW.to_string());
        nothing
    });
}

#[test]
fn a_wrong_number() {
    noticed_at_once(&["lines", "silent", "place"], |seen| {
        seen.renumber(" EXISTS\r\n", |count| count - 1)
    });
    noticed_at_once(&["lines", "silent", "place", "forgotten"], |seen| {
        seen.renumber(" EXPUNGE\r\n", |place| place + 1)
    });
    noticed_at_once(&["lines", "silent", "place"], |seen| {
        seen.renumber(" FETCH (", |place| place + 1)
    });
    noticed_at_once(&["count"], |seen| {
        let count = seen.answer.count.as_mut();
        count.map(|count| *count += 1).is_some()
    });
    noticed_at_once(&["count"], |seen| {
        let count = seen.answer.count.as_mut().filter(|count| **count > 0);
        count.map(|count| *count -= 1).is_some()
    });
}

#[test]
fn lines_out_of_order_or_twice() {
    noticed_at_once(&["lines"], |seen| {
        let ended = seen.octets.starts_with(b"CE");
        ended && seen.lines.windows(2).any(|two| two[0] != two[1]) && {
            seen.lines.reverse();
            true
        }
    });
    noticed_at_once(&["lines", "forgotten"], |seen| {
        let last = seen.lines.last().cloned();
        seen.lines.extend(last.clone());
        last.is_some()
    });
    noticed_at_once(&["lines", "forgotten"], |seen| {
        seen.lines.push("* 1 EXPUNGE\r\n".to_string());
        seen.answer.refusal != 0
    });
}

#[test]
fn a_torn_record_taken() {
    noticed_at_once(&["unread"], |seen| {
        let refused = seen.answer.refusal != 0;
        seen.octets.pop();
        seen.answer.refusal = 0;
        refused
    });
}

/// Spoils the memory once in each stream, as a wrong program would leave it; the calls that follow
/// are right ones on wrong memory. Not every damage comes to light before the stream's end.
#[track_caller]
fn noticed_later(least: usize, damage: impl Fn(&mut Memory, &Record) -> bool) {
    let (mut planted, mut noticed) = (0, 0);
    for seed in 0..STREAMS {
        let mut memory = Memory::new(8192, 64, 1024);
        let mut crowded = Crowded::new(seed);
        let mut account = Account::new(8192);
        let mut done = false;
        for _ in 0..RECORDS {
            let octets = crowded.propose(&memory);
            let (answer, written) = observe(&mut memory, &octets);
            let seen = Seen::new(octets.clone(), answer, &written);
            let faults = seen.enter(&mut account);
            if !faults.is_empty() {
                assert!(done, "stream {seed}: {faults:#?}");
                noticed += 1;
                break;
            }
            let taken = read(&octets).filter(|_| answer.refusal == 0);
            if let Some(record) = taken.filter(|_| !done) {
                done = damage(&mut memory, &record);
            }
        }
        planted += usize::from(done);
    }
    println!("{noticed} noticed of {planted}");
    assert!(noticed >= least, "{noticed} of {planted}");
}

fn entry(memory: &mut Memory, uid: u32, test: fn(&Message) -> bool) -> Option<&mut Message> {
    let selected = memory.session.selected;
    memory
        .entries_mut()
        .iter_mut()
        .find(|entry| entry.mailbox == selected && entry.uid == uid && test(entry))
}

#[test]
fn a_mark_forgotten() {
    noticed_later(50, |memory, record| match *record {
        Record::Flags { uid, .. } => {
            let marked = entry(memory, uid, Message::is_marked);
            marked.map(|entry| entry.state = 0).is_some()
        }
        _ => false,
    });
}

#[test]
fn a_mark_where_none_was_owed() {
    noticed_later(50, |memory, record| match *record {
        Record::Flags { id, uid, .. } => {
            let known = id == memory.session.selected && uid < memory.session.told;
            let plain = entry(memory, uid, |entry| entry.state == 0).filter(|_| known);
            plain.map(|entry| entry.state = MARKED).is_some()
        }
        _ => false,
    });
}

#[test]
fn a_removal_forgotten() {
    noticed_later(50, |memory, record| match *record {
        Record::Expunge { uid, .. } if entry(memory, uid, Message::is_expunged).is_some() => {
            memory.keep_entries(|entry| !entry.is_expunged());
            true
        }
        _ => false,
    });
}

#[test]
fn an_arrival_taken_for_told() {
    noticed_later(50, |memory, record| match *record {
        Record::Message { id, uid, .. } if id == memory.session.selected => {
            let waits = uid >= memory.session.told;
            memory.session.told = uid + 1;
            waits
        }
        _ => false,
    });
}

/// The control of the controls: unspoiled, the same streams have no fault and do wait.
#[test]
fn nothing_planted() {
    let mut waits = 0;
    for seed in 0..STREAMS {
        let mut memory = Memory::new(1024, 64, 1024);
        let mut crowded = Crowded::new(seed);
        let mut account = Account::new(1024);
        for _ in 0..RECORDS {
            let octets = crowded.propose(&memory);
            let (answer, written) = observe(&mut memory, &octets);
            let faults = Seen::new(octets, answer, &written).enter(&mut account);
            assert_eq!(faults, []);
            let known = |(_, wait): &(usize, Wait)| matches!(wait, Wait::Removal(_));
            waits += account.waiting().iter().filter(|one| known(one)).count();
        }
    }
    assert!(waits > 1000);
}
