//! Change counters: what they are after any stream, seen from outside, and wrong programs that this or a case has to notice.

mod support;

use reference::generate::Generator;
use reference::memory::COUNTER_MOST;
use reference::records::{read, Record};
use reference::{call, Memory};
use std::collections::BTreeMap;
use support::wrong::*;

#[test]
fn counters_are_those_of_the_last_change() {
    assert_eq!(streams_that_differ(RIGHT), 0);
    assert_eq!(cases_that_differ(RIGHT), Vec::<String>::new());
}

/// Streams have counters on each side of every edge, and records as they were before there were any.
#[test]
fn streams_have_every_kind_of_counter() {
    let mut seen: BTreeMap<(&str, u8), usize> = BTreeMap::new();
    for seed in 0..3_000 {
        let mut generator = Generator::new(seed);
        let mut memory = Memory::new(8192, 64, 1024);
        for _ in 0..120 {
            let octets = generator.propose(&memory);
            let kept = memory.clone();
            let refusal = call(&mut memory, &octets).refusal;
            if let Some(kind) = kind(&kept, &octets) {
                *seen.entry((kind, refusal)).or_default() += 1;
            }
        }
    }
    println!("{seen:?}");
    for (kind, refusal) in [
        ("none at all", 2),
        ("0", 2),
        ("beyond", 2),
        ("below", 5),
        ("equal", 5),
        ("top", 0),
        ("one above", 0),
        ("one above", 5),
        ("above", 0),
    ] {
        let times = seen.get(&(kind, refusal)).copied().unwrap_or(0);
        assert!(times >= 40, "{kind} {refusal}: {times}");
    }
}

/// Where the counter of `ME`, `XP` or `FL` lies, whatever else is wrong.
fn kind(memory: &Memory, octets: &[u8]) -> Option<&'static str> {
    let whole = match octets.get(..2)? {
        b"ME" => 23,
        b"XP" => 18,
        b"FL" => 19,
        _ => return None,
    };
    if octets.len() == whole - 8 {
        return Some("none at all");
    }
    let counter = u64::from_le_bytes(octets.get(whole - 8..whole)?.try_into().ok()?);
    let own = memory
        .mailbox(u16::from_le_bytes([octets[4], octets[5]]))?
        .counter;
    Some(match counter {
        0 => "0",
        COUNTER_MOST => "top",
        _ if counter > COUNTER_MOST => "beyond",
        _ if counter < own => "below",
        _ if counter == own => "equal",
        _ if counter == own + 1 => "one above",
        _ => "above",
    })
}

#[test]
fn an_equal_counter_taken() {
    noticed(Wrong {
        before: |memory, octets| {
            let Some(
                Record::Message { id, counter, .. }
                | Record::Expunge { id, counter, .. }
                | Record::Flags { id, counter, .. },
            ) = read(octets)
            else {
                return;
            };
            let equal = |place: &usize| memory.mailboxes[*place].counter == counter && counter > 1;
            if let Some(place) = memory.place_of(id).filter(equal) {
                memory.mailboxes[place].counter -= 1;
                let entries = memory.entries_mut().iter_mut();
                for entry in entries.filter(|entry| entry.mailbox == id) {
                    entry.counter = entry.counter.min(counter - 1);
                }
            }
        },
        ..RIGHT
    });
}

/// Gives a mailbox back the counter it had.
fn lowered(kept: &Memory, id: u16, memory: &mut Memory) {
    let had = kept.mailbox(id).map_or(0, |row| row.counter);
    if let Some(place) = memory.place_of(id) {
        memory.mailboxes[place].counter = had;
    }
}

#[test]
fn an_expunge_that_leaves_the_mailbox_s_counter() {
    let wrong = Wrong {
        after: |kept, record, memory| {
            if let Record::Expunge { id, .. } = *record {
                lowered(kept, id, memory);
            }
        },
        ..RIGHT
    };
    noticed(wrong);
    assert!(streams_that_differ(wrong) > 1_000);
}

#[test]
fn the_highest_of_all_mailboxes_shown() {
    noticed(Wrong {
        before: |memory, octets| {
            let highest = memory.rows().iter().map(|row| row.counter).max();
            if octets.starts_with(b"CM") {
                for place in 0..memory.mailbox_count {
                    memory.mailboxes[place].counter = highest.unwrap_or(1);
                }
            }
        },
        after: |kept, record, memory| {
            if let Record::Command { .. } = record {
                memory.mailboxes.clone_from(&kept.mailboxes);
            }
        },
    });
}

#[test]
fn the_mailbox_s_counter_in_a_fetch() {
    noticed(Wrong {
        before: |memory, octets| {
            if octets.starts_with(b"CE") {
                for place in 0..memory.message_count {
                    let row = memory.mailbox(memory.messages[place].mailbox);
                    memory.messages[place].counter = row.map_or(1, |row| row.counter);
                }
            }
        },
        ..RIGHT
    });
}

#[test]
fn a_flag_change_that_leaves_the_message_s_counter() {
    let wrong = Wrong {
        after: |kept, record, memory| {
            let Record::Flags { id, uid, .. } = *record else {
                return;
            };
            let had = kept.message_at(id, uid).map(|place| kept.messages[place]);
            if let (Some(had), Some(place)) = (had, memory.message_at(id, uid)) {
                memory.messages[place].counter = had.counter;
            }
        },
        ..RIGHT
    };
    noticed(wrong);
    assert!(streams_that_differ(wrong) > 1_000);
}

/// No line shows the counter of an expunged message: only the entry does.
#[test]
fn an_expunge_that_sets_the_kept_entry_s_counter() {
    let wrong = Wrong {
        after: |_, record, memory| {
            let Record::Expunge { id, uid, counter } = *record else {
                return;
            };
            if let Some(place) = memory.message_at(id, uid) {
                memory.messages[place].counter = counter;
            }
        },
        ..RIGHT
    };
    assert!(cases_that_differ(wrong).is_empty());
    assert!(streams_that_differ(wrong) > 300);
}

#[test]
fn an_overflow_that_forgets_the_counter() {
    let wrong = Wrong {
        after: |kept, record, memory| {
            if let Record::Message { id, .. }
            | Record::Expunge { id, .. }
            | Record::Flags { id, .. } = *record
            {
                if memory.filled > kept.filled && memory.held().ends_with(b"] stopped\r\n") {
                    lowered(kept, id, memory);
                }
            }
        },
        ..RIGHT
    };
    noticed(wrong);
    assert!(streams_that_differ(wrong) > 50);
}

#[test]
fn the_high_half_dropped_in_reading() {
    noticed(Wrong {
        before: |_, octets| {
            let high = match octets.get(..2) {
                Some(b"MB") if octets.len() > 20 => 16..20,
                Some(b"ME" | b"XP" | b"FL") if octets.len() > 12 => octets.len() - 4..octets.len(),
                _ => return,
            };
            octets[high].fill(0);
        },
        ..RIGHT
    });
}

#[test]
fn ten_digits_written() {
    noticed(Wrong {
        after: |kept, record, memory| {
            let Some(written) = memory.filled.checked_sub(kept.filled) else {
                return;
            };
            if matches!(record, Record::Drained { .. }) || written == 0 {
                return;
            }
            let mut digits = 0;
            let mut short = memory.held().to_vec();
            short.retain(|octet| {
                digits = if octet.is_ascii_digit() {
                    digits + 1
                } else {
                    0
                };
                digits <= 10
            });
            memory.queue[..short.len()].copy_from_slice(&short);
            memory.filled = short.len();
        },
        ..RIGHT
    });
}

#[test]
fn entries_without_their_counter() {
    noticed(Wrong {
        after: |_, _, memory| {
            for entry in memory.entries_mut() {
                entry.counter = 0;
            }
        },
        ..RIGHT
    });
}
