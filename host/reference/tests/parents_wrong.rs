//! Programs that go wrong about the parent of a mailbox that comes or goes: a case has to notice each, and so has the account.

mod support;

use reference::account::{whole_lines, Account, Call};
use reference::generate::Generator;
use reference::memory::{Mailbox, LOOKUP, READ};
use reference::records::{read, Record};
use reference::Memory;
use support::observe;
use support::wrong::{noticed_by, Wrong, RIGHT};

#[track_caller]
fn noticed(wrong: Wrong) {
    noticed_by(["(Parent ", "cr02/"], wrong)
}

/// Changes the lines that a record wrote which makes a mailbox come or go.
fn rewrite(kept: &Memory, record: &Record, memory: &mut Memory, change: fn(&mut Vec<Vec<u8>>)) {
    let about = matches!(
        record,
        Record::Create { .. } | Record::Delete { .. } | Record::Rights { .. }
    );
    if !about || memory.filled == kept.filled {
        return;
    }
    let written = memory.held()[kept.filled..].to_vec();
    let mut lines = whole_lines(&written)
        .iter()
        .map(|line| line.to_vec())
        .collect();
    change(&mut lines);
    memory.filled = kept.filled;
    memory.append(&lines.concat());
}

#[test]
fn no_line_behind_the_mailbox_s() {
    noticed(Wrong {
        after: |kept, record, memory| rewrite(kept, record, memory, |lines| lines.truncate(1)),
        ..RIGHT
    });
}

#[test]
fn the_parent_s_line_first() {
    noticed(Wrong {
        after: |kept, record, memory| rewrite(kept, record, memory, |lines| lines.reverse()),
        ..RIGHT
    });
}

#[test]
fn a_parent_told_as_the_child() {
    noticed(Wrong {
        after: |kept, record, memory| {
            rewrite(kept, record, memory, |lines| {
                let [own, parent] = &mut lines[..] else {
                    return;
                };
                let mark = |line: &[u8]| line.iter().position(|&octet| octet == b')');
                if let (Some(end), Some(other)) = (mark(own), mark(parent)) {
                    let moved = [&own[..end], &parent[other..]].concat();
                    *parent = moved;
                }
            })
        },
        ..RIGHT
    });
}

/// Alters the rows that a record is not about while it runs, and puts them back behind it.
fn altered(memory: &mut Memory, octets: &[u8], alter: fn(&mut Mailbox)) {
    let Some(id) = changed(read(octets)) else {
        return;
    };
    let rows = memory.mailbox_count;
    let others = memory.mailboxes[..rows].iter_mut();
    others.filter(|row| row.id != id).for_each(alter);
}

fn put_back(kept: &Memory, record: &Record, memory: &mut Memory) {
    let id = changed(Some(*record));
    for place in 0..memory.mailbox_count {
        let row = &mut memory.mailboxes[place];
        if let Some(other) = kept.mailbox(row.id).filter(|row| Some(row.id) != id) {
            row.attributes = other.attributes;
        }
    }
}

fn changed(record: Option<Record>) -> Option<u16> {
    match record? {
        Record::Create { id, .. } | Record::Delete { id, .. } | Record::Rights { id, .. } => {
            Some(id)
        }
        _ => None,
    }
}

#[test]
fn an_unlisted_parent_told_as_a_listed_one() {
    noticed(Wrong {
        before: |memory, octets| altered(memory, octets, |row| row.attributes |= LOOKUP),
        after: |kept, record, memory| {
            if changed(Some(*record)).is_some() {
                put_back(kept, record, memory);
            }
        },
    });
}

#[test]
fn an_unreadable_parent_told_as_absent() {
    noticed(Wrong {
        before: |memory, octets| {
            altered(memory, octets, |row| {
                if !row.has(READ) {
                    row.attributes &= !LOOKUP;
                }
            })
        },
        after: |kept, record, memory| {
            if changed(Some(*record)).is_some() {
                put_back(kept, record, memory);
            }
        },
    });
}

/// A rename that tells of the parent, as if the mailbox had come there.
#[test]
fn a_rename_that_tells_of_the_parent() {
    noticed(Wrong {
        after: |kept, record, memory| {
            let Record::Rename { name, .. } = *record else {
                return;
            };
            if let Some(parent) = name.parent().filter(|_| memory.filled > kept.filled) {
                let name = String::from_utf8_lossy(parent.as_octets()).to_string();
                memory.append(format!("* LIST () \"/\" \"{name}\"\r\n").as_bytes());
            }
        },
        ..RIGHT
    });
}

/// Parents above the direct one.
#[test]
fn a_grandparent_told_of() {
    noticed(Wrong {
        after: |kept, record, memory| {
            rewrite(kept, record, memory, |lines| {
                let last = lines
                    .last()
                    .map(|line| String::from_utf8_lossy(line).to_string());
                let cut = last.and_then(|line| {
                    let (rest, _) = line.strip_suffix("\"\r\n")?.rsplit_once('/')?;
                    (rest.matches('"').count() == 3).then(|| format!("{rest}\"\r\n"))
                });
                lines.extend(cut.map(String::into_bytes));
            })
        },
        ..RIGHT
    });
}

/// What the account says of the lines with which a call is entered instead of its own.
fn faults(account: &Account, call: &Call, lines: &[&[u8]]) -> usize {
    let written = lines.concat();
    let spoiled = Call {
        written: &written,
        ..*call
    };
    account.clone().enter(&spoiled).len()
}

/// The account misses either of two lines, the order of both, and one that is too many.
#[test]
fn the_account_notices_a_parent_untold() {
    let mut tried = 0;
    for seed in 0..3_000 {
        let mut generator = Generator::new(seed);
        let mut memory = Memory::new(8192, 64, 1024);
        let mut account = Account::new(8192);
        for _ in 0..100 {
            let octets = generator.propose(&memory);
            let (answer, written) = observe(&mut memory, &octets);
            let call = Call {
                octets: &octets,
                answer,
                written: &written,
            };
            let lines = whole_lines(&written);
            let about = matches!(octets.get(..2), Some(b"MB" | b"DL" | b"RT"));
            if let ([own, parent], true) = (&lines[..], about) {
                tried += 1;
                for wrong in [
                    &[*own][..],
                    &[parent],
                    &[parent, own],
                    &[own, parent, parent],
                ] {
                    assert!(faults(&account, &call, wrong) > 0, "stream {seed}");
                }
            }
            assert_eq!(account.enter(&call), []);
        }
    }
    println!("{tried} calls with two lines");
    assert!(tried > 500);
}
