//! Names above and beneath those that are in the table, and groups that ask for them, so that what comes and goes has parents of
//! every kind, and somebody hears of them.

use super::commands::Line;
use super::pools;
use crate::memory::Memory;
use crate::names::{Name, NAME_OCTETS};
use crate::random::Random;

/// The name above that of some row, or one beneath it, if there is one.
pub fn relative(random: &mut Random, memory: &Memory) -> Option<Vec<u8>> {
    let row = memory.rows().get(random.below(memory.mailbox_count))?;
    if random.chance(45) {
        return Some(row.name.parent()?.as_octets().to_vec());
    }
    child(random, &row.name)
}

/// A name one level down. INBOX may stand there in any case, since only a whole name is folded.
fn child(random: &mut Random, name: &Name) -> Option<Vec<u8>> {
    let top: &[u8] = match name.as_octets() {
        b"INBOX" => random.pick(&[&b"INBOX"[..], b"iNbox", b"inbox"]),
        octets => octets,
    };
    let last: &[u8] = random.pick(&[&b"x"[..], b"b", b"c", b"Mains"]);
    let octets = [top, b"/", last].concat();
    Some(octets).filter(|octets| octets.len() <= NAME_OCTETS)
}

/// A name of the table or the one above it; any where the table is empty.
fn known(random: &mut Random, memory: &Memory) -> Vec<u8> {
    let Some(row) = memory.rows().get(random.below(memory.mailbox_count)) else {
        return pools::name(random).as_bytes().to_vec();
    };
    let name = match row.name.parent() {
        Some(parent) if random.chance(65) => parent,
        _ => row.name,
    };
    name.as_octets().to_vec()
}

/// A NOTIFY SET whose groups are about the table's names and those above them.
pub fn notify(random: &mut Random, memory: &Memory) -> Vec<u8> {
    let mut line = Line {
        out: b"n NOTIFY SET".to_vec(),
        random,
    };
    if line.random.chance(25) {
        line.put(" (selected (MessageNew MessageExpunge))");
    }
    for _ in 0..line.random.between(1, 3) {
        line.put(" (");
        selector(&mut line, memory);
        let events: &str = line.random.pick(&[
            "MailboxName",
            "MailboxName",
            "MailboxName SubscriptionChange",
            "SubscriptionChange",
        ]);
        line.put(format!(" ({events}))"));
    }
    line.out
}

fn selector(line: &mut Line, memory: &Memory) {
    let words = [
        "personal",
        "inboxes",
        "subscribed",
        "subtree",
        "subtree",
        "mailboxes",
        "mailboxes",
    ];
    let word = line.random.pick(&words);
    line.put(word);
    if matches!(word, "subtree" | "mailboxes") {
        line.put(" ");
        let count = line.random.between(1, 4);
        line.list(count, |line| {
            let name = known(line.random, memory);
            line.astring(&name);
        });
    }
}
