//! What lies above a mailbox that comes or goes, and what is written of it: for counting what streams show.

use super::contains;
use reference::lines::quoted;
use reference::memory::*;
use reference::names::Name;
use reference::records::{read, Record};
use reference::{Answer, Memory};
use std::collections::BTreeMap;

/// By kind of parent, and by what was written.
pub type Tally = BTreeMap<(&'static str, &'static str), usize>;

/// A mailbox that comes or goes, with its attributes on the side where it is.
struct Event {
    name: Name,
    attributes: u8,
    quiet: bool,
}

fn event(memory: &Memory, record: &Record) -> Option<Event> {
    let (name, attributes, quiet) = match *record {
        Record::Create {
            attributes,
            name,
            quiet,
            ..
        } => (name, attributes, quiet),
        Record::Delete { id, quiet } => {
            let row = memory.mailbox(id)?;
            (row.name, row.attributes, quiet)
        }
        Record::Rights { id, rights } => {
            let row = memory.mailbox(id)?;
            let seen = match (row.has(LOOKUP), rights & LOOKUP != 0) {
                (false, true) => row.attributes & !RIGHTS | rights,
                (true, false) => row.attributes,
                _ => return None,
            };
            (row.name, seen, false)
        }
        _ => return None,
    };
    Some(Event {
        name,
        attributes,
        quiet,
    })
}

/// Every word that fits the parent.
fn kinds(memory: &Memory, child: &Name) -> Vec<&'static str> {
    let Some(parent) = child.parent() else {
        return vec!["none"];
    };
    let mut kinds = Vec::new();
    match memory.holder_of(&parent) {
        None => kinds.push("absent"),
        Some(row) => {
            kinds.push(match row.attributes & RIGHTS {
                0 => "hidden",
                READ => "unlisted",
                LOOKUP => "unreadable",
                _ => "listed",
            });
            if row.has(LOOKUP) && !row.has(SELECTABLE) {
                kinds.push("unselectable");
            }
            if row.id == memory.session.selected {
                let listed = row.has(LOOKUP);
                kinds.push(if listed {
                    "selected"
                } else {
                    "selected, unlisted"
                });
            }
        }
    }
    if parent.parent().is_some() {
        kinds.push("itself a child");
    }
    if parent.as_octets() == b"INBOX" {
        let folded = !child.as_octets().starts_with(b"INBOX");
        kinds.push(if folded { "INBOX, folded" } else { "INBOX" });
    }
    kinds
}

/// Is there a LIST line of this name?
fn lists(written: &[u8], name: &Name) -> bool {
    let mut shown = Vec::new();
    quoted(&mut shown, name.as_octets());
    let line = format!(") \"/\" {}\r\n", String::from_utf8(shown).expect("ASCII"));
    contains(written, &line)
}

/// Counts one call: the memory is that before it.
pub fn count(tally: &mut Tally, memory: &Memory, octets: &[u8], answer: Answer, written: &[u8]) {
    let record = read(octets).filter(|_| answer.refusal == 0);
    let Some(event) = record.and_then(|record| event(memory, &record)) else {
        return;
    };
    let parent = event.name.parent();
    let own = lists(written, &event.name);
    let above = parent.is_some_and(|parent| lists(written, &parent));
    let told = match (own, above) {
        (true, true) => "both",
        (true, false) => "own alone",
        (false, true) => "parent's alone",
        _ if contains(written, "] stopped\r\n") => "overflow",
        _ if event.quiet => "quiet",
        _ if event.attributes & RIGHTS != RIGHTS => "right missing",
        _ => "nothing",
    };
    for kind in kinds(memory, &event.name) {
        *tally.entry((kind, told)).or_default() += 1;
    }
}

/// Each of these came up so often.
#[track_caller]
pub fn shown(tally: &Tally, least: usize, listed: &[(&'static str, &'static str)]) {
    println!("{tally:#?}");
    for pair in listed {
        let times = tally.get(pair).copied().unwrap_or(0);
        assert!(times >= least, "{pair:?}: {times}");
    }
}
