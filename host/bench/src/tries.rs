//! Records of each kind that may be the worst of it, on given memory. Which of them are of the kind there, the answer says.

use crate::lines;
use crate::shape::Shape;
use borjavid::records::{self, Class, Notice};
use reference::memory::*;

/// A record, and what it is in a few words.
pub type Try = (&'static str, Vec<u8>);

pub const KINDS: [&str; 17] = [
    "MB",
    "DL",
    "RN",
    "SB",
    "RT",
    "ME",
    "XP",
    "FL",
    "SE",
    "CE 0",
    "CE 1",
    "CM NOTIFY",
    "CM ESEARCH",
    "CM refused",
    "DR",
    "refused",
    "no record",
];

/// The plainest shape that a record of the kind is taken on: `MB` and `ME` need room.
pub fn plain(kind: &str) -> Shape {
    let mut shape = Shape::PLAIN;
    shape.mailboxes -= usize::from(kind == "MB");
    shape.messages -= usize::from(kind == "ME");
    shape
}

/// Always the same number of them for a kind.
pub fn tries(kind: &str, shape: &Shape, memory: &Memory) -> Vec<Try> {
    let first = memory.mailboxes[0];
    let last = memory.mailboxes[memory.mailbox_count - 1];
    let (spare, name) = shape.spare();
    let name = name.as_octets();
    let owed = Notice::Owed;
    match kind {
        "MB" => vec![(
            "a new name",
            records::create(spare, 0x3F, owed, u32::MAX, COUNTER_MOST, name),
        )],
        "DL" => vec![
            ("the first row", records::delete(first.id, owed)),
            ("the second row", records::delete(second(memory).id, owed)),
        ],
        "RN" => vec![
            ("the first row", records::rename(first.id, owed, name)),
            ("the last row", records::rename(last.id, owed, name)),
        ],
        "SB" => vec![
            ("the last row", records::subscribe(last.id, false, owed)),
            ("the first row", records::subscribe(first.id, false, owed)),
        ],
        "RT" => vec![
            ("rights gone", records::rights(last.id, 0)),
            ("rights come", records::rights(last.id, RIGHTS)),
        ],
        "ME" => vec![("elsewhere", arrival(&first)), ("selected", arrival(&last))],
        "XP" => about_entries(memory, |id, uid| records::expunge(id, uid, COUNTER_MOST)),
        "FL" => about_entries(memory, |id, uid| {
            records::flags(id, uid, FLAG_BITS, COUNTER_MOST)
        }),
        "SE" => vec![
            ("none", records::select(0)),
            ("the first row", records::select(first.id)),
            ("the last row", records::select(last.id)),
        ],
        "CE 0" => vec![("class 0", records::command_ended(Class::Fetch))],
        "CE 1" => vec![("class 1", records::command_ended(Class::Rest))],
        "CM NOTIFY" => lines::notifies(memory),
        "CM ESEARCH" => lines::searches(memory),
        "CM refused" => [
            lines::refused(),
            lines::notifies(memory),
            lines::searches(memory),
        ]
        .concat(),
        "DR" => vec![
            ("nothing", records::drained(0).to_vec()),
            ("one octet", drained(memory, 1)),
            ("half", drained(memory, memory.filled / 2)),
            ("all", drained(memory, memory.filled)),
        ],
        "refused" => [
            refused(memory),
            lines::notifies(memory),
            lines::searches(memory),
        ]
        .concat(),
        _ => vec![
            ("70,000 octets", vec![b'C'; 70_000]),
            (
                "a name with a bad end",
                records::rename(last.id, owed, &bad_end(name)),
            ),
        ],
    }
}

/// Is a record of the kind, as the independent program answered it?
pub fn is_of(kind: &str, refusal: u8, memory: &Memory) -> bool {
    let accepted = memory.held().ends_with(b" done\r\n");
    match kind {
        "no record" => refusal == 2,
        "refused" => refusal > 2,
        "CM NOTIFY" | "CM ESEARCH" => refusal == 0 && accepted,
        "CM refused" => refusal == 0 && !accepted,
        _ => refusal == 0,
    }
}

fn second(memory: &Memory) -> Mailbox {
    memory.mailboxes[1.min(memory.mailbox_count - 1)]
}

fn arrival(row: &Mailbox) -> Vec<u8> {
    records::message(row.id, row.uid_next, FLAG_BITS, u32::MAX, COUNTER_MOST)
}

fn drained(memory: &Memory, count: usize) -> Vec<u8> {
    records::drained(count.min(memory.filled)).to_vec()
}

/// A record for the first and the last entry of the selected mailbox and of the others, as far as there are any.
fn about_entries(memory: &Memory, record: impl Fn(u16, u32) -> Vec<u8>) -> Vec<Try> {
    let selected = |entry: &&Message| entry.mailbox == memory.session.selected;
    let other = |entry: &&Message| entry.mailbox != memory.session.selected;
    let entries = memory.entries().iter();
    let chosen = [
        ("the last selected", entries.clone().rfind(selected)),
        ("the first selected", entries.clone().find(selected)),
        ("the last elsewhere", entries.clone().rfind(other)),
        ("the first elsewhere", entries.clone().find(other)),
    ];
    // an entry that there is not makes a record that is refused
    let id = |entry: Option<&Message>| entry.map_or((0, 0), |entry| (entry.mailbox, entry.uid));
    chosen
        .map(|(word, entry)| (word, record(id(entry).0, id(entry).1)))
        .into()
}

fn refused(memory: &Memory) -> Vec<Try> {
    let last = memory.mailboxes[memory.mailbox_count - 1];
    let held = memory.mailboxes[0].name;
    let free = (1..).find(|&id| memory.mailbox(id).is_none()).unwrap_or(1);
    let owed = Notice::Owed;
    vec![
        (
            "FL of no message",
            records::flags(last.id, UID_MOST, 0, COUNTER_MOST),
        ),
        ("SE of no mailbox", records::select(free)),
        (
            "MB with a name that is held",
            records::create(free, 0x3F, owed, 1, 1, held.as_octets()),
        ),
        (
            "RN to a name that is held",
            records::rename(last.id, owed, held.as_octets()),
        ),
        (
            "ME of an old UID",
            records::message(last.id, 1, 0, 0, COUNTER_MOST),
        ),
        (
            "FL with an old counter",
            records::flags(last.id, last.uid_next - 1, 0, last.counter),
        ),
    ]
}

fn bad_end(name: &[u8]) -> Vec<u8> {
    let mut name = name.to_vec();
    name.truncate(63);
    name.push(b'/');
    name
}
