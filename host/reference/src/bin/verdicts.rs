//! `verdicts < LINES`: for each command line (a length in four octets, little-endian, and that many octets) one line that
//! says what was read: the tag's length or 0, `N`, `S` or `-` for NOTIFY, ESEARCH or neither, the number of the answer
//! with no mailbox selected and with one, and what an accepted command asks for, as numbers: groups or sources with their
//! names, results, keys.

use reference::command::keys::{Key, Keys};
use reference::command::{read, split, Command, Verdict};
use reference::lines::{ALL, COUNT, MAX, MIN};
use reference::memory::*;
use std::fmt::Write as _;
use std::io::{self, BufWriter, Read, Write};

fn main() -> io::Result<()> {
    let mut input = Vec::new();
    io::stdin().read_to_end(&mut input)?;
    let mut out = BufWriter::new(io::stdout().lock());
    let mut rest = &input[..];
    while let Some((length, after)) = rest.split_first_chunk::<4>() {
        let length = (u32::from_le_bytes(*length) as usize).min(after.len());
        let (line, after) = after.split_at(length);
        writeln!(out, "{}", said(line))?;
        rest = after;
    }
    out.flush()
}

fn said(line: &[u8]) -> String {
    let tagged = split(line);
    let tag = tagged.map_or(0, |(tag, _)| tag.len());
    match tagged.and_then(|(_, rest)| read(rest)) {
        None => format!("{tag} - 1 1"),
        Some(command) => {
            let (none, some) = (command.verdict(false), command.verdict(true));
            let letter = match command {
                Command::Search(_) => 'S',
                _ => 'N',
            };
            let mut text = format!("{tag} {letter} {} {}", number(none), number(some));
            if some == Verdict::Ok {
                asked(&command, &mut text);
            }
            text
        }
    }
}

fn number(verdict: Verdict) -> u8 {
    match verdict {
        Verdict::Bad => 1,
        Verdict::BadEvent => 2,
        Verdict::Unsupported => 3,
        Verdict::BadCharset => 4,
        Verdict::TooLarge => 5,
        Verdict::Ok => 6,
    }
}

fn asked(command: &Command, text: &mut String) {
    match command {
        Command::NotifyNone => text.push_str(" none"),
        Command::NotifySet(notify) => {
            write!(text, " {}", u8::from(notify.status)).unwrap();
            filters(&notify.filters.groups, text);
        }
        Command::Search(search) => {
            sources(&search.sources.groups, text);
            let wanted = |bit| u8::from(search.wanted & bit != 0);
            write!(
                text,
                " {}{}{}{}",
                wanted(MIN),
                wanted(MAX),
                wanted(ALL),
                wanted(COUNT)
            )
            .unwrap();
            for cell in cells(&search.keys, 0, search.keys.nodes.len()) {
                write!(text, " {cell}").unwrap();
            }
        }
    }
}

/// Each group as its five numbers, then each name in hexadecimal.
fn filters(groups: &Groups, text: &mut String) {
    for group in groups.used() {
        write!(
            text,
            " {},{},{},{},{}",
            selector(group.selector),
            group.first_name,
            group.name_count,
            events(group.events),
            group.attributes
        )
        .unwrap();
    }
    names(groups, text);
}

/// Each source as its scope, the place of its first name and how many names it has, then each name. A source without names
/// stands where the next name would.
fn sources(sources: &Groups, text: &mut String) {
    let mut next = 0;
    for source in sources.used() {
        let first = if source.name_count == 0 {
            next
        } else {
            source.first_name
        };
        next = first + source.name_count;
        let scope = scope(source.selector);
        write!(text, " {scope},{first},{}", source.name_count).unwrap();
    }
    names(sources, text);
}

/// Each name in hexadecimal.
fn names(groups: &Groups, text: &mut String) {
    for name in &groups.name[..usize::from(groups.name_count)] {
        text.push_str(" /");
        for octet in &name.octets[..usize::from(name.len)] {
            write!(text, "{octet:02x}").unwrap();
        }
    }
}

/// The number of a group's selector.
fn selector(selector: u8) -> u8 {
    place(
        selector,
        &[
            IS_SELECTED,
            IS_DELAYED,
            IS_INBOXES,
            IS_PERSONAL,
            IS_SUBSCRIBED,
            IS_SUBTREE,
            IS_MAILBOXES,
        ],
    )
}

/// The number of a source's scope.
fn scope(selector: u8) -> u8 {
    place(
        selector,
        &[
            IS_SELECTED,
            IS_DELAYED,
            IS_INBOXES,
            IS_PERSONAL,
            IS_SUBSCRIBED,
            IS_SUBTREE,
            IS_LEVEL,
            IS_MAILBOXES,
        ],
    )
}

fn place(selector: u8, order: &[u8]) -> u8 {
    order
        .iter()
        .position(|&known| known == selector)
        .expect("a selector") as u8
}

fn events(events: u8) -> u8 {
    [NEW, EXPUNGE, FLAGS, MAILBOX_NAME, SUBSCRIPTION]
        .iter()
        .enumerate()
        .map(|(place, &bit)| u8::from(events & bit != 0) << place)
        .sum()
}

/// The keys from one place up to another as numbers, each key before what it holds; one that holds keys says how many
/// numbers these are.
fn cells(keys: &Keys, from: usize, upto: usize) -> Vec<u64> {
    let mut all = Vec::new();
    let mut place = from;
    while place < upto {
        let node = keys.nodes[place];
        let inside = || cells(keys, place + 1, node.end);
        let holding = |kind: u64| {
            let inside = inside();
            [vec![kind, inside.len() as u64], inside].concat()
        };
        let set = |kind: u64, first: usize, end: usize| {
            let parts = &keys.parts[first..end];
            let bounds = parts
                .iter()
                .flat_map(|part| [u64::from(part.0), u64::from(part.1)]);
            [kind, parts.len() as u64]
                .into_iter()
                .chain(bounds)
                .collect::<Vec<u64>>()
        };
        all.extend(match node.key {
            Key::All => vec![1],
            Key::Flag(bits, on) => vec![2, u64::from(bits.trailing_zeros()), u64::from(on)],
            Key::Larger(size) => vec![3, u64::from(size)],
            Key::Smaller(size) => vec![4, u64::from(size)],
            Key::Uids(first, end) => set(5, first, end),
            Key::Numbers(first, end) => set(6, first, end),
            Key::Foreign => vec![7],
            Key::Not => holding(8),
            Key::Or => holding(9),
            Key::List => holding(10),
        });
        place = node.end;
    }
    all
}
