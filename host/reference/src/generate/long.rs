//! Command lines of 1,000 to 1,024 octets: a usual line with one part of it drawn out, and what follows that part far behind.

use super::commands::{groups, set_head, tag, Line};
use super::pools::name;
use super::searches::{behind_sources, key};
use crate::random::Random;

const LEAST: usize = 1000;
const MOST: usize = 1024;

/// One line, tag and all; some have a wound, none changes its length by it.
pub fn line(random: &mut Random) -> Vec<u8> {
    loop {
        let wounded = random.chance(12);
        let mut line = Line {
            out: Vec::new(),
            random,
        };
        tag(&mut line);
        if line.random.chance(45) {
            notify(&mut line);
        } else {
            search(&mut line);
        }
        let mut out = line.out;
        if wounded {
            wound(random, &mut out);
        }
        // what was to follow was too long by itself
        if (LEAST..=MOST).contains(&out.len()) {
            return out;
        }
    }
}

fn wound(random: &mut Random, out: &mut [u8]) {
    let place = random.below(out.len());
    out[place] = random.pick(b"() \"\\*%:,019aN\x00\x01\r\n\x7f\x80/[");
}

/// What `write` writes, taken off the line again.
fn aside(line: &mut Line, write: impl FnOnce(&mut Line)) -> Vec<u8> {
    let start = line.out.len();
    write(line);
    line.out.split_off(start)
}

/// How many octets a part may have, if so many come before and behind it.
fn room(line: &mut Line, behind: usize) -> usize {
    let goal = line.random.between(LEAST, MOST);
    goal.saturating_sub(line.out.len() + behind)
}

/// NOTIFY SET: a long group, then usual ones.
fn notify(line: &mut Line) {
    set_head(line);
    let rest = aside(line, groups);
    match line.random.below(4) {
        0 => {
            let room = room(line, rest.len() + " (mailboxes  NONE)".len());
            line.put(" (mailboxes ");
            long_name(line, room);
            line.put(" NONE)");
        }
        1 => {
            let room = room(line, rest.len() + " (subtree  (MailboxName))".len());
            line.put(" (subtree ");
            long_names(line, room);
            line.put(" (MailboxName))");
        }
        2 => {
            let room = room(line, rest.len() + " (personal ())".len());
            line.put(" (personal (");
            let pairs = ["MessageNew MessageExpunge", "MailboxName"];
            long_row(line, room, &pairs);
            line.put("))");
        }
        _ => {
            let tail = ") MessageExpunge))";
            let room = room(
                line,
                rest.len() + " (selected (MessageNew (".len() + tail.len(),
            );
            line.put(" (selected (MessageNew (");
            long_row(line, room, &["UID", "FLAGS", "RFC822.SIZE"]);
            line.put(tail);
        }
    }
    line.put(rest);
}

/// ESEARCH: long sources, then the usual rest, or one long key before it.
fn search(line: &mut Line) {
    line.word("ESEARCH");
    let free = line.random.chance(15);
    let rest = aside(line, |line| behind_sources(line, free));
    let last = aside(line, |line| key(line, 2, free));
    match line.random.below(6) {
        0 => {
            let room = room(line, rest.len() + " IN (mailboxes )".len());
            line.put(" IN (mailboxes ");
            long_name(line, room);
            line.put(")");
            line.put(rest);
        }
        1 | 2 => {
            let more = aside(line, |line| line.filter(true));
            let room = room(line, rest.len() + " IN (subtree-one  )".len() + more.len());
            line.put(" IN (subtree-one ");
            long_names(line, room);
            line.put(" ");
            line.put(more);
            line.put(")");
            line.put(rest);
        }
        3 => {
            let room = room(line, " LARGER  ".len() + last.len());
            line.put(" LARGER ");
            line.put(vec![b'0'; room.saturating_sub(1)]);
            line.put("7 ");
            line.put(last);
        }
        4 => {
            let room = room(line, " ".len() + last.len());
            line.put(" ");
            line.put(vec![b'('; room / 2]);
            line.put(last);
            line.put(vec![b')'; room / 2]);
        }
        _ => {
            let room = room(line, " FROM  ".len() + last.len());
            line.put(" FROM ");
            long_name(line, room);
            line.put(" ");
            line.put(last);
        }
    }
}

/// A quoted string of so many octets; as a name it is too long.
fn long_name(line: &mut Line, room: usize) {
    line.put("\"");
    line.put(vec![b'n'; room.saturating_sub(2)]);
    line.put("\"");
}

/// Up to sixteen names in parentheses, the last of which fills the room.
fn long_names(line: &mut Line, room: usize) {
    let end = line.out.len() + room;
    line.put("(");
    for _ in 0..line.random.between(1, 15) {
        let octets = name(line.random).as_bytes();
        line.astring(octets);
        line.put(" ");
        if line.out.len() + 80 > end {
            break;
        }
    }
    let left = end.saturating_sub(line.out.len() + 1);
    long_name(line, left);
    line.put(")");
}

/// Words with a space between them until the room is used up.
fn long_row(line: &mut Line, room: usize, words: &[&str]) {
    let end = line.out.len() + room;
    line.put(words[0]);
    for word in words.iter().cycle().skip(1) {
        if line.out.len() + 1 + word.len() > end {
            return;
        }
        line.put(" ");
        line.put(word);
    }
}
