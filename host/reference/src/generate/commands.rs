//! Command lines from the grammar, most of them lawful, some of them mutated.

use super::pools::name;
use super::searches;
use crate::octets;
use crate::random::Random;

/// A line being written.
pub struct Line<'a> {
    pub out: Vec<u8>,
    pub random: &'a mut Random,
}

impl Line<'_> {
    pub fn put(&mut self, octets: impl AsRef<[u8]>) {
        self.out.extend_from_slice(octets.as_ref());
    }

    /// A word in some case.
    pub fn word(&mut self, word: &str) {
        let style = self.random.below(10);
        for octet in word.bytes() {
            let octet = match style {
                0 => octet.to_ascii_lowercase(),
                1 => octet.to_ascii_uppercase(),
                2 if octet.is_ascii_alphabetic() && self.random.chance(50) => octet ^ 0x20,
                _ => octet,
            };
            self.out.push(octet);
        }
    }

    /// `item` so many times, one space between, in parentheses.
    pub fn list(&mut self, count: usize, mut item: impl FnMut(&mut Self)) {
        self.put("(");
        for place in 0..count {
            if place > 0 {
                self.put(" ");
            }
            item(self);
        }
        self.put(")");
    }

    /// Octets as an atom where they can be one, else quoted.
    pub fn astring(&mut self, octets: &[u8]) {
        let bare = !octets.is_empty() && octets.iter().all(|&octet| octets::astring(octet));
        if bare && self.random.chance(70) {
            return self.put(octets);
        }
        self.put("\"");
        for &octet in octets {
            if matches!(octet, b'"' | b'\\') {
                self.put("\\");
            }
            self.put([octet]);
        }
        self.put("\"");
    }

    fn mailbox(&mut self, short: bool) {
        let odd = [
            &b""[..],
            b"a//b",
            b"Ops/",
            b"nope",
            b"selected",
            b"a]",
            b"\x01\x7f",
        ];
        let octets = if short {
            b"a"
        } else if self.random.chance(8) {
            self.random.pick(&odd)
        } else {
            name(self.random).as_bytes()
        };
        self.astring(octets);
    }

    /// One name or a list of them.
    fn mailboxes(&mut self) {
        match self.random.below(40) {
            0 => {
                let count = self.random.between(15, 18);
                self.list(count, |line| line.mailbox(true))
            }
            1..=12 => {
                let count = self.random.between(1, 4);
                self.list(count, |line| line.mailbox(false))
            }
            _ => self.mailbox(false),
        }
    }

    /// A filter that is not about the selected mailbox.
    pub fn filter(&mut self, search: bool) {
        let filters = [
            "personal",
            "inboxes",
            "subscribed",
            "subtree",
            "mailboxes",
            "mailboxes",
            "subtree-one",
        ];
        let filter = self.random.pick(&filters[..if search { 7 } else { 6 }]);
        self.word(filter);
        if filter.starts_with("subtree") || filter == "mailboxes" {
            self.put(" ");
            self.mailboxes();
        }
    }
}

/// One line, tag and all.
pub fn line(random: &mut Random) -> Vec<u8> {
    let mutated = random.chance(12);
    let mut line = Line {
        out: Vec::new(),
        random,
    };
    tag(&mut line);
    match line.random.below(100) {
        0..=46 => notify_set(&mut line),
        47..=52 => {
            line.word("NOTIFY");
            line.put(" ");
            line.word("NONE");
        }
        53..=96 => searches::search(&mut line),
        97 => line.put("NOOP"),
        98 => line.put("UID ESEARCH ALL"),
        _ => {}
    }
    let mut out = line.out;
    if mutated {
        mutate(random, &mut out);
    }
    out
}

pub fn tag(line: &mut Line) {
    match line.random.below(40) {
        0 => line.put([b't'; 32]),
        1 => line.put([b't'; 33]),
        2 => line.put("+"),
        3 => line.put("a]b"),
        _ => {
            let letter = line.random.pick(b"anstx!~");
            line.put([letter]);
        }
    }
    line.put(" ");
}

fn notify_set(line: &mut Line) {
    set_head(line);
    groups(line);
}

/// What stands before the groups.
pub fn set_head(line: &mut Line) {
    line.word("NOTIFY");
    line.put(" ");
    line.word("SET");
    if line.random.chance(50) {
        line.put(" ");
        line.word("STATUS");
    }
}

/// The groups of a NOTIFY SET.
pub fn groups(line: &mut Line) {
    // a free line may break the rules beside the grammar
    let free = line.random.chance(20);
    if line.random.chance(65) {
        line.put(" (");
        let filter = line
            .random
            .pick(&["selected", "selected", "selected-delayed"]);
        line.word(filter);
        line.put(" ");
        events(line, true, free);
        line.put(")");
        if !line.random.chance(60) {
            return;
        }
    }
    let most = if line.random.chance(4) { 9 } else { 3 };
    for _ in 0..line.random.between(1, most) {
        line.put(" (");
        if free && line.random.chance(10) {
            line.word("selected");
        } else {
            let foreign = free && line.random.chance(10);
            line.filter(foreign);
        }
        line.put(" ");
        events(line, false, free);
        line.put(")");
    }
}

fn events(line: &mut Line, selected: bool, free: bool) {
    if line.random.chance(8) {
        return line.word("NONE");
    }
    if free {
        let count = line.random.between(1, 5);
        return line.list(count, any_event);
    }
    let mut wanted: Vec<&str> = Vec::new();
    if selected || line.random.chance(60) {
        wanted.extend(["MessageNew", "MessageExpunge"]);
        if line.random.chance(50) {
            wanted.push("FlagChange");
        }
    }
    if !selected && (wanted.is_empty() || line.random.chance(40)) {
        wanted.push("MailboxName");
    }
    if !selected && line.random.chance(30) {
        wanted.push("SubscriptionChange");
    }
    let turn = line.random.below(wanted.len());
    wanted.rotate_left(turn);
    let mut next = wanted.iter();
    line.list(wanted.len(), |line| {
        let Some(event) = next.next() else { return };
        line.word(event);
        if selected && *event == "MessageNew" && line.random.chance(50) {
            line.put(" ");
            attributes(line, false);
        }
    });
}

fn any_event(line: &mut Line) {
    let event = line.random.pick(&[
        "MessageNew",
        "MessageNew",
        "MessageExpunge",
        "MessageExpunge",
        "FlagChange",
        "AnnotationChange",
        "MailboxName",
        "SubscriptionChange",
        "MailboxMetadataChange",
        "ServerMetadataChange",
        "NONE",
        "Foo",
    ]);
    line.word(event);
    if event == "MessageNew" && line.random.chance(30) || line.random.chance(1) {
        line.put(" ");
        attributes(line, true);
    }
}

fn attributes(line: &mut Line, free: bool) {
    let served = ["UID", "FLAGS", "RFC822.SIZE", "uid", "Flags", "rfc822.size"];
    let others = [
        "ENVELOPE",
        "INTERNALDATE",
        "RFC822",
        "RFC822.HEADER",
        "RFC822.TEXT",
        "BODY",
        "BODYSTRUCTURE",
        "BODY[]",
        "body[1]",
        "BODY[1.2.MIME]",
        "BODY[MIME]",
        "BODY[TEXT]<0.10>",
        "BODY.PEEK[HEADER]",
        "BODY.PEEK[HEADER.FIELDS (from \"to\" a])]<007.1>",
        "BODY[3.HEADER.FIELDS.NOT (x)]",
        "BODY[]<0.0>",
        "BODY[0]",
        "BODY[1.]",
        "BODY[4294967296]",
        "BODY.PEEK",
        "MODSEQ",
        "ALL",
        "FAST",
    ];
    let count = line.random.between(1, 3);
    line.list(count, |line| {
        let strange = line.random.chance(if free { 50 } else { 4 });
        let attribute = if strange {
            line.random.pick(&others)
        } else {
            line.random.pick(&served)
        };
        line.put(attribute);
    });
}

/// A few small wounds anywhere in the line.
fn mutate(random: &mut Random, out: &mut Vec<u8>) {
    const OCTETS: &[u8] = b"() \"\\*%{]+:,.-019aUN\x00\x01\r\n\x7f\x80/[<>";
    for _ in 0..random.between(1, 3) {
        let place = random.below(out.len() + 1);
        let octet = random.pick(OCTETS);
        match random.below(5) {
            0 => out.insert(place, octet),
            1 if place < out.len() => {
                out.remove(place);
            }
            2 if place < out.len() => out[place] = octet,
            3 if place < out.len() => {
                let again = out[place];
                out.insert(place, again);
            }
            _ if random.chance(30) => out.truncate(place),
            _ => out.push(octet),
        }
    }
}
