//! LIST, LSUB and STATUS.

use super::{done, End, Run};
use crate::flags::SEEN;
use crate::names;
use crate::parse::{bad, quoted, Read, Reader};
use crate::store::Mailbox;
use std::collections::BTreeMap;

/// What a LIST asks for.
#[derive(Default)]
struct Asked {
    patterns: Vec<String>,
    /// Only what is subscribed to.
    subscribed: bool,
    /// Where a pattern ends with `%`, names above those listed too, with \Noselect if they are not listed themselves.
    parents: bool,
    /// Says of each whether it is.
    shows: bool,
    /// A STATUS of each with these.
    status: Vec<String>,
}

impl Run<'_> {
    pub(super) fn list(&mut self, word: &str, reader: &mut Reader) -> Read<End> {
        let mut asked = asked(reader)?;
        if asked.patterns == [""] {
            self.line(&format!("* {word} (\\Noselect) \"/\" \"\""));
            return done();
        }
        asked.parents = word == "LSUB" || !asked.subscribed;
        asked.subscribed |= word == "LSUB";
        for line in self.list_lines(word, &asked)? {
            self.line(&line);
        }
        done()
    }

    fn list_lines(&self, word: &str, asked: &Asked) -> Read<Vec<String>> {
        let mut lines = Vec::new();
        for (name, mailbox) in self.listed(asked) {
            let attributes = match mailbox {
                Some(mailbox) => self.list_attributes(mailbox, asked),
                None => "\\Noselect \\HasChildren".into(),
            };
            lines.push(format!("* {word} ({attributes}) \"/\" {}", quoted(&name)));
            let read = mailbox.filter(|m| m.may(&self.user, 'r'));
            if let Some(mailbox) = read.filter(|_| !asked.status.is_empty()) {
                lines.push(self.status_line(mailbox, &asked.status)?);
            }
        }
        Ok(lines)
    }

    /// Names in their order, none of them twice. One without a mailbox stands above a mailbox that the user may list, and
    /// whether there is a hidden one of that name makes no difference.
    fn listed(&self, asked: &Asked) -> BTreeMap<String, Option<&Mailbox>> {
        let like = |name: &str| asked.patterns.iter().any(|p| names::is_like(name, p));
        let open: Vec<&str> = (asked.patterns.iter().map(|p| &p[..]))
            .filter(|p| asked.parents && p.ends_with('%'))
            .collect();
        let above = |name: &String| open.iter().any(|p| names::is_like(name, p));
        let all: Vec<&Mailbox> = (self.store().visible(&self.user))
            .filter(|m| m.may(&self.user, 'l'))
            .filter(|m| !asked.subscribed || m.subscribers.contains(&self.user))
            .collect();
        let parents = all.iter().flat_map(|m| names::parents(&m.name));
        let parents = parents.filter(above).map(|name| (name, None));
        let mailboxes = all.iter().filter(|m| like(&m.name));
        let mailboxes = mailboxes.map(|&m| (m.name.clone(), Some(m)));
        parents.chain(mailboxes).collect()
    }

    /// Children count where the user may list them.
    fn list_attributes(&self, mailbox: &Mailbox, asked: &Asked) -> String {
        let is_child =
            |m: &Mailbox| names::is_beneath(&m.name, &mailbox.name) && m.may(&self.user, 'l');
        let mut attributes = match self.store().visible(&self.user).any(is_child) {
            true => "\\HasChildren".to_string(),
            false => "\\HasNoChildren".to_string(),
        };
        if !mailbox.may(&self.user, 'r') {
            attributes += " \\NoAccess";
        }
        if (asked.shows || asked.subscribed) && mailbox.subscribers.contains(&self.user) {
            attributes += " \\Subscribed";
        }
        attributes
    }

    pub(super) fn status(&mut self, reader: &mut Reader) -> Read<End> {
        reader.space()?;
        let name = reader.mailbox()?;
        reader.space()?;
        let items = reader.list(|reader| reader.word())?;
        reader.end()?;
        let line = self.status_line(self.find(&name, 'r')?, &items)?;
        self.line(&line);
        done()
    }

    fn status_line(&self, mailbox: &Mailbox, items: &[String]) -> Read<String> {
        let unseen = mailbox.messages.iter().filter(|m| m.flags & SEEN == 0);
        let mut values = Vec::new();
        for item in items {
            let value = match item.as_str() {
                "MESSAGES" => mailbox.messages.len() as u64,
                "RECENT" => 0,
                "UIDNEXT" => mailbox.uid_next.into(),
                "UIDVALIDITY" => mailbox.uid_validity.into(),
                "UNSEEN" => unseen.clone().count() as u64,
                "HIGHESTMODSEQ" => {
                    self.state().condstore = true;
                    mailbox.counter
                }
                _ => return bad("no such status item"),
            };
            values.push(format!("{item} {value}"));
        }
        let name = quoted(&mailbox.name);
        Ok(format!("* STATUS {name} ({})", values.join(" ")))
    }
}

/// `[(select)] reference pattern [RETURN (..)]`, with what RFC 5258 and RFC 5819 add for clients that watch many folders.
fn asked(reader: &mut Reader) -> Read<Asked> {
    reader.space()?;
    let mut asked = Asked::default();
    if reader.peek() == b'(' {
        let words = reader.list(|reader| reader.word())?;
        asked.subscribed = words.iter().any(|word| word == "SUBSCRIBED");
        reader.space()?;
    }
    let reference = reader.astring()?;
    reader.space()?;
    let patterns = match reader.peek() {
        b'(' => reader.list(|reader| reader.pattern())?,
        _ => vec![reader.pattern()?],
    };
    let full = |pattern| names::fold(&format!("{reference}{pattern}"));
    asked.patterns = match patterns[..] == [""] {
        true => patterns,
        false => patterns.iter().map(full).collect(),
    };
    if reader.eat(b' ') {
        returned(reader, &mut asked)?;
    }
    reader.end()?;
    Ok(asked)
}

fn returned(reader: &mut Reader, asked: &mut Asked) -> Read<()> {
    if !reader.has_word("RETURN") {
        return bad("RETURN is missing");
    }
    reader.space()?;
    reader.list(|reader| {
        match reader.word()?.as_str() {
            "SUBSCRIBED" => asked.shows = true,
            "STATUS" => {
                reader.space()?;
                asked.status = reader.list(|reader| reader.word())?;
            }
            _ => {}
        }
        Ok(())
    })?;
    Ok(())
}
