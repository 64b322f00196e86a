//! NOTIFY and ESEARCH: the line goes to the library as it came, and its answer comes out of the queue.

use super::{class, no, End, Run};
use crate::adapt;
use crate::parse::{bad, without_literals, Read, Stop};
use crate::push::{records, Answer, Refusal};

/// The longest tag that the library answers by.
const TAG: usize = 32;

impl Run<'_> {
    pub(super) fn ask_library(&mut self, word: &str, command: &[u8]) -> Read<End> {
        let line = without_literals(command).ok_or(Stop::Bad("such a literal can't be here"))?;
        // the library would answer by `*`, and the client wait for its tag
        if self.tag.len() > TAG {
            return bad("the tag is longer than 32 octets");
        }
        let set = sets(&line);
        if self.state().outgrown {
            match word {
                "ESEARCH" => return no("[LIMIT] account too large"),
                _ if set => return no("[NOTIFICATIONOVERFLOW] account too large"),
                _ => {}
            }
        }
        let (line, more) = match set && self.store().options.adapt {
            true => adapt::narrowed(line),
            false => (line, Vec::new()),
        };
        loop {
            match self.ask(word, &line) {
                // a client that is behind gets its answer when there is room for it
                None | Some(Answer::Refused(Refusal::NoRoom)) => self.pause()?,
                Some(Answer::Refused(_)) => return bad("longer than 1,024 octets"),
                Some(_) => break,
            }
        }
        let mut state = self.state();
        let state = &mut *state;
        if let Some(adapted) = state.adapted.as_mut().filter(|_| word == "NOTIFY") {
            adapted.asked(&state.push, self.tag, more);
        }
        Ok(End::Told)
    }

    /// What is owed goes before the answer. None while that finds no room.
    fn ask(&self, word: &str, line: &[u8]) -> Option<Answer> {
        let mut state = self.state();
        if state.owes(self.store(), class(word)) > 0 {
            return None;
        }
        Some(state.call(self.store(), &records::command(line)))
    }
}

/// Whether the line is a NOTIFY SET, good or not.
fn sets(line: &[u8]) -> bool {
    let line = line.to_ascii_uppercase();
    let mut words = line.split(|&octet| octet == b' ').skip(1);
    words.next() == Some(b"NOTIFY") && words.next() == Some(b"SET")
}
