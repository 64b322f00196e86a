//! SEARCH over the selected mailbox.

use super::{done, no, End, Run};
use crate::parse::{Read, Reader};
use crate::search::{self, Place};

impl Run<'_> {
    pub(super) fn search(&mut self, reader: &mut Reader, uid: bool) -> Read<End> {
        let mailbox = self.selected()?;
        reader.space()?;
        if reader.has_word("CHARSET") {
            reader.space()?;
            let charset = reader.astring()?.to_ascii_uppercase();
            if charset != "UTF-8" && charset != "US-ASCII" {
                return no("[BADCHARSET (US-ASCII UTF-8)] charset");
            }
            reader.space()?;
        }
        let keys = search::keys(reader)?;
        reader.end()?;
        if !mailbox.may(&self.user, 'r') {
            return no("[NOPERM] denied");
        }
        let view = self.state().view();
        let (last, last_uid) = (view.len() as u32, view.last().copied().unwrap_or(0));
        let mut line = String::from("* SEARCH");
        let mut highest = 0;
        for (number, message) in (1..).zip(view) {
            let Some(message) = mailbox.message(message) else {
                continue;
            };
            let place = Place {
                number,
                last,
                last_uid,
            };
            if keys.iter().all(|key| search::matches(key, message, &place)) {
                line += &format!(" {}", if uid { message.uid } else { number });
                highest = highest.max(message.counter);
            }
        }
        if keys.iter().any(search::has_modseq) {
            self.state().condstore = true;
            if highest > 0 {
                line += &format!(" (MODSEQ {highest})");
            }
        }
        self.line(&line);
        done()
    }
}
