//! LOGIN and AUTHENTICATE PLAIN.

use super::{no, End, Run};
use crate::names;
use crate::parse::{Read, Reader, Stop};
use crate::store::{PASSWORD, USERS};

impl Run<'_> {
    pub(super) fn log_in(&mut self, word: &str, reader: &mut Reader) -> Read<End> {
        reader.space()?;
        match word {
            "LOGIN" => {
                let user = reader.astring()?;
                reader.space()?;
                let password = reader.astring()?;
                reader.end()?;
                self.enter(&user, &password)
            }
            "AUTHENTICATE" if reader.has_word("PLAIN") => {
                reader.space()?;
                let response = base64(reader.rest()).ok_or(Stop::Bad("no base64"))?;
                let text = String::from_utf8(response).map_err(|_| Stop::Bad("no UTF-8"))?;
                match text.split('\0').collect::<Vec<_>>()[..] {
                    [_, user, password] => self.enter(user, password),
                    _ => Err(Stop::Bad("not three parts")),
                }
            }
            "AUTHENTICATE" => no("no such mechanism"),
            _ => Err(Stop::Bad("not before login")),
        }
    }

    fn enter(&mut self, user: &str, password: &str) -> Read<End> {
        if !USERS.contains(&user) || password != PASSWORD {
            return Ok(End::Denied);
        }
        if self.store().named(user, names::INBOX).is_none() {
            let by = self.session.number;
            let made = self.store_mut().create(user, names::INBOX, by);
            made.ok_or(Stop::No("[LIMIT] too many mailboxes".into()))?;
        }
        self.user = user.into();
        let mut state = self.state();
        state.user = user.into();
        self.store().load(&mut state);
        drop(state);
        Ok(End::Ok(format!("[CAPABILITY {}] hello", self.capability())))
    }
}

fn base64(text: &[u8]) -> Option<Vec<u8>> {
    let mut octets = Vec::new();
    let (mut held, mut bits) = (0u32, 0);
    for &letter in text.iter().filter(|&&letter| letter != b'=') {
        let six = match letter {
            b'A'..=b'Z' => letter - b'A',
            b'a'..=b'z' => letter - b'a' + 26,
            b'0'..=b'9' => letter - b'0' + 52,
            b'+' => 62,
            b'/' => 63,
            _ => return None,
        };
        held = held << 6 & 0xffff | u32::from(six);
        bits += 6;
        if bits >= 8 {
            bits -= 8;
            octets.push((held >> bits) as u8);
        }
    }
    Some(octets)
}
