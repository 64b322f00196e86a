//! APPEND and COPY.

use super::{End, Run};
use crate::date;
use crate::flags;
use crate::parse::{bad, joined, Read, Reader, Stop};
use crate::store::Mailbox;

impl Run<'_> {
    /// A mailbox to put messages into.
    fn target(&self, name: &str) -> Read<&Mailbox> {
        self.find(name, 'i').map_err(|stop| match stop {
            Stop::No(text) if text.starts_with("[NONEXISTENT]") => {
                Stop::No("[TRYCREATE] no such mailbox".into())
            }
            stop => stop,
        })
    }

    pub(super) fn append(&mut self, reader: &mut Reader) -> Read<End> {
        reader.space()?;
        let name = reader.mailbox()?;
        reader.space()?;
        let mut flags = 0;
        if reader.peek() == b'(' {
            flags = flags::bits(&reader.list(|reader| reader.flag())?);
            reader.space()?;
        }
        let mut date = date::now();
        if reader.peek() == b'"' {
            date =
                String::from_utf8(reader.string()?).map_err(|_| Stop::Bad("no such date-time"))?;
            reader.space()?;
        }
        if !date::is_date_time(&date) {
            return bad("no such date-time");
        }
        if reader.peek() != b'{' {
            return bad("a message comes as a literal");
        }
        let octets = reader.string()?;
        reader.end()?;
        let mailbox = self.target(&name)?;
        let (id, validity) = (mailbox.id, mailbox.uid_validity);
        let uid = self.store_mut().append(id, flags, date, octets.into());
        let uid = uid.ok_or(Stop::No("[LIMIT] no UID left".into()))?;
        Ok(End::Ok(format!("[APPENDUID {validity} {uid}] done")))
    }

    pub(super) fn copy(&mut self, reader: &mut Reader, uid: bool) -> Read<End> {
        reader.space()?;
        let set = reader.set()?;
        reader.space()?;
        let name = reader.mailbox()?;
        reader.end()?;
        self.selected()?;
        let target = self.target(&name)?;
        let (to, validity) = (target.id, target.uid_validity);
        let (mut from, mut into) = (Vec::new(), Vec::new());
        self.with_each(&self.chosen(&set, uid), |run, id, _, uid| {
            let source = &run.store().mailboxes[&id];
            // either mailbox may be another's business by now
            if !source.may(&run.user, 'r') || run.target(&name)?.id != to {
                return Err(Stop::No("[NOPERM] denied".into()));
            }
            let Some(message) = source.message(uid) else {
                return Ok(());
            };
            let (flags, date) = (message.flags, message.date.clone());
            let octets = message.octets.clone();
            if let Some(copy) = run.store_mut().append(to, flags, date, octets) {
                from.push(uid);
                into.push(copy);
            }
            Ok(())
        })?;
        if from.is_empty() {
            return super::done();
        }
        let code = format!("COPYUID {validity} {} {}", joined(&from), joined(&into));
        Ok(End::Ok(format!("[{code}] done")))
    }
}
