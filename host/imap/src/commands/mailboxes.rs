//! CREATE, DELETE, RENAME, SUBSCRIBE, UNSUBSCRIBE.

use super::{done, no, End, Run};
use crate::names;
use crate::parse::{Read, Reader, Stop};
use crate::store::ADMINISTRATOR;

impl Run<'_> {
    /// A name with nothing behind it.
    fn one_name(&self, reader: &mut Reader) -> Read<String> {
        reader.space()?;
        let name = reader.mailbox()?;
        reader.end()?;
        // a client may show so that it wants children
        Ok(names::fold(name.strip_suffix('/').unwrap_or(&name)))
    }

    pub(super) fn create(&mut self, reader: &mut Reader) -> Read<End> {
        let name = self.one_name(reader)?;
        self.check_new(&name)?;
        self.create_with_parents(&name)?;
        done()
    }

    /// Whether the user may have a mailbox of this name. Whoever may not make any there hears nothing of what there is.
    fn check_new(&self, name: &str) -> Read<()> {
        if !names::is_valid(name) {
            return no("[CANNOT] no such name here");
        }
        if names::is_shared(name) && self.user != ADMINISTRATOR {
            return no("[NOPERM] denied");
        }
        match self.store().named(&self.user, name) {
            None => Ok(()),
            Some(mailbox) if mailbox.is_visible(&self.user) => no("[ALREADYEXISTS] taken"),
            Some(_) => no("[NOPERM] denied"),
        }
    }

    fn create_with_parents(&mut self, name: &str) -> Read<()> {
        let (user, by) = (self.user.clone(), self.session.number);
        for upper in names::with_parents(name) {
            if self.store().named(&user, &upper).is_none() {
                let made = self.store_mut().create(&user, &upper, by);
                made.ok_or(Stop::No("[LIMIT] too many mailboxes".into()))?;
            }
        }
        Ok(())
    }

    /// Children stay, by their own names: a place left for the parent would tell of those that a user may not see.
    pub(super) fn delete(&mut self, reader: &mut Reader) -> Read<End> {
        let name = self.one_name(reader)?;
        let id = self.find(&name, 'x')?.id;
        if name == names::INBOX {
            return no("[CANNOT] INBOX stays");
        }
        let by = self.session.number;
        self.store_mut().delete(id, by);
        done()
    }

    pub(super) fn rename(&mut self, reader: &mut Reader) -> Read<End> {
        reader.space()?;
        let old = reader.mailbox()?;
        let new = self.one_name(reader)?;
        let id = self.find(&old, 'x')?.id;
        self.check_new(&new)?;
        self.check_beneath(&old, &new)?;
        let parents = new.rsplit_once('/').map_or("", |(upper, _)| upper);
        if !parents.is_empty() && parents != names::SHARED {
            self.create_with_parents(parents)?;
        }
        let by = self.session.number;
        self.store_mut().rename(id, &new, by);
        done()
    }

    /// Whether what lies beneath can go along.
    fn check_beneath(&self, old: &str, new: &str) -> Read<()> {
        if names::is_shared(old) != names::is_shared(new) {
            return no("[CANNOT] not across namespaces");
        }
        if names::is_beneath(new, old) && old != names::INBOX {
            return no("[CANNOT] not beneath itself");
        }
        let mine = |name: &str| self.store().named(&self.user, name).is_some();
        let all = || self.store().mailboxes.values().map(|m| &m.name[..]);
        let carried =
            |name: &&str| names::is_beneath(name, old) && mine(name) && old != names::INBOX;
        let longest = all().filter(carried).map(|n| n.len() - old.len()).max();
        if new.len() + longest.unwrap_or(0) > 64 {
            return no("[CANNOT] too long beneath it");
        }
        match all().any(|name| names::is_beneath(name, new) && mine(name)) {
            true => no("[ALREADYEXISTS] taken beneath it"),
            false => Ok(()),
        }
    }

    pub(super) fn subscribe(&mut self, on: bool, reader: &mut Reader) -> Read<End> {
        let name = self.one_name(reader)?;
        let id = self.find(&name, 'l')?.id;
        let (user, by) = (self.user.clone(), self.session.number);
        self.store_mut().subscribe(id, &user, on, by);
        done()
    }
}
