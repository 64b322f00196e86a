//! SETACL, DELETEACL, GETACL, LISTRIGHTS, MYRIGHTS.

use super::{done, no, End, Run};
use crate::parse::{quoted, Read, Reader, Stop};
use crate::store::{ALL_RIGHTS, ANYONE, USERS};

impl Run<'_> {
    pub(super) fn set_rights(&mut self, set: bool, reader: &mut Reader) -> Read<End> {
        reader.space()?;
        let name = reader.mailbox()?;
        reader.space()?;
        let user = reader.astring()?;
        let mut change = String::new();
        if set {
            reader.space()?;
            change = reader.astring()?;
        }
        reader.end()?;
        check_user(&user)?;
        let mailbox = self.find(&name, 'a')?;
        let rights = changed(mailbox.given(&user), &change).ok_or(Stop::Bad("no such right"))?;
        if mailbox.owner.is_some() {
            return no("[CANNOT] personal");
        }
        let id = mailbox.id;
        self.store_mut().set_rights(id, &user, &rights);
        done()
    }

    pub(super) fn all_rights(&mut self, reader: &mut Reader) -> Read<End> {
        reader.space()?;
        let name = reader.mailbox()?;
        reader.end()?;
        let mailbox = self.find(&name, 'a')?;
        let owner = mailbox.owner.iter().map(|owner| (&owner[..], ALL_RIGHTS));
        let others = mailbox.rights.iter().map(|(user, r)| (&user[..], &r[..]));
        let all: String = owner
            .chain(others)
            .map(|(user, r)| format!(" {user} {r}"))
            .collect();
        self.line(&format!("* ACL {}{all}", quoted(&name)));
        done()
    }

    /// What the user has in any case, and then what can be given, each right apart.
    pub(super) fn possible_rights(&mut self, reader: &mut Reader) -> Read<End> {
        reader.space()?;
        let name = reader.mailbox()?;
        reader.space()?;
        let user = reader.astring()?;
        reader.end()?;
        check_user(&user)?;
        let mailbox = self.find(&name, 'a')?;
        let mut rights = match mailbox.owner.as_deref() == Some(&user) {
            true => ALL_RIGHTS.to_string(),
            false => "\"\"".into(),
        };
        if mailbox.owner.is_none() {
            rights.extend(ALL_RIGHTS.chars().flat_map(|right| [' ', right]));
        }
        self.line(&format!("* LISTRIGHTS {} {user} {rights}", quoted(&name)));
        done()
    }

    pub(super) fn my_rights(&mut self, reader: &mut Reader) -> Read<End> {
        reader.space()?;
        let name = reader.mailbox()?;
        reader.end()?;
        // any right will do, and a mailbox that is found at all has l or r
        let mailbox = self.find(&name, 'l').or_else(|_| self.find(&name, 'r'))?;
        let rights = mailbox.rights(&self.user);
        self.line(&format!("* MYRIGHTS {} {rights}", quoted(&name)));
        done()
    }
}

/// Whether rights can be given to such a one.
fn check_user(user: &str) -> Read<()> {
    match user == ANYONE || USERS.contains(&user) {
        true => Ok(()),
        false => no("[CANNOT] no such user"),
    }
}

/// The rights after `+more`, `-less` or `these`, each once and in one order.
fn changed(old: &str, change: &str) -> Option<String> {
    let (sign, letters) = match change.as_bytes().first() {
        Some(sign @ (b'+' | b'-')) => (*sign, &change[1..]),
        _ => (b'=', change),
    };
    if !letters.chars().all(|letter| ALL_RIGHTS.contains(letter)) {
        return None;
    }
    let stays = |&right: &char| match sign {
        b'+' => old.contains(right) || letters.contains(right),
        b'-' => old.contains(right) && !letters.contains(right),
        _ => letters.contains(right),
    };
    Some(ALL_RIGHTS.chars().filter(stays).collect())
}
