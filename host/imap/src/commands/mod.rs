//! The commands. Each runs with the store locked, so that no change falls between its parts; one over many messages lets go
//! of it now and then.

mod library;
mod listing;
mod login;
mod mailboxes;
mod messages;
mod rights;
mod searching;
mod selecting;
mod transfer;

use crate::adapt;
use crate::parse::{bad, Read, Reader, Stop};
use crate::push::Class;
use crate::session::{Session, State};
use crate::store::{Mailbox, Store};
use std::sync::{Arc, Mutex, MutexGuard};

pub enum End {
    /// The text behind OK.
    Ok(String),
    /// The library wrote the tagged line.
    Told,
    /// A wrong password.
    Denied,
    Bye,
}

pub fn done() -> Read<End> {
    Ok(End::Ok("done".into()))
}

pub fn no<T>(text: &str) -> Read<T> {
    Err(Stop::No(text.into()))
}

/// Commands with message numbers: no EXPUNGE may come before their end. All others, the UID forms too, may hear of it.
pub fn class(word: &str) -> Class {
    match word {
        "FETCH" | "STORE" | "SEARCH" | "ESEARCH" => Class::Fetch,
        _ => Class::Rest,
    }
}

pub const BEFORE_LOGIN: &str = "IMAP4rev1 LITERAL+ SASL-IR AUTH=PLAIN ID";
const AFTER_LOGIN: &str = "IMAP4rev1 LITERAL+ ID ENABLE IDLE NAMESPACE UIDPLUS UNSELECT CHILDREN LIST-EXTENDED LIST-STATUS \
                           ACL RIGHTS=texk CONDSTORE";
/// What the library does.
const PUSH: &str = " NOTIFY MULTISEARCH";

pub struct Run<'a> {
    lock: &'a Mutex<Store>,
    held: Option<MutexGuard<'a, Store>>,
    session: &'a Arc<Session>,
    tag: &'a str,
    user: String,
    /// Untagged lines of the command's own.
    out: Vec<u8>,
}

impl<'a> Run<'a> {
    pub fn new(lock: &'a Mutex<Store>, session: &'a Arc<Session>, tag: &'a str) -> Run<'a> {
        let user = session.lock().user.clone();
        let out = Vec::new();
        let held = Some(lock.lock().unwrap());
        Run {
            lock,
            held,
            session,
            tag,
            user,
            out,
        }
    }

    /// Puts the command's lines in line and lets go of the store.
    pub fn finish(&mut self) {
        let out = std::mem::take(&mut self.out);
        if !out.is_empty() {
            self.session.lock().own(out);
        }
        self.session.wake();
        self.held = None;
    }

    /// Waits until all lines so far are written, without the store: what this client asks for must not overflow its own queue,
    /// and nobody else must wait for it to read.
    fn pause(&mut self) -> Read<()> {
        self.finish();
        if !self.session.all_written() {
            return Err(Stop::Gone);
        }
        self.held = Some(self.lock.lock().unwrap());
        Ok(())
    }

    fn store(&self) -> &Store {
        self.held.as_ref().expect("held while a command runs")
    }

    fn store_mut(&mut self) -> &mut Store {
        self.held.as_mut().expect("held while a command runs")
    }

    fn state(&self) -> MutexGuard<'_, State> {
        self.session.lock()
    }

    fn line(&mut self, text: &str) {
        self.out.extend(text.bytes());
        self.out.extend(b"\r\n");
    }

    /// A mailbox on which the user has a right. One that may be neither listed nor read is as absent as any.
    fn find(&self, name: &str, right: char) -> Read<&Mailbox> {
        let mailbox = self.store().named(&self.user, name);
        match mailbox.filter(|mailbox| mailbox.is_visible(&self.user)) {
            None => no("[NONEXISTENT] no such mailbox"),
            Some(mailbox) if mailbox.may(&self.user, right) => Ok(mailbox),
            Some(_) => no("[NOPERM] denied"),
        }
    }

    fn selected(&self) -> Read<&Mailbox> {
        let id = self.state().selected();
        self.store()
            .mailboxes
            .get(&id)
            .ok_or(Stop::Bad("no mailbox selected"))
    }

    pub fn run(&mut self, word: &str, reader: &mut Reader) -> Read<End> {
        match word {
            "CAPABILITY" => self.show_capability(),
            "NOOP" => done(),
            "ID" => self.id(),
            "LOGOUT" => self.logout(),
            "LOGIN" | "AUTHENTICATE" if self.user.is_empty() => self.log_in(word, reader),
            "LOGIN" | "AUTHENTICATE" => bad("logged in already"),
            _ if self.user.is_empty() => bad("not before login"),
            "CHECK" => done(),
            "NAMESPACE" => self.namespace(),
            "ENABLE" => self.enable(reader),
            "NOTIFY" | "ESEARCH" => self.ask_library(word, reader.octets),
            "LIST" | "LSUB" => self.list(word, reader),
            "STATUS" => self.status(reader),
            "SELECT" | "EXAMINE" => self.select(word == "EXAMINE", reader),
            "CLOSE" => self.close(),
            "UNSELECT" => self.unselect(),
            "CREATE" => self.create(reader),
            "DELETE" => self.delete(reader),
            "RENAME" => self.rename(reader),
            "SUBSCRIBE" | "UNSUBSCRIBE" => self.subscribe(word == "SUBSCRIBE", reader),
            "SETACL" | "DELETEACL" => self.set_rights(word == "SETACL", reader),
            "GETACL" => self.all_rights(reader),
            "LISTRIGHTS" => self.possible_rights(reader),
            "MYRIGHTS" => self.my_rights(reader),
            "APPEND" => self.append(reader),
            "EXPUNGE" => {
                reader.end()?;
                self.expunge(None)
            }
            "UID" => {
                reader.space()?;
                let word = reader.word()?;
                self.on_messages(&word, reader, true)
            }
            _ => self.on_messages(word, reader, false),
        }
    }

    /// Commands that have a UID form.
    fn on_messages(&mut self, word: &str, reader: &mut Reader, uid: bool) -> Read<End> {
        match word {
            "FETCH" => self.fetch(reader, uid),
            "STORE" => self.store_flags(reader, uid),
            "SEARCH" => self.search(reader, uid),
            "COPY" => self.copy(reader, uid),
            "EXPUNGE" if uid => {
                reader.space()?;
                let uids = reader.set()?;
                reader.end()?;
                self.expunge(Some(uids))
            }
            _ => bad("no such command"),
        }
    }

    fn capability(&self) -> String {
        if self.user.is_empty() {
            return BEFORE_LOGIN.into();
        }
        let mut all = AFTER_LOGIN.to_string();
        // some clients hang up at NO to NOTIFY: where it can't be had it isn't offered
        if !self.state().outgrown {
            all += PUSH;
        }
        if self.store().options.adapt {
            all += adapt::CAPABILITY;
        }
        all
    }

    fn show_capability(&mut self) -> Read<End> {
        let all = self.capability();
        self.line(&format!("* CAPABILITY {all}"));
        done()
    }

    fn id(&mut self) -> Read<End> {
        self.line("* ID (\"name\" \"borjavid imap\")");
        done()
    }

    fn logout(&mut self) -> Read<End> {
        self.line("* BYE bye");
        Ok(End::Bye)
    }

    fn namespace(&mut self) -> Read<End> {
        self.line("* NAMESPACE ((\"\" \"/\")) NIL ((\"Shared/\" \"/\"))");
        done()
    }

    fn enable(&mut self, reader: &mut Reader) -> Read<End> {
        let mut enabled = String::from("* ENABLED");
        while reader.eat(b' ') {
            let word = reader.word()?;
            if self.state().enable(&word) {
                enabled += &format!(" {word}");
            }
        }
        self.line(&enabled);
        done()
    }
}
