//! One connection: a thread that reads commands and runs them, beside the one that writes.

use crate::commands::{self, class, End, Run};
use crate::input::Input;
use crate::parse::{is_tag, Reader, Stop};
use crate::push::Class;
use crate::session::Session;
use crate::store::Store;
use crate::writer::Writer;
use std::io;
use std::net::TcpStream;
use std::sync::{Arc, Mutex};
use std::thread;
use std::time::{Duration, Instant};

/// Both threads call the step. It needs 1 MB at most, by the line that goes deepest (`docs/HOSTS.md`).
pub const STACK: usize = 2 << 20;

pub fn serve(socket: TcpStream, store: &Arc<Mutex<Store>>, number: u64) -> io::Result<()> {
    let begun = Instant::now();
    socket.set_nodelay(true)?;
    let (session, until, wrong_delay) = {
        let mut all = store.lock().unwrap();
        let session = Arc::new(Session::new(number, &all.options));
        all.sessions.push(session.clone());
        let options = &all.options;
        (session, begun + options.login_within, options.wrong_delay)
    };
    let writer = {
        let (session, store, socket) = (session.clone(), store.clone(), socket.try_clone()?);
        let thread = thread::Builder::new().stack_size(STACK);
        thread.spawn(move || {
            let writer = Writer {
                session: &session,
                store: &store,
                socket,
                until: Some(until),
            };
            writer.run()
        })
    };
    let greeting = format!("* OK [CAPABILITY {}] ready", commands::BEFORE_LOGIN);
    session.say(&greeting);
    let mut connection = Connection {
        input: Input::new(socket, &session),
        session: &session,
        store,
        wrong_delay,
    };
    if writer.is_ok() {
        while connection.turn().is_some() {}
    }
    let others = |other: &Arc<Session>| other.number != number;
    store.lock().unwrap().sessions.retain(others);
    session.lock().close();
    session.wake();
    let _ = writer?.join();
    Ok(())
}

struct Connection<'a> {
    input: Input<'a>,
    session: &'a Arc<Session>,
    store: &'a Mutex<Store>,
    wrong_delay: Duration,
}

impl Connection<'_> {
    /// One command, from its line to its tag. None when it was the last.
    fn turn(&mut self) -> Option<()> {
        if !self.session.caught_up() {
            return None;
        }
        let mut command = self.input.command()?;
        let space = command.iter().position(|&octet| octet == b' ');
        let tag = &command[..space.unwrap_or(command.len())];
        if !is_tag(tag) {
            return self.end(Class::Rest, "* BAD no tag");
        }
        let tag = String::from_utf8_lossy(tag).into_owned();
        let at = tag.len() + 1;
        let word = command.get(at..).map_or("".into(), first_word);
        if word == "AUTHENTICATE" {
            self.await_response(&mut command)?;
        }
        let known = !self.session.lock().user.is_empty();
        if word == "IDLE" && command.len() == at + word.len() && known {
            return self.idle(&tag);
        }
        let mut run = Run::new(self.store, self.session, &tag);
        let at = (at + word.len()).min(command.len());
        let octets = &command[..];
        let end = run.run(&word, &mut Reader { octets, at });
        run.finish();
        let class = class(&word);
        match end {
            Ok(End::Told) => Some(()),
            Ok(End::Ok(text)) => self.end(class, &format!("{tag} OK {text}")),
            Ok(End::Denied) => {
                // nothing is locked: the one who guesses waits, and nobody else
                thread::sleep(self.wrong_delay);
                self.end(class, &format!("{tag} NO [AUTHENTICATIONFAILED] no"))
            }
            Ok(End::Bye) => {
                self.end(class, &format!("{tag} OK bye"));
                None
            }
            Err(Stop::No(text)) => self.end(class, &format!("{tag} NO {text}")),
            Err(Stop::Bad(why)) => self.end(class, &format!("{tag} BAD {why}")),
            Err(Stop::Gone) => None,
        }
    }

    /// AUTHENTICATE may be given its response with the command, or in a line of its own, which is put where the other is.
    fn await_response(&mut self, command: &mut Vec<u8>) -> Option<()> {
        if command.iter().filter(|&&octet| octet == b' ').count() == 2 {
            self.session.say("+ ");
            command.push(b' ');
            command.extend(self.input.line()?);
        }
        Some(())
    }

    /// IDLE is a command under way: what waits may go, at once and behind every change until DONE.
    fn idle(&mut self, tag: &str) -> Option<()> {
        self.session.lock().set_idle(true);
        self.end(Class::Rest, "+ idling")?;
        let line = self.input.line()?;
        self.session.lock().set_idle(false);
        let done = match line.eq_ignore_ascii_case(b"DONE") {
            true => "OK",
            false => "BAD",
        };
        self.end(Class::Rest, &format!("{tag} {done} IDLE done"))
    }

    fn end(&self, class: Class, last: &str) -> Option<()> {
        self.session.end(self.store, class, last).then_some(())
    }
}

fn first_word(octets: &[u8]) -> String {
    let end = octets.iter().position(|&octet| octet == b' ');
    let word = &octets[..end.unwrap_or(octets.len())];
    String::from_utf8_lossy(word).to_ascii_uppercase()
}
