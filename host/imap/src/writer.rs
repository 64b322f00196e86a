//! The thread that writes to a client's socket, and ends a connection that is without a login for too long.

use crate::session::{Session, State};
use crate::store::Store;
use std::io::{self, Write};
use std::net::{Shutdown, TcpStream};
use std::sync::{Mutex, MutexGuard};
use std::time::{Duration, Instant};

/// A write may always try for this long: BYE comes when the time is over, and the socket has room for it.
const LEAST: Duration = Duration::from_millis(1);

pub struct Writer<'a> {
    pub session: &'a Session,
    pub store: &'a Mutex<Store>,
    pub socket: TcpStream,
    /// Until when the client must have logged in; None when it has.
    pub until: Option<Instant>,
}

impl Writer<'_> {
    /// Writes until the connection ends. `DR` follows the write: what a client doesn't read stays in its queue, and brings it
    /// the overflow that the library owes it then.
    pub fn run(mut self) {
        while self.turn() {}
        self.session.lock().dead = true;
        self.session.wake();
        // the reader waits for a command that is not to come any more
        let _ = self.socket.shutdown(Shutdown::Both);
    }

    fn turn(&mut self) -> bool {
        let mut state = self.session.lock();
        self.look(&mut state);
        while !state.is_waiting() {
            if state.closing {
                return false;
            }
            state = self.wait(state);
            self.look(&mut state);
        }
        let (batch, octets) = state.take();
        drop(state);
        self.session.transcript.note_answer(&octets);
        if self.write(&octets).is_err() {
            return false;
        }
        let mut state = self.session.lock();
        state.finish(&batch);
        let more = state.has_more();
        drop(state);
        self.session.wake();
        if more {
            let store = self.store.lock().unwrap();
            self.session.lock().go_on(&store);
        }
        true
    }

    /// Whether the client has logged in, or had its time to.
    fn look(&mut self, state: &mut State) {
        let Some(until) = self.until else { return };
        if !state.user.is_empty() {
            self.until = None;
            let _ = self.socket.set_write_timeout(None);
        } else if left(until).is_zero() && !state.closing {
            state.bye("no login in time");
        }
    }

    fn wait<'a>(&self, state: MutexGuard<'a, State>) -> MutexGuard<'a, State> {
        match self.until {
            Some(until) => self.session.wait_for(state, left(until)),
            None => self.session.wait(state),
        }
    }

    /// A stranger must take it in the time that it has, or one that reads next to nothing would stay.
    fn write(&mut self, octets: &[u8]) -> io::Result<()> {
        let Some(until) = self.until else {
            return self.socket.write_all(octets);
        };
        let mut at = 0;
        while at < octets.len() {
            self.socket
                .set_write_timeout(Some(left(until).max(LEAST)))?;
            match self.socket.write(&octets[at..])? {
                0 => return Err(io::ErrorKind::WriteZero.into()),
                count => at += count,
            }
        }
        Ok(())
    }
}

fn left(until: Instant) -> Duration {
    until.saturating_duration_since(Instant::now())
}
