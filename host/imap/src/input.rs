//! What a client sends: lines, and commands with their literals.

use crate::session::Session;
use std::io::{BufRead, BufReader, Read};
use std::net::TcpStream;

/// The longest line, and the most that all literals of a command have together, after login and before.
const LINE: u64 = 1 << 16;
const LITERALS: usize = 1 << 25;
const LITERALS_OF_STRANGERS: usize = 1 << 12;

pub struct Input<'a> {
    reader: BufReader<TcpStream>,
    session: &'a Session,
    /// The command may hold a password: no transcript shows the rest of it.
    veiled: bool,
}

impl<'a> Input<'a> {
    pub fn new(socket: TcpStream, session: &'a Session) -> Input<'a> {
        let reader = BufReader::new(socket);
        Input {
            reader,
            session,
            veiled: false,
        }
    }

    /// One line without its end. None when the connection ends, or ought to.
    pub fn line(&mut self) -> Option<Vec<u8>> {
        let mut line = Vec::new();
        let mut limited = self.reader.by_ref().take(LINE);
        limited.read_until(b'\n', &mut line).ok()?;
        if line.pop()? != b'\n' {
            self.refuse("line too long or cut off");
            return None;
        }
        if line.last() == Some(&b'\r') {
            line.pop();
        }
        let stranger = self.session.lock().user.is_empty();
        let transcript = &self.session.transcript;
        self.veiled = transcript.note_line(&line, stranger, self.veiled);
        Some(line)
    }

    /// A whole command, its literals inside.
    pub fn command(&mut self) -> Option<Vec<u8>> {
        self.veiled = false;
        let mut command = Vec::new();
        let mut left = match self.session.lock().user.is_empty() {
            true => LITERALS_OF_STRANGERS,
            false => LITERALS,
        };
        loop {
            let line = self.line()?;
            command.extend(&line);
            let Some((len, waits)) = literal(&line) else {
                return Some(command);
            };
            if len > left {
                self.refuse("[TOOBIG] literal too long");
                return None;
            }
            left -= len;
            if waits {
                self.session.say("+ go on");
            }
            command.extend(b"\r\n");
            let start = command.len();
            command.resize(start + len, 0);
            self.reader.read_exact(&mut command[start..]).ok()?;
        }
    }

    fn refuse(&self, why: &str) {
        self.session.lock().bye(why);
        self.session.wake();
    }
}

/// The literal that a line ends with: its length, and whether the client waits for `+`.
fn literal(line: &[u8]) -> Option<(usize, bool)> {
    let inside = line.strip_suffix(b"}")?;
    let open = inside.iter().rposition(|&octet| octet == b'{')?;
    let digits = std::str::from_utf8(&inside[open + 1..]).ok()?;
    let (digits, waits) = match digits.strip_suffix('+') {
        Some(digits) => (digits, false),
        None => (digits, true),
    };
    if !digits.bytes().all(|octet| octet.is_ascii_digit()) {
        return None;
    }
    Some((digits.parse().ok()?, waits))
}
