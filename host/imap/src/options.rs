//! What the command line asks for.

use std::path::PathBuf;
use std::time::Duration;

pub struct Options {
    pub port: u16,
    pub bind: String,
    /// Octets of each connection's queue.
    pub queue: usize,
    /// Connections at a time.
    pub connections: usize,
    /// How long a connection may be without a login.
    pub login_within: Duration,
    /// How long the answer to a wrong password waits.
    pub wrong_delay: Duration,
    /// Where transcripts go, one a connection.
    pub log: Option<PathBuf>,
    /// Where the records go that the library gets, a stream a connection.
    pub record: Option<PathBuf>,
    /// Lines are completed and rewritten for clients that need it.
    pub adapt: bool,
}

pub const HELP: &str = "\
imap: a small IMAP server whose notices all come from the proved library

  --port N          port, 14143 if not given; 0 for any that is free
  --bind ADDR       address, 127.0.0.1 if not given
  --queue Q         octets of each connection's queue, 1024 to 65536, the latter if not given
  --connections N   so many at a time, 200 if not given; one more is told BYE
  --login-within S  seconds that a connection may be without a login, 60 if not given
  --wrong-delay S   seconds that the answer to a wrong password waits, 2 if not given
  --log DIR         writes a transcript of each connection to DIR, without passwords: DIR/N.txt
  --record DIR      writes the records that the library gets to DIR, a stream for each connection, in the form that
                    pushrun reads: DIR/N.records
  --adapt           OUTSIDE THE PROMISES (src/adapt.rs): adds to FETCH lines what a client's NOTIFY asked for beyond
                    UID, FLAGS and RFC822.SIZE, and writes VANISHED for EXPUNGE, as some clients must have it. Nothing
                    that was proved speaks of lines that were rewritten
  --help            this text

Users are alice, bob and carol, each with the password pw. Everybody has folders of their own; what lies beneath
Shared/ is made by alice and seen by those to whom SETACL gives l or r. All is kept in memory and gone at the end.
";

pub enum Asked {
    Serve(Options),
    Help,
}

pub fn read(mut words: impl Iterator<Item = String>) -> Result<Asked, String> {
    let mut options = Options {
        port: 14143,
        bind: "127.0.0.1".into(),
        queue: 65536,
        connections: 200,
        login_within: Duration::from_secs(60),
        wrong_delay: Duration::from_secs(2),
        log: None,
        record: None,
        adapt: false,
    };
    while let Some(word) = words.next() {
        let mut value = || words.next().ok_or(format!("{word} needs a value"));
        match word.as_str() {
            "--port" => options.port = number(&value()?)?,
            "--bind" => options.bind = value()?,
            "--queue" => options.queue = number(&value()?)?,
            "--connections" => options.connections = number(&value()?)?,
            "--login-within" => options.login_within = seconds(&value()?)?,
            "--wrong-delay" => options.wrong_delay = seconds(&value()?)?,
            "--log" => options.log = Some(value()?.into()),
            "--record" => options.record = Some(value()?.into()),
            "--adapt" => options.adapt = true,
            "--help" => return Ok(Asked::Help),
            _ => return Err(format!("there is no option {word}")),
        }
    }
    if !(1024..=65536).contains(&options.queue) {
        return Err("a queue has 1024 to 65536 octets".into());
    }
    Ok(Asked::Serve(options))
}

/// A part of a second may be asked for, and no more than a day.
fn seconds(text: &str) -> Result<Duration, String> {
    let asked = number(text)?;
    let asked = Duration::try_from_secs_f64(asked).ok();
    asked
        .filter(|&asked| asked <= Duration::from_secs(86400))
        .ok_or(format!("{text} is no such time"))
}

fn number<T: std::str::FromStr>(text: &str) -> Result<T, String> {
    text.parse()
        .map_err(|_| format!("{text} is no such number"))
}

#[cfg(test)]
mod tests {
    use super::*;

    #[test]
    fn the_defaults_are_those_that_are_written() {
        let Ok(Asked::Serve(options)) = read(std::iter::empty()) else {
            panic!("it serves if nothing is asked");
        };
        let (places, within, delay) = (
            options.connections,
            options.login_within.as_secs_f64(),
            options.wrong_delay.as_secs_f64(),
        );
        for sentence in [
            format!("so many at a time, {places} if not given"),
            format!("may be without a login, {within} if not given"),
            format!("a wrong password waits, {delay} if not given"),
        ] {
            assert!(HELP.contains(&sentence), "--help: {sentence}");
        }
        let readme = include_str!("../README.md").replace('\n', " ");
        for sentence in [
            format!("{places} connections at a time (`--connections`;"),
            format!("{within} seconds until they have logged in (`--login-within`)"),
            format!("the answer to a wrong password after {delay} (`--wrong-delay`)"),
        ] {
            assert!(readme.contains(&sentence), "README.md: {sentence}");
        }
    }
}
