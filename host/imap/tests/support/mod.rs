//! A server of its own for each test, and clients that speak to it over the loopback.
#![allow(dead_code)]

pub mod folder;
pub mod stream;
pub mod watch;

use std::io::{BufRead, BufReader, Read, Write};
use std::net::{Shutdown, TcpStream};
use std::process::{Child, Command, Stdio};
use std::time::Duration;

/// Nothing here takes this long, unless the server waits for what can't come.
const DEADLINE: Duration = Duration::from_secs(30);

pub struct Server {
    process: Child,
    port: u16,
}

impl Server {
    pub fn start() -> Server {
        Server::with(&[])
    }

    /// UIDVALIDITY is the same in each run.
    pub fn with(options: &[&str]) -> Server {
        Server::started(Some(1), options)
    }

    /// A server that takes this for the time of its start, or its clock's.
    pub fn started(start: Option<u64>, options: &[&str]) -> Server {
        let mut process = Command::new(env!("CARGO_BIN_EXE_imap"))
            .args(["--port", "0", "--wrong-delay", "0"])
            .args(options)
            .env_remove("IMAP_START")
            .envs(start.map(|start| ("IMAP_START", start.to_string())))
            .stdout(Stdio::piped())
            .stderr(Stdio::piped())
            .spawn()
            .expect("the server");
        let mut line = String::new();
        let stdout = process.stdout.as_mut().expect("its output");
        BufReader::new(stdout).read_line(&mut line).expect("a line");
        let port = line.trim().rsplit(':').next().map(str::parse);
        let port = port.and_then(Result::ok).expect("a port");
        Server { process, port }
    }

    /// A connection that may be turned away.
    pub fn knock(&self) -> Client {
        let socket = TcpStream::connect(("127.0.0.1", self.port)).expect("a connection");
        socket.set_nodelay(true).expect("no delay");
        socket.set_read_timeout(Some(DEADLINE)).expect("a limit");
        socket.set_write_timeout(Some(DEADLINE)).expect("a limit");
        let reader = BufReader::new(socket.try_clone().expect("a second handle"));
        Client {
            socket,
            reader,
            commands: 0,
            octets: Vec::new(),
        }
    }

    /// A connection with nobody logged in.
    pub fn connect(&self) -> Client {
        let mut client = self.knock();
        assert!(client.line().starts_with("* OK"));
        client
    }

    pub fn log_in(&self, user: &str) -> Client {
        let mut client = self.connect();
        client.ok(&format!("LOGIN {user} pw"));
        client
    }

    /// Octets of it that are resident.
    pub fn resident(&self) -> usize {
        let path = format!("/proc/{}/status", self.process.id());
        let status = std::fs::read_to_string(path).expect("its status");
        let line = status.lines().find(|line| line.starts_with("VmRSS:"));
        let number = line.and_then(|line| line.split_whitespace().nth(1));
        1024 * number
            .and_then(|n| n.parse::<usize>().ok())
            .expect("its memory")
    }

    /// Ends it: no panic and no record refused on the way, for both are written to its standard error.
    pub fn end(self) {
        assert_eq!(self.log(), "", "the server complained");
    }

    /// Ends it, and answers all that it wrote to its standard error.
    pub fn log(mut self) -> String {
        self.process.kill().expect("its end");
        let mut said = String::new();
        let mut stderr = self.process.stderr.take().expect("its errors");
        stderr.read_to_string(&mut said).expect("text");
        said
    }
}

impl Drop for Server {
    fn drop(&mut self) {
        let _ = self.process.kill();
        let _ = self.process.wait();
    }
}

pub struct Client {
    socket: TcpStream,
    reader: BufReader<TcpStream>,
    commands: u32,
    /// All that came.
    pub octets: Vec<u8>,
}

impl Client {
    /// One line without its end.
    pub fn line(&mut self) -> String {
        let mut line = Vec::new();
        let count = self.reader.read_until(b'\n', &mut line);
        assert!(count.expect("a line in time") > 0, "the connection ended");
        self.octets.extend(&line);
        String::from_utf8_lossy(&line)
            .trim_end_matches("\r\n")
            .into()
    }

    pub fn lines(&mut self, count: usize) -> Vec<String> {
        (0..count).map(|_| self.line()).collect()
    }

    /// All lines until one begins so, that one included.
    pub fn until(&mut self, beginning: &str) -> Vec<String> {
        let mut lines = Vec::new();
        loop {
            lines.push(self.line());
            if lines[lines.len() - 1].starts_with(beginning) {
                return lines;
            }
        }
    }

    /// All that comes until the server ends the connection.
    pub fn all_the_rest(&mut self) -> String {
        let before = self.octets.len();
        // a connection may end with a reset where the server had not read all
        let _ = self.reader.read_to_end(&mut self.octets);
        String::from_utf8_lossy(&self.octets[before..]).into()
    }

    pub fn send(&mut self, octets: &[u8]) {
        self.socket.write_all(octets).expect("sent in time");
    }

    /// As `send`, of a connection that the server may have ended.
    pub fn try_send(&mut self, octets: &[u8]) {
        let _ = self.socket.write_all(octets);
    }

    /// No more commands come.
    pub fn hang_up(&self) {
        let _ = self.socket.shutdown(Shutdown::Write);
    }

    /// Sends a command, and answers its tag.
    pub fn start(&mut self, command: &str) -> String {
        self.commands += 1;
        let tag = format!("t{}", self.commands);
        self.send(format!("{tag} {command}\r\n").as_bytes());
        tag
    }

    /// All lines of a command. The last is the tagged one, without its tag.
    pub fn run(&mut self, command: &str) -> Vec<String> {
        let tag = self.start(command) + " ";
        let mut lines = self.until(&tag);
        let last = lines.pop().expect("the tagged line");
        lines.push(last[tag.len()..].into());
        lines
    }

    /// The untagged lines of a command that must succeed.
    pub fn ok(&mut self, command: &str) -> Vec<String> {
        let mut lines = self.run(command);
        let last = lines.pop().expect("the tagged line");
        assert!(last.starts_with("OK"), "{command}: {last}");
        lines
    }

    /// The tagged line alone, without the tag.
    pub fn answer(&mut self, command: &str) -> String {
        self.run(command).pop().expect("the tagged line")
    }

    pub fn append(&mut self, mailbox: &str) -> Vec<String> {
        self.ok(&append(mailbox))
    }

    /// Many APPENDs, some on the way at a time.
    pub fn append_many(&mut self, mailboxes: impl Iterator<Item = String>) {
        let all: Vec<String> = mailboxes.collect();
        for some in all.chunks(50) {
            let mut octets = Vec::new();
            for (place, mailbox) in some.iter().enumerate() {
                octets.extend(format!("m{place} {}\r\n", append(mailbox)).bytes());
            }
            self.send(&octets);
            for place in 0..some.len() {
                let lines = self.until(&format!("m{place} "));
                assert!(lines[lines.len() - 1].contains(" OK "), "{lines:?}");
            }
        }
    }
}

pub const MESSAGE: &str = "From: a@x\r\nSubject: t\r\n\r\nhi\r\n";

pub fn append(mailbox: &str) -> String {
    format!("APPEND \"{mailbox}\" {{{}+}}\r\n{MESSAGE}", MESSAGE.len())
}

/// Numbers that look drawn by chance, the same for the same seed.
pub struct Chance(u64);

impl Chance {
    pub fn new(seed: u64) -> Chance {
        let mut chance = Chance(seed.wrapping_mul(0x9e37_79b9_7f4a_7c15) | 1);
        for _ in 0..8 {
            chance.below(2);
        }
        chance
    }

    pub fn below(&mut self, bound: usize) -> usize {
        self.0 ^= self.0 << 13;
        self.0 ^= self.0 >> 7;
        self.0 ^= self.0 << 17;
        ((self.0 >> 16) % bound as u64) as usize
    }

    pub fn of<T: Copy>(&mut self, all: &[T]) -> T {
        all[self.below(all.len())]
    }
}
