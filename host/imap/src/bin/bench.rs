//! bench [--rounds N] [WATCHERS..]: from an APPEND to its notice, notices a second, and memory a connection, of the server
//! beside this program. The watchers run here too, on the same cores. It ends with a fault where a notice doesn't come; the
//! gate runs two rounds for that, and not for their times.

use std::io::{BufRead, BufReader, Write};
use std::net::TcpStream;
use std::process::{Child, Command, ExitCode, Stdio};
use std::sync::mpsc::{channel, Receiver, Sender};
use std::thread;
use std::time::{Duration, Instant};

/// Rounds, unless others are asked for.
const ROUNDS: usize = 20;
/// In each: APPENDs whose notices are timed one by one, APPENDs as fast as they go, and how many of these on the way at a time.
const TIMED: usize = 50;
const APPENDS: usize = 500;
const AHEAD: usize = 20;
const MAILBOX: &str = "Shared/Alarms";

fn main() -> ExitCode {
    let Some((rounds, counts)) = asked(std::env::args().skip(1)) else {
        eprintln!("usage: bench [--rounds N] [WATCHERS..]");
        return ExitCode::from(2);
    };
    for watchers in counts {
        let server = Server::start(watchers);
        let mut bench = Bench::new(&server, watchers);
        bench.time(rounds);
        bench.rush(&server, rounds);
        println!(
            "{watchers} watchers: {}",
            server.memory(watchers, bench.before)
        );
    }
    ExitCode::SUCCESS
}

/// Rounds and counts of watchers, each above 0.
fn asked(mut words: impl Iterator<Item = String>) -> Option<(usize, Vec<usize>)> {
    let number = |word: String| word.parse().ok().filter(|&number: &usize| number > 0);
    let (mut rounds, mut counts) = (ROUNDS, Vec::new());
    while let Some(word) = words.next() {
        match word.as_str() {
            "--rounds" => rounds = number(words.next()?)?,
            _ => counts.push(number(word)?),
        }
    }
    if counts.is_empty() {
        counts = vec![1, 10, 100];
    }
    Some((rounds, counts))
}

struct Server {
    process: Child,
    port: u16,
}

impl Server {
    /// With a place for each watcher, and for who appends.
    fn start(watchers: usize) -> Server {
        let places = (watchers + 1).to_string();
        let program = std::env::current_exe()
            .expect("a path")
            .with_file_name("imap");
        let mut process = Command::new(program)
            .args(["--port", "0", "--connections", &places])
            .stdout(Stdio::piped())
            .spawn()
            .expect("the server, built beside this program");
        let mut line = String::new();
        let stdout = process.stdout.as_mut().expect("its output");
        BufReader::new(stdout).read_line(&mut line).expect("a line");
        let port = line
            .trim()
            .rsplit(':')
            .next()
            .and_then(|port| port.parse().ok());
        let port = port.expect("a port");
        Server { process, port }
    }

    /// Octets that are resident.
    fn resident(&self) -> u64 {
        let path = format!("/proc/{}/status", self.process.id());
        let status = std::fs::read_to_string(path).unwrap_or_default();
        let line = status.lines().find(|line| line.starts_with("VmRSS:"));
        let number = line.and_then(|line| line.split_whitespace().nth(1)?.parse::<u64>().ok());
        number.unwrap_or(0) * 1024
    }

    /// Time that the server has had of the processors, the kernel's share with it. The kernel counts in hundredths of a second.
    fn worked(&self) -> Duration {
        let path = format!("/proc/{}/stat", self.process.id());
        let stat = std::fs::read_to_string(path).unwrap_or_default();
        let behind_the_name = stat.rsplit(')').next().unwrap_or_default();
        let fields = behind_the_name.split_whitespace().skip(11).take(2);
        let ticks: u64 = fields.flat_map(|field| field.parse::<u64>()).sum();
        Duration::from_millis(10 * ticks)
    }

    fn memory(&self, watchers: usize, before: u64) -> String {
        let after = self.resident();
        let each = after.saturating_sub(before) / watchers as u64 / 1024;
        format!("{} KB resident, {each} KB a connection", after / 1024)
    }
}

impl Drop for Server {
    fn drop(&mut self) {
        let _ = self.process.kill();
        let _ = self.process.wait();
    }
}

struct Client {
    socket: TcpStream,
    reader: BufReader<TcpStream>,
}

impl Client {
    fn log_in(port: u16, user: &str) -> Client {
        let socket = TcpStream::connect(("127.0.0.1", port)).expect("a connection");
        socket.set_nodelay(true).expect("no delay");
        let reader = BufReader::new(socket.try_clone().expect("a second handle"));
        let mut client = Client { socket, reader };
        client.run(&format!("LOGIN {user} pw"));
        client
    }

    fn line(&mut self) -> Option<String> {
        let mut line = String::new();
        let count = self.reader.read_line(&mut line).unwrap_or(0);
        (count > 0).then_some(line)
    }

    fn send(&mut self, text: &str) {
        self.socket.write_all(text.as_bytes()).expect("sent");
    }

    fn run(&mut self, command: &str) {
        self.send(&format!("t {command}\r\n"));
        loop {
            let line = self.line().expect("an answer");
            if line.starts_with("t ") {
                assert!(line.starts_with("t OK"), "{command}: {line}");
                return;
            }
        }
    }
}

struct Bench {
    actor: Client,
    watchers: usize,
    notices: Receiver<(Instant, String)>,
    append: String,
    /// Octets resident before the watchers came.
    before: u64,
}

impl Bench {
    fn new(server: &Server, watchers: usize) -> Bench {
        let mut actor = Client::log_in(server.port, "alice");
        actor.run(&format!("CREATE {MAILBOX}"));
        actor.run(&format!("SETACL {MAILBOX} bob lr"));
        let before = server.resident();
        let (sender, notices) = channel();
        for _ in 0..watchers {
            let mut watcher = Client::log_in(server.port, "bob");
            watcher.run("NOTIFY SET (subtree Shared (MessageNew MessageExpunge))");
            let sender = sender.clone();
            thread::spawn(move || watch(watcher, &sender));
        }
        let message = "From: a@x\r\nSubject: t\r\n\r\nhi\r\n";
        let append = format!("APPEND {MAILBOX} {{{}+}}\r\n{message}", message.len());
        Bench {
            actor,
            watchers,
            notices,
            append,
            before,
        }
    }

    /// One APPEND after the other: from sending it to each watcher's notice.
    fn time(&mut self, rounds: usize) {
        let mut all = Vec::new();
        for place in 0..rounds * TIMED {
            if place % APPENDS == 0 {
                self.empty();
            }
            let start = Instant::now();
            self.actor.run(&self.append);
            for _ in 0..self.watchers {
                all.push(self.notice().0 - start);
            }
        }
        all.sort_unstable();
        let at = |part: f64| all[((all.len() - 1) as f64 * part) as usize].as_micros();
        let (median, late) = (at(0.5), at(0.99));
        let watchers = self.watchers;
        println!(
            "{watchers} watchers: APPEND to notice: median {median} us, 99th percentile {late} us"
        );
    }

    /// As many as go, with some on the way at a time.
    fn rush(&mut self, server: &Server, rounds: usize) {
        let (mut spent, mut worked) = (Duration::ZERO, Duration::ZERO);
        for _ in 0..rounds {
            self.empty();
            let (start, before) = (Instant::now(), server.worked());
            for some in 0..APPENDS / AHEAD {
                let text = format!("p {}\r\n", self.append).repeat(AHEAD);
                self.actor.send(&text);
                // the answers to the last some are read while these are on the way
                for _ in 0..if some == 0 { 0 } else { AHEAD } {
                    self.actor.line().expect("an answer");
                }
            }
            for _ in 0..AHEAD {
                self.actor.line().expect("an answer");
            }
            for _ in 0..APPENDS * self.watchers {
                let (_, line) = self.notice();
                assert!(!line.contains("OVERFLOW"), "{line}");
            }
            spent += start.elapsed();
            worked += server.worked() - before;
        }
        let notices = rounds * APPENDS * self.watchers;
        let rate = notices as f64 / spent.as_secs_f64();
        let each = worked.as_micros() as f64 / notices as f64;
        println!(
            "{} watchers: {rate:.0} notices a second, {each:.1} us of a processor for each",
            self.watchers
        );
    }

    /// The tables hold 1,024 messages: what was appended goes, and its notices are let pass.
    fn empty(&mut self) {
        self.actor.run(&format!("SELECT {MAILBOX}"));
        self.actor.run("STORE 1:* +FLAGS.SILENT (\\Deleted)");
        self.actor.run("CLOSE");
        self.actor.run(&self.append);
        for _ in 0..self.watchers {
            while !self.notice().1.contains(" MESSAGES 1 ") {}
        }
        // the watchers' last expunge may look the same as the message behind it
        thread::sleep(Duration::from_millis(100));
        while self.notices.try_recv().is_ok() {}
    }

    fn notice(&self) -> (Instant, String) {
        let limit = Duration::from_secs(20);
        self.notices.recv_timeout(limit).expect("a notice in time")
    }
}

fn watch(mut watcher: Client, sender: &Sender<(Instant, String)>) {
    while let Some(line) = watcher.line() {
        if sender.send((Instant::now(), line)).is_err() {
            return;
        }
    }
}
