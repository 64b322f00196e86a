//! Who has not logged in gets little of the server's time and room, and takes none from those who have.

mod support;

use std::thread;
use std::time::{Duration, Instant};
use support::{Client, Server};

/// Nothing here takes this long, unless what must end doesn't.
const LONG: Duration = Duration::from_secs(20);
const LATE: &str = "* BYE no login in time";
const FULL: &str = "* BYE [LIMIT] too many connections\r\n";

/// What comes until the server ends the connection, which it must do.
fn rest_in_time(client: &mut Client) -> String {
    let start = Instant::now();
    let rest = client.all_the_rest();
    assert!(start.elapsed() < LONG, "it is still there");
    rest
}

/// Knocks until there is a place.
fn connect_when_free(server: &Server) -> Client {
    let start = Instant::now();
    loop {
        let mut client = server.knock();
        if client.line().starts_with("* OK") {
            return client;
        }
        assert!(start.elapsed() < LONG, "no place came free");
    }
}

#[test]
fn each_wrong_password_costs_its_time() {
    const GUESSES: u32 = 10;
    let server = Server::with(&["--wrong-delay", "0.05"]);
    let mut guesser = server.connect();
    let start = Instant::now();
    // all are on the way at once, and wait one after the other
    for _ in 0..GUESSES {
        guesser.start("LOGIN alice guess");
        guesser.start("AUTHENTICATE PLAIN AGFsaWNlAGd1ZXNz");
    }
    let lines = guesser.lines(2 * GUESSES as usize);
    let spent = start.elapsed();
    let denied = |line: &String| line.ends_with(" NO [AUTHENTICATIONFAILED] no");
    assert!(lines.iter().all(denied), "{lines:?}");
    assert!(
        spent >= 2 * GUESSES * Duration::from_millis(50),
        "{spent:?}"
    );
    guesser.ok("LOGIN alice pw");
    server.end();
}

#[test]
fn nobody_else_waits_for_a_wrong_password() {
    let server = Server::with(&["--wrong-delay", "3600"]);
    let mut guesser = server.connect();
    guesser.start("LOGIN alice guess");
    let mut alice = server.log_in("alice");
    for _ in 0..200 {
        alice.append("INBOX");
    }
    server.end();
}

#[test]
fn three_hundred_strangers_find_two_hundred_places() {
    let server = Server::start();
    let mut greeted = Vec::new();
    for _ in 0..200 {
        greeted.push(server.connect());
    }
    for _ in 0..100 {
        assert_eq!(rest_in_time(&mut server.knock()), FULL);
    }
    // those who are there are served, and a place that was left is free
    greeted[199].ok("LOGIN alice pw");
    greeted.pop();
    connect_when_free(&server).ok("LOGIN bob pw");
    server.end();
}

#[test]
fn a_silent_stranger_is_sent_away() {
    let server = Server::with(&["--login-within", "0.3"]);
    let mut silent = server.connect();
    assert_eq!(rest_in_time(&mut silent), format!("{LATE}\r\n"));
    server.end();
}

#[test]
fn a_stranger_of_an_octet_now_and_then_is_sent_away() {
    let server = Server::with(&["--login-within", "0.3", "--connections", "1"]);
    let mut slow = server.connect();
    let start = Instant::now();
    while !server.knock().line().starts_with("* OK") {
        slow.try_send(b"x");
        thread::sleep(Duration::from_millis(10));
        assert!(start.elapsed() < LONG, "it is still there");
    }
    server.end();
}

#[test]
fn a_busy_stranger_is_sent_away() {
    let server = Server::with(&["--login-within", "0.3"]);
    let mut busy = server.connect();
    let start = Instant::now();
    loop {
        busy.try_send(b"x NOOP\r\n");
        let line = busy.line();
        if line == LATE {
            break;
        }
        assert_eq!(line, "x OK done");
        assert!(start.elapsed() < LONG, "it is still there");
    }
    server.end();
}

#[test]
fn a_stranger_that_doesn_t_read_is_sent_away() {
    let server = Server::with(&["--login-within", "1", "--connections", "1"]);
    let mut deaf = server.connect();
    let start = Instant::now();
    // long tags, which the answers have too: soon they are more than any socket's buffers hold
    let line = [&b"x".repeat(60_000)[..], b"\r\n"].concat();
    deaf.try_send(&line.repeat(500));
    assert!(start.elapsed() < LONG, "it is still there");
    connect_when_free(&server);
    server.end();
}

/// Who has logged in may be silent, or not read, for longer than a stranger may stay.
#[test]
fn a_user_stays() {
    const LARGE: usize = 24 << 20;
    let server = Server::with(&["--login-within", "1.5"]);
    let mut alice = server.log_in("alice");
    let mut bob = server.log_in("bob");
    bob.send(format!("a APPEND INBOX {{{LARGE}+}}\r\n").as_bytes());
    bob.send(&[&b"x".repeat(LARGE)[..], b"\r\n"].concat());
    bob.until("a OK");
    bob.ok("SELECT INBOX");
    let tag = bob.start("FETCH 1 (BODY.PEEK[])");
    // had they the stranger's limit, two writes would put a little into the socket until then, and a third nothing
    thread::sleep(Duration::from_secs(6));
    alice.ok("NOOP");
    let answer = bob.until(&tag);
    assert!(answer[1].len() > LARGE, "{} octets", answer[1].len());
    server.end();
}
