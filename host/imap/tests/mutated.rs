//! Commands that were damaged by chance, by the ten thousand. The server must neither panic nor send its library a record that
//! is refused, and serve others afterwards.

mod support;

use support::{Chance, Client, Server};

const SERVERS: u64 = 10;
const CONNECTIONS: usize = 60;
const COMMANDS: usize = 60;

const WHOLE: [&str; 50] = [
    "SELECT INBOX",
    "EXAMINE a/b",
    "FETCH 1:* (FLAGS BODY.PEEK[HEADER.FIELDS (A \"B c\")]<0.9> ENVELOPE BODYSTRUCTURE)",
    "FETCH 1 (BODY[1.2.MIME] BODY[TEXT] RFC822.HEADER INTERNALDATE)",
    "UID FETCH 1,2:* (UID MODSEQ) (CHANGEDSINCE 1 VANISHED)",
    "FETCH 2:4 FULL",
    "STORE 1 +FLAGS.SILENT (\\Seen x)",
    "UID STORE 1:* (UNCHANGEDSINCE 3) FLAGS (\\Deleted)",
    "STORE 1:3 -FLAGS \\Flagged",
    "FETCH 1:* (FLAGS) (CHANGEDSINCE 2)",
    "SEARCH MODSEQ \"/flags/\\\\Seen\" all 2 OR MODSEQ 3 SEEN",
    "SELECT INBOX (CONDSTORE)",
    "SEARCH OR FROM \"a\" NOT (SINCE 1-Jan-2020 UID 1:*) LARGER 3",
    "UID SEARCH CHARSET UTF-8 HEADER X \"\" BODY {1+}\r\nh SENTON 2-Feb-2021",
    "LIST (SUBSCRIBED) \"\" (\"*\" \"%\") RETURN (CHILDREN STATUS (MESSAGES))",
    "LIST a* b%c",
    "LSUB \"\" *",
    "APPEND INBOX (\\Seen) \"01-Jan-2020 00:00:00 +0000\" {5+}\r\nhello",
    "APPEND INBOX {108+}\r\nContent-Type: multipart/mixed; boundary=b\r\n\r\n--b\r\n\r\nx\r\n--b\r\n\
     Content-Type: message/rfc822\r\n\r\nFrom: <x>\r\n\r\ny\r\n--b--\r\n",
    "COPY 1 INBOX",
    "UID COPY 1:* a",
    "EXPUNGE",
    "UID EXPUNGE 1:*",
    "CLOSE",
    "UNSELECT",
    "NOTIFY SET STATUS (selected (MessageNew (UID BODY.PEEK[1.2.MIME] BODYSTRUCTURE) MessageExpunge FlagChange)) \
     (personal (MailboxName))",
    "NOTIFY SET (selected-delayed (MessageNew MessageExpunge FlagChange)) (subtree {1+}\r\na (MessageNew MessageExpunge))",
    "NOTIFY NONE",
    "ESEARCH IN (personal subtree (a \"b\")) RETURN (COUNT) OR ALL (UID 1:4 NOT SEEN)",
    "ESEARCH RETURN (MIN MAX) 1:*",
    "STATUS INBOX (MESSAGES UNSEEN HIGHESTMODSEQ)",
    "CREATE a/b",
    "CREATE inbox/c/",
    "RENAME a c",
    "RENAME INBOX old/inbox",
    "RENAME c/b a/d",
    "DELETE c",
    "DELETE a/b",
    "SUBSCRIBE a",
    "UNSUBSCRIBE INBOX",
    "CREATE Shared/x",
    "SETACL Shared/x alice +lr-w",
    "SETACL Shared/x alice -r",
    "DELETEACL Shared/x alice",
    "GETACL Shared/x",
    "LISTRIGHTS Shared/x anyone",
    "SETACL Shared/x anyone +lr",
    "LIST \"\" (% Shared/%)",
    "IDLE\r\nDONE",
    "ENABLE QRESYNC",
];

const PIECES: [&[u8]; 12] = [
    b"(",
    b")",
    b"{3+}\r\nabc",
    b"{3}\r\n",
    b"4294967295",
    b"4294967296",
    b" ",
    b"\"",
    b"99999999999999999999",
    b"\xff\xfe",
    b"(((((((((((((((((((((((((((((((((((((((((((((((((((((((((((((((((((((((((((((((((((((((((((((((((((",
    b"\r\nDONE\r\n",
];

fn damage(command: &str, chance: &mut Chance) -> Vec<u8> {
    let mut octets = command.as_bytes().to_vec();
    for _ in 0..=chance.below(3) {
        let place = chance.below(octets.len() + 1);
        match chance.below(10) {
            0..=3 if place < octets.len() => {
                octets[place] = chance.of(b"(){}[]<>\"\\*%,: \0\xff+-0123456789Aa/");
            }
            4..=6 => {
                let end = octets.len().min(place + 1 + chance.below(6));
                octets.drain(place.min(end)..end);
            }
            _ => {
                let piece = chance.of(&PIECES);
                octets.splice(place..place, piece.iter().copied());
            }
        }
    }
    octets
}

/// So many messages at least are in INBOX.
fn fill(alice: &mut Client, least: usize) {
    let status = alice.ok("STATUS INBOX (MESSAGES)");
    let count = status[0].trim_end_matches(')').rsplit(' ').next();
    let count: usize = count.and_then(|n| n.parse().ok()).expect("a number");
    alice.append_many((count..least).map(|_| "INBOX".into()));
}

/// All of those commands, each connection with so many messages in INBOX; answers what the server wrote to its log.
fn run(seed: u64, options: &[&str], messages: usize) -> String {
    let server = Server::with(options);
    let mut chance = Chance::new(seed);
    let (mut watcher, mut filler) = (server.log_in("bob"), server.log_in("alice"));
    for _ in 0..CONNECTIONS {
        fill(&mut filler, messages);
        let mut client = server.log_in("alice");
        let mut octets = Vec::new();
        for number in 0..COMMANDS {
            let whole = chance.of(&WHOLE);
            let command = match chance.below(2) {
                0 => whole.as_bytes().to_vec(),
                _ => damage(whole, &mut chance),
            };
            octets.extend(format!("m{number} ").bytes());
            octets.extend(command);
            octets.extend(b"\r\n");
        }
        client.try_send(&octets);
        client.hang_up();
        client.all_the_rest();
        assert_eq!(watcher.ok("NOOP"), [""; 0]);
    }
    let mut carol = server.log_in("carol");
    carol.append("INBOX");
    assert!(carol.ok("SELECT INBOX").contains(&"* 1 EXISTS".into()));
    server.log()
}

#[test]
fn no_damaged_command_ends_the_server() {
    for seed in 0..SERVERS {
        assert_eq!(run(seed, &[], 0), "");
    }
}

#[test]
fn nor_one_that_adapts_with_the_least_queue() {
    for seed in 0..SERVERS {
        let options = ["--adapt", "--queue", "1024"];
        assert_eq!(run(SERVERS + seed, &options, 0), "");
    }
}

#[test]
fn nor_one_with_a_mailbox_too_large_for_the_library() {
    let own = "too many for the library: alice has it without";
    for (seed, options) in [(20, &[][..]), (21, &["--adapt"])] {
        let log = run(seed, options, 1030);
        assert!(log.lines().all(|line| line.ends_with(own)), "{log}");
        assert!(log.lines().count() > CONNECTIONS / 2, "{log}");
    }
}
