//! Bob may see one folder of forty-one. Mail by the thousand falls into the others while he waits, some of them are made,
//! renamed, deleted and emptied, and then one alarm comes. He hears it, and not one octet of the rest.

mod support;

use support::{Client, Server, MESSAGE};

const FOLDERS: usize = 40;
const ALARM: &str = "* STATUS \"Shared/Alarms\" (UIDNEXT 2 MESSAGES 1 HIGHESTMODSEQ 2)";

fn hidden(number: usize) -> String {
    format!("Shared/Hidden{number:02}")
}

/// What alice does where bob may not look, before he comes.
fn make_some(alice: &mut Client) {
    for number in 0..FOLDERS / 2 {
        alice.ok(&format!("CREATE {}", hidden(number)));
    }
}

/// And while he waits.
fn act(alice: &mut Client, messages: usize) {
    for number in FOLDERS / 2..FOLDERS {
        alice.ok(&format!("CREATE {}", hidden(number)));
    }
    alice.append_many((0..messages).map(|place| hidden(place % FOLDERS)));
    alice.ok(&format!("RENAME {} Shared/Layoffs", hidden(1)));
    alice.ok(&format!("DELETE {}", hidden(2)));
    alice.ok(&format!("SELECT {}", hidden(3)));
    alice.ok("STORE 1:* +FLAGS (\\Deleted)");
    alice.ok("EXPUNGE");
    alice.ok("CLOSE");
    alice.ok(&format!("SETACL {} carol lr", hidden(4)));
}

/// The whole story, with so many messages or with no hidden folder at all: every octet that bob gets.
fn octets(messages: Option<usize>) -> Vec<u8> {
    let server = Server::start();
    let mut alice = server.log_in("alice");
    alice.ok("CREATE Shared/Alarms");
    alice.ok("SETACL Shared/Alarms bob lr");
    if messages.is_some() {
        make_some(&mut alice);
    }
    let mut bob = server.log_in("bob");
    bob.ok("LIST \"\" *");
    bob.run("STATUS Shared/Hidden00 (MESSAGES)");
    bob.run("STATUS Shared/Never (MESSAGES)");
    bob.ok(
        "NOTIFY SET STATUS (subtree Shared (MessageNew MessageExpunge MailboxName)) \
         (mailboxes (Shared/Hidden00 Shared/Never) (MessageNew MessageExpunge MailboxName))",
    );
    bob.start(&format!("APPEND INBOX {{{}}}", MESSAGE.len()));
    bob.until("+");
    if let Some(messages) = messages {
        act(&mut alice, messages);
    }
    alice.append("Shared/Alarms");
    assert_eq!(bob.until(ALARM), [ALARM], "{messages:?}");
    bob.send(format!("{MESSAGE}\r\n").as_bytes());
    bob.until("t6 OK");
    bob.ok("NOOP");
    bob.ok("SELECT Shared/Alarms");
    bob.ok("ESEARCH IN (subtree Shared personal) RETURN (COUNT) ALL");
    bob.ok("LIST \"\" *");
    bob.start("LOGOUT");
    bob.all_the_rest();
    server.end();
    bob.octets
}

#[test]
fn one_alarm_among_thousands() {
    let quiet = octets(None);
    let text = String::from_utf8_lossy(&quiet).into_owned();
    assert!(text.contains(ALARM), "{text}");
    assert!(!text.contains("NOTIFICATIONOVERFLOW"), "{text}");
    for word in ["Hidden", "Layoffs"] {
        assert!(!text.contains(word), "{text}");
    }
    for messages in [0, 1_000, 5_000] {
        let loud = octets(Some(messages));
        assert_eq!(String::from_utf8_lossy(&loud), text, "{messages} messages");
    }
}
