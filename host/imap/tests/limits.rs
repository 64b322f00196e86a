//! What happens at the limits: a client that doesn't read, and accounts that the tables don't hold.

mod support;

use support::watch::Watch;
use support::{Client, Server};

const ALL: &str = "(selected (MessageNew MessageExpunge FlagChange))";
const LARGE: usize = 24 << 20;
const STOPPED: &str = "* OK [NOTIFICATIONOVERFLOW] stopped";
const TOO_LARGE: &str = "* OK [NOTIFICATIONOVERFLOW] account too large";

/// A message in the client's INBOX that no socket's buffers hold.
fn append_large(client: &mut Client) {
    client.send(format!("big APPEND INBOX {{{LARGE}+}}\r\n").as_bytes());
    client.send(&vec![b'x'; LARGE]);
    client.send(b"\r\n");
    client.until("big OK");
}

/// From here on the client doesn't read: the server is inside an answer that its socket doesn't take.
fn stop_reading(client: &mut Client) -> String {
    client.ok("SELECT INBOX");
    let tag = client.start("FETCH 1 (BODY.PEEK[])");
    client.until("* 1 FETCH (BODY[]");
    tag
}

/// And now it does: that answer is read to its tag.
fn read_again(client: &mut Client, tag: &str) {
    let answer = client.until(tag);
    assert_eq!(answer.len(), 2, "the message and the tag");
}

#[test]
fn a_client_that_doesn_t_read_is_told_so_and_nobody_waits() {
    let mut watch = Watch::new(100, &[]);
    append_large(&mut watch.bob);
    let mut deaf = watch.server.log_in("bob");
    deaf.ok(&format!(
        "NOTIFY SET {ALL} (subtree Shared (MessageNew MessageExpunge))"
    ));
    let tag = stop_reading(&mut deaf);
    watch.notify(ALL);
    watch.bob.ok("SELECT Shared/Open");
    // others are served, and hear all of it, while its queue fills
    let rounds = 1_700;
    for round in 0..rounds {
        watch.alice.append("Shared/Fence");
        let heard = watch.bob.line();
        assert!(
            heard.contains(&format!("(UIDNEXT {} ", round + 2)),
            "{heard}"
        );
        if round == 849 {
            watch.alice.ok("SELECT Shared/Fence");
            watch.alice.ok("STORE 1:* +FLAGS.SILENT (\\Deleted)");
            watch.alice.ok("CLOSE");
            watch.bob.lines(850);
        }
    }
    // now it reads: what its queue held, and as the last line that there was more
    read_again(&mut deaf, &tag);
    let lines = deaf.until(STOPPED);
    let notices = lines.len() - 1;
    assert!(notices > 500 && notices < rounds, "{notices}");
    let is_notice = |line: &String| line.starts_with("* STATUS \"Shared/Fence\"");
    assert!(lines[..notices].iter().all(is_notice));
    assert_eq!(deaf.ok("NOOP").len(), 0);
    // and may ask again
    deaf.ok("NOTIFY SET (subtree Shared (MessageNew MessageExpunge))");
    watch.alice.append("Shared/Fence");
    assert!(deaf.line().starts_with("* STATUS \"Shared/Fence\""));
    watch.end();
}

#[test]
fn an_account_outgrows_the_messages() {
    let mut watch = Watch::new(1000, &[]);
    watch.notify("(personal (MessageNew MessageExpunge)) (mailboxes Shared/Open (MessageNew MessageExpunge))");
    watch.bob.ok("SELECT INBOX");
    watch
        .alice
        .append_many((0..24).map(|_| "Shared/Open".into()));
    let heard = watch.bob.lines(24);
    assert_eq!(
        heard[23],
        "* STATUS \"Shared/Open\" (UIDNEXT 1025 MESSAGES 1024 HIGHESTMODSEQ 1025)"
    );
    assert!(watch.bob.ok("CAPABILITY")[0].contains(" NOTIFY "));
    watch
        .alice
        .append_many((0..9).map(|_| "Shared/Open".into()));
    assert_eq!(watch.bob.line(), TOO_LARGE);
    assert_eq!(watch.bob.ok("NOOP"), [""; 0]);
    assert!(!watch.bob.ok("CAPABILITY")[0].contains("NOTIFY"));
    let groups = "(personal (MessageNew MessageExpunge))";
    let refused = watch.bob.answer(&format!("NOTIFY SET {groups}"));
    assert_eq!(refused, "NO [NOTIFICATIONOVERFLOW] account too large");
    let refused = watch.bob.answer("ESEARCH IN (personal) ALL");
    assert_eq!(refused, "NO [LIMIT] account too large");
    assert_eq!(watch.bob.answer("NOTIFY NONE"), "OK NOTIFY done");
    // the selected mailbox is followed as before, and the other is not shown in part
    watch.bob.append("INBOX");
    assert_eq!(watch.bob.ok("FETCH 1 (UID)"), ["* 1 FETCH (UID 1)"]);
    let exists = "* 1033 EXISTS".to_string();
    assert!(watch.bob.ok("SELECT Shared/Open").contains(&exists));
    watch.bob.ok("SELECT INBOX");
    // the next connection isn't offered what it can't have, and is served otherwise
    let mut next = watch.server.connect();
    assert!(!next.answer("LOGIN bob pw").contains("NOTIFY"));
    assert!(next
        .answer(&format!("NOTIFY SET {groups}"))
        .starts_with("NO [NOTIFICATIONOVERFLOW]"));
    assert!(next.ok("SELECT INBOX").contains(&"* 1 EXISTS".into()));
    watch.bob.append("INBOX");
    assert_eq!(next.ok("NOOP"), ["* 2 EXISTS"]);
    assert!(next.ok("SELECT Shared/Open").contains(&exists));
    assert!(next.ok("SELECT INBOX").contains(&"* 2 EXISTS".into()));
    let log = "imap: Shared/Open has 1033 messages, too many for the library: bob has it without\n";
    assert_eq!(watch.server.log(), log.repeat(2));
}

/// The one that is open gets the room of the others, and its notices stay the library's.
#[test]
fn an_account_outgrows_beside_the_selected_mailbox() {
    let mut watch = Watch::new(1000, &[]);
    watch.notify("(selected (MessageNew MessageExpunge FlagChange)) (mailboxes Shared/Open (MessageNew MessageExpunge))");
    watch.bob.ok("SELECT INBOX");
    let mut other = watch.server.log_in("bob");
    other.append_many((0..30).map(|_| "INBOX".into()));
    let exists: Vec<String> = (1..=24).map(|n| format!("* {n} EXISTS")).collect();
    assert_eq!(watch.bob.lines(24), exists);
    assert_eq!(watch.bob.line(), TOO_LARGE);
    assert_eq!(watch.bob.ok("NOOP"), ["* 30 EXISTS"]);
    watch.bob.ok("STORE 30 FLAGS (\\Deleted)");
    assert_eq!(watch.bob.ok("EXPUNGE"), ["* 30 EXPUNGE"]);
    watch.end();
}

#[test]
fn an_account_outgrows_the_mailboxes() {
    let server = Server::start();
    let mut alice = server.log_in("alice");
    let mut other = server.log_in("alice");
    alice.ok("NOTIFY SET (personal (MailboxName))");
    for number in 0..63 {
        other.ok(&format!("CREATE f{number:02}"));
    }
    assert_eq!(alice.lines(63)[62], "* LIST () \"/\" \"f62\"");
    other.ok("CREATE one/more");
    assert_eq!(alice.line(), TOO_LARGE);
    assert!(!alice.ok("CAPABILITY")[0].contains("NOTIFY"));
    alice.ok("SELECT one/more");
    other.append("one/more");
    assert_eq!(alice.ok("NOOP"), ["* 1 EXISTS"]);
    alice.ok("SELECT f00");
    assert_eq!(alice.ok("LIST \"\" *").len(), 66);
    server.end();
}

/// The account outgrows the tables while the queue has no room for anything more: the client is told when it reads.
#[test]
fn an_account_outgrows_behind_a_full_queue() {
    // 13 lines of 73 octets leave 11 of 1,024 - 64
    const LINES: usize = 13;
    let mut watch = Watch::new(0, &["--queue", "1024"]);
    let alarms = |count: usize| (0..count).map(|_| "Shared/Alarm".to_string());
    watch.alice.ok("CREATE Shared/Alarm");
    watch.alice.append_many(alarms(1024 - LINES - 1));
    append_large(&mut watch.alice);
    let mut deaf = watch.server.log_in("alice");
    let groups = "(subtree Shared (MessageNew MessageExpunge))";
    deaf.ok(&format!("NOTIFY SET {groups}"));
    let tag = stop_reading(&mut deaf);
    watch.alice.append_many(alarms(LINES + 5));
    read_again(&mut deaf, &tag);
    let lines = deaf.lines(LINES + 1);
    let last = "* STATUS \"Shared/Alarm\" (UIDNEXT 1024 MESSAGES 1023 HIGHESTMODSEQ 1024)";
    assert_eq!(lines[LINES - 1..], [last, TOO_LARGE]);
    assert_eq!(deaf.ok("NOOP"), [""; 0]);
    assert!(deaf
        .answer(&format!("NOTIFY SET {groups}"))
        .starts_with("NO "));
    watch.end();
}

/// In IDLE more is owed than the queue has room for while the client doesn't read: it goes as the queue is drained.
#[test]
fn idle_behind_a_full_queue() {
    let mut watch = Watch::new(0, &["--queue", "1024"]);
    append_large(&mut watch.bob);
    let mut other = watch.server.log_in("bob");
    other.append_many((0..100).map(|_| "INBOX".into()));
    let tag = stop_reading(&mut watch.bob);
    let idle = watch.bob.start("IDLE");
    // the server has read that by then; if not, all is owed at IDLE's beginning, which is as right
    (0..200).for_each(|_| drop(other.ok("NOOP")));
    other.ok("SELECT INBOX");
    other.ok("STORE 1:101 FLAGS (\\Flagged)");
    read_again(&mut watch.bob, &tag);
    let lines = watch.bob.lines(1 + 101);
    let flags = lines
        .iter()
        .filter(|line| line.contains("FLAGS (\\Flagged) MODSEQ ("));
    assert_eq!(flags.count(), 101);
    watch.bob.send(b"DONE\r\n");
    assert_eq!(watch.bob.line(), format!("{idle} OK IDLE done"));
    watch.end();
}

/// Nothing comes behind BYE, whatever happens until the client has read it.
#[test]
fn bye_is_the_last() {
    let mut watch = Watch::new(0, &[]);
    append_large(&mut watch.bob);
    let mut other = watch.server.log_in("bob");
    let tag = stop_reading(&mut watch.bob);
    watch.bob.start("IDLE");
    // IDLE ends with a line, and this one never ends
    watch.bob.send(&vec![b'x'; 1 << 16]);
    (0..200).for_each(|_| drop(other.ok("NOOP")));
    other.append("INBOX");
    other.ok("RENAME INBOX old");
    other.ok("DELETE old");
    read_again(&mut watch.bob, &tag);
    let rest = watch.bob.all_the_rest();
    // the server may have read that line only now, and all else is told before it then
    assert!(
        rest.ends_with("\r\n* BYE line too long or cut off\r\n"),
        "{rest}"
    );
    watch.end();
}

/// A client that asks and doesn't read makes its own commands wait, and the server no larger.
#[test]
fn answers_that_nobody_reads_don_t_pile_up() {
    let mut watch = Watch::new(0, &[]);
    append_large(&mut watch.bob);
    stop_reading(&mut watch.bob);
    for _ in 0..40 {
        watch.bob.start("FETCH 1 (BODY.PEEK[])");
    }
    (0..500).for_each(|_| drop(watch.alice.ok("NOOP")));
    let resident = watch.server.resident();
    assert!(resident < 10 * LARGE, "{resident} octets");
    watch.end();
}
