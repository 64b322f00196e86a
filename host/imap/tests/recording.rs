//! What `--record` writes: the stream of records that a connection's library got, in pushrun's form.

mod support;

use std::fs;
use std::os::unix::fs::symlink;
use std::path::PathBuf;
use std::thread;
use support::folder::Folder;
use support::stream::{count, cut, drained, lines, printed, refusals, whole};
use support::watch::Watch;
use support::{Client, Server};

/// As pushrun has it.
const QUEUE: [&str; 2] = ["--queue", "8192"];

/// How lines of the host's own begin, in what is sent here.
const OWN: [&str; 6] = [
    "* OK [",
    "* BYE",
    "* SEARCH",
    "* FLAGS",
    "* 0 RECENT",
    "* 1 FETCH (BODY[]",
];
const STOPPED: &str = "* OK [NOTIFICATIONOVERFLOW] stopped\r\n";

fn is_own(line: &str) -> bool {
    if line.starts_with("* ") {
        return OWN.iter().any(|own| line.starts_with(own)) && line != STOPPED;
    }
    !line.contains(" NOTIFY done") && !line.contains(" ESEARCH done")
}

/// What of a client's octets the library wrote. SELECT's answer is in one piece, and has an EXISTS of the host's.
fn told(client: &Client) -> String {
    let text = String::from_utf8_lossy(&client.octets);
    let (mut told, mut opens) = (String::new(), false);
    for line in text.split_inclusive("\r\n") {
        opens |= line.starts_with("* FLAGS");
        if !opens && !is_own(line) {
            told += line;
        }
        opens &= !line.starts_with("* 0 RECENT");
    }
    told
}

/// The drains of a stream take out what was put in before, and no more.
fn check_drains(records: &[&[u8]], printed: &[String]) {
    let mut held = 0;
    for (record, piece) in records.iter().zip(printed) {
        match drained(record) {
            Some(count) => {
                assert!(0 < count && count <= held, "{count} of {held}");
                held -= count;
            }
            None => held += lines(std::slice::from_ref(piece)).len(),
        }
    }
    assert_eq!(held, 0, "all was drained");
}

/// A server that records, and the stream of bob, who comes second.
fn recorded(name: &str) -> (Folder, Watch, PathBuf) {
    let folder = Folder::new(name);
    let watch = Watch::new(3, &[QUEUE[0], QUEUE[1], "--record", folder.text()]);
    let path = folder.path().join("2.records");
    (folder, watch, path)
}

/// Bob leaves, and all that was under way is done.
fn leave(bob: &mut Client) {
    bob.start("LOGOUT");
    bob.all_the_rest();
}

/// What bob waits for before he asks for notices.
fn changes_that_wait(alice: &mut Client, bob: &mut Client) {
    bob.ok("SELECT Shared/Open");
    alice.append("Shared/Open");
    alice.ok("SELECT Shared/Open");
    alice.ok("STORE 2 +FLAGS (\\Deleted)");
    alice.ok("EXPUNGE");
    bob.ok("SEARCH SEEN");
    bob.ok("NOOP");
}

fn changes_that_are_told(alice: &mut Client, bob: &mut Client) {
    bob.ok(
        "NOTIFY SET STATUS (selected (MessageNew (UID FLAGS) MessageExpunge FlagChange)) \
         (subtree Shared (MessageNew MessageExpunge FlagChange MailboxName SubscriptionChange)) (personal (MailboxName))",
    );
    alice.append("Shared/Open");
    for command in [
        "STORE 1 FLAGS (\\Flagged \\Deleted)",
        "EXPUNGE",
        "CREATE Shared/Fresh",
        "SETACL Shared/Fresh bob lr",
        "RENAME Shared/Fresh Shared/Old",
        "SETACL Shared/Old bob l",
        "DELETEACL Shared/Old bob",
        "DELETE Shared/Old",
    ] {
        alice.ok(command);
    }
    bob.ok("ESEARCH IN (selected subtree Shared) RETURN (MIN MAX COUNT) ALL");
    bob.ok("SUBSCRIBE Shared/Fence");
}

/// A mailbox that makes the line too long for the library.
fn ask_too_much(bob: &mut Client, name: &str) {
    let len = name.len();
    let command = format!("NOTIFY SET (mailboxes {{{len}+}}\r\n{name} (MailboxName))");
    assert!(bob.answer(&command).starts_with("BAD"));
}

#[test]
fn pushrun_prints_what_the_client_read() {
    let (_folder, mut watch, path) = recorded("session");
    let (alice, bob) = (&mut watch.alice, &mut watch.bob);
    changes_that_wait(alice, bob);
    changes_that_are_told(alice, bob);
    ask_too_much(bob, &"a".repeat(1_500));
    bob.ok("SELECT INBOX");
    alice.append("Shared/Open");
    bob.ok("NOTIFY NONE");
    alice.append("Shared/Open");
    leave(bob);
    let stream = fs::read(&path).expect("the stream");
    let records = whole(&stream);
    let printed = printed(&records);
    assert_eq!(lines(&printed), told(bob));
    assert_eq!(
        refusals(&printed),
        ["! 2\r\n"],
        "the line that was too long"
    );
    check_drains(&records, &printed);
    let all = [
        "MB", "DL", "RN", "SB", "RT", "ME", "XP", "FL", "SE", "CE", "CM", "DR",
    ];
    for mark in all {
        assert!(count(&records, mark) > 0, "{mark}");
    }
    watch.end();
}

/// A body that its length field can't say: neither is its rest read as records, nor is it left out.
#[test]
fn a_line_that_no_record_holds_is_one_record() {
    let (_folder, mut watch, path) = recorded("long-line");
    ask_too_much(&mut watch.bob, &"MB".repeat(40_000));
    watch.notify("(personal (MailboxName))");
    watch.alice.append("Shared/Fence");
    watch.bob.line();
    leave(&mut watch.bob);
    let stream = fs::read(&path).expect("the stream");
    let printed = printed(&whole(&stream));
    assert_eq!(lines(&printed), told(&watch.bob));
    assert_eq!(refusals(&printed), ["! 2\r\n"]);
    watch.end();
}

/// What leaves the queue when the stream is run on the step itself, drained by its own `DR`.
fn run_again(queue: usize, records: &[&[u8]]) -> String {
    let mut memory = borjavid::Memory::new(queue);
    let mut left = Vec::new();
    for record in records {
        if let Some(count) = drained(record) {
            left.extend(&memory.queue()[..count]);
        }
        let _ = memory.step(record);
    }
    assert_eq!(memory.queue().len(), 0, "all was drained");
    String::from_utf8(left).expect("lines")
}

/// A client that doesn't read, and is told so: what it got hangs on when its queue was drained, and the stream has that.
#[test]
fn the_step_gives_an_overflow_again() {
    const LARGE: usize = 24 << 20;
    let folder = Folder::new("overflow");
    let mut watch = Watch::new(3, &["--queue", "1024", "--record", folder.text()]);
    let bob = &mut watch.bob;
    bob.send(format!("a APPEND INBOX {{{LARGE}+}}\r\n").as_bytes());
    bob.send(&[&b"x".repeat(LARGE)[..], b"\r\n"].concat());
    bob.until("a OK");
    bob.ok("SELECT INBOX");
    watch.notify("(subtree Shared (MailboxName))");
    let tag = watch.bob.start("FETCH 1 (BODY.PEEK[])");
    watch.bob.until("* 1 FETCH");
    watch
        .alice
        .append_many((0..100).map(|_| "Shared/Fence".into()));
    watch.bob.until(&tag);
    watch.bob.until("* OK [NOTIFICATIONOVERFLOW] stopped");
    watch.notify("(subtree Shared (MailboxName))");
    watch.alice.append("Shared/Fence");
    leave(&mut watch.bob);
    let stream = fs::read(folder.path().join("2.records")).expect("the stream");
    let again = run_again(1024, &whole(&stream));
    assert_eq!(again, told(&watch.bob));
    assert!(again.contains("* OK [NOTIFICATIONOVERFLOW] stopped\r\n"));
    watch.end();
}

/// Whenever it is looked at, the file is a beginning of the stream; and the record of a line that a client has read is there.
#[test]
fn a_copy_at_any_moment_is_a_prefix() {
    const ALARMS: usize = 300;
    // so many notices find room in the queue, should nobody take them out
    const AT_ONCE: usize = 100;
    let (_folder, mut watch, path) = recorded("copies");
    watch.notify("(personal (MailboxName))");
    let copy = || fs::read(&path).expect("the stream");
    let mut copies = Vec::new();
    for _ in 0..ALARMS {
        watch.alice.append("Shared/Fence");
        watch.bob.line();
        copies.push((copy(), told(&watch.bob).len()));
    }
    // and while records come as fast as they can
    let fences = (0..AT_ONCE).map(|_| "Shared/Fence".to_string());
    thread::scope(|scope| {
        let sender = scope.spawn(|| watch.alice.append_many(fences));
        while !sender.is_finished() {
            copies.push((copy(), 0));
        }
    });
    watch.bob.lines(AT_ONCE);
    leave(&mut watch.bob);
    let stream = copy();
    let records = whole(&stream);
    let printed = printed(&records);
    for (copy, read) in &copies {
        assert!(stream.starts_with(copy));
        let inside = cut(copy).0.len();
        assert!(lines(&printed[..inside]).len() >= *read);
    }
    assert_eq!(lines(&printed), told(&watch.bob));
    watch.end();
}

/// The disk is full: the stream ends, which is said once, and the client is served on.
#[test]
fn a_stream_that_can_t_be_written_ends() {
    const NO_SPACE: i32 = 28;
    let folder = Folder::new("full");
    fs::create_dir(folder.path()).expect("the folder");
    let path = folder.path().join("1.records");
    symlink("/dev/full", &path).expect("a file that takes nothing");
    let server = Server::with(&["--record", folder.text()]);
    let mut bob = server.log_in("bob");
    bob.append("INBOX");
    assert!(bob.ok("SELECT INBOX").contains(&"* 1 EXISTS".into()));
    let fault = std::io::Error::from_raw_os_error(NO_SPACE);
    let sentence = format!("imap: {} ends here: {fault}\n", path.display());
    assert_eq!(server.log(), sentence);
}
