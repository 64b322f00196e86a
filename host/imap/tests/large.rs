//! A mailbox that the library's tables don't hold: it is served all the same, without notices, and the log says so.

mod support;

use support::watch::Watch;
use support::{Chance, Client};

const MANY: usize = 1025;

/// What the log has for each SELECT.
fn log(user: &str, count: usize) -> String {
    format!(
        "imap: Shared/Open has {count} messages, too many for the library: {user} has it without\n"
    )
}

fn flags(number: usize, uid: usize, flags: &str, counter: usize) -> String {
    format!("* {number} FETCH (UID {uid} FLAGS ({flags}) MODSEQ ({counter}))")
}

/// Both have it open.
fn opened(messages: usize, options: &[&str]) -> Watch {
    let mut watch = Watch::new(messages, options);
    for client in [&mut watch.alice, &mut watch.bob] {
        let exists = format!("* {messages} EXISTS");
        assert!(client.ok("SELECT Shared/Open").contains(&exists));
    }
    watch
}

fn end(watch: Watch, messages: usize) {
    let both = log("alice", messages) + &log("bob", messages);
    assert_eq!(watch.server.log(), both);
}

#[test]
fn commands_hear_by_their_class() {
    let mut watch = opened(MANY, &[]);
    let Watch { alice, bob, .. } = &mut watch;
    assert!(!bob.ok("CAPABILITY")[0].contains("NOTIFY"));
    assert_eq!(bob.ok("FETCH 1025 (UID)"), ["* 1025 FETCH (UID 1025)"]);
    // an own change is told once
    let seen = flags(3, 3, "\\Seen", 1027);
    assert_eq!(bob.ok("STORE 3 +FLAGS (\\Seen)"), [&seen[..]]);
    assert_eq!(bob.ok("STORE 3 +FLAGS (\\Seen)"), [&seen[..]]);
    assert_eq!(bob.ok("SEARCH SEEN"), ["* SEARCH 3"]);
    assert_eq!(alice.ok("NOOP"), [seen]);
    alice.ok("STORE 2 FLAGS (\\Deleted)");
    assert_eq!(alice.ok("EXPUNGE"), ["* 2 EXPUNGE"]);
    alice.append("Shared/Open");
    assert_eq!(
        alice.ok("STORE 1 FLAGS (\\Draft)"),
        [flags(1, 1, "\\Draft", 1031)]
    );
    // numbers stand while a command has them
    let told = [
        "* 3 FETCH (UID 3)".into(),
        "* 1026 EXISTS".into(),
        flags(1, 1, "\\Draft", 1031),
    ];
    assert_eq!(bob.ok("FETCH 2:3 (UID)"), told);
    assert_eq!(bob.ok("SEARCH UID 1:3"), ["* SEARCH 1 3"]);
    assert_eq!(bob.ok("NOOP"), ["* 2 EXPUNGE"]);
    assert_eq!(bob.ok("FETCH 2 (UID)"), ["* 2 FETCH (UID 3)"]);
    assert_eq!(bob.ok("NOOP"), [""; 0]);
    // without the right nothing is told, and all of it when it is back
    alice.ok("SETACL Shared/Open bob l");
    alice.append("Shared/Open");
    assert_eq!(bob.ok("NOOP"), [""; 0]);
    assert_eq!(bob.answer("FETCH 2 (UID)"), "NO [NOPERM] denied");
    alice.ok("SETACL Shared/Open bob lr");
    assert_eq!(bob.ok("NOOP"), ["* 1026 EXISTS"]);
    alice.ok("DELETE Shared/Open");
    assert_eq!(bob.ok("NOOP"), ["* OK [CLOSED] mailbox deleted"]);
    assert_eq!(bob.answer("FETCH 1 (UID)"), "BAD no mailbox selected");
    assert!(bob.ok("SELECT INBOX").contains(&"* 0 EXISTS".into()));
    end(watch, MANY);
}

#[test]
fn idle_hears_at_once() {
    let mut watch = opened(MANY, &[]);
    let Watch { alice, bob, .. } = &mut watch;
    let tag = bob.start("IDLE");
    bob.until("+");
    alice.append("Shared/Open");
    assert_eq!(bob.line(), "* 1026 EXISTS");
    alice.ok("STORE 7 FLAGS (\\Deleted)");
    assert_eq!(bob.line(), flags(7, 7, "\\Deleted", 1028));
    alice.ok("EXPUNGE");
    assert_eq!(bob.line(), "* 7 EXPUNGE");
    bob.send(b"DONE\r\n");
    assert_eq!(bob.line(), format!("{tag} OK IDLE done"));
    end(watch, MANY);
}

#[test]
fn more_than_is_told_at_a_time() {
    let mut watch = opened(2600, &[]);
    let Watch { alice, bob, .. } = &mut watch;
    assert_eq!(alice.ok("STORE 1:2500 FLAGS (\\Deleted)").len(), 2500);
    alice.ok("EXPUNGE");
    alice.append("Shared/Open");
    let heard = bob.ok("NOOP");
    assert_eq!(heard[..2500], vec!["* 1 EXPUNGE"; 2500]);
    assert_eq!(heard[2500..], ["* 101 EXISTS"]);
    alice.ok("STORE 1:101 FLAGS (\\Seen)");
    assert_eq!(bob.ok("NOOP").len(), 101);
    assert_eq!(bob.ok("NOOP"), [""; 0]);
    end(watch, 2600);
}

#[test]
fn expunges_vanish() {
    let mut watch = Watch::new(2600, &["--adapt"]);
    watch.bob.ok("ENABLE QRESYNC");
    for client in [&mut watch.alice, &mut watch.bob] {
        client.ok("SELECT Shared/Open");
    }
    let Watch { alice, bob, .. } = &mut watch;
    alice.ok("STORE 1:1000 FLAGS (\\Deleted)");
    alice.ok("EXPUNGE");
    let told = ["* VANISHED 1:1000", "* OK [HIGHESTMODSEQ 4601] ok"];
    assert_eq!(bob.ok("NOOP"), told);
    bob.ok("STORE 2 +FLAGS (\\Deleted)");
    let told = [
        "* VANISHED 1002",
        "* OK [HIGHESTMODSEQ 4603] ok",
        "OK [HIGHESTMODSEQ 4603] done",
    ];
    assert_eq!(bob.run("EXPUNGE"), told);
    end(watch, 2600);
}

/// The open mailbox outgrows the library: what waits goes on waiting, and nobody has to open it again.
#[test]
fn it_grows_while_it_is_open() {
    let mut watch = Watch::new(1024, &[]);
    watch.bob.ok("SELECT Shared/Open");
    let mut idle = watch.server.log_in("bob");
    idle.ok("SELECT Shared/Open");
    idle.start("IDLE");
    idle.until("+");
    let Watch { alice, bob, .. } = &mut watch;
    alice.ok("SELECT Shared/Open");
    alice.ok("STORE 5,9 +FLAGS (\\Deleted)");
    alice.ok("UID EXPUNGE 5");
    alice.ok("STORE 1 FLAGS (\\Seen)");
    alice.append_many((0..2).map(|_| "Shared/Open".into()));
    let told = [
        "* 5 EXPUNGE".into(),
        "* 1025 EXISTS".into(),
        flags(1, 1, "\\Seen", 1029),
        flags(8, 9, "\\Deleted", 1027),
    ];
    assert_eq!(bob.ok("NOOP"), told);
    assert_eq!(bob.ok("FETCH 1025 (UID)"), ["* 1025 FETCH (UID 1026)"]);
    let at_once = [
        flags(5, 5, "\\Deleted", 1026),
        flags(9, 9, "\\Deleted", 1027),
        "* 5 EXPUNGE".into(),
        flags(1, 1, "\\Seen", 1029),
        "* 1024 EXISTS".into(),
        "* 1025 EXISTS".into(),
    ];
    assert_eq!(idle.lines(6), at_once);
    idle.send(b"DONE\r\n");
    idle.until("t3 OK");
    let refused = idle.answer("NOTIFY SET (personal (MailboxName))");
    assert_eq!(refused, "NO [NOTIFICATIONOVERFLOW] account too large");
    // the one that waits has an entry too
    let all = [log("bob", 1024), log("alice", 1025), log("bob", 1025)];
    assert_eq!(watch.server.log(), all.concat());
}

/// With a NOTIFY the client hears at once that it has ended.
#[test]
fn it_grows_under_a_notify() {
    let mut watch = Watch::new(1024, &["--adapt"]);
    watch.bob.ok("ENABLE QRESYNC");
    watch.bob.ok("SELECT Shared/Open");
    watch.notify("(selected (MessageNew MessageExpunge))");
    let Watch { alice, bob, .. } = &mut watch;
    alice.ok("SELECT Shared/Open");
    alice.ok("STORE 5:6 +FLAGS (\\Deleted)");
    alice.append("Shared/Open");
    let ended = "* OK [NOTIFICATIONOVERFLOW] account too large";
    assert_eq!(bob.ok("NOOP"), [ended, "* 1025 EXISTS"]);
    // the flags that it didn't ask for are lost to it, so no counter says that it knows all
    alice.ok("UID EXPUNGE 5");
    assert_eq!(bob.ok("NOOP"), ["* VANISHED 5"]);
    assert_eq!(bob.run("UID EXPUNGE 6"), ["* VANISHED 6", "OK done"]);
    end(watch, 1025);
}

/// In IDLE a client that doesn't read makes the server no larger: it hears of each message's last flags when it does.
#[test]
fn idle_waits_for_a_client_that_does_not_read() {
    let folder = std::env::temp_dir().join(format!("imap-large-{}", std::process::id()));
    std::fs::create_dir_all(&folder).expect("a folder");
    let mut watch = opened(MANY, &["--log", folder.to_str().expect("a path in UTF-8")]);
    let Watch { alice, bob, .. } = &mut watch;
    // no socket's buffers hold this answer
    let large = "x".repeat(24 << 20);
    let append = format!("APPEND Shared/Open {{{}+}}\r\n{large}", large.len());
    alice.ok(&append);
    bob.ok("NOOP");
    let tag = bob.start("FETCH 1026 (BODY.PEEK[])");
    bob.until("* 1026 FETCH");
    bob.start("IDLE");
    // bob's transcript shows when the server has read that
    let transcript = || std::fs::read_to_string(folder.join("2.txt")).unwrap_or_default();
    while !transcript().contains(" IDLE") {
        alice.ok("NOOP");
    }
    let rounds = 20;
    for round in 0..rounds {
        let flag = ["\\Seen", "\\Draft"][round % 2];
        alice.ok(&format!("STORE 1:1025 FLAGS.SILENT ({flag})"));
    }
    bob.until(&format!("{tag} OK"));
    let last = MANY + 2 + MANY * rounds;
    let lines = bob.until(&flags(MANY, MANY, "\\Draft", last));
    let told = lines.iter().filter(|line| line.contains("FETCH (UID"));
    assert!(told.count() < 5 * MANY, "{}", lines.len());
    end(watch, MANY);
    std::fs::remove_dir_all(&folder).expect("its end");
}

/// What bob has learned of the messages: their flags, where he was told.
#[derive(Default)]
struct Picture(Vec<Option<String>>);

impl Picture {
    fn hear(&mut self, lines: &[String]) {
        for line in lines {
            let words: Vec<&str> = line.splitn(4, ' ').collect();
            let number = words.get(1).and_then(|n| n.parse::<usize>().ok());
            match (number, words.get(2).copied()) {
                (Some(number), Some("EXISTS")) => self.0.resize(number, None),
                (Some(number), Some("EXPUNGE")) => drop(self.0.remove(number - 1)),
                (Some(number), Some("FETCH")) => {
                    let flags = words[3].split(" MODSEQ").next();
                    let flags = flags.map(|f| f.trim_end_matches(')').to_string());
                    self.0[number - 1] = flags;
                }
                _ => {}
            }
        }
    }
}

fn act(alice: &mut Client, chance: &mut Chance) {
    let number = 1 + chance.below(1000);
    match chance.below(4) {
        0 => drop(alice.append("Shared/Open")),
        1 => drop(alice.ok(&format!("STORE {number} +FLAGS (\\Flagged)"))),
        2 => drop(alice.ok(&format!("STORE {number} -FLAGS (\\Flagged)"))),
        _ => {
            alice.ok(&format!("STORE {number} +FLAGS (\\Deleted)"));
            alice.ok("EXPUNGE");
        }
    }
}

/// A client that follows what it hears has the store's messages and flags.
#[test]
fn what_is_told_is_the_store_s() {
    let mut watch = opened(MANY + 100, &[]);
    let mut chance = Chance::new(3501);
    let mut picture = Picture::default();
    let all = "UID FETCH 1:* (FLAGS)";
    picture.hear(&[format!("* {} EXISTS", MANY + 100)]);
    picture.hear(&watch.bob.ok(all));
    for round in 0..150 {
        for _ in 0..chance.below(4) {
            act(&mut watch.alice, &mut chance);
        }
        let command = chance.of(&["NOOP", "SEARCH FLAGGED", "FETCH 1000 (FLAGS UID)", "CHECK"]);
        let lines = watch.bob.run(command);
        // the host's own line has the attributes in the order asked for
        let told = lines.iter().filter(|line| !line.contains("(FLAGS"));
        picture.hear(&told.cloned().collect::<Vec<_>>());
        if round % 10 == 0 {
            picture.hear(&watch.bob.ok("NOOP"));
            let mut fresh = Picture::default();
            fresh.hear(&[format!("* {} EXISTS", picture.0.len())]);
            fresh.hear(&watch.bob.ok(all));
            let known = picture.0.iter().zip(&fresh.0);
            let wrong = known.filter(|(a, b)| a.is_some() && a != b).count();
            assert_eq!(wrong, 0, "round {round}");
            assert!(fresh.0.iter().all(Option::is_some), "round {round}");
            picture = fresh;
        }
    }
    end(watch, MANY + 100);
}
