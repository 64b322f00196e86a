//! Change counters: what the library tells of a mailbox that was handed over is what the store has, and the host's own part of
//! CONDSTORE.

mod support;

use support::watch::Watch;
use support::{append, Chance, Client, Server};

const ITEMS: &str = "(MESSAGES UIDNEXT UIDVALIDITY HIGHESTMODSEQ)";
const FOLDERS: [&str; 3] = ["Shared/a", "Shared/b", "Shared/c"];

/// What the host has of the folders, and what the library has: the same lines, if all went over.
fn agrees(client: &mut Client, folders: &[&str], about: &str) {
    let names = folders.join(" ");
    let notify =
        format!("NOTIFY SET STATUS (mailboxes ({names}) (MessageNew MessageExpunge FlagChange))");
    let told = client.ok(&notify);
    let mut kept = Vec::new();
    for name in folders {
        kept.extend(client.ok(&format!("STATUS {name} {ITEMS}")));
    }
    assert_eq!(told, kept, "{about}");
}

/// Something in a folder, so that counters don't rise with UIDs.
fn act(alice: &mut Client, chance: &mut Chance) {
    let name = chance.of(&FOLDERS);
    let number = 1 + chance.below(5);
    if chance.below(3) == 0 {
        alice.run(&append(name));
        return;
    }
    alice.ok(&format!("SELECT {name}"));
    match chance.below(3) {
        0 => drop(alice.run(&format!("STORE {number} +FLAGS (\\Seen)"))),
        1 => drop(alice.run("STORE 1:* FLAGS (\\Flagged)")),
        _ => {
            alice.run(&format!("STORE {number} +FLAGS (\\Deleted)"));
            alice.run("EXPUNGE");
        }
    }
    alice.ok("UNSELECT");
}

fn folders_of_alice(server: &Server) -> Client {
    let mut alice = server.log_in("alice");
    for name in FOLDERS {
        alice.ok(&format!("CREATE {name}"));
        alice.append_many((0..4).map(|_| name.to_string()));
    }
    alice
}

#[test]
fn at_a_login() {
    let server = Server::start();
    let mut alice = folders_of_alice(&server);
    for name in FOLDERS {
        alice.ok(&format!("SETACL {name} bob lr"));
    }
    let mut chance = Chance::new(7162);
    for round in 0..150 {
        act(&mut alice, &mut chance);
        let mut bob = server.log_in("bob");
        agrees(&mut bob, &FOLDERS, &format!("round {round}"));
        // what comes next is above what was handed over
        alice.append(FOLDERS[0]);
        let told = bob.line();
        let kept = bob.ok(&format!(
            "STATUS {} (UIDNEXT MESSAGES HIGHESTMODSEQ)",
            FOLDERS[0]
        ));
        assert_eq!([told], kept[..], "round {round}");
    }
    server.end();
}

#[test]
fn at_a_grant() {
    let server = Server::start();
    let mut alice = folders_of_alice(&server);
    let mut bob = server.log_in("bob");
    let mut chance = Chance::new(4551);
    for round in 0..150 {
        act(&mut alice, &mut chance);
        for name in FOLDERS {
            alice.ok(&format!("SETACL {name} bob lr"));
        }
        agrees(&mut bob, &FOLDERS, &format!("round {round}"));
        bob.ok("NOTIFY NONE");
        alice.ok(&format!("DELETEACL {} bob", chance.of(&FOLDERS)));
    }
    server.end();
}

/// The client of a folder that is not open hears that something changed there, and by which counter.
#[test]
fn flags_elsewhere() {
    let mut watch = Watch::new(3, &[]);
    watch.notify("(mailboxes Shared/Open (MessageNew MessageExpunge FlagChange))");
    let status = watch.bob.ok("STATUS Shared/Open (UIDVALIDITY)");
    let validity = status[0].trim_start_matches("* STATUS \"Shared/Open\" (");
    let validity = validity.trim_end_matches(')');
    watch.alice.ok("SELECT Shared/Open");
    watch.alice.ok("STORE 1:3 FLAGS (\\Seen)");
    // no bit differs: no change, no counter, and nobody hears of it
    let same = "* 2 FETCH (UID 2 FLAGS (\\Seen) MODSEQ (6))";
    assert_eq!(watch.alice.ok("STORE 2 FLAGS (\\Seen)"), [same]);
    watch.alice.ok("STORE 1:2 +FLAGS.SILENT (\\Seen)");
    watch.alice.ok("STORE 1 +FLAGS (\\Draft)");
    let line =
        |counter: u64| format!("* STATUS \"Shared/Open\" ({validity} HIGHESTMODSEQ {counter})");
    assert_eq!(watch.heard(), [5, 6, 7, 8].map(line));
    // of the open one the selected group alone decides
    watch.bob.ok("SELECT Shared/Open");
    watch.alice.ok("STORE 2 FLAGS ()");
    assert_eq!(watch.heard(), [""; 0]);
    watch.end();
}

/// A UID that is gone needs an entry while its mailbox is handed over.
#[test]
fn an_expunge_came_last_in_a_full_table() {
    let mut watch = Watch::new(1024, &[]);
    let offered = |watch: &Watch| {
        let answer = watch.server.connect().answer("LOGIN bob pw");
        answer.contains(" NOTIFY ")
    };
    watch.alice.ok("SELECT Shared/Open");
    watch.alice.ok("STORE 7 FLAGS (\\Deleted)");
    watch.alice.ok("EXPUNGE");
    watch.bob.append("INBOX");
    assert!(!offered(&watch), "1,024 messages and one that is gone");
    watch.alice.ok("STORE 1 FLAGS (\\Seen)");
    assert!(offered(&watch), "1,024 messages");
    let mut bob = watch.server.log_in("bob");
    agrees(&mut bob, &["Shared/Open"], "1,024 messages");
    watch.end();
}

#[test]
fn a_client_resumes_from_a_counter() {
    let mut watch = Watch::new(3, &[]);
    let Watch { alice, bob, .. } = &mut watch;
    assert!(bob.ok("CAPABILITY")[0].contains(" CONDSTORE"));
    let opened = bob.ok("SELECT Shared/Open");
    assert!(opened.contains(&"* OK [HIGHESTMODSEQ 4] ok".into()));
    bob.ok("UNSELECT");
    alice.ok("SELECT Shared/Open");
    alice.ok("STORE 2 FLAGS (\\Seen)");
    alice.append("Shared/Open");
    let opened = bob.ok("SELECT Shared/Open (CONDSTORE)");
    assert!(opened.contains(&"* OK [HIGHESTMODSEQ 6] ok".into()));
    assert_eq!(
        bob.ok("FETCH 1:* (FLAGS) (CHANGEDSINCE 4)"),
        [
            "* 2 FETCH (FLAGS (\\Seen) MODSEQ (5))",
            "* 4 FETCH (FLAGS () MODSEQ (6))"
        ]
    );
    assert_eq!(
        bob.ok("FETCH 3 (FLAGS) (CHANGEDSINCE 0)"),
        ["* 3 FETCH (FLAGS () MODSEQ (4))"]
    );
    assert_eq!(bob.ok("SEARCH MODSEQ 5 UNSEEN"), ["* SEARCH 4 (MODSEQ 6)"]);
    let named = "UID SEARCH MODSEQ \"/flags/\\\\Draft\" all 4";
    assert_eq!(bob.ok(named), ["* SEARCH 2 3 4 (MODSEQ 6)"]);
    assert_eq!(bob.ok("SEARCH NOT MODSEQ 2"), ["* SEARCH"]);
    let stored = bob.run("STORE 1:2 (UNCHANGEDSINCE 4) +FLAGS.SILENT (\\Flagged)");
    let flagged = "* 1 FETCH (UID 1 FLAGS (\\Flagged) MODSEQ (7))";
    assert_eq!(stored, [flagged, "OK [MODIFIED 2] not all"]);
    assert_eq!(bob.ok("FETCH 1 (MODSEQ)"), ["* 1 FETCH (MODSEQ (7))"]);
    assert_eq!(bob.ok("ENABLE CONDSTORE QRESYNC"), ["* ENABLED CONDSTORE"]);
    // a silent change is told to such a client, whoever of host and library writes it
    bob.ok("NOTIFY SET (selected (MessageNew MessageExpunge))");
    let silent = bob.ok("STORE 1 FLAGS.SILENT ()");
    assert_eq!(silent, ["* 1 FETCH (UID 1 FLAGS () MODSEQ (8))"]);
    watch.end();
}
