//! Lines that `--adapt` rewrites. Outside the promises, and tested all the same.

mod support;

use support::watch::Watch;

#[test]
fn fetch_lines_are_completed() {
    let mut watch = Watch::new(1, &["--adapt"]);
    let groups =
        "(selected (MessageNew (UID RFC822.SIZE RFC822.HEADER FLAGS) MessageExpunge FlagChange))";
    watch.notify(groups);
    watch.bob.ok("SELECT Shared/Open");
    watch.alice.append("Shared/Open");
    let header = "From: a@x\r\nSubject: t\r\n\r\n";
    let first = format!(
        "* 2 FETCH (UID 2 FLAGS () RFC822.SIZE 29 MODSEQ (3) RFC822.HEADER {{{}}}",
        header.len()
    );
    let lines = watch.heard();
    assert_eq!(lines[..2], ["* 2 EXISTS".to_string(), first]);
    assert_eq!(lines[2..].join("\r\n"), format!("{header})"));
    // and only those of new messages
    watch.alice.ok("SELECT Shared/Open");
    watch.alice.ok("STORE 1 FLAGS (\\Seen)");
    let flags = "* 1 FETCH (UID 1 FLAGS (\\Seen) MODSEQ (4))";
    assert_eq!(watch.heard(), [flags]);
    watch.end();
}

#[test]
fn expunges_vanish() {
    let mut watch = Watch::new(3, &["--adapt"]);
    assert_eq!(watch.bob.ok("ENABLE QRESYNC"), ["* ENABLED QRESYNC"]);
    let groups = "(selected (MessageNew (UID MODSEQ) MessageExpunge FlagChange)) (personal (MessageNew MessageExpunge))";
    watch.notify(groups);
    watch.bob.append("INBOX");
    watch.bob.ok("SELECT Shared/Open (CONDSTORE)");
    watch.alice.append("Shared/Open");
    watch.alice.ok("SELECT Shared/Open");
    watch.alice.ok("STORE 2 FLAGS (\\Deleted)");
    watch.alice.ok("EXPUNGE");
    let told = watch.bob.lines(5);
    let gone = ["* VANISHED 2", "* OK [HIGHESTMODSEQ 7] ok"];
    assert_eq!(told[3..], gone);
    let flags = "* 2 FETCH (UID 2 FLAGS (\\Deleted) MODSEQ (6))";
    let new = "* 4 FETCH (UID 4 MODSEQ (5))";
    assert_eq!(told[..3], ["* 4 EXISTS", new, flags]);
    // numbers go on by the view
    assert_eq!(
        watch.bob.ok("FETCH 2 (UID)"),
        ["* 2 FETCH (UID 3 MODSEQ (4))"]
    );
    watch.alice.append("Shared/Fence");
    assert!(watch.bob.line().contains("MESSAGES 1 HIGHESTMODSEQ 2)"));
    watch.end();
}

#[test]
fn a_client_comes_back() {
    let mut watch = Watch::new(3, &["--adapt"]);
    watch.bob.ok("ENABLE QRESYNC");
    watch.alice.ok("SELECT Shared/Open");
    watch.alice.ok("STORE 2 FLAGS (\\Deleted)");
    watch.alice.ok("EXPUNGE");
    watch.alice.ok("STORE 2 FLAGS (\\Seen)");
    let status = watch.bob.ok("STATUS Shared/Open (UIDVALIDITY)");
    let validity = status[0]
        .rsplit(' ')
        .next()
        .map(|n| n.trim_end_matches(')').to_string());
    let validity = validity.expect("a number");
    let lines = watch
        .bob
        .ok(&format!("SELECT Shared/Open (QRESYNC ({validity} 4 1:3))"));
    let told = [
        "* VANISHED (EARLIER) 2",
        "* 2 FETCH (UID 3 FLAGS (\\Seen) MODSEQ (7))",
    ];
    assert_eq!(lines[lines.len() - 2..], told);
    let lines = watch
        .bob
        .ok("UID FETCH 1:3 (FLAGS) (CHANGEDSINCE 4 VANISHED)");
    assert_eq!(
        lines,
        [
            "* VANISHED (EARLIER) 2",
            "* 2 FETCH (UID 3 FLAGS (\\Seen) MODSEQ (7))"
        ]
    );
    let answer = watch
        .bob
        .answer("UID STORE 1:3 (UNCHANGEDSINCE 5) FLAGS.SILENT (\\Seen)");
    assert_eq!(answer, "OK [MODIFIED 3] not all");
    watch.end();
}

const SELECTED: &str = "(selected (MessageNew (UID MODSEQ) MessageExpunge FlagChange))";

/// Bob, who wants VANISHED, has Shared/Open selected, and so has alice.
fn resynced(messages: usize, options: &[&str]) -> Watch {
    let options = [&["--adapt"], options].concat();
    let mut watch = Watch::new(messages, &options);
    watch.bob.ok("ENABLE QRESYNC");
    watch.bob.ok("SELECT Shared/Open");
    watch.alice.ok("SELECT Shared/Open");
    watch
}

/// A client that follows the counter alone would miss an EXPUNGE with nothing beside it.
#[test]
fn a_lone_expunge_has_its_counter() {
    let mut watch = resynced(3, &[]);
    watch.notify(SELECTED);
    watch.alice.ok("STORE 1,3 FLAGS (\\Deleted)");
    assert_eq!(watch.heard().len(), 2);
    watch.alice.ok("UID EXPUNGE 1");
    let gone = ["* VANISHED 1", "* OK [HIGHESTMODSEQ 7] ok"];
    assert_eq!(watch.heard(), gone);
    // and so does the command's own end, where it took any
    let own = [
        "* VANISHED 3",
        "* OK [HIGHESTMODSEQ 8] ok",
        "OK [HIGHESTMODSEQ 8] done",
    ];
    assert_eq!(watch.bob.run("EXPUNGE"), own);
    assert_eq!(watch.bob.run("EXPUNGE"), ["OK done"]);
    assert_eq!(watch.alice.ok("NOOP"), ["* 2 EXPUNGE"]);
    watch.alice.ok("STORE 1 FLAGS (\\Deleted)");
    assert_eq!(watch.alice.run("EXPUNGE"), ["* 1 EXPUNGE", "OK done"]);
    watch.end();
}

/// The counter stands behind all that waited, however often that fills the queue, in IDLE too.
#[test]
fn the_counter_is_the_last() {
    let mut watch = resynced(300, &["--queue", "1024"]);
    watch.alice.ok("STORE 1:200 FLAGS (\\Deleted)");
    watch.alice.ok("EXPUNGE");
    watch.alice.append("Shared/Open");
    watch.alice.ok("STORE 1:101 FLAGS (\\Seen)");
    let heard = watch.bob.ok("NOOP");
    assert_eq!(heard.len(), 200 + 1 + 100 + 1, "{heard:?}");
    let gone = |line: &String| line.starts_with("* VANISHED ");
    assert!(heard[..200].iter().all(gone));
    assert_eq!(heard[200], "* 101 EXISTS");
    assert_eq!(heard[301], "* OK [HIGHESTMODSEQ 803] ok");
    watch.bob.start("IDLE");
    watch.bob.until("+");
    watch.alice.ok("STORE 1 FLAGS (\\Deleted)");
    watch.alice.ok("EXPUNGE");
    assert_eq!(
        watch.bob.lines(3)[1..],
        ["* VANISHED 201", "* OK [HIGHESTMODSEQ 805] ok"]
    );
    watch.end();
}

/// A counter above a change that the client was not told of would lose that change for it.
#[test]
fn no_counter_where_something_was_lost() {
    let mut watch = resynced(5, &[]);
    watch.notify("(selected (MessageNew MessageExpunge))");
    watch.alice.ok("STORE 1:2 FLAGS (\\Deleted)");
    watch.alice.ok("UID EXPUNGE 1");
    assert_eq!(watch.heard(), ["* VANISHED 1"]);
    assert_eq!(watch.bob.run("EXPUNGE"), ["* VANISHED 2", "OK done"]);
    // a new SELECT tells all
    watch.alice.ok("NOOP");
    watch.notify(SELECTED);
    watch.bob.ok("SELECT Shared/Open");
    watch.alice.ok("STORE 1 FLAGS (\\Deleted)");
    watch.alice.ok("EXPUNGE");
    assert_eq!(
        watch.heard()[1..],
        ["* VANISHED 3", "* OK [HIGHESTMODSEQ 12] ok"]
    );
    watch.end();
}

/// What waited when a right was missing waits on when the right is back, and no counter may stand before it.
#[test]
fn no_counter_where_something_waits() {
    let mut watch = resynced(3, &[]);
    watch.alice.ok("STORE 3 FLAGS (\\Deleted)");
    watch.bob.ok("NOOP");
    watch.alice.ok("STORE 1 FLAGS (\\Seen)");
    watch.alice.ok("SETACL Shared/Open bob r");
    watch.notify(SELECTED);
    watch.alice.ok("SETACL Shared/Open bob lrswite");
    watch.alice.ok("EXPUNGE");
    assert_eq!(watch.heard(), ["* VANISHED 3"]);
    let seen = "* 1 FETCH (UID 1 FLAGS (\\Seen) MODSEQ (6))";
    assert_eq!(watch.bob.ok("NOOP"), [seen]);
    watch.end();
}
