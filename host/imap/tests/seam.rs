//! The rules at the seam between host and library: what comes when, and in front of which tag.

mod support;

use support::watch::Watch;
use support::{Server, MESSAGE};

const ALL: &str = "(selected (MessageNew (UID FLAGS) MessageExpunge FlagChange))";
const DELAYED: &str = "(selected-delayed (MessageNew MessageExpunge FlagChange))";

/// Alice opens Shared/Open and expunges the message of this number.
fn expunge(watch: &mut Watch, number: u32) {
    watch.alice.ok("SELECT Shared/Open");
    let store = format!("STORE {number} +FLAGS.SILENT (\\Deleted)");
    watch.alice.ok(&store);
    watch.alice.ok("EXPUNGE");
    watch.alice.ok("UNSELECT");
}

#[test]
fn class_1_commands_hear_of_expunges_before_their_tag() {
    let mut watch = Watch::new(3, &[]);
    watch.bob.ok("SELECT Shared/Open");
    let commands = [
        "NOOP",
        "CHECK",
        "CAPABILITY",
        "UID FETCH 1 (UID)",
        "UID STORE 1 +FLAGS (\\Seen)",
        "UID SEARCH ALL",
        "STATUS INBOX (MESSAGES)",
        "LIST \"\" *",
        "CREATE made",
        "RENAME made again",
        "DELETE again",
        "SUBSCRIBE INBOX",
        "MYRIGHTS INBOX",
        "COPY 1 INBOX",
        "APPEND INBOX {2+}\r\nhi",
        "NAMESPACE",
        "STATUS Shared/None (MESSAGES)",
        "NO SUCH COMMAND",
        "EXPUNGE",
        "NOTIFY NONE",
    ];
    for command in commands {
        watch.alice.append("Shared/Open");
        expunge(&mut watch, 1);
        let lines = watch.bob.run(command);
        assert!(
            lines.contains(&"* 1 EXPUNGE".into()),
            "{command}: {lines:?}"
        );
        assert!(lines.contains(&"* 3 EXISTS".into()), "{command}: {lines:?}");
    }
    watch.end();
}

#[test]
fn class_0_commands_hear_of_the_rest_before_their_tag() {
    let mut watch = Watch::new(3, &[]);
    watch.bob.ok("SELECT Shared/Open");
    expunge(&mut watch, 1);
    let commands = [
        "FETCH 2 (UID)",
        "STORE 2 +FLAGS (\\Seen)",
        "SEARCH ALL",
        "ESEARCH IN (selected) ALL",
        "FETCH 2 (NOSUCH)",
    ];
    for (place, command) in commands.iter().enumerate() {
        watch.alice.append("Shared/Open");
        watch.alice.ok("SELECT Shared/Open");
        let flag = ["\\Flagged", "\\Draft"][place % 2];
        watch.alice.ok(&format!("STORE 2 FLAGS ({flag})"));
        watch.alice.ok("UNSELECT");
        let lines = watch.bob.run(command);
        let exists = format!("* {} EXISTS", 4 + place);
        let flags = format!("* 3 FETCH (UID 3 FLAGS ({flag}) MODSEQ (");
        assert!(lines.contains(&exists), "{command}: {lines:?}");
        let told = lines.iter().any(|line| line.starts_with(&flags));
        assert!(told, "{command}: {lines:?}");
        assert!(
            !lines.contains(&"* 1 EXPUNGE".into()),
            "{command}: {lines:?}"
        );
    }
    assert_eq!(watch.bob.ok("NOOP"), ["* 1 EXPUNGE"]);
    watch.end();
}

#[test]
fn what_notify_asked_for_comes_at_once() {
    let mut watch = Watch::new(3, &[]);
    watch.bob.ok("SELECT Shared/Open");
    watch.notify(ALL);
    watch.alice.append("Shared/Open");
    let new = ["* 4 EXISTS", "* 4 FETCH (UID 4 FLAGS () MODSEQ (5))"];
    assert_eq!(watch.heard(), new);
    expunge(&mut watch, 2);
    let gone = [
        "* 2 FETCH (UID 2 FLAGS (\\Deleted) MODSEQ (6))",
        "* 2 EXPUNGE",
    ];
    assert_eq!(watch.heard(), gone);
    watch.end();
}

#[test]
fn numbers_are_places_in_the_view() {
    let mut watch = Watch::new(3, &[]);
    watch.bob.ok("SELECT Shared/Open");
    watch.notify(DELAYED);
    expunge(&mut watch, 1);
    let deleted = "* 1 FETCH (UID 1 FLAGS (\\Deleted) MODSEQ (5))";
    assert_eq!(watch.heard(), [deleted]);
    assert_eq!(watch.bob.ok("FETCH 2 (UID)"), ["* 2 FETCH (UID 2)"]);
    assert_eq!(watch.bob.ok("FETCH 1 (UID)"), [""; 0]);
    assert_eq!(watch.bob.ok("SEARCH ALL"), ["* SEARCH 2 3"]);
    let lines = watch.bob.ok("UID FETCH 3 (FLAGS)");
    assert_eq!(lines, ["* 3 FETCH (UID 3 FLAGS ())", "* 1 EXPUNGE"]);
    assert_eq!(watch.bob.ok("FETCH 2 (UID)"), ["* 2 FETCH (UID 3)"]);
    watch.end();
}

#[test]
fn what_is_owed_comes_before_the_answer_to_notify() {
    let mut watch = Watch::new(1, &[]);
    watch.bob.ok("SELECT Shared/Open");
    watch.alice.append("Shared/Open");
    expunge(&mut watch, 1);
    let lines = watch.notify(&format!(
        "STATUS {ALL} (personal (MessageNew MessageExpunge))"
    ));
    assert_eq!(lines[..2], ["* 1 EXPUNGE", "* 1 EXISTS"]);
    assert!(lines[2].starts_with("* STATUS \"INBOX\" (MESSAGES 0 UIDNEXT 1"));
    assert!(lines[3].starts_with("* STATUS \"Shared/Fence\" "));
    watch.end();
}

#[test]
fn idle_hears_all_at_once() {
    let mut watch = Watch::new(3, &[]);
    watch.bob.ok("SELECT Shared/Open");
    watch.alice.append("Shared/Open");
    let tag = watch.bob.start("IDLE");
    assert_eq!(watch.bob.until("+"), ["* 4 EXISTS", "+ idling"]);
    expunge(&mut watch, 1);
    let gone = [
        "* 1 FETCH (UID 1 FLAGS (\\Deleted) MODSEQ (6))",
        "* 1 EXPUNGE",
    ];
    assert_eq!(watch.bob.lines(2), gone);
    watch.alice.append("Shared/Open");
    assert_eq!(watch.bob.line(), "* 4 EXISTS");
    watch.bob.send(b"DONE\r\n");
    assert_eq!(watch.bob.line(), format!("{tag} OK IDLE done"));
    watch.alice.append("Shared/Open");
    assert_eq!(
        watch.bob.ok("FETCH 1 (UID)"),
        ["* 1 FETCH (UID 2)", "* 5 EXISTS"]
    );
    let tag = watch.bob.start("IDLE");
    watch.bob.until("+");
    watch.bob.send(b"NOOP\r\n");
    assert_eq!(watch.bob.line(), format!("{tag} BAD IDLE done"));
    watch.end();
}

#[test]
fn idle_hears_more_than_the_queue_holds() {
    let mut watch = Watch::new(300, &["--queue", "1024"]);
    watch.bob.ok("SELECT Shared/Open");
    watch.alice.ok("SELECT Shared/Open");
    watch.alice.ok("STORE 1:* +FLAGS.SILENT (\\Deleted)");
    watch.alice.ok("EXPUNGE");
    watch.bob.start("IDLE");
    let lines = watch.bob.until("+");
    assert_eq!(lines.len(), 301);
    assert!(lines[..300].iter().all(|line| line.ends_with(" EXPUNGE")));
    watch.end();
}

#[test]
fn an_open_literal_keeps_nothing_back() {
    let mut watch = Watch::new(0, &[]);
    watch.notify("(subtree Shared (MessageNew MessageExpunge))");
    let tag = watch
        .bob
        .start(&format!("APPEND INBOX {{{}}}", MESSAGE.len()));
    assert_eq!(watch.bob.line(), "+ go on");
    watch.alice.append("Shared/Open");
    assert_eq!(
        watch.heard(),
        ["* STATUS \"Shared/Open\" (UIDNEXT 2 MESSAGES 1 HIGHESTMODSEQ 2)"]
    );
    watch.bob.send(&MESSAGE.as_bytes()[..9]);
    watch.alice.append("Shared/Open");
    assert_eq!(
        watch.heard(),
        ["* STATUS \"Shared/Open\" (UIDNEXT 3 MESSAGES 2 HIGHESTMODSEQ 3)"]
    );
    watch.bob.send(format!("{}\r\n", &MESSAGE[9..]).as_bytes());
    assert!(watch
        .bob
        .line()
        .starts_with(&format!("{tag} OK [APPENDUID")));
    watch.end();
}

#[test]
fn lines_that_the_library_can_t_take_get_their_own_tag() {
    let mut watch = Watch::new(0, &[]);
    let bob = &mut watch.bob;
    let groups = "(mailboxes {6+}\r\nINBOX  (MessageNew MessageExpunge))";
    assert_eq!(
        bob.answer(&format!("NOTIFY SET {groups}")),
        "OK NOTIFY done"
    );
    let tag = bob.start("NOTIFY SET (mailboxes {5}");
    bob.until("+");
    bob.send(b"INBOX (MessageNew MessageExpunge))\r\n");
    assert_eq!(bob.line(), format!("{tag} OK NOTIFY done"));
    let newline = "NOTIFY SET (mailboxes {6+}\r\nIN\r\nBO (MessageNew MessageExpunge))";
    assert_eq!(bob.answer(newline), "BAD such a literal can't be here");
    let long = "NOTIFY SET (mailboxes (".to_string() + &"x".repeat(1024) + ") (MailboxName))";
    assert_eq!(bob.answer(&long), "BAD longer than 1,024 octets");
    let tag = "t".repeat(33);
    bob.send(format!("{tag} NOTIFY NONE\r\n").as_bytes());
    let why = "the tag is longer than 32 octets";
    assert_eq!(bob.line(), format!("{tag} BAD {why}"));
    bob.send(b"+ NOOP\r\n\r\n");
    assert_eq!(bob.lines(2), ["* BAD no tag", "* BAD no tag"]);
    assert_eq!(
        bob.answer("NOTIFY SET (personal (MessageNew))"),
        "BAD refused"
    );
    watch.end();
}

#[test]
fn a_command_over_many_messages_doesn_t_overflow_its_own_queue() {
    let mut watch = Watch::new(600, &["--queue", "1024"]);
    watch.bob.ok("SELECT Shared/Open");
    watch.notify(ALL);
    // each message's change has a counter of its own
    let flags = |number: usize| {
        let counter = 601 + number;
        format!("* {number} FETCH (UID {number} FLAGS (\\Deleted) MODSEQ ({counter}))")
    };
    let stored = watch.bob.ok("STORE 1:* FLAGS (\\Deleted)");
    assert_eq!(stored, (1..=600).map(flags).collect::<Vec<_>>());
    assert_eq!(watch.bob.ok("EXPUNGE"), vec!["* 1 EXPUNGE"; 600]);
    assert_eq!(watch.heard(), [""; 0]);
    watch.end();
}

#[test]
fn a_command_s_end_tells_more_than_the_queue_holds() {
    let mut watch = Watch::new(600, &["--queue", "1024"]);
    watch.bob.ok("SELECT Shared/Open");
    watch.alice.ok("SELECT Shared/Open");
    watch.alice.ok("STORE 1:* FLAGS (\\Deleted)");
    assert_eq!(watch.bob.ok("FETCH 1 (UID)").len(), 601);
    watch.alice.ok("EXPUNGE");
    assert_eq!(watch.bob.ok("NOOP").len(), 600);
    assert_eq!(watch.bob.ok("NOOP"), [""; 0]);
    watch.end();
}

#[test]
fn own_changes_are_told_once() {
    let mut watch = Watch::new(1, &[]);
    let flags = |counter: u64| format!("* 1 FETCH (UID 1 FLAGS (\\Seen) MODSEQ ({counter}))");
    watch.bob.ok("SELECT Shared/Open");
    let set = |watch: &mut Watch| watch.bob.ok("STORE 1 FLAGS (\\Seen)");
    let clear = |watch: &mut Watch| drop(watch.bob.ok("STORE 1 FLAGS ()"));
    assert_eq!(set(&mut watch), [flags(3)]);
    clear(&mut watch);
    watch.notify(ALL);
    assert_eq!(set(&mut watch), [flags(5)]);
    clear(&mut watch);
    watch.notify("(selected (MessageNew MessageExpunge))");
    assert_eq!(set(&mut watch), [flags(7)]);
    // what it has already is told, and is no change
    assert_eq!(set(&mut watch), [flags(7)]);
    assert_eq!(watch.bob.ok("STORE 1 FLAGS.SILENT ()"), [""; 0]);
    watch.end();
}

#[test]
fn nobody_is_served_before_login() {
    let server = Server::start();
    let mut stranger = server.connect();
    for command in [
        "NOTIFY NONE",
        "ESEARCH IN (personal) ALL",
        "SELECT INBOX",
        "IDLE",
    ] {
        assert_eq!(stranger.answer(command), "BAD not before login");
    }
    assert!(stranger.answer("LOGIN alice no").starts_with("NO "));
    assert!(stranger.answer("LOGIN mallory pw").starts_with("NO "));
    assert!(!stranger.ok("CAPABILITY")[0].contains("NOTIFY"));
    let tag = stranger.start("AUTHENTICATE PLAIN");
    assert_eq!(stranger.line(), "+ ");
    stranger.send(b"AGFsaWNlAHB3\r\n");
    let answer = stranger.line();
    assert!(answer.starts_with(&format!("{tag} OK [CAPABILITY")));
    assert!(answer.contains(" NOTIFY MULTISEARCH"));
    server.end();
}
