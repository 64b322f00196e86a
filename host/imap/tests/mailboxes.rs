//! Mailboxes and rights at the seam: what is granted, revoked, made, renamed and deleted while somebody watches.

mod support;

use support::watch::{absent, there, Watch};

/// `subtree` has its own name in it: `Shared`, which is the parent of most here and no mailbox, is told of as absent.
const NAMES: &str = "(subtree Shared (MessageNew MessageExpunge MailboxName))";

/// What the server answers to commands about a mailbox, without its name.
fn answers(watch: &mut Watch, name: &str) -> Vec<String> {
    let commands = [
        "STATUS x (MESSAGES)",
        "SELECT x",
        "EXAMINE x",
        "CREATE x",
        "DELETE x",
        "RENAME x y",
        "RENAME Shared/Open x",
        "SUBSCRIBE x",
        "UNSUBSCRIBE x",
        "GETACL x",
        "SETACL x bob lr",
        "SETACL x anyone lr",
        "SETACL x bob q",
        "DELETEACL x bob",
        "LISTRIGHTS x bob",
        "MYRIGHTS x",
        "LIST \"\" x",
        "LIST \"\" x%",
        "LIST \"\" %",
        "LSUB \"\" x",
        "STATUS x (NOSUCH)",
        "SELECT x (NOSUCH)",
        "LIST \"\" * RETURN (STATUS (MESSAGES))",
        "APPEND x {2+}\r\nhi",
        "ESEARCH IN (mailboxes (x)) ALL",
        "ESEARCH IN (subtree x) ALL",
        "NOTIFY SET STATUS (mailboxes (x) (MessageNew MessageExpunge MailboxName))",
    ];
    watch.bob.ok("SELECT INBOX");
    let copied = watch.bob.run(&format!("COPY 1 {name}"));
    let ask = |command: &&str| watch.bob.run(&command.replace('x', name));
    [copied]
        .into_iter()
        .chain(commands.iter().map(ask))
        .flatten()
        .collect()
}

#[test]
fn hidden_is_answered_as_absent() {
    let mut watch = Watch::new(0, &[]);
    watch.bob.append("INBOX");
    watch.alice.ok("CREATE Shared/Zero/below");
    watch.alice.append("Shared/Zero");
    let hidden = answers(&mut watch, "Shared/Zero");
    let absent = answers(&mut watch, "Shared/None");
    assert_eq!(hidden, absent);
    // a right that shows nothing makes it no less hidden
    watch.alice.ok("SETACL Shared/Zero bob ipxa");
    assert_eq!(answers(&mut watch, "Shared/Zero"), absent);
    watch.end();
}

#[test]
fn a_grant_is_told_once_and_so_is_a_revoke() {
    let mut watch = Watch::new(0, &[]);
    watch.alice.ok("CREATE Shared/Big");
    watch
        .alice
        .append_many((0..300).map(|_| "Shared/Big".into()));
    // UIDNEXT is above the last message's UID + 1
    watch.alice.ok("SELECT Shared/Big");
    watch.alice.ok("STORE 300 FLAGS (\\Deleted)");
    watch.alice.ok("EXPUNGE");
    watch.alice.ok("UNSELECT");
    watch.notify(NAMES);
    for turn in 0..5 {
        // l is gained, so the parent is told of too; none of the messages is
        watch.alice.ok("SETACL Shared/Big bob lr");
        assert_eq!(watch.heard(), [there("Shared/Big"), absent("Shared")]);
        watch.alice.append("Shared/Big");
        let (next, messages) = (302 + 2 * turn, 300 + 2 * turn);
        let counts = format!(
            "UIDNEXT {next} MESSAGES {messages} HIGHESTMODSEQ {}",
            next + 2
        );
        assert_eq!(
            watch.heard(),
            [format!("* STATUS \"Shared/Big\" ({counts})")]
        );
        // both lines by the rights that he had; the record that takes it from the library is quiet
        watch.alice.ok("DELETEACL Shared/Big bob");
        assert_eq!(watch.heard(), [absent("Shared/Big"), absent("Shared")]);
        watch.alice.append("Shared/Big");
        assert_eq!(watch.heard(), [""; 0]);
    }
    // 310 messages were handed over five times: each revoke has given the room back
    assert!(watch.bob.ok("CAPABILITY")[0].contains("NOTIFY"));
    watch.alice.ok("SETACL Shared/Big bob lr");
    watch.alice.append("Shared/Big");
    let status = "* STATUS \"Shared/Big\" (UIDNEXT 312 MESSAGES 310 HIGHESTMODSEQ 314)";
    let granted = [there("Shared/Big"), absent("Shared"), status.into()];
    assert_eq!(watch.heard(), granted);
    watch.end();
}

#[test]
fn a_revoke_gives_the_room_back() {
    let mut watch = Watch::new(0, &[]);
    watch.notify(NAMES);
    for (name, select) in [
        ("Shared/A", false),
        ("Shared/B", true),
        ("Shared/C", false),
        ("Shared/D", true),
    ] {
        watch.alice.ok(&format!("CREATE {name}"));
        watch.alice.append_many((0..600).map(|_| name.into()));
        watch.alice.ok(&format!("SETACL {name} bob lr"));
        assert_eq!(watch.heard(), [there(name), absent("Shared")]);
        if select {
            watch.bob.ok(&format!("SELECT {name}"));
        }
        watch.alice.ok(&format!("SETACL {name} bob \"\""));
        assert_eq!(watch.heard(), [absent(name), absent("Shared")]);
        if select {
            watch.bob.ok("UNSELECT");
        }
    }
    watch.end();
}

#[test]
fn uidnext_is_the_store_s() {
    let mut watch = Watch::new(3, &[]);
    watch.alice.ok("SELECT Shared/Open");
    watch.alice.ok("STORE 1:3 FLAGS (\\Deleted)");
    watch.alice.ok("EXPUNGE");
    let mut next = watch.server.log_in("bob");
    let group = "(mailboxes Shared/Open (MessageNew MessageExpunge))";
    let status = next.ok(&format!("NOTIFY SET STATUS {group}"));
    let known = "* STATUS \"Shared/Open\" (MESSAGES 0 UIDNEXT 4 ";
    assert!(status[0].starts_with(known), "{status:?}");
    watch.end();
}

#[test]
fn revoked_while_selected() {
    let mut watch = Watch::new(1, &[]);
    watch.notify(&format!(
        "(selected (MessageNew MessageExpunge FlagChange)) {NAMES}"
    ));
    watch.bob.ok("SELECT Shared/Open");
    // r alone comes and goes: no event, so no parent either
    watch.alice.ok("SETACL Shared/Open bob l");
    watch.alice.append("Shared/Open");
    assert_eq!(watch.heard(), [""; 0]);
    assert_eq!(watch.bob.answer("FETCH 1 (UID)"), "NO [NOPERM] denied");
    assert_eq!(watch.bob.ok("NOOP"), [""; 0]);
    watch.alice.ok("SETACL Shared/Open bob lr");
    assert_eq!(watch.bob.ok("NOOP"), ["* 2 EXISTS"]);
    watch.alice.ok("DELETEACL Shared/Open bob");
    assert_eq!(watch.heard(), [absent("Shared/Open"), absent("Shared")]);
    watch.alice.append("Shared/Open");
    assert_eq!(watch.bob.ok("NOOP"), [""; 0]);
    assert_eq!(watch.bob.answer("FETCH 1 (UID)"), "NO [NOPERM] denied");
    watch.bob.ok("SELECT INBOX");
    watch.alice.append("Shared/Open");
    watch.alice.ok("SETACL Shared/Open bob lr");
    assert_eq!(watch.heard(), [there("Shared/Open"), absent("Shared")]);
    assert!(watch
        .bob
        .ok("SELECT Shared/Open")
        .contains(&"* 4 EXISTS".into()));
    watch.end();
}

#[test]
fn the_selected_mailbox_is_deleted() {
    let mut watch = Watch::new(2, &[]);
    watch.notify(&format!("(selected (MessageNew MessageExpunge)) {NAMES}"));
    watch.bob.ok("SELECT Shared/Open");
    watch.alice.ok("SELECT Shared/Open");
    assert_eq!(
        watch.alice.ok("DELETE Shared/Open"),
        ["* OK [CLOSED] mailbox deleted"]
    );
    let closed = "* OK [CLOSED] mailbox deleted".to_string();
    let told = [closed, absent("Shared/Open"), absent("Shared")];
    assert_eq!(watch.heard(), told);
    for client in [&mut watch.alice, &mut watch.bob] {
        assert_eq!(client.answer("FETCH 1 (UID)"), "BAD no mailbox selected");
        assert_eq!(client.ok("NOOP"), [""; 0]);
    }
    watch.alice.ok("CREATE Shared/Open");
    assert_eq!(watch.heard(), [""; 0]);
    watch.end();
}

#[test]
fn a_rename_takes_what_lies_beneath() {
    let mut watch = Watch::new(0, &[]);
    watch.notify(NAMES);
    watch.alice.ok("CREATE Shared/a/b/c");
    // granted from the top, so each but the first has a parent that he may list by then
    for (name, parent) in [
        ("Shared/a", absent("Shared")),
        ("Shared/a/b", there("Shared/a")),
        ("Shared/a/b/c", there("Shared/a/b")),
    ] {
        watch.alice.ok(&format!("SETACL {name} bob lr"));
        assert_eq!(watch.heard(), [there(name), parent]);
    }
    watch.alice.ok("CREATE Shared/ab");
    // a rename affects no parent, old or new; Shared/new, which it makes, is alice's alone
    watch.alice.ok("RENAME Shared/a Shared/new/z");
    let renamed = "* LIST () \"/\" \"Shared/new/z\" (\"OLDNAME\" (\"Shared/a\"))";
    assert_eq!(watch.heard(), [renamed]);
    watch.alice.append("Shared/new/z/b/c");
    let status = "* STATUS \"Shared/new/z/b/c\" (UIDNEXT 2 MESSAGES 1 HIGHESTMODSEQ 2)";
    assert_eq!(watch.heard(), [status]);
    let all = watch.alice.ok("LIST \"\" Shared/*");
    assert_eq!(all.len(), 7, "{all:?}");
    // onto names that are in use, beneath itself, across, too long beneath
    for command in [
        "RENAME Shared/new/z Shared/ab",
        "RENAME Shared/new Shared/new/z/b/d",
        "RENAME Shared/ab Shared/new/z/b",
        "RENAME Shared/ab ab",
        "RENAME Shared/new Shared/aaaaaaaaaaaaaaaaaaaaaaaaaaaaaaaaaaaaaaaaaaaaaaaaaaaaaa",
    ] {
        assert!(watch.alice.answer(command).starts_with("NO "), "{command}");
    }
    watch.end();
}

#[test]
fn inbox_is_renamed_and_a_fresh_one_stands_there() {
    let mut watch = Watch::new(0, &[]);
    let mut other = watch.server.log_in("bob");
    other.ok("CREATE inbox/below");
    other.append("INBOX");
    watch.notify("(personal (MessageNew MessageExpunge MailboxName))");
    let before = watch.bob.ok("STATUS INBOX (UIDVALIDITY)");
    other.ok("RENAME inbox old/mail");
    let renamed = "* LIST () \"/\" \"old/mail\" (\"OLDNAME\" (\"INBOX\"))";
    assert_eq!(watch.heard(), ["* LIST () \"/\" \"old\"", renamed]);
    other.append("INBOX");
    other.append("old/mail");
    let fresh = "* STATUS \"INBOX\" (UIDNEXT 2 MESSAGES 1 HIGHESTMODSEQ 2)";
    let old = "* STATUS \"old/mail\" (UIDNEXT 3 MESSAGES 2 HIGHESTMODSEQ 3)";
    assert_eq!(watch.heard(), [fresh, old]);
    let validity = |lines: Vec<String>| lines[0].split('(').nth(1).map(str::to_string);
    let moved = watch.bob.ok("STATUS old/mail (UIDVALIDITY)");
    assert_eq!(validity(moved), validity(before.clone()));
    let after = watch.bob.ok("STATUS INBOX (UIDVALIDITY)");
    assert_ne!(validity(after), validity(before));
    assert_eq!(watch.bob.ok("LIST \"\" inbox/*").len(), 1);
    watch.end();
}

#[test]
fn what_others_of_the_same_user_do_is_told_and_the_own_is_not() {
    let mut watch = Watch::new(0, &[]);
    let mut other = watch.server.log_in("bob");
    watch.notify("(personal (MessageNew MessageExpunge MailboxName SubscriptionChange))");
    for command in [
        "CREATE a",
        "SUBSCRIBE a",
        "RENAME a b",
        "UNSUBSCRIBE b",
        "DELETE b",
    ] {
        assert_eq!(watch.bob.ok(command), [""; 0], "{command}");
    }
    assert_eq!(watch.heard(), [""; 0]);
    for command in [
        "CREATE a",
        "SUBSCRIBE a",
        "RENAME a b",
        "UNSUBSCRIBE b",
        "DELETE b",
    ] {
        other.ok(command);
    }
    let told = [
        "* LIST () \"/\" \"a\"",
        "* LIST (\\Subscribed) \"/\" \"a\"",
        "* LIST () \"/\" \"b\" (\"OLDNAME\" (\"a\"))",
        "* LIST () \"/\" \"b\"",
        "* LIST (\\NonExistent) \"/\" \"b\"",
    ];
    assert_eq!(watch.heard(), told);
    watch.end();
}

#[test]
fn a_name_s_uidvalidity_rises_and_no_other_name_moves_it() {
    let mut watch = Watch::new(0, &[]);
    let mut validity = |name: &str| -> u32 {
        watch.bob.ok(&format!("CREATE {name}"));
        let lines = watch.bob.ok(&format!("STATUS {name} (UIDVALIDITY)"));
        watch.bob.ok(&format!("DELETE {name}"));
        let digits = |letter: char| letter.is_ascii_digit();
        let number = lines[0].rsplit(' ').next().map(|n| n.trim_end_matches(')'));
        number
            .filter(|n| n.chars().all(digits))
            .and_then(|n| n.parse().ok())
            .expect("a number")
    };
    let first = validity("a");
    assert_eq!(validity("a"), first + 1);
    validity("b");
    validity("c");
    assert_eq!(validity("a"), first + 2);
    watch.end();
}
