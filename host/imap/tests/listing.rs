//! Names above others: in LIST and LSUB with `%` at the end, and in the notices of what appears or goes beneath them. They are
//! shown whether there is such a mailbox or not, and nothing that is hidden is.

mod support;

use support::watch::{absent, there, Watch};
use support::{Client, Server};

const INBOX: &str = "* LIST (\\HasNoChildren) \"/\" \"INBOX\"";

/// The line of a name that is no mailbox, or none that is listed.
fn above(word: &str, name: &str) -> String {
    format!("* {word} (\\Noselect \\HasChildren) \"/\" \"{name}\"")
}

#[test]
fn names_above_mailboxes() {
    let server = Server::start();
    let mut alice = server.log_in("alice");
    alice.ok("CREATE Shared/a/b");
    alice.ok("CREATE mine/deep/er");
    alice.ok("DELETE mine/deep");
    let mine = "* LIST (\\HasChildren) \"/\" \"mine\"";
    let top = [INBOX.into(), above("LIST", "Shared"), mine.to_string()];
    assert_eq!(alice.ok("LIST \"\" %"), top);
    let status = alice.ok("LIST \"\" % RETURN (STATUS (MESSAGES))");
    assert_eq!(status.len(), 5, "{status:?}");
    assert_eq!(alice.ok("LIST mine/ %"), [above("LIST", "mine/deep")]);
    // only where the pattern ends so, and none is shown twice
    assert_eq!(alice.ok("LIST \"\" *").len(), 5);
    assert_eq!(alice.ok("LIST \"\" Shared"), [""; 0]);
    let a = "* LIST (\\HasChildren) \"/\" \"Shared/a\"";
    assert_eq!(alice.ok("LIST \"\" %/a"), [a]);
    assert_eq!(alice.ok("LIST \"\" (%/% Shared/% %/a)").len(), 2);
    server.end();
}

#[test]
fn names_above_subscriptions() {
    let server = Server::start();
    let mut alice = server.log_in("alice");
    alice.ok("CREATE Shared/a/b");
    alice.ok("SUBSCRIBE Shared/a/b");
    assert_eq!(alice.ok("LSUB \"\" %"), [above("LSUB", "Shared")]);
    // it is a mailbox, but none that is subscribed to
    assert_eq!(alice.ok("LSUB \"\" Shared/%"), [above("LSUB", "Shared/a")]);
    let b = "* LSUB (\\HasNoChildren \\Subscribed) \"/\" \"Shared/a/b\"";
    assert_eq!(alice.ok("LSUB \"\" *"), [b]);
    assert_eq!(alice.ok("LIST (SUBSCRIBED) \"\" %"), [""; 0]);
    server.end();
}

#[test]
fn only_above_what_may_be_listed() {
    let server = Server::start();
    let (mut alice, mut bob) = (server.log_in("alice"), server.log_in("bob"));
    alice.ok("CREATE Shared/Hidden/x");
    let mut lists = |patterns: [&str; 2]| {
        let list = |pattern: &str| bob.ok(&format!("LIST \"\" {pattern}"));
        patterns.map(list).concat()
    };
    let patterns = ["%", "Shared/%"];
    assert_eq!(lists(patterns), [INBOX]);
    // who may only read it doesn't find it by LIST
    alice.ok("SETACL Shared/Hidden/x bob r");
    assert_eq!(lists(patterns), [INBOX]);
    alice.ok("SETACL Shared/Hidden/x bob l");
    let upper = [above("LIST", "Shared"), above("LIST", "Shared/Hidden")];
    assert_eq!(lists(patterns)[1..], upper);
    // whether there is such a mailbox makes no difference
    alice.ok("DELETE Shared/Hidden");
    assert_eq!(lists(patterns)[1..], upper);
    alice.ok("CREATE Shared/Hidden");
    alice.ok("SETACL Shared/Hidden bob r");
    assert_eq!(lists(patterns)[1..], upper);
    server.end();
}

/// Bob, who watches, and another connection of his: what he does there is told here.
fn two_of_bob() -> (Watch, Client) {
    let watch = Watch::new(0, &[]);
    let other = watch.server.log_in("bob");
    (watch, other)
}

/// The parent's line needs none of the mailbox, and stands behind it where there is one.
#[test]
fn a_parent_is_told_of_behind_the_mailbox_or_alone() {
    let (mut watch, mut other) = two_of_bob();
    other.ok("CREATE Ops");
    other.ok("SUBSCRIBE Ops");
    for (group, own, parent) in [
        ("mailboxes Ops", false, true),
        ("mailboxes Ops/Mains", true, false),
        ("mailboxes (Ops/Mains Ops)", true, true),
        ("subtree Ops", true, true),
        ("personal", true, true),
        ("subscribed", false, true),
        ("inboxes", false, false),
    ] {
        let asked = |lines: [String; 2]| -> Vec<String> {
            let all = lines.into_iter().zip([own, parent]);
            all.filter(|line| line.1).map(|line| line.0).collect()
        };
        watch.notify(&format!("({group} (MailboxName))"));
        other.ok("CREATE Ops/Mains");
        let made = asked([there("Ops/Mains"), there("Ops")]);
        assert_eq!(watch.heard(), made, "{group}");
        // the parent stays, and so it is told of as there
        other.ok("DELETE Ops/Mains");
        let gone = asked([absent("Ops/Mains"), there("Ops")]);
        assert_eq!(watch.heard(), gone, "{group}");
    }
    watch.end();
}

/// They come from the top, each by a record of its own that tells of the one above it.
#[test]
fn a_create_tells_of_the_parents_that_it_makes() {
    let (mut watch, mut other) = two_of_bob();
    watch.notify("(subtree Ops (MailboxName))");
    other.ok("CREATE Ops/Mains/Pump");
    let (top, mains, pump) = (there("Ops"), there("Ops/Mains"), there("Ops/Mains/Pump"));
    let told = [&top, &mains, &top, &pump, &mains];
    assert_eq!(watch.heard().iter().collect::<Vec<_>>(), told);
    // only the direct parent is affected
    watch.notify("(mailboxes Ops (MailboxName))");
    other.ok("CREATE Ops/Mains/Valve");
    assert_eq!(watch.heard(), [""; 0]);
    other.ok("CREATE Ops/Field/Tank");
    assert_eq!(watch.heard(), [there("Ops")]);
    // INBOX in any case is the one that is there
    watch.notify("(mailboxes Inbox (MailboxName))");
    other.ok("CREATE iNbox/x");
    assert_eq!(watch.heard(), [there("INBOX")]);
    watch.end();
}

/// DELETE leaves no name for the children: what is gone is told of as absent by each of them.
#[test]
fn a_delete_leaves_the_children_beneath_an_absent_name() {
    let (mut watch, mut other) = two_of_bob();
    other.ok("CREATE Ops/Mains/Pump");
    other.ok("CREATE Ops/Mains/Valve");
    watch.notify("(subtree Ops (MailboxName))");
    other.ok("DELETE Ops/Mains");
    assert_eq!(watch.heard(), [absent("Ops/Mains"), there("Ops")]);
    // LIST shows it above them, and \Noselect is what \NonExistent implies
    assert_eq!(watch.bob.ok("LIST Ops/ %"), [above("LIST", "Ops/Mains")]);
    other.ok("DELETE Ops/Mains/Pump");
    let told = [absent("Ops/Mains/Pump"), absent("Ops/Mains")];
    assert_eq!(watch.heard(), told);
    // what is absent is nobody's, so it is met by its name alone
    watch.notify("(personal (MailboxName))");
    other.ok("DELETE Ops/Mains/Valve");
    assert_eq!(watch.heard(), [absent("Ops/Mains/Valve")]);
    watch.end();
}

/// Shared/Up/x is given to bob and taken from him, and each time he is told of its parent so.
fn grant_beneath(watch: &mut Watch, parent: &str) {
    watch.alice.ok("SETACL Shared/Up/x bob lr");
    assert_eq!(watch.heard(), [&there("Shared/Up/x"), parent]);
    watch.alice.ok("DELETEACL Shared/Up/x bob");
    assert_eq!(watch.heard(), [&absent("Shared/Up/x"), parent]);
}

/// A parent is there for bob if he may list it, whether he may read it or not.
#[test]
fn a_parent_that_may_not_be_listed_is_told_of_as_absent() {
    let mut watch = Watch::new(0, &[]);
    watch.alice.ok("CREATE Shared/Up/x");
    watch.notify("(subtree Shared/Up (MailboxName))");
    let (hidden, listed) = (&absent("Shared/Up"), &there("Shared/Up"));
    // on the parent l comes without r, and r behind it: of these he is told nothing
    for (rights, parent) in [("", hidden), ("r", hidden), ("l", listed), ("lr", listed)] {
        let command = format!("SETACL Shared/Up bob \"{rights}\"");
        watch.alice.ok(&command);
        grant_beneath(&mut watch, parent);
    }
    watch.alice.ok("DELETE Shared/Up");
    assert_eq!(watch.heard(), [hidden.clone()]);
    grant_beneath(&mut watch, hidden);
    watch.end();
}

/// What bob may not both list and read tells nothing, however much he may know of its parent.
#[test]
fn a_hidden_child_tells_of_no_parent() {
    let mut watch = Watch::new(0, &[]);
    watch.notify("(subtree Shared/Open (MailboxName))");
    for rights in ["", "r", "l", "swipkxtea"] {
        watch.alice.ok("CREATE Shared/Open/x");
        let command = format!("SETACL Shared/Open/x bob \"{rights}\"");
        watch.alice.ok(&command);
        watch.alice.ok("DELETE Shared/Open/x");
        assert_eq!(watch.heard(), [""; 0], "{rights}");
    }
    // another user's CREATE gives him nothing; the grant does
    watch.alice.ok("CREATE Shared/Open/x");
    assert_eq!(watch.heard(), [""; 0]);
    watch.alice.ok("SETACL Shared/Open/x bob lr");
    let told = [there("Shared/Open/x"), there("Shared/Open")];
    assert_eq!(watch.heard(), told);
    watch.alice.ok("DELETE Shared/Open/x");
    let told = [absent("Shared/Open/x"), there("Shared/Open")];
    assert_eq!(watch.heard(), told);
    watch.end();
}

/// Of none that it leaves or comes to, and of none above what goes along. What it makes on the way is a create as any other.
#[test]
fn a_rename_tells_of_no_parent() {
    let (mut watch, mut other) = two_of_bob();
    let renamed = |old, new| format!("{} (\"OLDNAME\" (\"{old}\"))", there(new));
    other.ok("CREATE Ops/Mains/Pump/Seal");
    other.ok("CREATE Field");
    watch.notify("(personal (MailboxName)) (subtree (Ops Field New) (MailboxName))");
    other.ok("RENAME Ops/Mains Field/West");
    assert_eq!(watch.heard(), [renamed("Ops/Mains", "Field/West")]);
    other.ok("RENAME Field/West New/deep/z");
    let told = [
        there("New"),
        there("New/deep"),
        there("New"),
        renamed("Field/West", "New/deep/z"),
    ];
    assert_eq!(watch.heard(), told);
    // what went along has its new parent
    other.ok("DELETE New/deep/z/Pump/Seal");
    let told = [absent("New/deep/z/Pump/Seal"), there("New/deep/z/Pump")];
    assert_eq!(watch.heard(), told);
    watch.end();
}

#[test]
fn own_acts_tell_of_no_parent() {
    let mut watch = Watch::new(0, &[]);
    watch.notify("(subtree Ops (MailboxName)) (personal (MailboxName))");
    for command in [
        "CREATE Ops",
        "CREATE Ops/Mains/Pump",
        "RENAME Ops/Mains Ops/East",
        "DELETE Ops/East",
        "DELETE Ops/East/Pump",
    ] {
        assert_eq!(watch.bob.ok(command), [""; 0], "{command}");
    }
    assert_eq!(watch.heard(), [""; 0]);
    // rights have no quiet record: who takes them from herself reads of it
    let command = "NOTIFY SET (subtree Shared (MailboxName))";
    watch.alice.ok(command);
    let told = [absent("Shared/Open"), absent("Shared")];
    assert_eq!(watch.alice.ok("SETACL Shared/Open alice a"), told);
    watch.end();
}
