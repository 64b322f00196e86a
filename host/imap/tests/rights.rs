//! ACL: what LISTRIGHTS answers, and rights that everybody has.

mod support;

use support::watch::{absent, there, Watch};

/// `subtree` has its own name in it: `Shared`, the parent, which is no mailbox.
const NAMES: &str = "(subtree Shared (MessageNew MessageExpunge MailboxName))";
const ALL: &str = "l r s w i p k x t e a";

#[test]
fn rights_that_can_be_given() {
    let mut watch = Watch::new(0, &[]);
    assert!(watch.alice.ok("CAPABILITY")[0].contains(" ACL RIGHTS=texk "));
    for user in ["alice", "bob", "anyone"] {
        let shared = format!("* LISTRIGHTS \"Shared/Open\" {user} \"\" {ALL}");
        let command = format!("LISTRIGHTS Shared/Open {user}");
        assert_eq!(watch.alice.ok(&command), [shared]);
    }
    // an owner has all, and can give none
    let own = "* LISTRIGHTS \"INBOX\" bob lrswipkxtea";
    assert_eq!(watch.bob.ok("LISTRIGHTS inbox bob"), [own]);
    let other = "* LISTRIGHTS \"INBOX\" alice \"\"";
    assert_eq!(watch.bob.ok("LISTRIGHTS INBOX alice"), [other]);
    for (name, answer) in [
        ("Shared/Open bob", "NO [NOPERM] denied"),
        ("Shared/None bob", "NO [NONEXISTENT] no such mailbox"),
        ("Shared/Open", "BAD a space is missing"),
    ] {
        assert_eq!(watch.bob.answer(&format!("LISTRIGHTS {name}")), answer);
    }
    for command in [
        "LISTRIGHTS Shared/Open mallory",
        "SETACL Shared/Open mallory lr",
        "DELETEACL Shared/Open -bob",
    ] {
        assert_eq!(watch.alice.answer(command), "NO [CANNOT] no such user");
    }
    watch.end();
}

#[test]
fn what_anyone_has_all_have() {
    let mut watch = Watch::new(0, &[]);
    let mut stranger = watch.server.connect();
    watch.notify(NAMES);
    watch.alice.ok("CREATE Shared/All");
    watch.alice.append("Shared/All");
    watch.alice.ok("SETACL Shared/All anyone lr");
    let acl = "* ACL \"Shared/All\" alice lrswipkxtea anyone lr";
    assert_eq!(watch.alice.ok("GETACL Shared/All"), [acl]);
    // l is gained through anyone, and that is a grant as any other: the parent's line follows
    assert_eq!(watch.heard(), [there("Shared/All"), absent("Shared")]);
    let rights = |watch: &mut Watch, wanted: &str| {
        let line = format!("* MYRIGHTS \"Shared/All\" {wanted}");
        assert_eq!(watch.bob.ok("MYRIGHTS Shared/All"), [line]);
    };
    rights(&mut watch, "lr");
    // who was not logged in then, and who comes later
    stranger.ok("LOGIN carol pw");
    let groups = "(mailboxes Shared/All (MessageNew MessageExpunge))";
    stranger.ok(&format!("NOTIFY SET {groups}"));
    watch.alice.append("Shared/All");
    let status = "* STATUS \"Shared/All\" (UIDNEXT 3 MESSAGES 2 HIGHESTMODSEQ 3)";
    assert_eq!(stranger.line(), status);
    assert_eq!(watch.heard(), [status]);
    // what one has besides is added, and taken away alone; l stays, so nobody is told
    watch.alice.ok("SETACL Shared/All bob w");
    rights(&mut watch, "lrw");
    watch.alice.ok("SETACL Shared/All bob +i");
    let acl = "* ACL \"Shared/All\" alice lrswipkxtea anyone lr bob wi";
    assert_eq!(watch.alice.ok("GETACL Shared/All"), [acl]);
    watch.alice.ok("DELETEACL Shared/All bob");
    assert_eq!(watch.heard(), [""; 0]);
    rights(&mut watch, "lr");
    watch.alice.ok("DELETEACL Shared/All anyone");
    assert_eq!(watch.heard(), [absent("Shared/All"), absent("Shared")]);
    let hidden = watch.bob.answer("SELECT Shared/All");
    assert_eq!(hidden, "NO [NONEXISTENT] no such mailbox");
    watch.end();
}
