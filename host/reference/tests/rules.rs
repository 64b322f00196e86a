//! The plain rules, each over all of its small cases, against formulas written here.

mod support;

use reference::Memory;
use support::*;

/// What a text gives after a preparation that is not looked at.
fn after(preparation: &str, text: &str) -> String {
    let before = transcript(8192, preparation);
    let all = transcript(8192, &format!("{preparation}\n{text}"));
    all[before.len()..].to_string()
}

fn found(uids: &[u32]) -> String {
    if uids.is_empty() {
        return "s OK ESEARCH done\r\n".to_string();
    }
    let (least, most) = (uids[0], uids[uids.len() - 1]);
    format!(
        "* ESEARCH (TAG \"s\" MAILBOX \"b\" UIDVALIDITY 1) UID MIN {least} MAX {most} COUNT {}\r\n\
         s OK ESEARCH done\r\n",
        uids.len()
    )
}

/// Every flag combination is one message; its size is its UID.
#[test]
fn keys() {
    let mut store = String::from("MB 1 0x33 1 1 b");
    for flags in 0..32 {
        store += &format!("\nME 1 {} {flags} {}", flags + 1, flags + 1);
    }
    type Test = fn(u32) -> bool;
    let cases: [(&str, Test); 26] = [
        ("ALL", |_| true),
        ("ANSWERED", |uid| (uid - 1) & 1 != 0),
        ("FLAGGED", |uid| (uid - 1) & 2 != 0),
        ("DELETED", |uid| (uid - 1) & 4 != 0),
        ("SEEN", |uid| (uid - 1) & 8 != 0),
        ("DRAFT", |uid| (uid - 1) & 16 != 0),
        ("UNANSWERED", |uid| (uid - 1) & 1 == 0),
        ("UNFLAGGED", |uid| (uid - 1) & 2 == 0),
        ("UNDELETED", |uid| (uid - 1) & 4 == 0),
        ("UNSEEN", |uid| (uid - 1) & 8 == 0),
        ("UNDRAFT", |uid| (uid - 1) & 16 == 0),
        ("LARGER 7", |uid| uid > 7),
        ("SMALLER 7", |uid| uid < 7),
        ("LARGER 31", |uid| uid > 31),
        ("LARGER 32", |_| false),
        ("SMALLER 1", |_| false),
        ("SMALLER 0", |_| false),
        ("UID 5:3,30:*,1", |uid| {
            uid == 1 || (3..=5).contains(&uid) || uid >= 30
        }),
        ("40:*", |uid| uid == 32),
        ("2,31:40", |uid| uid == 2 || uid >= 31),
        ("NOT SEEN", |uid| (uid - 1) & 8 == 0),
        ("NOT NOT SEEN", |uid| (uid - 1) & 8 != 0),
        ("OR SEEN UID 1", |uid| (uid - 1) & 8 != 0 || uid == 1),
        ("SEEN LARGER 20", |uid| (uid - 1) & 8 != 0 && uid > 20),
        ("NOT (SEEN LARGER 20) DRAFT", |uid| {
            !((uid - 1) & 8 != 0 && uid > 20) && (uid - 1) & 16 != 0
        }),
        ("OR (SEEN DRAFT) OR (1) (NOT ALL)", |uid| {
            (uid - 1) & 24 == 24 || uid == 1
        }),
    ];
    for (keys, test) in cases {
        let uids: Vec<u32> = (1..=32).filter(|&uid| test(uid)).collect();
        let line = format!("CM s ESEARCH IN (mailboxes b) RETURN (COUNT MAX MIN) {keys}");
        assert_eq!(after(&store, &line), found(&uids), "{keys}");
    }
}

/// Who matches, for all attributes, in a search, in NOTIFY SET and in a notice.
#[test]
fn selectors() {
    for attributes in 0..64u32 {
        let has = |bits: u32| attributes & bits == bits;
        let (list, read) = (has(0x10), has(0x20));
        let selectors = [
            ("personal", has(3), true),
            ("inboxes", has(7), true),
            ("subscribed", has(8), true),
            ("subtree a", has(1), true),
            ("subtree a/b", has(1), true),
            ("subtree a/b/c", false, true),
            ("subtree-one a", has(1), true),
            ("subtree-one a/b", has(1), true),
            ("mailboxes a/b", true, false),
            ("mailboxes (x a/b)", true, false),
            ("mailboxes a", false, false),
        ];
        let store = format!("MB 1 {attributes} 1 1 a/b\nME 1 1 0 0");
        for (selector, meets, needs_list) in selectors {
            let search = after(&store, &format!("CM s ESEARCH IN ({selector}) ALL"));
            let shown = meets && read && (list || !needs_list);
            assert_eq!(
                search.starts_with("* ESEARCH"),
                shown,
                "{attributes} {selector}"
            );
            if selector.starts_with("subtree-one") {
                continue;
            }
            let both = "(MessageNew MessageExpunge FlagChange MailboxName)";
            let set = format!("CM n NOTIFY SET STATUS ({selector} {both})");
            let first = match (meets && list, read) {
                (true, true) => {
                    "* STATUS \"a/b\" (MESSAGES 1 UIDNEXT 2 UIDVALIDITY 1 HIGHESTMODSEQ 2)\r\n"
                }
                (true, false) => "* LIST (\\NoAccess) \"/\" \"a/b\"\r\n",
                _ => "",
            };
            let wanted = format!("{first}n OK NOTIFY done\r\n");
            assert_eq!(after(&store, &set), wanted, "{attributes} {selector}");
            let told = after(
                &format!("{store}\n{set}"),
                "ME 1 2 0 0\nXP 1 1\nFL 1 2 0\nRN 1 1 z\nRN 1 1 a/b\nDL 1 0",
            );
            let wanted = if meets && list && read {
                "* STATUS \"a/b\" (UIDNEXT 3 MESSAGES 2 HIGHESTMODSEQ 3)\r\n\
                 * STATUS \"a/b\" (UIDNEXT 3 MESSAGES 1 HIGHESTMODSEQ 4)\r\n\
                 * STATUS \"a/b\" (UIDVALIDITY 1 HIGHESTMODSEQ 5)\r\n\
                 * LIST (\\NonExistent) \"/\" \"a/b\"\r\n"
            } else {
                ""
            };
            // the parent is absent, so its name alone counts
            let named = list && read && matches!(selector, "subtree a" | "mailboxes a");
            let above = "* LIST (\\NonExistent) \"/\" \"a\"\r\n";
            let wanted = format!("{wanted}{}", if named { above } else { "" });
            assert_eq!(told, wanted, "{attributes} {selector}");
        }
    }
}

/// Create, rename, delete and subscribe, loud and quiet, selectable or not, by rights.
#[test]
fn mailbox_notices() {
    let set = "CM n NOTIFY SET (mailboxes (x y) (MailboxName SubscriptionChange))";
    for rights in [0, 0x10, 0x20, 0x30] {
        for selectable in [0, 1] {
            for quiet in [0, 1] {
                let text = format!(
                    "MB 1 {} {quiet} 1 x\nSB 1 1 {quiet}\nSB 1 1 {quiet}\nSB 1 0 {quiet}\n\
                     RN 1 {quiet} y\nDL 1 {quiet}",
                    rights | selectable
                );
                let kind = if selectable == 1 { "" } else { "\\Noselect" };
                let wanted = if rights == 0x30 && quiet == 0 {
                    format!(
                        "* LIST ({kind}) \"/\" \"x\"\r\n\
                         * LIST (\\Subscribed) \"/\" \"x\"\r\n\
                         * LIST () \"/\" \"x\"\r\n\
                         * LIST ({kind}) \"/\" \"y\" (\"OLDNAME\" (\"x\"))\r\n\
                         * LIST (\\NonExistent) \"/\" \"y\"\r\n"
                    )
                } else {
                    String::new()
                };
                assert_eq!(after(set, &text), wanted, "{rights} {selectable} {quiet}");
            }
        }
    }
}

/// `subscribed` hears of a subscription's end as of its beginning.
#[test]
fn subscriptions() {
    let store = "MB 1 0x39 1 1 x\nCM n NOTIFY SET (subscribed (SubscriptionChange))";
    let lines = "* LIST () \"/\" \"x\"\r\n* LIST (\\Subscribed) \"/\" \"x\"\r\n";
    assert_eq!(after(store, "SB 1 0 0\nSB 1 1 0"), lines);
}

/// All sixteen changes of rights.
#[test]
fn rights() {
    for before in [0, 0x10, 0x20, 0x30] {
        for later in [0, 0x10, 0x20, 0x30] {
            let store = format!(
                "MB 1 {} 1 1 x\nCM n NOTIFY SET (mailboxes x (MailboxName))",
                before | 1
            );
            let (had, has) = (before & 0x10 != 0, later & 0x10 != 0);
            let wanted = if !had && has && later == 0x30 {
                "* LIST () \"/\" \"x\"\r\n"
            } else if had && !has && before == 0x30 {
                "* LIST (\\NonExistent) \"/\" \"x\"\r\n"
            } else {
                ""
            };
            assert_eq!(
                after(&store, &format!("RT 1 {later}")),
                wanted,
                "{before} {later}"
            );
        }
    }
}

/// The three events of the selected mailbox: told at once, waiting or dropped, by session and
/// rights.
#[test]
fn selected_events() {
    let sessions = [
        ("", false, false, false, true),
        ("CM n NOTIFY NONE", false, false, false, false),
        (
            "CM n NOTIFY SET (personal (MessageNew MessageExpunge FlagChange))",
            false,
            false,
            false,
            false,
        ),
        (
            "CM n NOTIFY SET (selected NONE)",
            false,
            false,
            false,
            false,
        ),
        (
            "CM n NOTIFY SET (selected (MessageNew MessageExpunge))",
            true,
            true,
            false,
            false,
        ),
        (
            "CM n NOTIFY SET (selected (MessageNew MessageExpunge FlagChange))",
            true,
            true,
            true,
            false,
        ),
        (
            "CM n NOTIFY SET (selected-delayed (MessageNew MessageExpunge))",
            true,
            false,
            false,
            false,
        ),
        (
            "CM n NOTIFY SET (selected-delayed (MessageNew MessageExpunge FlagChange))",
            true,
            false,
            true,
            false,
        ),
    ];
    let fetch = "* 2 FETCH (UID 20 FLAGS (\\Flagged \\Seen) MODSEQ (4))\r\n";
    for (session, new, expunge, flags, marks) in sessions {
        for rights in [0, 0x10, 0x20, 0x30] {
            let store = format!(
                "MB 1 0x33 1 1 b\nME 1 10 0 0\nME 1 20 0 0\nSE 1\n{session}\nRT 1 {rights}"
            );
            let open = rights == 0x30;
            let later = "RT 1 0x30\nCE 0\nCE 1";
            let case = format!("{session} {rights}");

            let (now, then) = if new && open {
                ("* 3 EXISTS\r\n", "= 0\r\n= 0\r\n")
            } else {
                ("", "= 0\r\n* 3 EXISTS\r\n= 0\r\n")
            };
            assert_eq!(after(&store, "ME 1 30 0 0"), now, "{case}");
            assert_eq!(
                after(&format!("{store}\nME 1 30 0 0"), later),
                then,
                "{case}"
            );

            let (now, then) = if expunge && open {
                ("* 1 EXPUNGE\r\n", "= 0\r\n= 0\r\n")
            } else {
                ("", "= 0\r\n= 0\r\n* 1 EXPUNGE\r\n")
            };
            assert_eq!(after(&store, "XP 1 10"), now, "{case}");
            assert_eq!(after(&format!("{store}\nXP 1 10"), later), then, "{case}");

            let now = if flags && open { fetch } else { "" };
            let then = if marks && open {
                format!("= 0\r\n{fetch}= 0\r\n")
            } else {
                "= 0\r\n= 0\r\n".to_string()
            };
            assert_eq!(after(&store, "FL 1 20 10"), now, "{case}");
            assert_eq!(
                after(&format!("{store}\nFL 1 20 10"), later),
                then,
                "{case}"
            );
        }
    }
}

/// Attributes asked in any order, written in one.
#[test]
fn fetch_attributes() {
    let items = [
        "UID 7",
        "FLAGS (\\Answered \\Deleted \\Draft)",
        "RFC822.SIZE 99",
    ];
    let asked = ["UID", "FLAGS", "RFC822.SIZE"];
    for bits in 1..8 {
        let chosen = |texts: [&'static str; 3]| -> Vec<&str> {
            (0..3)
                .filter(|bit| bits & (1 << bit) != 0)
                .map(|bit| texts[bit])
                .collect()
        };
        let mut wanted = chosen(asked);
        wanted.reverse();
        let store = format!(
            "MB 1 0x33 1 1 b\nSE 1\nCM n NOTIFY SET (selected (MessageExpunge MessageNew ({})))",
            wanted.join(" ")
        );
        let items = chosen(items).join(" ");
        let line = format!("* 1 EXISTS\r\n* 1 FETCH ({items} MODSEQ (2))\r\n");
        assert_eq!(after(&store, "ME 1 7 0x15 99"), line);
    }
}

/// Every record's length and ranges: one octet less, one more, each field just outside.
#[test]
fn lengths_and_ranges() {
    let store = "MB 1 0x33 1 1 b\nME 1 1 0 0\nMB 2 0x33 1 1 c";
    let lawful = [
        "MB 3 0x3F 1 1 d",
        "DL 2 1",
        "RN 2 1 d",
        "SB 2 1 1",
        "RT 2 0x30",
        "ME 2 1 0x1F 0",
        "XP 1 1",
        "FL 1 1 0x1F",
        "SE 2",
        "SE 0",
        "CE 0",
        "CE 1",
        "DR 0",
    ];
    for text in lawful {
        assert!(!after(store, text).starts_with('!'), "{text}");
        let mut memory = Memory::new(8192, 64, 1024);
        prepare(&mut memory, store);
        let octets = counted(&memory, text);
        let named = text.starts_with("MB") || text.starts_with("RN");
        for change in [-1, 1] {
            let mut body = octets[4..].to_vec();
            body.resize((body.len() as i32 + change) as usize, b'd');
            if named && change == 1 {
                continue;
            }
            let mut bad = octets[..2].to_vec();
            bad.extend((body.len() as u16).to_le_bytes());
            bad.extend(body);
            let text = format!("HEX {}", hex(&bad));
            assert_eq!(after(store, &text), "! 2\r\n", "{text}");
        }
    }
    let long = "n".repeat(65);
    let line = "x".repeat(1025);
    for text in [
        "MB 0 0x3F 1 1 d",
        "MB 3 0x40 1 1 d",
        "MB 3 0x80 1 1 d",
        "MB 3 0x3F 2 1 d",
        "MB 3 0x3F 1 0 d",
        "MB 3 0x3F 1 1 /d",
        "MB 3 0x3F 1 1 d/",
        "MB 3 0x3F 1 1 d//e",
        "MB 3 0x3F 1 1 ",
        &format!("MB 3 0x3F 1 1 {long}"),
        "DL 0 1",
        "DL 2 2",
        "RN 0 1 d",
        "RN 2 2 d",
        "RN 2 1 ",
        &format!("RN 2 1 {long}"),
        "SB 0 1 1",
        "SB 2 2 1",
        "SB 2 1 2",
        "RT 0 0x30",
        "RT 2 0x31",
        "RT 2 0x40",
        "ME 0 1 0 0",
        "ME 2 0 0 0",
        "ME 2 4294967295 0 0",
        "ME 2 1 0x20 0",
        "XP 0 1",
        "FL 1 1 0x20",
        "CE 2",
        "CE 255",
        &format!("CM {line}"),
    ] {
        assert_eq!(after(store, text), "! 2\r\n", "{text}");
    }
    assert_eq!(
        after(store, &format!("CM {}", &line[1..])),
        "* BAD refused\r\n"
    );
    let long = &long[1..];
    assert_eq!(after(store, &format!("MB 3 0x3F 1 1 {long}")), "");
    for text in [
        "MB 1 0x3F 1 1 b",
        "DL 3 1",
        "RN 3 1 b",
        "SB 3 1 1",
        "RT 3 0",
        "ME 3 1 0 0",
        "XP 3 1",
        "FL 3 1 0",
        "SE 3",
    ] {
        assert_eq!(after(store, text), "! 3\r\n", "{text}");
    }
    for text in ["MB 3 0x3F 1 1 b", "RN 2 1 b"] {
        assert_eq!(after(store, text), "! 4\r\n", "{text}");
    }
    for text in ["ME 1 1 0 0", "XP 1 2", "XP 2 1", "FL 2 1 0"] {
        assert_eq!(after(store, text), "! 5\r\n", "{text}");
    }
}

/// A message expunged and waiting is gone for `XP` and `FL`.
#[test]
fn expunged_is_not_there() {
    let store = "MB 1 0x33 1 1 b\nME 1 1 0 0\nSE 1\nXP 1 1";
    assert_eq!(
        after(store, "XP 1 1\nFL 1 1 0\nME 1 1 0 0"),
        "! 5\r\n! 5\r\n! 5\r\n"
    );
}
