//! P1 to P10, the runs beside them, and examples of the RFCs as this program answers them.

mod support;

use reference::{call, Memory};
use support::*;

#[test]
fn p1_inner_parentheses_accepted() {
    gives(
        "CM a NOTIFY SET (selected (MessageNew MessageExpunge))",
        &["a OK NOTIFY done"],
    );
}

#[test]
fn p2_without_inner_parentheses_bad() {
    gives(
        "CM a NOTIFY SET (selected MessageNew MessageExpunge)",
        &["a BAD refused"],
    );
    gives(
        "CM b notify set status (selected MessageNew (uid body.peek[header.fields (from to subject)]) MessageExpunge) (subtree Lists MessageNew)",
        &["b BAD refused"],
    );
}

#[test]
fn p3_and_p4_events_alone_bad() {
    for event in [
        "MessageNew",
        "MessageExpunge",
        "FlagChange",
        "AnnotationChange",
    ] {
        for filter in ["selected", "selected-delayed", "personal", "mailboxes x"] {
            gives(
                &format!("CM a NOTIFY SET ({filter} ({event}))"),
                &["a BAD refused"],
            );
        }
    }
}

#[test]
fn p5_annotation_change_with_both() {
    gives(
        "CM a NOTIFY SET (selected (MessageNew MessageExpunge AnnotationChange))",
        &["a NO [BADEVENT (MessageNew MessageExpunge FlagChange MailboxName SubscriptionChange)] unsupported"],
    );
}

#[test]
fn p6_and_p7_depth() {
    let nested = |depth: usize| {
        format!(
            "CM a ESEARCH IN (personal) {}ALL{}",
            "(".repeat(depth),
            ")".repeat(depth)
        )
    };
    gives(&nested(8), &["a OK ESEARCH done"]);
    gives(&nested(9), &["a NO [LIMIT] too large"]);
}

#[test]
fn p8_adjacent_uids_join() {
    gives(
        "MB 1 0x33 1 1 b\nME 1 3 0 0\nME 1 4 0 0\nME 1 9 0 0\nCM a ESEARCH IN (personal) ALL",
        &[
            "* ESEARCH (TAG \"a\" MAILBOX \"b\" UIDVALIDITY 1) UID ALL 3:4,9",
            "a OK ESEARCH done",
        ],
    );
}

#[test]
fn p9_subtree_misses_opsroom() {
    gives(
        "MB 1 0x33 1 1 Opsroom\nMB 2 0x33 1 2 Ops/a\nCM a NOTIFY SET STATUS (subtree Ops (MessageNew MessageExpunge))",
        &[
            "* STATUS \"Ops/a\" (MESSAGES 0 UIDNEXT 1 UIDVALIDITY 2 HIGHESTMODSEQ 1)",
            "a OK NOTIFY done",
        ],
    );
}

#[test]
fn p10_inbox_in_any_case() {
    gives(
        "MB 1 0x33 1 1 INBOX\nCM a NOTIFY SET STATUS (mailboxes inbox (MessageNew MessageExpunge))",
        &[
            "* STATUS \"INBOX\" (MESSAGES 0 UIDNEXT 1 UIDVALIDITY 1 HIGHESTMODSEQ 1)",
            "a OK NOTIFY done",
        ],
    );
}

#[test]
fn tags_of_32_and_33() {
    let long = "t".repeat(32);
    gives(
        &format!("CM {long} NOTIFY NONE"),
        &[&format!("{long} OK NOTIFY done")],
    );
    gives(&format!("CM {long}t NOTIFY NONE"), &["* BAD refused"]);
}

#[test]
fn queue_lengths() {
    let records = [assemble("CE 1"), assemble("SE 5"), Vec::new()];
    for (queue, lawful) in [
        (0, false),
        (1023, false),
        (1024, true),
        (65536, true),
        (65537, false),
    ] {
        for octets in &records {
            let mut memory = Memory::new(queue, 64, 1024);
            let before = memory.clone();
            let refusal = call(&mut memory, octets).refusal;
            assert_eq!(refusal == 1, !lawful, "Q {queue}");
            let refusal = reference::call_trusting(&mut memory, octets).refusal;
            assert_eq!(refusal == 1, !lawful, "Q {queue}");
            assert_eq!(memory, before);
        }
    }
}

#[test]
fn table_lengths() {
    for (mailboxes, messages, lawful) in [
        (0, 0, true),
        (64, 1024, true),
        (65, 1024, false),
        (64, 1025, false),
    ] {
        let mut memory = Memory::new(1024, mailboxes, messages);
        let refusal = call(&mut memory, &assemble("CE 0")).refusal;
        assert_eq!(refusal == 1, !lawful, "{mailboxes} {messages}");
    }
}

/// RFC 5465's example of section 3.1, with its inner parentheses and served attributes.
#[test]
fn rfc_5465_session() {
    gives(
        "MB 1 0x33 1 4 Lists/Lemonade\n\
         MB 2 0x33 1 901 Lists/Im2000\n\
         MB 3 0x37 1 7 inbox\n\
         ME 1 9998 0 0\n\
         CM b notify set status (selected (MessageNew (uid) MessageExpunge)) (subtree Lists (MessageNew MessageExpunge))\n\
         SE 3\n\
         ME 1 9999 0 0\n\
         ME 3 127001 0 0\n\
         CM e notify set (selected (MessageNew (uid) MessageExpunge)) (subtree Lists (MessageNew MessageExpunge)) (mailboxes misc (MessageNew MessageExpunge))",
        &[
            "* STATUS \"Lists/Im2000\" (MESSAGES 0 UIDNEXT 1 UIDVALIDITY 901 HIGHESTMODSEQ 1)",
            "* STATUS \"Lists/Lemonade\" (MESSAGES 1 UIDNEXT 9999 UIDVALIDITY 4 HIGHESTMODSEQ 2)",
            "b OK NOTIFY done",
            "* STATUS \"Lists/Lemonade\" (UIDNEXT 10000 MESSAGES 2 HIGHESTMODSEQ 3)",
            "* 1 EXISTS",
            "* 1 FETCH (UID 127001 MODSEQ (2))",
            "e OK NOTIFY done",
        ],
    );
}

/// RFC 5465's examples of section 5 that 01 keeps.
#[test]
fn rfc_5465_lines() {
    gives(
        "CM a NOTIFY SET (mailboxes (NewMailbox OldMailbox) (MailboxName SubscriptionChange))\n\
         MB 1 0x33 0 1 NewMailbox\n\
         DL 1 0\n\
         MB 1 0x33 1 1 OldMailbox\n\
         RN 1 0 NewMailbox\n\
         SB 1 1 0",
        &[
            "a OK NOTIFY done",
            "* LIST () \"/\" \"NewMailbox\"",
            "* LIST (\\NonExistent) \"/\" \"NewMailbox\"",
            "* LIST () \"/\" \"NewMailbox\" (\"OLDNAME\" (\"OldMailbox\"))",
            "* LIST (\\Subscribed) \"/\" \"NewMailbox\"",
        ],
    );
    gives(
        "MB 1 0x37 1 1 INBOX\n\
         CM a notify set (mailboxes INBOX (Messagenew messageExpunge)) (personal (SubscriptionChange))\n\
         ME 1 1 0 0\n\
         SB 1 1 0\n\
         CM a notify set (selected (Messagenew (uid flags) messageExpunge)) (personal (MessageNew FlagChange MessageExpunge))\n\
         FL 1 1 1",
        &[
            "a OK NOTIFY done",
            "* STATUS \"INBOX\" (UIDNEXT 2 MESSAGES 1 HIGHESTMODSEQ 2)",
            "* LIST (\\Subscribed) \"/\" \"INBOX\"",
            "a OK NOTIFY done",
            "* STATUS \"INBOX\" (UIDVALIDITY 1 HIGHESTMODSEQ 3)",
        ],
    );
}

/// RFC 6237's example, its second command with a key that is served.
#[test]
fn rfc_6237_session() {
    gives(
        "MB 1 0x33 1 1 folder1\n\
         MB 2 0x33 1 503 folder2/banana\n\
         MB 3 0x33 1 3 folder2/peach\n\
         MB 4 0x33 1 9 folder2/peach/stone\n\
         ME 1 4001 0 0\n\
         ME 1 4002 8 0\n\
         ME 1 4003 0 0\n\
         ME 2 3002 0 0\n\
         ME 2 4004 0 0\n\
         ME 3 921691 0 0\n\
         ME 4 5 0 0\n\
         CM tag1 ESEARCH IN (mailboxes \"folder1\" subtree \"folder2\") unseen\n\
         CM tag2 ESEARCH IN (mailboxes \"folder1\" subtree-one \"folder2\") seen\n\
         CM tag3 ESEARCH IN (mailboxes \"folder1\" subtree-one \"folder2\") subject \"chad\"\n\
         CM tag4 ESEARCH IN (subtree-one \"folder2\") RETURN (COUNT) ALL",
        &[
            "* ESEARCH (TAG \"tag1\" MAILBOX \"folder1\" UIDVALIDITY 1) UID ALL 4001,4003",
            "* ESEARCH (TAG \"tag1\" MAILBOX \"folder2/banana\" UIDVALIDITY 503) UID ALL 3002,4004",
            "* ESEARCH (TAG \"tag1\" MAILBOX \"folder2/peach\" UIDVALIDITY 3) UID ALL 921691",
            "* ESEARCH (TAG \"tag1\" MAILBOX \"folder2/peach/stone\" UIDVALIDITY 9) UID ALL 5",
            "tag1 OK ESEARCH done",
            "* ESEARCH (TAG \"tag2\" MAILBOX \"folder1\" UIDVALIDITY 1) UID ALL 4002",
            "tag2 OK ESEARCH done",
            "tag3 NO unsupported",
            "* ESEARCH (TAG \"tag4\" MAILBOX \"folder2/banana\" UIDVALIDITY 503) UID COUNT 2",
            "* ESEARCH (TAG \"tag4\" MAILBOX \"folder2/peach\" UIDVALIDITY 3) UID COUNT 1",
            "tag4 OK ESEARCH done",
        ],
    );
}

/// Names with both octets that need escaping, in every kind of line.
#[test]
fn names_are_escaped() {
    gives(
        "MB 1 0x33 1 1 q\"\\\n\
         ME 1 1 0 0\n\
         CM a NOTIFY SET STATUS (mailboxes \"q\\\"\\\\\" (MessageNew MessageExpunge MailboxName))\n\
         CM b ESEARCH IN (mailboxes \"q\\\"\\\\\") ALL\n\
         RN 1 0 z\\",
        &[
            "* STATUS \"q\\\"\\\\\" (MESSAGES 1 UIDNEXT 2 UIDVALIDITY 1 HIGHESTMODSEQ 2)",
            "a OK NOTIFY done",
            "* ESEARCH (TAG \"b\" MAILBOX \"q\\\"\\\\\" UIDVALIDITY 1) UID ALL 1",
            "b OK ESEARCH done",
            "* LIST () \"/\" \"z\\\\\" (\"OLDNAME\" (\"q\\\"\\\\\"))",
        ],
    );
}

/// The three named ways to go astray.
#[test]
fn rename_is_heard_by_either_name() {
    for (asked, heard) in [("x", true), ("y", true), ("z", false)] {
        for selector in ["mailboxes", "subtree"] {
            let text = format!(
                "MB 1 0x31 1 1 x\nCM n NOTIFY SET ({selector} {asked} (MailboxName))\nRN 1 0 y"
            );
            let mut lines = vec!["n OK NOTIFY done"];
            if heard {
                lines.push("* LIST () \"/\" \"y\" (\"OLDNAME\" (\"x\"))");
            }
            gives(&text, &lines);
        }
    }
}

#[test]
fn expunge_is_numbered_by_the_view() {
    // 1 waits without a right; 3 goes at once and is still the third of the view
    gives(
        "MB 1 0x33 1 1 b\nME 1 10 0 0\nME 1 20 0 0\nME 1 30 0 0\nSE 1\n\
         CM n NOTIFY SET (selected (MessageNew MessageExpunge))\n\
         RT 1 0x20\nXP 1 10\nRT 1 0x30\nXP 1 30\nME 1 40 0 0\nXP 1 40\nCE 1",
        &[
            "n OK NOTIFY done",
            "* 3 EXPUNGE",
            "* 3 EXISTS",
            "* 3 EXPUNGE",
            "= 0",
            "* 1 EXPUNGE",
        ],
    );
}

#[test]
fn hidden_and_absent_folders_are_told_alike() {
    let commands = "CM a NOTIFY SET STATUS (mailboxes x (MessageNew MessageExpunge MailboxName)) \
                    (subtree x (MessageNew MessageExpunge)) (personal (SubscriptionChange))\n\
                    CM b ESEARCH IN (mailboxes x subtree x subtree-one x personal subscribed) ALL";
    let lines = ["a OK NOTIFY done", "b OK ESEARCH done"];
    gives(commands, &lines);
    gives(&format!("MB 1 0x0F 1 1 x\nME 1 1 0 0\n{commands}"), &lines);
}

/// An answer may take all of Q - 64 and not one octet more; what the queue holds already is
/// another matter (refusal 8).
#[test]
fn answers_at_the_edge() {
    let mut text = String::from("MB 1 0x33 1 1 b\n");
    for uid in 500..700 {
        text += &format!("ME 1 {} 0 0\n", 2 * uid);
    }
    for mailbox in 2..40 {
        text += &format!("MB {mailbox} 0x33 1 1 b/{mailbox}\n");
    }
    let too_large = [
        ("t ESEARCH IN (personal) ALL", "t NO [LIMIT] too large\r\n"),
        (
            "t NOTIFY SET STATUS (personal (MessageNew MessageExpunge))",
            "t NO [NOTIFICATIONOVERFLOW] too large\r\n",
        ),
    ];
    let prepared = |queue: usize, filler: bool| {
        let mut memory = Memory::new(queue, 64, 1024);
        prepare(&mut memory, &text);
        if filler {
            call(&mut memory, &assemble("CM x"));
        }
        memory
    };
    for (line, refused) in too_large {
        let command = assemble(&format!("CM {line}"));
        let mut memory = prepared(8192, false);
        assert_eq!(call(&mut memory, &command).refusal, 0);
        let whole = memory.held().to_vec();
        assert!(whole.len() > 960 && contains(&whole, "t OK "));

        let mut memory = prepared(whole.len() + 64, false);
        assert_eq!(call(&mut memory, &command).refusal, 0);
        assert_eq!(memory.held(), whole);
        let mut memory = prepared(whole.len() + 63, false);
        let before = memory.session;
        assert_eq!(call(&mut memory, &command).refusal, 0);
        assert_eq!(memory.held(), refused.as_bytes());
        assert_eq!(memory.session, before);

        let held = "* BAD refused\r\n".len();
        let mut memory = prepared(whole.len() + 64 + held, true);
        assert_eq!(call(&mut memory, &command).refusal, 0);
        assert_eq!(memory.filled, whole.len() + held);
        let mut memory = prepared(whole.len() + 63 + held, true);
        let before = memory.clone();
        assert_eq!(call(&mut memory, &command).refusal, 8);
        assert!(memory == before);
    }
}

/// The selected mailbox gets no STATUS, whichever groups meet it.
#[test]
fn no_status_of_the_selected() {
    gives(
        "MB 1 0x33 1 1 b\nMB 2 0x33 1 1 c\nSE 1\n\
         CM n NOTIFY SET STATUS (selected (MessageNew MessageExpunge)) \
         (personal (MessageNew MessageExpunge MailboxName SubscriptionChange))",
        &[
            "* STATUS \"c\" (MESSAGES 0 UIDNEXT 1 UIDVALIDITY 1 HIGHESTMODSEQ 1)",
            "n OK NOTIFY done",
        ],
    );
}
