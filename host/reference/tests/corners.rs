//! One test for each rule that a single wrong step could break without any other test noticing.
//! The section of 01 stands above each.

mod support;

use reference::{call, Memory};
use support::*;

const OVERFLOW: &str = "* OK [NOTIFICATIONOVERFLOW] stopped\r\n";

/// A mailbox of two messages, selected, with nothing asked yet.
const OPENED: &str = "MB 1 0x33 1 1 b\nME 1 1 0 0\nME 1 2 0 0\nSE 1";

/// A session whose queue keeps what is written, so that its room can be chosen.
struct Kept(Memory);

impl Kept {
    fn after(text: &str) -> Kept {
        let mut kept = Kept(Memory::new(1024, 64, 1024));
        prepare(&mut kept.0, text);
        kept
    }

    /// Writes answers to bad commands until lines have just this much room.
    fn leave(mut self, room: usize) -> Kept {
        while self.0.room() > room {
            let wanted = self.0.room() - room;
            // an answer has 15 to 46 octets, and none may be left that is shorter
            let octets = if wanted > 46 {
                wanted.min(61) - 15
            } else {
                wanted
            };
            self.says(&format!("CM {} X", "t".repeat(octets - 14)));
        }
        assert_eq!(self.0.room(), room);
        self
    }

    /// A refusal, a count and the lines of one call.
    fn says(&mut self, record: &str) -> String {
        let before = self.0.filled;
        let octets = counted(&self.0, record);
        let answer = call(&mut self.0, &octets);
        let refusal = (answer.refusal != 0).then(|| format!("! {}\r\n", answer.refusal));
        let count = answer.count.map(|count| format!("= {count}\r\n"));
        let lines = std::str::from_utf8(&self.0.held()[before..]).expect("lines are ASCII");
        refusal.unwrap_or_default() + &count.unwrap_or_default() + lines
    }
}

/// What is written, on overflow: lines may use the room to its last octet, and one octet less
/// stops them all.
#[test]
fn lines_that_fit_exactly_are_written() {
    let store = format!(
        "MB 2 0x33 1 1 c\n{OPENED}\n\
         CM n NOTIFY SET (selected (MessageNew (UID) MessageExpunge FlagChange)) \
         (personal (MessageNew MessageExpunge FlagChange MailboxName))"
    );
    let status = "* STATUS \"c\" (UIDNEXT 2 MESSAGES 1 HIGHESTMODSEQ 2)\r\n";
    for (record, lines) in [
        (
            "ME 1 3 0 0",
            "* 3 EXISTS\r\n* 3 FETCH (UID 3 MODSEQ (4))\r\n",
        ),
        ("XP 1 1", "* 1 EXPUNGE\r\n"),
        (
            "FL 1 2 1",
            "* 2 FETCH (UID 2 FLAGS (\\Answered) MODSEQ (4))\r\n",
        ),
        ("ME 2 1 0 0", status),
        (
            "RN 2 0 d",
            "* LIST () \"/\" \"d\" (\"OLDNAME\" (\"c\"))\r\n",
        ),
    ] {
        let exact = Kept::after(&store).leave(lines.len()).says(record);
        assert_eq!(exact, lines);
        let short = Kept::after(&store).leave(lines.len() - 1).says(record);
        assert_eq!(short, OVERFLOW, "{record}");
    }
}

/// What is written, on `CE`: the first line without room shuts out those behind it, even where
/// they are shorter.
#[test]
fn a_command_end_stops_at_the_first_line_without_room() {
    // EXPUNGE has 13 octets, EXISTS 12
    let mut session = Kept::after(&format!("{OPENED}\nXP 1 1\nME 1 3 0 0")).leave(12);
    assert_eq!(session.says("CE 1"), "= 2\r\n");
    assert_eq!(session.says("CE 0"), "= 0\r\n* 3 EXISTS\r\n");
    // the first mark's line has 48 octets, the second's 39
    let mut session = Kept::after(&format!("{OPENED}\nFL 1 1 1\nFL 1 2 0")).leave(47);
    assert_eq!(session.says("CE 0"), "= 2\r\n");
}

/// What is written, on marks: a flag change told at once leaves nothing of an older mark.
#[test]
fn a_fetch_at_once_ends_the_older_mark() {
    gives(
        &format!(
            "{OPENED}\nFL 1 1 1\nRT 1 0x20\n\
             CM n NOTIFY SET (selected (MessageNew MessageExpunge FlagChange))\n\
             RT 1 0x30\nFL 1 1 2\nCE 0\nCE 1"
        ),
        &[
            "n OK NOTIFY done",
            "* 1 FETCH (UID 1 FLAGS (\\Flagged) MODSEQ (5))",
            "= 0",
            "= 0",
        ],
    );
}

/// Who matches: for messages of the selected mailbox other groups don't count, neither in notices
/// nor in what NOTIFY SET lists first.
#[test]
fn other_groups_say_nothing_of_selected_messages() {
    let asked = "(MessageNew MessageExpunge FlagChange)";
    for groups in [
        format!("(personal {asked})"),
        format!("(selected NONE) (mailboxes b {asked})"),
    ] {
        let set = format!("CM n NOTIFY SET STATUS {groups}");
        gives(
            &format!("{OPENED}\n{set}\nME 1 3 0 0\nXP 1 1\nFL 1 2 1\nRT 1 0x10\n{set}"),
            &["n OK NOTIFY done", "n OK NOTIFY done"],
        );
    }
}

/// Who matches, on ESEARCH: an expunged message is in the view and yet never found.
#[test]
fn a_search_passes_over_expunged_messages() {
    gives(
        &format!("{OPENED}\nXP 1 1\nCM s ESEARCH RETURN (MIN COUNT) ALL"),
        &[
            "* ESEARCH (TAG \"s\" MAILBOX \"b\" UIDVALIDITY 1) UID MIN 2 COUNT 1",
            "s OK ESEARCH done",
        ],
    );
}

/// Who matches, on ESEARCH: what the client has not heard of is not found either, by whichever
/// source the selected mailbox is met.
#[test]
fn a_search_passes_over_unannounced_messages() {
    for source in ["selected", "personal", "mailboxes b"] {
        gives(
            &format!("{OPENED}\nME 1 3 0 0\nCM s ESEARCH IN ({source}) RETURN (MAX COUNT) ALL"),
            &[
                "* ESEARCH (TAG \"s\" MAILBOX \"b\" UIDVALIDITY 1) UID MAX 2 COUNT 2",
                "s OK ESEARCH done",
            ],
        );
    }
}

/// Who matches, on NOTIFY SET: the lines before its own are those of a class 1 end, in its order.
#[test]
fn notify_set_first_writes_what_class_1_is_owed() {
    gives(
        &format!(
            "MB 2 0x31 1 4 c\n{OPENED}\nFL 1 2 1\nME 1 3 0 0\nXP 1 1\n\
             CM n NOTIFY SET STATUS (mailboxes c (MessageNew MessageExpunge))\nCE 1"
        ),
        &[
            "* 1 EXPUNGE",
            "* 2 EXISTS",
            "* 1 FETCH (UID 2 FLAGS (\\Answered) MODSEQ (4))",
            "* STATUS \"c\" (MESSAGES 0 UIDNEXT 1 UIDVALIDITY 4 HIGHESTMODSEQ 1)",
            "n OK NOTIFY done",
            "= 0",
        ],
    );
}

/// Commands, line 5: depth is a matter of parentheses, whatever NOT and OR stand between.
#[test]
fn only_lists_count_as_depth() {
    let search = |keys: &str| format!("CM s ESEARCH IN (personal) {keys}");
    let nested = |open: &str, depth: usize| {
        let close = ")".repeat(open.matches('(').count() * depth);
        search(&format!("{}ALL{close}", open.repeat(depth)))
    };
    for open in ["NOT ", "OR ALL "] {
        gives(&nested(open, 15), &["s OK ESEARCH done"]);
    }
    for open in ["NOT (", "OR ALL ("] {
        gives(&nested(open, 8), &["s OK ESEARCH done"]);
        gives(&nested(open, 9), &["s NO [LIMIT] too large"]);
    }
}

/// Records from the host, the table of numbers: a name or UID that is taken outweighs a full
/// table.
#[test]
fn a_full_table_is_the_last_reason() {
    let mut memory = Memory::new(1024, 1, 1);
    let mut refusal = |record: &str| {
        let octets = counted(&memory, record);
        call(&mut memory, &octets).refusal
    };
    assert_eq!(refusal("MB 1 0x33 1 1 b"), 0);
    assert_eq!(refusal("ME 1 5 0 0"), 0);
    assert_eq!(refusal("MB 1 0x33 1 1 b"), 3);
    assert_eq!(refusal("MB 2 0x33 1 1 b"), 4);
    assert_eq!(refusal("MB 2 0x33 1 1 c"), 7);
    assert_eq!(refusal("ME 2 6 0 0"), 3);
    assert_eq!(refusal("ME 1 5 0 0"), 5);
    assert_eq!(refusal("ME 1 6 0 0"), 7);
}

/// What is written, on EXISTS: each message it announces has its FETCH, from the first on.
#[test]
fn every_announced_message_is_fetched() {
    gives(
        "MB 1 0x33 1 1 b\nSE 1\nCM n NOTIFY SET (selected (MessageNew (UID) MessageExpunge))\n\
         ME 1 1 0 0\nRT 1 0x20\nME 1 2 0 0\nME 1 3 0 0\nRT 1 0x30\nME 1 4 0 0",
        &[
            "n OK NOTIFY done",
            "* 1 EXISTS",
            "* 1 FETCH (UID 1 MODSEQ (2))",
            "* 4 EXISTS",
            "* 2 FETCH (UID 2 MODSEQ (3))",
            "* 3 FETCH (UID 3 MODSEQ (4))",
            "* 4 FETCH (UID 4 MODSEQ (5))",
        ],
    );
}

/// What is written, on MailboxName: one that appears by a grant is listed as if it were made, with
/// its attribute.
#[test]
fn a_grant_lists_an_unselectable_mailbox_as_such() {
    gives(
        "MB 1 0x20 1 1 x\nMB 2 0x21 1 1 y\nCM n NOTIFY SET (mailboxes (x y) (MailboxName))\n\
         RT 1 0x30\nRT 2 0x30",
        &[
            "n OK NOTIFY done",
            "* LIST (\\Noselect) \"/\" \"x\"",
            "* LIST () \"/\" \"y\"",
        ],
    );
}
