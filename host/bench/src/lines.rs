//! Command lines that ask for much: limits of document 01 reached, or passed as late as can be.

use crate::tries::Try;
use borjavid::records;
use reference::memory::*;

/// The longest line.
const MOST: usize = 1024;

fn command(word: &'static str, line: String) -> Try {
    assert!(line.len() <= MOST, "{word}");
    (word, records::command(line.as_bytes()))
}

pub fn notifies(memory: &Memory) -> Vec<Try> {
    let everything = "(MessageNew MessageExpunge FlagChange MailboxName SubscriptionChange)";
    let selected = "(selected (MessageNew (UID FLAGS RFC822.SIZE) MessageExpunge FlagChange))";
    let mut named = "n NOTIFY SET STATUS".to_string();
    let names = fitting(memory, MOST - 140);
    named += &format!(" (mailboxes ({}) {everything})", names.join(" "));
    let mut groups = format!("n NOTIFY SET STATUS {selected}");
    for number in 0..6 {
        groups += &format!(" (subtree (Old{number}/Hall-{number} Gone/{number}) {everything})");
    }
    groups += " (personal (MessageNew MessageExpunge MailboxName))";
    vec![
        command("NONE", "n NOTIFY NONE".to_string()),
        command(
            "SET STATUS of all",
            format!("n NOTIFY SET STATUS {selected} (personal {everything})"),
        ),
        command("SET of names", named),
        command("SET of 8 groups", groups),
        command(
            "SET of 16 names",
            format!(
                "n NOTIFY SET STATUS {selected} (subtree ({}) {everything}) (personal {everything})",
                ["a/b/c/d/e/f/g/h/i/j/k/l/m/n/o/p/q/r/s/t"; 16].join(" ")
            ),
        ),
    ]
}

pub fn searches(memory: &Memory) -> Vec<Try> {
    let all = "s ESEARCH IN (personal) RETURN (MIN MAX COUNT ALL)";
    let set = "UID 9,8,7,9,8,7,9,8,7,9,8,7,9,8,7,9";
    let or = |leaf: &str, end: &str| format!("{all} {}{end}", format!("OR {leaf} ").repeat(15));
    let nested = format!(
        "{all} {}{set}{}",
        "OR ".repeat(15),
        format!(" {set}").repeat(15)
    );
    let names = fitting(memory, MOST - 140);
    vec![
        command("ALL of all", format!("{all} ALL")),
        command(
            "COUNT",
            "s ESEARCH IN (personal) RETURN (COUNT) UNSEEN".to_string(),
        ),
        command("15 ORs, the last yes", or("LARGER 4294967295", "ALL")),
        command("15 ORs of sets, the last yes", or(set, "ALL")),
        command("15 ORs one inside another", nested),
        command("15 ORs of sets in NOT", or(set, "NOT ALL")),
        command("31 NOTs", format!("{all} {}ALL", "NOT ".repeat(31))),
        command(
            "8 lists with sets",
            format!("{all} {}1:*{}", "(1:* UID 1:* ".repeat(8), ")".repeat(8)),
        ),
        command(
            "names",
            format!("s ESEARCH IN (mailboxes ({})) ALL", names.join(" ")),
        ),
        command(
            "8 sources",
            format!(
                "s ESEARCH IN ({} personal) RETURN (ALL) ALL",
                "subtree (Old/a Gone/b) ".repeat(7).trim_end()
            ),
        ),
        command(
            "selected",
            "s ESEARCH IN (selected) RETURN (ALL) 1:*".to_string(),
        ),
    ]
}

/// Lines that are read far before they are found wrong, or go deep.
pub fn refused() -> Vec<Try> {
    [
        ("open parentheses", "t ESEARCH ", "(", ""),
        (
            "NOT and parentheses",
            "t ESEARCH IN (personal) ",
            "NOT (",
            "",
        ),
        ("ORs", "t ESEARCH IN (personal) ", "OR ", "ALL"),
        ("NOTs", "t ESEARCH IN (personal) ", "NOT ", "ALL"),
        ("keys", "t ESEARCH IN (personal) ", "ALL ", "ALL"),
        ("parts of a set", "t ESEARCH IN (personal) ", "1,", "1"),
        ("sources", "t ESEARCH IN (", "personal ", "personal) ALL"),
        (
            "names of a source",
            "t ESEARCH IN (mailboxes (",
            "a ",
            "a)) ALL",
        ),
        ("options", "t ESEARCH RETURN (", "MIN ", "MIN) ALL"),
        (
            "groups",
            "t NOTIFY SET ",
            "(personal NONE) ",
            "(personal NONE)",
        ),
        ("events", "t NOTIFY SET (personal (", "x ", "x))"),
        (
            "names of a group",
            "t NOTIFY SET (mailboxes (",
            "a ",
            "a) (MessageNew MessageExpunge))",
        ),
        (
            "quoted names of a group",
            "t NOTIFY SET (mailboxes (",
            "\"\\\"\\\\\" ",
            "a) (MessageNew MessageExpunge))",
        ),
        (
            "attributes",
            "t NOTIFY SET (selected (MessageNew (",
            "UID ",
            "UID) MessageExpunge))",
        ),
        (
            "parts of a section",
            "t NOTIFY SET (selected (MessageNew (BODY[",
            "1.",
            "1]) MessageExpunge))",
        ),
        (
            "fields of a header",
            "t NOTIFY SET (selected (MessageNew (BODY[HEADER.FIELDS (",
            "a ",
            "a)]) MessageExpunge))",
        ),
    ]
    .map(|(word, beginning, unit, end)| {
        let times = (MOST - beginning.len() - end.len()) / unit.len();
        command(word, format!("{beginning}{}{end}", unit.repeat(times)))
    })
    .into()
}

/// Names of mailboxes as arguments, from the last row up, 16 or as many as so many octets hold.
fn fitting(memory: &Memory, octets: usize) -> Vec<String> {
    let mut left = octets;
    let mut names = Vec::new();
    for row in memory.rows().iter().rev().take(NAMES) {
        let name = quoted(row.name.as_octets());
        if name.len() >= left {
            break;
        }
        left -= name.len() + 1;
        names.push(name);
    }
    names
}

fn quoted(name: &[u8]) -> String {
    let mut text = "\"".to_string();
    for &octet in name {
        if octet == b'"' || octet == b'\\' {
            text.push('\\');
        }
        text.push(char::from(octet));
    }
    text + "\""
}
