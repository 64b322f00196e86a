//! The parent of a mailbox that comes or goes: all its small cases, and what random streams show of it.

mod support;

use reference::cases::random;
use reference::generate::Generator;
use reference::names::Name;
use reference::random::Random;
use reference::Memory;
use support::parents::{count, shown, Tally};
use support::*;

/// What the last line of a text writes, the lines before it prepared.
fn last(text: &str) -> String {
    let (before, record) = text.trim_end().rsplit_once('\n').expect("two lines");
    let mut memory = Memory::new(8192, 64, 1024);
    prepare(&mut memory, before);
    let octets = counted(&memory, record);
    let (answer, written) = observe(&mut memory, &octets);
    assert_eq!(answer.refusal, 0, "{text}");
    String::from_utf8(written).expect("ASCII")
}

/// The four ways to come and go, each with what has to stand before it. The child is met by no group itself.
const WAYS: [(&str, &str); 4] = [
    ("", "MB 1 0x30 0 1 Ops/a"),
    ("MB 1 0x30 1 1 Ops/a", "DL 1 0"),
    ("MB 1 0x20 1 1 Ops/a", "RT 1 0x30"),
    ("MB 1 0x30 1 1 Ops/a", "RT 1 0x20"),
];

/// Absent, or there with any attributes.
fn parents() -> impl Iterator<Item = Option<u8>> {
    [None].into_iter().chain((0..64).map(Some))
}

#[test]
fn every_parent_under_every_selector() {
    for parent in parents() {
        let listed = parent.filter(|bits| bits & 0x10 != 0);
        for selector in [
            "personal",
            "inboxes",
            "subscribed",
            "subtree Ops",
            "mailboxes Ops",
        ] {
            let met = match (listed, selector) {
                (None, _) => selector.ends_with("Ops"),
                (Some(bits), "personal") => bits & 3 == 3,
                (Some(bits), "inboxes") => bits & 7 == 7,
                (Some(bits), "subscribed") => bits & 8 == 8,
                (Some(bits), "subtree Ops") => bits & 1 == 1,
                _ => true,
            };
            let mark = match listed {
                None => "\\NonExistent",
                Some(bits) if bits & 1 == 1 => "",
                Some(_) => "\\Noselect",
            };
            let line = format!("* LIST ({mark}) \"/\" \"Ops\"\r\n");
            let wanted = if met { &line[..] } else { "" };
            let row = parent.map_or(String::new(), |bits| format!("MB 9 {bits} 1 1 Ops"));
            let set = format!("CM n NOTIFY SET ({selector} (MailboxName))");
            for (before, record) in WAYS {
                let text = format!("{row}\n{before}\n{set}\n{record}");
                assert_eq!(last(&text), wanted, "{text}");
            }
        }
    }
}

/// All sixteen changes of the child's rights: both lines or none.
#[test]
fn every_change_of_the_child_s_rights() {
    for before in [0, 0x10, 0x20, 0x30] {
        for later in [0, 0x10, 0x20, 0x30] {
            let mark = match (before & 0x10, later & 0x10) {
                (0, 0x10) if later == 0x30 => Some(""),
                (0x10, 0) if before == 0x30 => Some("\\NonExistent"),
                _ => None,
            };
            let lines = |mark| {
                format!(
                    "* LIST ({mark}) \"/\" \"Ops/a\"\r\n* LIST (\\NonExistent) \"/\" \"Ops\"\r\n"
                )
            };
            let set = "CM n NOTIFY SET (mailboxes (Ops Ops/a) (MailboxName))";
            let text = format!("MB 1 {} 1 1 Ops/a\n{set}\nRT 1 {later}", before | 1);
            assert_eq!(last(&text), mark.map_or(String::new(), lines), "{text}");
        }
    }
}

#[test]
fn names_and_their_parents() {
    let parent = |name: &str| {
        let name = Name::read(name.as_bytes()).expect("a name");
        let parent = name.parent()?;
        assert!(parent.is_lawful());
        Some(String::from_utf8(parent.as_octets().to_vec()).expect("ASCII"))
    };
    let most = format!("{}/b", "p".repeat(62));
    let tail = format!("p/{}", "b".repeat(62));
    for (name, wanted) in [
        ("a", None),
        ("INBOX", None),
        ("inbox", None),
        ("a/b", Some("a")),
        ("a/b/c", Some("a/b")),
        ("a/inbox", Some("a")),
        ("iNbox/x", Some("INBOX")),
        ("INBOX/x", Some("INBOX")),
        ("iNbox/x/y", Some("iNbox/x")),
        ("inboxx/y", Some("inboxx")),
        (" / ", Some(" ")),
        (&most, Some(&most[..62])),
        (&tail, Some("p")),
    ] {
        assert_eq!(parent(name), wanted.map(String::from), "{name}");
    }
    assert_eq!(Name::EMPTY.parent(), None);
}

/// What has to come up wherever streams are made: each kind of parent with each thing that can become of its line.
const KINDS: [(&str, &str); 29] = [
    ("none", "own alone"),
    ("none", "nothing"),
    ("absent", "both"),
    ("absent", "own alone"),
    ("absent", "parent's alone"),
    ("absent", "nothing"),
    ("absent", "overflow"),
    ("absent", "quiet"),
    ("absent", "right missing"),
    ("hidden", "both"),
    ("hidden", "own alone"),
    ("hidden", "parent's alone"),
    ("unlisted", "both"),
    ("unlisted", "own alone"),
    ("unlisted", "parent's alone"),
    ("unreadable", "both"),
    ("unreadable", "own alone"),
    ("unreadable", "parent's alone"),
    ("listed", "both"),
    ("listed", "own alone"),
    ("listed", "parent's alone"),
    ("listed", "overflow"),
    ("unselectable", "own alone"),
    ("unselectable", "parent's alone"),
    ("selected", "both"),
    ("selected, unlisted", "both"),
    ("itself a child", "both"),
    ("INBOX", "both"),
    ("INBOX, folded", "both"),
];

/// Streams as `generate` makes them.
#[test]
fn streams_have_every_kind_of_parent() {
    let mut tally = Tally::new();
    for seed in 0..6_000 {
        let mut random = Random::new(seed);
        let queue = random.pick(&[1024, 1100, 8192]);
        let mut generator = Generator::new(random.number());
        let mut memory = Memory::new(queue, 64, 1024);
        for _ in 0..120 {
            let octets = generator.propose(&memory);
            let before = memory.clone();
            let (answer, written) = observe(&mut memory, &octets);
            count(&mut tally, &before, &octets, answer, &written);
        }
    }
    shown(&tally, 40, &KINDS);
}

/// The random cases of the gate, which are fewer.
#[test]
fn random_cases_have_every_kind_of_parent() {
    let mut tally = Tally::new();
    random::cases(20261116, 100_000, |case| {
        let mut memory = Memory::new(case.queue, case.mailboxes, case.messages);
        for call in &case.calls {
            let before = memory.clone();
            let (answer, written) = observe(&mut memory, &call.octets);
            count(&mut tally, &before, &call.octets, answer, &written);
        }
        Ok::<(), ()>(())
    })
    .expect("cases");
    shown(&tally, 3, &KINDS);
}
