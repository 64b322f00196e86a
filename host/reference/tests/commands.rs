//! Which of the six answers a line gets, and what is grammatical alone.

mod support;

use reference::command::{answer_of, is_grammatical, Verdict};
use reference::generate::commands::line;
use reference::random::Random;
use std::collections::BTreeMap;

#[track_caller]
fn all(lines: &[&str], verdict: Verdict, grammatical: bool) {
    for line in lines {
        assert_eq!(answer_of(line.as_bytes(), false), verdict, "{line}");
        assert_eq!(is_grammatical(line.as_bytes()), grammatical, "{line}");
    }
}

#[test]
fn outside_the_grammar() {
    all(
        &[
            "",
            "a",
            "a ",
            "a NOTIFY",
            "a NOTIFY ",
            "a NOTIFY SET",
            "a NOTIFY SET ",
            "a NOTIFY SET STATUS",
            "a NOTIFY SET STATUS ",
            "a NOTIFY SET()",
            "a NOTIFY SET (personal NONE)(personal NONE)",
            "a NOTIFY SET (personal NONE) ",
            "a NOTIFY SET (personal ())",
            "a NOTIFY SET (personal MailboxName)",
            "a NOTIFY SET (personal (MailboxName )",
            "a NOTIFY SET (personal ( MailboxName))",
            "a NOTIFY SET (personal (MessageNew()))",
            "a NOTIFY SET (personal (MessageNew ()))",
            "a NOTIFY SET (personal (MessageNew(UID)))",
            "a NOTIFY SET (personal x NONE)",
            "a NOTIFY SET (mailboxes NONE)",
            "a NOTIFY SET (mailboxes () NONE)",
            "a NOTIFY SET (mailboxes (a  b) NONE)",
            "a NOTIFY SET (mailboxes {1} NONE)",
            "a NOTIFY SET (mailboxes a* NONE)",
            "a NOTIFY SET (mailboxes \"\\x\" NONE)",
            "a NOTIFY SET (mailboxes \"x NONE)",
            "a NOTIFY SET (mailboxes \"x\"y NONE)",
            "a NOTIFY SET (subtree-one a NONE)",
            "a NOTIFY NONE NONE",
            "a NOTIFY NONES",
            "a NOTIFY SET (selected (MessageNew (UIDS) MessageExpunge))",
            "a NOTIFY SET (selected (MessageNew (UID[]) MessageExpunge))",
            "a NOTIFY SET (selected (MessageNew (BODY[) MessageExpunge))",
            "a NOTIFY SET (selected (MessageNew (BODY[1..2]) MessageExpunge))",
            "a NOTIFY SET (selected (MessageNew (BODY[1.]) MessageExpunge))",
            "a NOTIFY SET (selected (MessageNew (BODY[01]) MessageExpunge))",
            "a NOTIFY SET (selected (MessageNew (BODY[HEADER.FIELDS]) MessageExpunge))",
            "a NOTIFY SET (selected (MessageNew (BODY[HEADER.FIELDS ()]) MessageExpunge))",
            "a NOTIFY SET (selected (MessageNew (BODY[HEADER.FIELDS(a)]) MessageExpunge))",
            "a NOTIFY SET (selected (MessageNew (BODY<0.1>) MessageExpunge))",
            "a NOTIFY SET (selected (MessageNew (BODY[]<1>) MessageExpunge))",
            "a NOTIFY SET (selected (MessageNew (BODY[]<4294967296.1>) MessageExpunge))",
            "a ESEARCH",
            "a ESEARCH ",
            "a ESEARCH IN (personal)",
            "a ESEARCH IN () ALL",
            "a ESEARCH IN personal ALL",
            "a ESEARCH IN (personal) RETURN",
            "a ESEARCH IN (personal) RETURN () ",
            "a ESEARCH IN (personal) RETURN() ALL",
            "a ESEARCH IN (personal) RETURN ( ) ALL",
            "a ESEARCH IN (personal) RETURN (MIN ) ALL",
            "a ESEARCH IN (personal) RETURN (COUNT COUNT) ALL",
            "a ESEARCH IN (personal) CHARSET UTF-8",
            "a ESEARCH IN (personal) ()",
            "a ESEARCH IN (personal) (ALL",
            "a ESEARCH IN (personal) ALL)",
            "a ESEARCH IN (personal) NOT",
            "a ESEARCH IN (personal) OR ALL",
            "a ESEARCH IN (personal) OR (ALL)",
            "a ESEARCH IN (personal) OR (ALL)(ALL)",
            "a ESEARCH IN (personal) 1,",
            "a ESEARCH IN (personal) ,1",
            "a ESEARCH IN (personal) 1:",
            "a ESEARCH IN (personal) 1:2:3",
            "a ESEARCH IN (personal) 0",
            "a ESEARCH IN (personal) 1:0",
            "a ESEARCH IN (personal) **",
            "a ESEARCH IN (personal) UID",
            "a ESEARCH IN (personal) UID ALL",
            "a ESEARCH IN (personal) LARGER",
            "a ESEARCH IN (personal) LARGER *",
            "a ESEARCH IN (personal) LARGER 1:2",
            "a ESEARCH IN (personal) UNALL",
            "a ESEARCH IN (personal) UN",
            "a ESEARCH IN (personal) UNUNSEEN",
            "a ESEARCH IN (personal) HEADER a",
            "a ESEARCH IN (personal) FROM",
            "a ESEARCH IN (personal) FROM (a)",
            "a ESEARCH IN (personal) FROM \\x",
            "a ESEARCH IN (personal) BEFORE 1-Jan-20",
            "a ESEARCH IN (personal) BEFORE 1-Jan-20201",
            "a ESEARCH IN (personal) BEFORE -Jan-2020",
            "a ESEARCH IN (personal) BEFORE 1-Janu-2020",
            "a ESEARCH IN (personal) BEFORE \"1-Jan-2020",
            "a ESEARCH IN (personal) BEFORE 1-Jan-2020\"",
            "a ESEARCH IN (personal) BEFORE \" 1-Jan-2020\"",
            "a ESEARCH IN (personal (x)) ALL",
            "a ESEARCH RETURN () IN (personal) ALL",
            "a UID ESEARCH ALL",
            "a NOOP",
            "aNOTIFY NONE",
            "a( NOTIFY NONE",
            "a\tNOTIFY NONE",
        ],
        Verdict::Bad,
        false,
    );
}

#[test]
fn grammatical_and_bad() {
    all(
        &[
            "a NOTIFY SET (selected NONE) (selected NONE)",
            "a NOTIFY SET (selected NONE) (selected-delayed NONE)",
            "a NOTIFY SET (selected (MailboxName))",
            "a NOTIFY SET (selected (Foo))",
            "a NOTIFY SET (selected (NONE))",
            "a NOTIFY SET (selected (MessageNew MessageExpunge SubscriptionChange))",
            "a NOTIFY SET (selected (MessageNew MessageExpunge MailboxMetadataChange))",
            "a NOTIFY SET (personal (MessageNew))",
            "a NOTIFY SET (personal (FlagChange MessageExpunge))",
            "a NOTIFY SET (personal (MessageNew AnnotationChange))",
            "a NOTIFY SET (personal (MessageNew (UID) MessageExpunge))",
            "a NOTIFY SET (personal (MessageNew (BODY[]) MessageExpunge))",
            "a NOTIFY SET (personal (Foo)) (personal (MessageNew))",
            "a ESEARCH ALL",
            "a ESEARCH RETURN () OLD",
            "a ESEARCH IN (selected) ALL",
            "a ESEARCH IN (personal selected) CHARSET x ALL",
            "a ESEARCH IN (selected-delayed) ALL",
        ],
        Verdict::Bad,
        true,
    );
    // with a mailbox selected only the delayed one stays bad
    assert_eq!(answer_of(b"a ESEARCH IN (selected) ALL", true), Verdict::Ok);
    assert_eq!(answer_of(b"a ESEARCH ALL", true), Verdict::Ok);
    let delayed = b"a ESEARCH IN (selected-delayed) ALL";
    assert_eq!(answer_of(delayed, true), Verdict::Bad);
}

#[test]
fn later_answers_in_their_order() {
    let names = "a ".repeat(16) + "a";
    all(
        &[
            "a NOTIFY SET (personal (Foo))",
            "a NOTIFY SET (personal (MailboxMetadataChange))",
            "a NOTIFY SET (personal (ServerMetadataChange MailboxName))",
            "a NOTIFY SET (selected (MessageNew (BODY) MessageExpunge AnnotationChange))",
            &format!("a NOTIFY SET (mailboxes ({names}) (Foo))"),
        ],
        Verdict::BadEvent,
        true,
    );
    all(
        &[
            "a NOTIFY SET (selected (MessageNew (UID ENVELOPE) MessageExpunge))",
            "a NOTIFY SET (selected (MessageNew (body[header.fields.not (a \"b c\")]<0.1>) MessageExpunge))",
            "a NOTIFY SET (selected (MessageNew (BODY) MessageExpunge MessageNew (UID)))",
            &format!("a NOTIFY SET (selected (MessageNew (RFC822) MessageExpunge)) (mailboxes ({names}) NONE)"),
            "a ESEARCH IN (personal) CHARSET x OLD",
            "a ESEARCH IN (personal) ((((((((((NEW))))))))))",
            "a ESEARCH IN (personal) NOT OR ALL (HEADER \"\" \"\")",
            "a ESEARCH IN (personal) TO ]",
        ],
        Verdict::Unsupported,
        true,
    );
    all(
        &[
            "a ESEARCH IN (personal) CHARSET x ((((((((((ALL))))))))))",
            "a ESEARCH IN (personal) CHARSET \"x y\" ALL",
        ],
        Verdict::BadCharset,
        true,
    );
    let groups = " (personal NONE)".repeat(9);
    all(
        &[
            &format!("a NOTIFY SET{groups}"),
            &format!("a NOTIFY SET (subtree ({names}) NONE)"),
            &format!("a ESEARCH IN (personal{}) ALL", " personal".repeat(8)),
            &format!("a ESEARCH IN (mailboxes ({names})) ALL"),
            &format!("a ESEARCH IN (personal){}", " ALL".repeat(33)),
            &format!("a ESEARCH IN (personal) UID {}1", "1,".repeat(16)),
            "a ESEARCH IN (personal) (((((((((ALL)))))))))",
        ],
        Verdict::TooLarge,
        true,
    );
    all(
        &[
            "a NOTIFY NONE",
            "A] notify none",
            "a notify set (subTree (x) none)",
            &format!("a NOTIFY SET{}", " (personal NONE)".repeat(8)),
            &format!("a NOTIFY SET STATUS (mailboxes ({}) NONE)", names[2..].trim()),
            &format!("a ESEARCH IN (personal){}", " ALL".repeat(32)),
            &format!("a ESEARCH IN (personal) UID {}1", "1,".repeat(15)),
            "a ESEARCH IN (personal) ((((((((ALL))))))))",
            "a ESEARCH IN (subtree-one (a b)) RETURN (COUNT MIN ALL MAX) CHARSET us-ascii NOT OR 1:*,*:4 UID *",
        ],
        Verdict::Ok,
        true,
    );
}

/// The generator reaches every answer, and a good share of its lines is accepted.
#[test]
fn generated_lines_reach_every_answer() {
    let mut random = Random::new(7);
    let mut seen = BTreeMap::new();
    let mut grammatical = 0;
    let count = 20_000;
    for _ in 0..count {
        let line = line(&mut random);
        let verdict = answer_of(&line, true);
        *seen.entry(verdict).or_insert(0) += 1;
        grammatical += usize::from(is_grammatical(&line));
        assert!(verdict == Verdict::Bad || is_grammatical(&line));
    }
    println!("{seen:?}, grammatical {grammatical} of {count}");
    assert_eq!(seen.len(), 6);
    assert!(seen[&Verdict::Ok] * 2 > count);
    assert!(seen.values().all(|&times| times > 50));
}

/// The table of `abnf` says the same of lines that it did not make itself.
#[test]
fn both_readings_agree_on_generated_lines() {
    let mut random = Random::new(8);
    for _ in 0..20_000 {
        let line = line(&mut random);
        let shown = String::from_utf8_lossy(&line);
        let table = reference::abnf::is_grammatical(&line);
        assert_eq!(is_grammatical(&line), table, "{shown}");
    }
}
