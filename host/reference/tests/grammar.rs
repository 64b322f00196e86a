//! The table of `abnf` against lines judged by hand, and against the reader of
//! `command` on lines grown from the table and damaged.

use reference::abnf::{grammar, is_grammatical, Grammar, Node, UNBOUNDED};
use reference::command;
use std::collections::HashSet;

// Lines judged by hand.

const GOOD: &[&[u8]] = &[
    // tags
    b"a NOTIFY NONE",
    b"a] NOTIFY NONE",
    b"]]] notify none",
    b"[}<>,:;=@^_`|~!#$&'-./ nOTIFY nONE",
    b"tttttttttttttttttttttttttttttttt NOTIFY NONE",
    b"NOTIFY NOTIFY NONE",
    // groups and filters
    b"a NOTIFY SET (selected NONE)",
    b"a NOTIFY SET STATUS (selected NONE)",
    b"a notify set status (SELECTED-DELAYED none)",
    b"n NOTIFY SET (selected NONE) (selected-delayed NONE)",
    b"a NOTIFY SET (inboxes NONE) (personal NONE) (subscribed NONE)",
    b"a NOTIFY SET (subtree Ops NONE)",
    b"a NOTIFY SET (subtree (Ops/ \"\") NONE)",
    b"a NOTIFY SET (mailboxes NONE NONE)",
    b"a NOTIFY SET (mailboxes (NONE NIL selected) NONE)",
    b"a NOTIFY SET (mailboxes a]b NONE)",
    b"a NOTIFY SET (mailboxes + NONE)",
    b"a NOTIFY SET (mailboxes \"a//b\" (MailboxName))",
    b"a NOTIFY SET (mailboxes \"\" NONE)",
    b"a NOTIFY SET (mailboxes \"a \\\" \\\\ b\" NONE)",
    b"a NOTIFY SET (mailboxes \"\x01\x7f\" NONE)",
    b"a NOTIFY SET (mailboxes \"*%(){]\t\" NONE)",
    b"a NOTIFY SET (mailboxes status NONE)",
    b"a NOTIFY SET (personal NONE) (personal NONE) (personal NONE) (personal NONE) (personal NONE) (personal NONE) (personal NONE) (personal NONE) (personal NONE)",
    b"n NOTIFY SET (mailboxes (\"\" \"\" \"\" \"\" \"\" \"\" \"\" \"\" \"\" \"\" \"\" \"\" \"\" \"\" \"\" \"\" \"\") (MailboxName))",
    // events
    b"a NOTIFY SET (selected (MessageNew MessageExpunge))",
    b"a notify set (mailboxes INBOX (Messagenew messageExpunge))",
    b"a notify set (selected (Messagenew (uid flags) messageExpunge))",
    b"a NOTIFY SET (selected (MessageNew))",
    b"a NOTIFY SET (selected (FlagChange))",
    b"a NOTIFY SET (selected (MailboxName SubscriptionChange))",
    b"a NOTIFY SET (personal (MessageNew MessageExpunge AnnotationChange))",
    b"a NOTIFY SET (personal (MailboxMetadataChange ServerMetadataChange))",
    b"a NOTIFY SET (personal (NONE))",
    b"a NOTIFY SET (personal (Foo +1.0 [x}))",
    b"a NOTIFY SET (personal (MessageNewer))",
    b"a NOTIFY SET (personal (MessageNew MessageNew MessageNew))",
    b"a NOTIFY SET (personal (MessageNew (UID) MessageExpunge))",
    b"a NOTIFY SET (selected (MessageNew (FLAGS) MessageNew (UID UID) MessageExpunge MessageNew))",
    b"n NOTIFY SET (personal (Foo)) (personal (MessageNew))",
    b"b notify set status (selected (MessageNew (uid body.peek[header.fields (from to subject)]) MessageExpunge)) (subtree Lists (MessageNew MessageExpunge))",
    b"e notify set (selected (MessageNew (uid body.peek[header.fields (from to subject)]) MessageExpunge)) (subtree Lists NONE)",
    b"a NOTIFY SET STATUS (selected (MessageNew (UID) MessageExpunge)) (subtree Ops (MessageNew MessageExpunge))",
    // fetch attributes
    b"a NOTIFY SET (selected (MessageNew (ENVELOPE FLAGS INTERNALDATE UID)))",
    b"a NOTIFY SET (selected (MessageNew (RFC822 RFC822.HEADER RFC822.SIZE RFC822.TEXT)))",
    b"a NOTIFY SET (selected (MessageNew (BODY BODYSTRUCTURE)))",
    b"a NOTIFY SET (selected (MessageNew (BODY[] BODY.PEEK[])))",
    b"a NOTIFY SET (selected (MessageNew (BODY[HEADER] BODY[TEXT])))",
    b"a NOTIFY SET (selected (MessageNew (BODY[1] BODY[1.2.3])))",
    b"a NOTIFY SET (selected (MessageNew (BODY[1.MIME]<007.1>) MessageExpunge))",
    b"a NOTIFY SET (selected (MessageNew (BODY[1.2.TEXT] BODY[4294967295.HEADER])))",
    b"a NOTIFY SET (selected (MessageNew (BODY[1.HEADER.FIELDS.NOT (a b \"c d\")]<0.1>)))",
    b"a NOTIFY SET (selected (MessageNew (BODY[HEADER.FIELDS (a] \"b\")]) MessageExpunge))",
    b"a NOTIFY SET (selected (MessageNew (BODY[HEADER.FIELDS (\"\")])))",
    b"a NOTIFY SET (selected (MessageNew (BODY[]<4294967295.4294967295>)))",
    b"a NOTIFY SET (selected (MessageNew (BODY[]<0000000000000.1>)))",
    // sources and return options
    b"s ESEARCH ALL",
    b"s ESEARCH IN (personal) ALL",
    b"s ESEARCH IN (selected-delayed) ALL",
    b"s ESEARCH IN (selected selected) ALL",
    b"tag1 ESEARCH IN (mailboxes \"folder1\" subtree \"folder2\") unseen",
    b"tag2 ESEARCH IN (mailboxes \"folder1\" subtree-one \"folder2\") subject \"chad\"",
    b"b ESEARCH IN (personal subtree Ops) RETURN (MIN COUNT) UNSEEN",
    b"s ESEARCH IN (inboxes subscribed subtree-one (a b) mailboxes c) ALL",
    b"s ESEARCH IN (mailboxes personal personal) ALL",
    b"s ESEARCH IN (mailboxes \"\" mailboxes (\"\" x]) inboxes) ALL",
    b"s ESEARCH IN (personal personal personal personal personal personal personal personal personal) ALL",
    b"s ESEARCH RETURN () ALL",
    b"s ESEARCH IN (personal) RETURN () ALL",
    b"s ESEARCH RETURN (MIN) ALL",
    b"s ESEARCH RETURN (COUNT ALL) ALL",
    b"s ESEARCH RETURN (ALL COUNT MAX) ALL",
    b"s esearch return (count all max min) all",
    b"s ESEARCH RETURN (MIN MAX ALL COUNT) ALL",
    // charset
    b"s ESEARCH CHARSET x ALL",
    b"s ESEARCH IN (personal) CHARSET \"\" ALL",
    b"s ESEARCH IN (personal) CHARSET \"utf-8\" ALL",
    b"s ESEARCH IN (personal) RETURN (ALL) CHARSET UTF-8 ALL",
    b"s ESEARCH CHARSET ALL ALL",
    b"s ESEARCH CHARSET CHARSET OLD",
    // keys
    b"s ESEARCH IN (personal) OLD NEW RECENT",
    b"s ESEARCH ANSWERED DELETED DRAFT FLAGGED SEEN",
    b"s ESEARCH UNANSWERED UNDELETED UNDRAFT UNFLAGGED UNSEEN",
    b"s ESEARCH LARGER 007 LARGER 4294967295 UID 4294967295",
    b"s ESEARCH SMALLER 0 SMALLER 00000000000000000000000004294967295",
    b"s ESEARCH 1",
    b"s ESEARCH *",
    b"s ESEARCH *:*,1:*,*:4294967295,9:2",
    b"s ESEARCH UID *,1,2:3 4",
    b"s ESEARCH NOT NOT NOT ALL",
    b"s ESEARCH OR 1 OR 2 3",
    b"s ESEARCH OR OR 1 2 OR 3 4",
    b"s ESEARCH OR (1 2) NOT (3)",
    b"s ESEARCH (((((((((ALL)))))))))",
    b"s ESEARCH (ALL SEEN (1,2 UID 3)) 4",
    b"s ESEARCH IN (personal) (NOT (NOT (NOT (NOT (NOT (NOT (NOT (ALL))))))))",
    b"s ESEARCH 1,2,3,4,5,6,7,8,9,10,11,12,13,14,15,16,17",
    b"s ESEARCH BCC a BODY b CC c FROM d SUBJECT e TEXT f TO g",
    b"s ESEARCH FROM a] TO \"\" TEXT \"x\\\\\"",
    b"s ESEARCH FROM ALL",
    b"s ESEARCH HEADER a b",
    b"s ESEARCH HEADER \"\" \"\" ALL",
    b"s ESEARCH HEADER NOT OR",
    b"s ESEARCH KEYWORD $Junk UNKEYWORD KEYWORD",
    b"s ESEARCH KEYWORD +",
    b"s ESEARCH BEFORE 99-feb-0000",
    b"s ESEARCH ON \"1-Jan-2020\" SINCE 01-DEC-1999",
    b"s ESEARCH SENTBEFORE 1-mar-2000 SENTON 2-aPR-2000 SENTSINCE \"30-May-2000\"",
    b"s ESEARCH ON 1-Jun-2000 ON 1-Jul-2000 ON 1-Aug-2000 ON 1-Sep-2000 ON 1-Oct-2000 ON 1-Nov-2000",
];

const BAD: &[&[u8]] = &[
    // tags and the line
    b"",
    b" ",
    b"a",
    b"a ",
    b"a  NOTIFY NONE",
    b" a NOTIFY NONE",
    b"+a NOTIFY NONE",
    b"a+ NOTIFY NONE",
    b"a* NOTIFY NONE",
    b"a\x7f NOTIFY NONE",
    b"a\x80 NOTIFY NONE",
    b"\"a\" NOTIFY NONE",
    b"ttttttttttttttttttttttttttttttttt NOTIFY NONE",
    b"NOTIFY NONE",
    b"a NOOP",
    b"a NOTIFY",
    b"a NOTIFY ",
    b"a NOTIFY NONE ",
    b"a NOTIFY  NONE",
    b"a NOTIFY\tNONE",
    b"a NOTIFY NONE\r\n",
    b"a NOTIFY NONE\n",
    b"a NOTIFY (NONE)",
    b"a NOTIFY \"NONE\"",
    b"a NOTIFY NONE NONE",
    b"a NOTIFY ADD (personal NONE)",
    b"a NOTIFYNONE",
    // groups and filters
    b"a NOTIFY SET",
    b"a NOTIFY SET ",
    b"a NOTIFY SET NONE",
    b"a NOTIFY SET STATUS",
    b"a NOTIFY SET STATUS STATUS (personal NONE)",
    b"a NOTIFY SET STATUS(personal NONE)",
    b"a NOTIFY SET (STATUS) (personal NONE)",
    b"a NOTIFY SET ()",
    b"a NOTIFY SET (personal)",
    b"a NOTIFY SET (personal )",
    b"a NOTIFY SET ( personal NONE)",
    b"a NOTIFY SET (personal NONE )",
    b"a NOTIFY SET (personal  NONE)",
    b"a NOTIFY SET (personal NONE)(personal NONE)",
    b"a NOTIFY SET (personal NONE) ",
    b"a NOTIFY SET (personal NONE",
    b"a NOTIFY SET (personal NONE))",
    b"a NOTIFY SET ((personal NONE))",
    b"a NOTIFY SET (personal NONE NONE)",
    b"a NOTIFY SET (personals NONE)",
    b"a NOTIFY SET (\"personal\" NONE)",
    b"a NOTIFY SET (selected-delay NONE)",
    b"a NOTIFY SET (personal x NONE)",
    b"n NOTIFY SET (subtree-one a NONE)",
    b"a NOTIFY SET (subtree NONE)",
    b"a NOTIFY SET (mailboxes NONE)",
    b"a NOTIFY SET (mailboxes () NONE)",
    b"a NOTIFY SET (mailboxes a b NONE)",
    b"a NOTIFY SET (mailboxes (a  b) NONE)",
    b"a NOTIFY SET (mailboxes (a b ) NONE)",
    b"a NOTIFY SET (mailboxes (a (b)) NONE)",
    b"a NOTIFY SET (mailboxes (a\"b\") NONE)",
    b"a NOTIFY SET (mailboxes(a) NONE)",
    b"a NOTIFY SET (mailboxes a* NONE)",
    b"a NOTIFY SET (mailboxes % NONE)",
    b"a NOTIFY SET (mailboxes a\\b NONE)",
    b"a NOTIFY SET (mailboxes {1} NONE)",
    b"a NOTIFY SET (mailboxes {1}\r\na NONE)",
    b"a NOTIFY SET (mailboxes a\"b NONE)",
    b"a NOTIFY SET (mailboxes \"a NONE)",
    b"a NOTIFY SET (mailboxes \"a\"b NONE)",
    b"a NOTIFY SET (mailboxes \"a\\b\" NONE)",
    b"a NOTIFY SET (mailboxes \"a\\\" NONE)",
    b"a NOTIFY SET (mailboxes \"\x00\" NONE)",
    b"a NOTIFY SET (mailboxes \"\x80\" NONE)",
    b"a NOTIFY SET (mailboxes \"\xc3\xa9\" NONE)",
    b"a NOTIFY SET (mailboxes \"\r\" NONE)",
    b"a NOTIFY SET (mailboxes \"\n\" NONE)",
    b"a NOTIFY SET (mailboxes \x7f NONE)",
    // events
    b"a NOTIFY SET (selected MessageNew MessageExpunge)",
    b"a NOTIFY SET (selected ())",
    b"a NOTIFY SET (selected (MessageNew,MessageExpunge)) ",
    b"a NOTIFY SET (selected (MessageNew  MessageExpunge))",
    b"a NOTIFY SET (selected (MessageNew MessageExpunge ))",
    b"a NOTIFY SET (selected ( MessageNew MessageExpunge))",
    b"a NOTIFY SET (selected ((MessageNew) MessageExpunge))",
    b"a NOTIFY SET (selected (\"MessageNew\" MessageExpunge))",
    b"a NOTIFY SET (personal (Foo]))",
    b"a NOTIFY SET (personal (Foo (UID)))",
    b"a NOTIFY SET (selected (MessageExpunge (UID)))",
    b"a NOTIFY SET (selected (MessageNew (UID) (FLAGS)))",
    b"a NOTIFY SET (selected (MessageNew(UID)))",
    b"a NOTIFY SET (selected (MessageNew ()))",
    b"a NOTIFY SET (selected (MessageNew ( UID)))",
    b"a NOTIFY SET (selected (MessageNew (UID )))",
    b"a NOTIFY SET (selected (MessageNew ((UID))))",
    b"n NOTIFY SET (personal (Foo)) (",
    b"b notify set status (selected MessageNew (uid body.peek[header.fields (from to subject)]) MessageExpunge) (subtree Lists MessageNew)",
    b"d notify add (mailboxes misc MessageNew (uid) (all))",
    // fetch attributes
    b"a NOTIFY SET (selected (MessageNew (MODSEQ) MessageExpunge))",
    b"a NOTIFY SET (selected (MessageNew (ALL)))",
    b"a NOTIFY SET (selected (MessageNew (FAST FULL)))",
    b"a NOTIFY SET (selected (MessageNew (BINARY[])))",
    b"a NOTIFY SET (selected (MessageNew (FOO)))",
    b"a NOTIFY SET (selected (MessageNew (UIDFLAGS)))",
    b"a NOTIFY SET (selected (MessageNew (RFC822.)))",
    b"a NOTIFY SET (selected (MessageNew (RFC822.PEEK)))",
    b"a NOTIFY SET (selected (MessageNew (RFC822.SIZE[])))",
    b"a NOTIFY SET (selected (MessageNew (BODY.PEEK)))",
    b"a NOTIFY SET (selected (MessageNew (BODYSTRUCTURE[])))",
    b"a NOTIFY SET (selected (MessageNew (BODY [])))",
    b"a NOTIFY SET (selected (MessageNew (BODY[)))",
    b"a NOTIFY SET (selected (MessageNew (BODY[MIME])))",
    b"a NOTIFY SET (selected (MessageNew (BODY[0])))",
    b"a NOTIFY SET (selected (MessageNew (BODY[01])))",
    b"a NOTIFY SET (selected (MessageNew (BODY[1.])))",
    b"a NOTIFY SET (selected (MessageNew (BODY[.1])))",
    b"a NOTIFY SET (selected (MessageNew (BODY[1..2])))",
    b"a NOTIFY SET (selected (MessageNew (BODY[1TEXT])))",
    b"a NOTIFY SET (selected (MessageNew (BODY[TEXT.1])))",
    b"a NOTIFY SET (selected (MessageNew (BODY[1.MIME.1])))",
    b"a NOTIFY SET (selected (MessageNew (BODY[4294967296])))",
    b"a NOTIFY SET (selected (MessageNew (BODY[HEADER.FIELDS])))",
    b"a NOTIFY SET (selected (MessageNew (BODY[HEADER.FIELDS ()])))",
    b"a NOTIFY SET (selected (MessageNew (BODY[HEADER.FIELDS a])))",
    b"a NOTIFY SET (selected (MessageNew (BODY[HEADER.FIELDS(a)])))",
    b"a NOTIFY SET (selected (MessageNew (BODY[HEADER.NOT (a)])))",
    b"a NOTIFY SET (selected (MessageNew (BODY[HEADER (a)])))",
    b"a NOTIFY SET (selected (MessageNew (BODY<0.1>)))",
    b"a NOTIFY SET (selected (MessageNew (BODY[]<0.0>)))",
    b"a NOTIFY SET (selected (MessageNew (BODY[]<0.01>)))",
    b"a NOTIFY SET (selected (MessageNew (BODY[]<0>)))",
    b"a NOTIFY SET (selected (MessageNew (BODY[]<.1>)))",
    b"a NOTIFY SET (selected (MessageNew (BODY[]<>)))",
    b"a NOTIFY SET (selected (MessageNew (BODY[] <0.1>)))",
    b"a NOTIFY SET (selected (MessageNew (BODY[]<4294967296.1>)))",
    b"a NOTIFY SET (selected (MessageNew (BODY[]<0.4294967296>)))",
    // sources and return options
    b"s ESEARCH",
    b"s ESEARCH ",
    b"s UID ESEARCH IN (personal) ALL",
    b"tag1 UID ESEARCH FROM \"frobozz\" 1:100",
    b"s ESEARCH IN (personal)",
    b"s ESEARCH IN () ALL",
    b"s ESEARCH IN personal ALL",
    b"s ESEARCH IN(personal) ALL",
    b"s ESEARCH IN (personal)ALL",
    b"s ESEARCH IN (personal) IN (personal) ALL",
    b"s ESEARCH IN (personal ()) ALL",
    b"s ESEARCH IN (personal (x)) ALL",
    b"s ESEARCH IN (mailboxes a (x 1)) ALL",
    b"s ESEARCH IN ((personal)) ALL",
    b"s ESEARCH IN ((personal) (inboxes)) ALL",
    b"s ESEARCH IN (mailboxes) ALL",
    b"s ESEARCH IN (mailboxes a b) ALL",
    b"s ESEARCH IN (mailboxes () personal) ALL",
    b"s ESEARCH IN (subtree-one) ALL",
    b"s ESEARCH IN (subtree-two a) ALL",
    b"s ESEARCH IN (personal)  RETURN () ALL",
    b"s ESEARCH RETURN () IN (personal) ALL",
    b"s ESEARCH RETURN ALL ALL",
    b"s ESEARCH RETURN ( ) ALL",
    b"s ESEARCH RETURN () ",
    b"s ESEARCH RETURN () RETURN () ALL",
    b"s ESEARCH RETURN (MIN)",
    b"s ESEARCH RETURN (MIN  MAX) ALL",
    b"s ESEARCH RETURN (MIN MIN) ALL",
    b"s ESEARCH RETURN (ALL MIN ALL) ALL",
    b"s ESEARCH RETURN (MIN MAX ALL COUNT MIN) ALL",
    b"s ESEARCH RETURN (SAVE) ALL",
    b"s ESEARCH RETURN (UPDATE) ALL",
    b"s ESEARCH RETURN (PARTIAL 1:2) ALL",
    b"s ESEARCH RETURN (MIN,MAX) ALL",
    b"s ESEARCH RETURN ((MIN)) ALL",
    // charset
    b"s ESEARCH CHARSET ALL",
    b"s ESEARCH CHARSET x",
    b"s ESEARCH CHARSET a] ALL",
    b"s ESEARCH CHARSET {3} ALL",
    b"s ESEARCH CHARSET (x) ALL",
    b"s ESEARCH CHARSET x CHARSET x ALL",
    b"s ESEARCH ALL CHARSET x",
    b"s ESEARCH CHARSET x RETURN () ALL",
    // keys
    b"s ESEARCH YOUNGER 5",
    b"s ESEARCH MODSEQ 1",
    b"s ESEARCH FUZZY ALL",
    b"s ESEARCH $",
    b"s ESEARCH UNALL",
    b"s ESEARCH UNOLD",
    b"s ESEARCH UNNEW",
    b"s ESEARCH UNRECENT",
    b"s ESEARCH \"ALL\"",
    b"s ESEARCH ALL  ALL",
    b"s ESEARCH ALL ",
    b"s ESEARCH ALLALL",
    b"s ESEARCH ()",
    b"s ESEARCH (ALL",
    b"s ESEARCH ALL)",
    b"s ESEARCH ( ALL)",
    b"s ESEARCH (ALL )",
    b"s ESEARCH (ALL)(ALL)",
    b"s ESEARCH NOT",
    b"s ESEARCH NOT(ALL)",
    b"s ESEARCH OR ALL",
    b"s ESEARCH OR (1 2)",
    b"s ESEARCH OR 1  2",
    b"s ESEARCH 0",
    b"s ESEARCH 01",
    b"s ESEARCH UID 07",
    b"s ESEARCH 4294967296",
    b"s ESEARCH 1:4294967296",
    b"s ESEARCH 18446744073709551617",
    b"s ESEARCH 1,",
    b"s ESEARCH ,1",
    b"s ESEARCH 1,,2",
    b"s ESEARCH 1:",
    b"s ESEARCH :1",
    b"s ESEARCH 1:2:3",
    b"s ESEARCH 1, 2",
    b"s ESEARCH **",
    b"s ESEARCH *1",
    b"s ESEARCH 1*",
    b"s ESEARCH UID",
    b"s ESEARCH UID ALL",
    b"s ESEARCH UID UID 1",
    b"s ESEARCH UID (1)",
    b"s ESEARCH LARGER",
    b"s ESEARCH LARGER *",
    b"s ESEARCH LARGER -1",
    b"s ESEARCH LARGER 1,2",
    b"s ESEARCH LARGER 4294967296",
    b"s ESEARCH LARGER 42949672950",
    b"s ESEARCH SMALLER \"1\"",
    b"s ESEARCH FROM",
    b"s ESEARCH FROM (a)",
    b"s ESEARCH FROM {1}",
    b"s ESEARCH FROM a b",
    b"s ESEARCH FROM \"\x80\"",
    b"s ESEARCH UNFROM a",
    b"s ESEARCH HEADER a",
    b"s ESEARCH HEADER a b c",
    b"s ESEARCH KEYWORD",
    b"s ESEARCH KEYWORD a]",
    b"s ESEARCH KEYWORD \"a\"",
    b"s ESEARCH KEYWORD \\Seen",
    b"s ESEARCH UNUNKEYWORD a",
    b"s ESEARCH BEFORE yesterday",
    b"s ESEARCH BEFORE 1-Foo-2020",
    b"s ESEARCH BEFORE 001-Jan-2020",
    b"s ESEARCH BEFORE -Jan-2020",
    b"s ESEARCH BEFORE 1-Jan-20",
    b"s ESEARCH BEFORE 1-Jan-20200",
    b"s ESEARCH BEFORE 1-January-2020",
    b"s ESEARCH BEFORE 1 Jan 2020",
    b"s ESEARCH BEFORE \"1-Jan-2020",
    b"s ESEARCH BEFORE \" 1-Jan-2020\"",
    b"s ESEARCH SENTLARGER 1",
    b"s ESEARCH NEW OLD UNSEEN UNDELETE",
];

/// The lines on which a reader is not of this opinion.
fn against(reader: fn(&[u8]) -> bool, lines: &[&[u8]], truth: bool) -> Vec<String> {
    let differ = lines.iter().filter(|l| reader(l) != truth);
    differ.map(|l| l.escape_ascii().to_string()).collect()
}

#[test]
fn lines_judged_by_hand() {
    let none: Vec<String> = Vec::new();
    assert_eq!(against(is_grammatical, GOOD, true), none);
    assert_eq!(against(is_grammatical, BAD, false), none);
}

// Apart, so that a failure says which of the two readers is at fault.
#[test]
fn lines_judged_by_hand_in_the_other_reader() {
    let none: Vec<String> = Vec::new();
    assert_eq!(against(command::is_grammatical, GOOD, true), none);
    assert_eq!(against(command::is_grammatical, BAD, false), none);
}

// Every octet in each kind of word, by the sentence of document 01 and not by
// the ranges of the table.
#[test]
fn octets_of_words() {
    let framed = |before: &[u8], octet: u8, after: &[u8]| -> bool {
        is_grammatical(&[before, &[octet], after].concat())
    };
    for octet in 0..=255u8 {
        let atom = (0x21..=0x7e).contains(&octet) && !b"(){%*\"\\]".contains(&octet);
        let astring = atom || octet == b']';
        let tag = astring && octet != b'+';
        let plain = (0x01..=0x7f).contains(&octet) && !b"\r\n\"\\".contains(&octet);
        let escaped = octet == b'"' || octet == b'\\';
        assert_eq!(framed(b"a", octet, b" NOTIFY NONE"), tag);
        let group = b"a NOTIFY SET (mailboxes ";
        assert_eq!(framed(group, octet, b" NONE)"), astring);
        let event = b"a NOTIFY SET (personal (x";
        assert_eq!(framed(event, octet, b"x))"), atom || octet == b' ');
        assert_eq!(framed(b"a ESEARCH KEYWORD ", octet, b""), atom);
        assert_eq!(framed(b"a ESEARCH CHARSET ", octet, b" ALL"), atom);
        assert_eq!(framed(b"a ESEARCH TO \"", octet, b"\""), plain);
        assert_eq!(framed(b"a ESEARCH TO \"\\", octet, b"\""), escaped);
    }
}

// The options that the paper allows, counted: each row of 0 to 4 options
// out of four, without one twice, and no other.
#[test]
fn return_options_once_each() {
    let options = ["MIN", "MAX", "ALL", "COUNT"];
    let mut accepted = 0;
    for length in 0..=5u32 {
        for number in 0..4usize.pow(length) {
            let digits = (0..length).map(|d| number / 4usize.pow(d) % 4);
            let row: Vec<&str> = digits.map(|d| options[d]).collect();
            let distinct = row.iter().collect::<HashSet<_>>().len() == row.len();
            let line = format!("s ESEARCH RETURN ({}) ALL", row.join(" "));
            assert_eq!(is_grammatical(line.as_bytes()), distinct, "{line}");
            accepted += usize::from(distinct);
        }
    }
    assert_eq!(accepted, 1 + 4 + 12 + 24 + 24);
}

// Nesting as deep as a line of 1,024 octets can have it.
#[test]
fn deep_lines() {
    let lists = |open, close| format!("s ESEARCH {}1{}", "(".repeat(open), ")".repeat(close));
    let nots = format!("s ESEARCH {}ALL", "NOT ".repeat(251));
    let right = format!("s ESEARCH {}1", "OR 1 ".repeat(202));
    let left = format!("s ESEARCH {}1{}", "OR ".repeat(202), " 1".repeat(202));
    for (line, truth) in [
        (lists(506, 506), true),
        (lists(506, 507), false),
        (lists(507, 506), false),
        (lists(1013, 0), false),
        (lists(0, 1013), false),
        (format!("{nots} NOT"), false),
        (nots, true),
        (format!("{right} OR"), false),
        (right, true),
        (format!("{left} 1"), true),
        (format!("{left})"), false),
        (left, true),
    ] {
        assert!(line.len() <= 1024);
        assert_eq!(is_grammatical(line.as_bytes()), truth, "{line}");
        assert_eq!(command::is_grammatical(line.as_bytes()), truth, "{line}");
    }
}

// Lines grown from the table.

/// A fixed row of numbers (splitmix64), so that a failure comes again.
struct Dice(u64);

impl Dice {
    fn next(&mut self) -> u64 {
        self.0 = self.0.wrapping_add(0x9e37_79b9_7f4a_7c15);
        let mut z = self.0;
        z = (z ^ (z >> 30)).wrapping_mul(0xbf58_476d_1ce4_e5b9);
        z = (z ^ (z >> 27)).wrapping_mul(0x94d0_49bb_1331_11eb);
        z ^ (z >> 31)
    }

    fn below(&mut self, bound: usize) -> usize {
        (self.next() % bound as u64) as usize
    }

    fn one_in(&mut self, n: usize) -> bool {
        self.below(n) == 0
    }

    fn pick<'a, T: ?Sized>(&mut self, from: &[&'a T]) -> &'a T {
        from[self.below(from.len())]
    }
}

/// Writes random lines of a grammar; past `room` octets it only closes what is
/// open, by the shortest way. On reaching part number `slip_at` it goes astray.
struct Writer<'a> {
    grammar: &'a Grammar,
    room: usize,
    letters: usize,
    words: HashSet<&'static str>,
    parts: usize,
    slip_at: Option<usize>,
    line: Vec<u8>,
}

impl Writer<'_> {
    fn new(grammar: &Grammar) -> Writer<'_> {
        Writer {
            grammar,
            room: 0,
            letters: 0,
            words: HashSet::new(),
            parts: 0,
            slip_at: None,
            line: Vec::new(),
        }
    }

    fn grow(&mut self, dice: &mut Dice) -> Vec<u8> {
        self.room = [30, 60, 120, 240, 480][dice.below(5)];
        self.letters = dice.below(5);
        self.parts = 0;
        self.line.clear();
        self.node(dice, &self.grammar.rules[0]);
        self.line.clone()
    }

    // The same line twice, the second time with one slip at any of its parts.
    fn grow_astray(&mut self, dice: &mut Dice) -> Vec<u8> {
        let mut same = Dice(dice.0);
        self.grow(&mut same);
        self.slip_at = Some(1 + same.below(self.parts));
        let line = self.grow(dice);
        self.slip_at = None;
        line
    }

    fn full(&self) -> bool {
        self.line.len() >= self.room
    }

    fn node(&mut self, dice: &mut Dice, node: &Node) {
        if !self.is_octet(node) {
            self.parts += 1;
            if self.slip_at == Some(self.parts) {
                return self.slip(dice, node);
            }
        }
        match node {
            Node::Octet(first, last) => {
                let span = usize::from(last - first) + 1;
                self.line.push(first + dice.below(span) as u8);
            }
            Node::Word(word) => self.word(dice, word),
            Node::Number(least, most) => self.number(dice, *least, *most),
            Node::Rule(rule) => self.node(dice, &self.grammar.rules[*rule]),
            Node::Row(parts) => parts.iter().for_each(|p| self.node(dice, p)),
            Node::Choice(parts) => self.choice(dice, parts),
            Node::Times(least, most, part) => {
                let count = self.count(dice, *least, *most);
                (0..count).for_each(|_| self.node(dice, part));
            }
        }
    }

    fn is_octet(&self, node: &Node) -> bool {
        match node {
            Node::Octet(..) => true,
            Node::Rule(rule) => self.is_octet(&self.grammar.rules[*rule]),
            Node::Choice(parts) => parts.iter().all(|p| self.is_octet(p)),
            _ => false,
        }
    }

    // A part left out, written twice, or another rule beside it or instead.
    fn slip(&mut self, dice: &mut Dice, node: &Node) {
        let stranger = self.stranger(dice, node);
        match dice.below(6) {
            0 => {}
            1 => (0..2).for_each(|_| self.node(dice, node)),
            2 => self.spaced(dice, [node, node]),
            3 => self.spaced(dice, [node, stranger]),
            _ => self.node(dice, stranger),
        }
    }

    fn spaced(&mut self, dice: &mut Dice, pair: [&Node; 2]) {
        self.node(dice, pair[0]);
        self.line.push(b' ');
        self.node(dice, pair[1]);
    }

    // Rules that stand close in the table are the likeliest to be mistaken for
    // each other.
    fn stranger(&self, dice: &mut Dice, node: &Node) -> &'static Node {
        let rules = &grammar().rules;
        match node {
            Node::Rule(rule) if !dice.one_in(3) => {
                &rules[(rule + dice.below(7))
                    .saturating_sub(3)
                    .min(rules.len() - 1)]
            }
            _ => &rules[dice.below(rules.len())],
        }
    }

    fn choice(&mut self, dice: &mut Dice, parts: &[Node]) {
        let any = dice.below(parts.len());
        let shortest = || parts.iter().min_by_key(|p| self.grammar.shortest(p));
        let part = if self.full() {
            shortest().unwrap_or(&parts[any])
        } else {
            &parts[any]
        };
        self.node(dice, part);
    }

    fn count(&mut self, dice: &mut Dice, least: usize, most: usize) -> usize {
        let beyond = if most == UNBOUNDED { 12 } else { most - least };
        if self.full() || beyond == 0 {
            return least;
        }
        // mostly few, now and then up to the bound
        let bound = if dice.one_in(8) {
            beyond
        } else {
            beyond.min(3)
        };
        least + dice.below(bound + 1)
    }

    // A line keeps one habit of letters, so that lines of mixed case occur as
    // well as plain ones.
    fn word(&mut self, dice: &mut Dice, word: &'static str) {
        self.words.insert(word);
        for octet in word.bytes() {
            self.line.push(match self.letters {
                0 => octet.to_ascii_uppercase(),
                1 => octet.to_ascii_lowercase(),
                2 if dice.one_in(2) => other_case(octet),
                _ => octet,
            });
        }
    }

    fn number(&mut self, dice: &mut Dice, least: u64, most: u64) {
        let value = match dice.below(6) {
            0 => least,
            1 => most,
            2 => most - 1 - dice.below(20) as u64,
            3 => least + dice.next() % (most - least + 1),
            _ => least + dice.below(30) as u64,
        };
        if least == 0 && dice.one_in(4) {
            self.line.extend(vec![b'0'; 1 + dice.below(12)]);
        }
        self.line.extend(value.to_string().bytes());
    }
}

fn other_case(octet: u8) -> u8 {
    if octet.is_ascii_uppercase() {
        octet.to_ascii_lowercase()
    } else {
        octet.to_ascii_uppercase()
    }
}

// Damage.

/// Octets that the grammar cares about, tried more often than the others.
const TELLING: &[u8] = b" ()\"\\]*%{}+[<>,:.-019aN\t\r\n\0\x7f\x80";

/// Numbers at the edges of what is allowed.
const EDGES: &[&str] = &[
    "0",
    "00",
    "1",
    "01",
    "4294967295",
    "4294967296",
    "04294967295",
    "4294967300",
    "10000000000",
    "42949672950",
    "18446744073709551617",
    "*",
    "",
    "-1",
];

/// Words and pieces that belong to other extensions, elsewhere or nowhere.
const FOREIGN: &[&str] = &[
    "",
    "NIL",
    "INBOX",
    "MODSEQ",
    "SAVE",
    "UPDATE",
    "FAST",
    "FULL",
    "$",
    "()",
    "(x)",
    "{3}",
    "\"\"",
    "\"a b\"",
    "YOUNGER",
    "UN",
    "SENT",
    "DELAYED",
    "subtree-",
    ".PEEK",
    "[]",
    "<0.1>",
    "1-Jan-2000",
    "2:*",
    "x]",
    "ALL ALL",
    "MIN",
    "MessageNew (UID)",
    "MessageNew(",
];

fn collect_words(node: &Node, into: &mut Vec<&'static str>) {
    match node {
        Node::Word(word) => into.push(word),
        Node::Row(parts) | Node::Choice(parts) => parts.iter().for_each(|p| collect_words(p, into)),
        Node::Times(_, _, part) => collect_words(part, into),
        Node::Octet(..) | Node::Number(..) | Node::Rule(_) => {}
    }
}

fn words_of(grammar: &Grammar) -> Vec<&'static str> {
    let mut words = Vec::new();
    grammar
        .rules
        .iter()
        .for_each(|r| collect_words(r, &mut words));
    words
}

/// Where the run of octets that are `alike` begins and ends around `at`.
fn run_around(line: &[u8], at: usize, alike: fn(&u8) -> bool) -> (usize, usize) {
    let before = line[..at].iter().rev().take_while(|o| alike(o)).count();
    let after = line[at..].iter().take_while(|o| alike(o)).count();
    (at - before, at + after)
}

fn in_token(octet: &u8) -> bool {
    !b" ()".contains(octet)
}

fn damage(dice: &mut Dice, line: &mut Vec<u8>, other: &[u8], words: &[&str]) {
    if line.is_empty() {
        return;
    }
    let at = dice.below(line.len());
    let token = run_around(line, at, in_token);
    match dice.below(14) {
        0 => line[at] = octet(dice),
        1 => drop(line.remove(at)),
        2 => line.insert(at, octet(dice)),
        3 => line.insert(at, line[at]),
        4 => line[at] = other_case(line[at]),
        5 => splice(dice, line, at, other),
        6 => line.insert(at, b' '),
        7 => replace(line, token, dice.pick(words).as_bytes()),
        8 => replace(line, token, dice.pick(FOREIGN).as_bytes()),
        9 => change_number(dice, line, at),
        10 => line.truncate(at),
        11 => double_token(line, token),
        12 => wrap_token(line, token),
        _ => swap_tokens(line, token),
    }
}

fn octet(dice: &mut Dice) -> u8 {
    if dice.one_in(2) {
        TELLING[dice.below(TELLING.len())]
    } else {
        dice.below(256) as u8
    }
}

fn replace(line: &mut Vec<u8>, (from, to): (usize, usize), by: &[u8]) {
    line.splice(from..to, by.iter().copied());
}

// The rest of another line; as often as not from the start of one of its words.
fn splice(dice: &mut Dice, line: &mut Vec<u8>, at: usize, other: &[u8]) {
    let cut = dice.below(other.len() + 1);
    let (start, _) = run_around(other, cut, in_token);
    let from = if dice.one_in(2) { start } else { cut };
    let (keep, _) = run_around(line, at, in_token);
    line.truncate(if dice.one_in(2) { keep } else { at });
    line.extend(&other[from..]);
}

// The first number from here on, so that numbers, which are rare, are met.
fn change_number(dice: &mut Dice, line: &mut Vec<u8>, at: usize) {
    let skipped = line[at..].iter().position(u8::is_ascii_digit);
    let from = at + skipped.unwrap_or(0);
    let run = run_around(line, from, u8::is_ascii_digit);
    replace(line, run, dice.pick(EDGES).as_bytes());
}

fn double_token(line: &mut Vec<u8>, (from, to): (usize, usize)) {
    let again = [b" ", &line[from..to]].concat();
    replace(line, (to, to), &again);
}

fn wrap_token(line: &mut Vec<u8>, (from, to): (usize, usize)) {
    line.insert(to, b')');
    line.insert(from, b'(');
}

// A token and the one after the next space change places.
fn swap_tokens(line: &mut Vec<u8>, (from, to): (usize, usize)) {
    if to + 1 < line.len() {
        let (start, end) = run_around(line, to + 1, in_token);
        let swapped = [&line[start..end], &line[to..start], &line[from..to]].concat();
        replace(line, (from, end), &swapped);
    }
}

// The comparison.

const LINES: usize = 100_000;

/// What came of the comparison.
#[derive(Default)]
struct Tally {
    grammatical: usize,
    not: usize,
    differing: Vec<String>,
}

impl Tally {
    fn compare(&mut self, line: &[u8]) {
        let ours = is_grammatical(line);
        if ours {
            self.grammatical += 1;
        } else {
            self.not += 1;
        }
        if command::is_grammatical(line) != ours {
            let text = line.escape_ascii();
            self.differing.push(format!("table says {ours}: {text}"));
        }
    }
}

#[test]
fn both_readings_agree() {
    let mut dice = Dice(5465_6237);
    let mut writer = Writer::new(grammar());
    let words = words_of(grammar());
    let mut seen = HashSet::new();
    let mut tally = Tally::default();
    let mut other = writer.grow(&mut dice);
    while seen.len() < LINES {
        let mut line = match dice.below(24) {
            0..=6 => writer.grow_astray(&mut dice),
            7 => dice.pick(GOOD).to_vec(),
            8 => dice.pick(BAD).to_vec(),
            _ => writer.grow(&mut dice),
        };
        let whole = line.clone();
        for _ in 0..[0, 0, 0, 1, 2][dice.below(5)] {
            damage(&mut dice, &mut line, &other, &words);
        }
        other = whole;
        if line.len() <= 1024 && seen.insert(line.clone()) {
            tally.compare(&line);
        }
    }
    let shown = &tally.differing[..tally.differing.len().min(40)];
    let count = tally.differing.len();
    assert!(shown.is_empty(), "{count} differ:\n{}", shown.join("\n"));
    println!("{} grammatical, {} not", tally.grammatical, tally.not);
    assert!((40_000..=60_000).contains(&tally.grammatical));
    assert_eq!(tally.grammatical + tally.not, LINES);
    // every word of the table was written
    assert_eq!(writer.words, words.into_iter().collect());
}
