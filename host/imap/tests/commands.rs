//! What a mail program does all day: the host's own commands, which the library knows nothing of.

mod support;

use support::{Client, Server};

const MAIL: &str = "From: Ann <ann@x.org>\r\nTo: bo@y.org\r\nSubject: one\r\nDate: Mon, 2 Nov 2026 10:00:00 +0000\r\n\
    Message-Id: <1@x>\r\nMIME-Version: 1.0\r\nContent-Type: multipart/mixed; boundary=\"bb\"\r\n\r\npre\r\n\
    --bb\r\nContent-Type: text/plain; charset=utf-8\r\n\r\nhello body\r\n\
    --bb\r\nContent-Type: text/html\r\n\r\n<p>x</p>\r\n--bb--\r\n";
const PLAIN: &str = "From: b@y\r\nSubject: two\r\n\r\nplain\r\n";

fn append(client: &mut Client, arguments: &str, message: &str) {
    let len = message.len();
    client.ok(&format!("APPEND {arguments} {{{len}+}}\r\n{message}"));
}

/// Every answer must hold some words.
fn holds(client: &mut Client, command: &str, wanted: &str) {
    let text = client.ok(command).join("\n");
    assert!(text.contains(wanted), "{command}: {text}");
}

fn two_messages() -> (Server, Client) {
    let server = Server::start();
    let mut client = server.log_in("alice");
    client.ok("CREATE work/deep");
    append(
        &mut client,
        "work (\\Seen) \" 2-Nov-2026 11:00:00 +0100\"",
        MAIL,
    );
    append(&mut client, "work", PLAIN);
    (server, client)
}

#[test]
fn folders() {
    let (server, mut client) = two_messages();
    holds(&mut client, "NAMESPACE", "Shared/");
    holds(
        &mut client,
        "LIST \"\" *",
        "(\\HasNoChildren) \"/\" \"work/deep\"",
    );
    assert_eq!(client.ok("LIST \"\" %").len(), 2);
    holds(&mut client, "LIST \"\" %", "(\\HasChildren) \"/\" \"work\"");
    holds(&mut client, "LIST \"\" \"\"", "(\\Noselect) \"/\" \"\"");
    client.ok("SUBSCRIBE work");
    assert_eq!(
        client.ok("LSUB \"\" *"),
        ["* LSUB (\\HasChildren \\Subscribed) \"/\" \"work\""]
    );
    assert_eq!(client.ok("LIST (SUBSCRIBED) \"\" *").len(), 1);
    let status = "STATUS work (MESSAGES UIDNEXT UNSEEN)";
    assert_eq!(
        client.ok(status),
        ["* STATUS \"work\" (MESSAGES 2 UIDNEXT 3 UNSEEN 1)"]
    );
    holds(
        &mut client,
        "LIST \"\" work RETURN (STATUS (MESSAGES))",
        "(MESSAGES 2)",
    );
    holds(&mut client, "MYRIGHTS work", "lrswipkxtea");
    client.ok("RENAME work job");
    holds(&mut client, "LIST \"\" *", "job/deep");
    client.ok("DELETE job/deep");
    for command in [
        "DELETE INBOX",
        "SELECT nope",
        "CREATE a//b",
        "CREATE Shared",
        "CREATE INBOX",
        "CREATE \"a*\"",
    ] {
        assert!(client.answer(command).starts_with("NO "), "{command}");
    }
    let long = format!("CREATE {}", "a".repeat(65));
    assert!(client.answer(&long).starts_with("NO "));
    server.end();
}

#[test]
fn messages() {
    let (server, mut client) = two_messages();
    holds(&mut client, "SELECT work", "* 2 EXISTS");
    holds(
        &mut client,
        "FETCH 1 ENVELOPE",
        "((\"Ann\" NIL \"ann\" \"x.org\"))",
    );
    holds(
        &mut client,
        "FETCH 1 (BODYSTRUCTURE)",
        "\"MIXED\" (\"BOUNDARY\" \"bb\")",
    );
    holds(
        &mut client,
        "FETCH 1 (BODY.PEEK[1])",
        "BODY[1] {10}\nhello body)",
    );
    holds(&mut client, "FETCH 1 (BODY.PEEK[2.MIME])", "text/html");
    holds(
        &mut client,
        "FETCH 1 (BODY.PEEK[HEADER.FIELDS (Subject From)])",
        "Subject: one",
    );
    holds(
        &mut client,
        "FETCH 2 (BODY.PEEK[]<5.4>)",
        "BODY[]<5> {4}\n b@y)",
    );
    holds(
        &mut client,
        "FETCH 1 (INTERNALDATE RFC822.SIZE)",
        "\" 2-Nov-2026 11:00:00 +0100\"",
    );
    holds(&mut client, "FETCH 2 (BODY[] FLAGS)", "FLAGS (\\Seen)");
    for (keys, found) in [
        ("SEEN", " 1 2"),
        ("SUBJECT two", " 2"),
        ("NOT FROM ann", " 2"),
        ("OR BODY plain HEADER Message-Id 1@x", " 1 2"),
        ("BEFORE 3-Nov-2026", " 1"),
        ("SENTON 2-Nov-2026 LARGER 100", " 1"),
        ("UID 2:* 1:*", " 2"),
        ("FLAGGED", ""),
    ] {
        assert_eq!(
            client.ok(&format!("SEARCH {keys}")),
            [format!("* SEARCH{found}")]
        );
    }
    holds(
        &mut client,
        "STORE 1 +FLAGS (\\Deleted \\Flagged)",
        "(\\Flagged \\Deleted \\Seen)",
    );
    assert!(client.answer("COPY 1:2 INBOX").starts_with("OK [COPYUID "));
    assert!(client
        .answer("COPY 1:2 nowhere")
        .starts_with("NO [TRYCREATE]"));
    assert_eq!(client.ok("UID EXPUNGE 2"), [""; 0]);
    assert_eq!(client.ok("EXPUNGE"), ["* 1 EXPUNGE"]);
    assert_eq!(
        client.ok("UID FETCH 1:* (FLAGS)"),
        ["* 1 FETCH (UID 2 FLAGS (\\Seen))"]
    );
    client.ok("STORE 1 FLAGS.SILENT (\\Deleted)");
    assert_eq!(client.ok("CLOSE"), [""; 0]);
    holds(&mut client, "EXAMINE work", "* 0 EXISTS");
    holds(&mut client, "EXAMINE INBOX", "* 2 EXISTS");
    assert!(client.answer("STORE 1 FLAGS ()").starts_with("NO "));
    assert!(client.answer("EXPUNGE").starts_with("NO "));
    assert!(client.answer("SELECT nowhere").starts_with("NO "));
    assert_eq!(client.answer("FETCH 1 FLAGS"), "BAD no mailbox selected");
    client.ok("SELECT INBOX");
    client.ok("UNSELECT");
    assert_eq!(client.answer("FETCH 1 FLAGS"), "BAD no mailbox selected");
    client.start("LOGOUT");
    assert!(client.all_the_rest().starts_with("* BYE"));
    server.end();
}

#[test]
fn what_is_not_promised_is_not_there() {
    let (server, mut client) = two_messages();
    assert!(!client.ok("CAPABILITY")[0].contains("QRESYNC"));
    assert_eq!(client.ok("ENABLE QRESYNC"), ["* ENABLED"]);
    client.ok("SELECT work (CONDSTORE)");
    for (command, answer) in [
        ("SELECT work (QRESYNC (1 1))", "BAD no such parameter"),
        (
            "UID FETCH 1 (UID) (CHANGEDSINCE 1 VANISHED)",
            "BAD no such modifier",
        ),
        // the library's own
        (
            "NOTIFY SET (selected (MessageNew (MODSEQ) MessageExpunge))",
            "BAD refused",
        ),
        ("ESEARCH IN (personal) MODSEQ 5", "BAD refused"),
    ] {
        assert_eq!(client.answer(command), answer, "{command}");
    }
    let more = "NOTIFY SET (selected (MessageNew (UID BODYSTRUCTURE) MessageExpunge))";
    assert_eq!(client.answer(more), "NO unsupported");
    server.end();
}

/// A message with one inside it, which has parts of its own.
const FORWARD: &str =
    "Subject: outer\r\nMIME-Version: 1.0\r\nContent-Type: multipart/mixed; boundary=oo\r\n\r\n\
    --oo\r\nContent-Type: text/plain\r\n\r\nsee below\r\n\
    --oo\r\nContent-Type: message/rfc822\r\nX-Part: two\r\n\r\n\
    Subject: inner\r\nContent-Type: multipart/mixed; boundary=ii\r\n\r\n\
    --ii\r\n\r\ninmost\r\n--ii--\r\n\
    --oo--\r\n";

#[test]
fn sections_of_a_message_inside_a_message() {
    let server = Server::start();
    let mut client = server.log_in("alice");
    append(&mut client, "INBOX", FORWARD);
    client.ok("SELECT INBOX");
    let inner = "Subject: inner\nContent-Type: multipart/mixed; boundary=ii\n\n";
    for (section, wanted) in [
        ("2.HEADER", format!("{{62}}\n{inner})")),
        (
            "2.MIME",
            "{45}\nContent-Type: message/rfc822\nX-Part: two\n\n)".into(),
        ),
        (
            "2.HEADER.FIELDS (Subject)",
            "{18}\nSubject: inner\n\n)".into(),
        ),
        ("2.TEXT", "{22}\n--ii\n\ninmost\n--ii--)".into()),
        ("2.1", "{6}\ninmost)".into()),
        // no message, so it has neither
        ("1.HEADER", "NIL)".into()),
        ("1.TEXT", "NIL)".into()),
        ("1.MIME", "{28}\nContent-Type: text/plain\n\n)".into()),
    ] {
        let command = format!("FETCH 1 (BODY.PEEK[{section}])");
        let wanted = format!("* 1 FETCH (BODY[{section}] {wanted}");
        assert_eq!(client.ok(&command).join("\n"), wanted);
    }
    server.end();
}

#[test]
fn an_envelope_s_addresses() {
    let server = Server::start();
    let mut client = server.log_in("alice");
    let mail = "From: \"Doe, John\" <john@x.org>, bo@y (b, o)\r\nTo: Team: bo@y;\r\n\r\n";
    append(&mut client, "INBOX", mail);
    client.ok("SELECT INBOX");
    let (doe, bo) = (
        "(\"Doe, John\" NIL \"john\" \"x.org\")",
        "(NIL NIL \"bo\" \"y\")",
    );
    let from = format!("({doe}{bo})");
    let to = format!("((NIL NIL \"Team\" NIL){bo}(NIL NIL NIL NIL))");
    assert_eq!(
        client.ok("FETCH 1 ENVELOPE"),
        [format!(
            "* 1 FETCH (ENVELOPE (NIL NIL {from} {from} {from} {to} NIL NIL NIL NIL))"
        )]
    );
    server.end();
}

/// Every BAD says what is wrong with the command.
#[test]
fn reasons() {
    let (server, mut client) = two_messages();
    client.ok("SELECT work");
    for (command, why) in [
        ("NOSUCH", "no such command"),
        ("UID NOSUCH", "no such command"),
        ("LOGIN alice pw", "logged in already"),
        ("SELECT", "a space is missing"),
        ("SELECT ", "a word is missing"),
        ("SELECT \"work", "a quoted string has no end"),
        ("SELECT work more", "( is missing"),
        ("STATUS work MESSAGES", "( is missing"),
        ("STATUS work (NOSUCH)", "no such status item"),
        ("UNSUBSCRIBE work more", "more than the command takes"),
        ("LIST \"\" * NOSUCH", "RETURN is missing"),
        ("FETCH x FLAGS", "a number is missing"),
        ("FETCH 0 FLAGS", "there is no number 0"),
        ("FETCH 4294967296 FLAGS", "number too large"),
        ("FETCH 1 NOSUCH", "no such fetch attribute"),
        ("FETCH 1 BODY[NOSUCH]", "no such section"),
        ("FETCH 1 BODY[MIME]", "no such section"),
        ("FETCH 1 BODY[1", "] is missing"),
        ("STORE 1 *FLAGS ()", "a word is missing"),
        ("STORE 1 FLAG ()", "no such change of flags"),
        ("SEARCH NOSUCH", "no such search key"),
        ("SEARCH SINCE yesterday", "no such date"),
        ("SETACL Shared/x bob", "a space is missing"),
        ("APPEND work \"now\" {2+}\r\nhi", "no such date-time"),
        ("APPEND work \"hi\"", "a space is missing"),
        ("APPEND work hi", "a message comes as a literal"),
        ("APPEND work {3+}\r\nh\0i", "NUL in a string"),
        ("SELECT \"wo\0rk\"", "NUL in a string"),
    ] {
        assert_eq!(client.answer(command), format!("BAD {why}"), "{command}");
    }
    assert_eq!(
        client.ok("STATUS work (MESSAGES)"),
        ["* STATUS \"work\" (MESSAGES 2)"]
    );
    client.send(b"\r\n");
    assert_eq!(client.line(), "* BAD no tag");
    server.end();
}
