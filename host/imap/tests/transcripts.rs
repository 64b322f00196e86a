//! What `--log` writes, and folders that nothing can be written to.

mod support;

use std::io::Read;
use std::process::{Command, Stdio};
use support::folder::Folder;
use support::{Client, Server};

const PASSWORD: &str = "sesame";
/// The same with alice's name, as AUTHENTICATE PLAIN has it.
const ENCODED: &str = "AGFsaWNlAHNlc2FtZQ==";

/// A password that is sent as it can be.
const SENT: [&str; 12] = [
    "a LOGIN alice sesame",
    "a login alice \"sesame\"",
    "a LOGIN {5+}\r\nalice sesame",
    "a LOGIN {5}\r\nalice sesame",
    "a LOGIN alice {6+}\r\nsesame",
    "a Login {5+}\r\nalice {6+}\r\nsesame",
    "a AUTHENTICATE PLAIN AGFsaWNlAHNlc2FtZQ==",
    "a AUTHENTICATE PLAIN\r\nAGFsaWNlAHNlc2FtZQ==",
    "a authenticate plain\r\nAGFsaWNlAHNlc2FtZQ==",
    "a AUTHENTICATE {5+}\r\nPLAIN AGFsaWNlAHNlc2FtZQ==",
    "LOGIN alice sesame",
    "a  LOGIN alice sesame",
];

/// As a stranger may send it who has the command wrong.
const MISSPELT: [&str; 5] = [
    "a LOGN alice sesame",
    "alice sesame",
    "sesame",
    "a LOG {5+}\r\nalice sesame",
    "a XAUTH PLAIN AGFsaWNlAHNlc2FtZQ==",
];

/// Sends each, and reads to the end of what comes of it.
fn send_all(client: &mut Client, lines: &[&str]) {
    for line in lines {
        client.send(format!("{line}\r\nz NOOP\r\n").as_bytes());
        client.until("z OK");
    }
}

/// All transcripts of a folder.
fn written(folder: &Folder) -> String {
    let files = std::fs::read_dir(folder.path()).expect("the folder");
    let text = |file: std::io::Result<std::fs::DirEntry>| {
        std::fs::read_to_string(file.expect("a file").path()).expect("text")
    };
    files.map(text).collect()
}

#[test]
fn no_password_stands_in_a_transcript() {
    let folder = Folder::new("transcripts");
    let server = Server::with(&["--log", folder.text()]);
    let mut stranger = server.connect();
    send_all(&mut stranger, &SENT);
    send_all(&mut stranger, &MISSPELT);
    let mut alice = server.log_in("alice");
    send_all(&mut alice, &SENT);
    alice.ok("SELECT INBOX");
    stranger.ok("AUTHENTICATE PLAIN AGFsaWNlAHB3");
    stranger.ok("LIST \"\" *");
    server.end();
    let text = written(&folder);
    for secret in [PASSWORD, ENCODED, "pw", "AGFsaWNlAHB3"] {
        assert!(!text.contains(secret), "{text}");
    }
    // and the rest does
    let lines = [
        "C: a LOGIN ...",
        "C: z NOOP",
        "C: t1 LOGIN ...",
        "C: t2 SELECT INBOX",
    ];
    let more = [
        "C: t2 LIST \"\" *",
        "S: a NO [AUTHENTICATIONFAILED] no",
        "S: t2 OK",
    ];
    for line in lines.iter().chain(&more) {
        assert!(text.contains(line), "{line}: {text}");
    }
}

/// How a server ends that can't begin: its status, and what it says.
fn refused(options: &[&str]) -> (Option<i32>, String) {
    let mut process = Command::new(env!("CARGO_BIN_EXE_imap"))
        .args(["--port", "0"])
        .args(options)
        .stdout(Stdio::piped())
        .stderr(Stdio::piped())
        .spawn()
        .expect("the server");
    // one octet of its output says that it serves
    let mut octet = [0];
    let stdout = process.stdout.as_mut().expect("its output");
    if stdout.read(&mut octet).expect("its output") > 0 {
        process.kill().expect("its end");
    }
    let ended = process.wait_with_output().expect("its end");
    let said = String::from_utf8_lossy(&ended.stderr).into_owned();
    (ended.status.code(), said)
}

#[test]
fn a_folder_that_can_t_be_written_to_is_an_error_at_the_start() {
    let folder = Folder::new("no-folder");
    std::fs::write(folder.path(), "").expect("a file where the folder is to be");
    let below = format!("{}/log", folder.text());
    for option in ["--log", "--record"] {
        // one that can't be made, one that is none, and one that takes no files
        for path in [below.as_str(), folder.text(), "/proc"] {
            let (status, said) = refused(&[option, path]);
            assert_eq!(status, Some(1), "{option} {path}: {said}");
            let sentence = format!("imap: no files can be written to {path}: ");
            assert!(said.starts_with(&sentence), "{said}");
        }
    }
}

#[test]
fn a_folder_that_is_not_there_is_made() {
    let folder = Folder::new("new-folder");
    let deep = format!("{}/a/b", folder.text());
    let server = Server::with(&["--log", &deep]);
    server.log_in("bob");
    server.end();
    let names: Vec<String> = std::fs::read_dir(&deep)
        .expect("the folder")
        .map(|file| {
            file.expect("a file")
                .file_name()
                .into_string()
                .expect("a name")
        })
        .collect();
    assert_eq!(names, ["1.txt"]);
}
