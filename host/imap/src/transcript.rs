//! A transcript of one connection, where one is asked for. No password stands in it, right or wrong.

use crate::parse::is_tag;
use std::fs::File;
use std::io::Write;
use std::path::Path;
use std::sync::Mutex;
use std::time::Instant;

/// Commands that a password follows.
const TELLING: [&[u8]; 2] = [b"LOGIN", b"AUTHENTICATE"];
/// Commands that a stranger gives without one.
const OTHERS: [&[u8]; 4] = [b"CAPABILITY", b"NOOP", b"ID", b"LOGOUT"];

pub struct Transcript {
    kept: Option<Mutex<Kept>>,
    start: Instant,
}

struct Kept {
    file: File,
    /// Tags that are not shown, of commands that are not answered yet: somebody may type a password in a line of its own.
    veiled: Vec<String>,
}

impl Transcript {
    pub fn new(folder: Option<&Path>, number: u64) -> Transcript {
        let file = folder.and_then(|folder| {
            let path = folder.join(format!("{number}.txt"));
            File::create(&path)
                .map_err(|fault| eprintln!("imap: {}: {fault}", path.display()))
                .ok()
        });
        let kept = file.map(|file| Kept {
            file,
            veiled: Vec::new(),
        });
        Transcript {
            kept: kept.map(Mutex::new),
            start: Instant::now(),
        }
    }

    /// A line of the client's: of a command's beginning as much as may be shown, of a veiled command's rest nothing. Answers
    /// whether the rest of the command is to be veiled.
    pub fn note_line(&self, line: &[u8], stranger: bool, veiled: bool) -> bool {
        let Some(kept) = &self.kept else {
            return veiled;
        };
        let mut kept = kept.lock().unwrap();
        let shown = match veiled {
            true => Some(0),
            false => shown(line, stranger),
        };
        let text = String::from_utf8_lossy(&line[..shown.unwrap_or(line.len())]);
        match shown {
            None => self.write(&mut kept, 'C', &text),
            Some(_) => self.write(&mut kept, 'C', &(text + " ...")),
        }
        let line = String::from_utf8_lossy(line);
        let tag = first_word(&line);
        if shown == Some(0) && !veiled && is_tag(tag.as_bytes()) {
            kept.veiled.push(tag.into());
        }
        shown.is_some()
    }

    /// What the server writes.
    pub fn note_answer(&self, octets: &[u8]) {
        let Some(kept) = &self.kept else { return };
        let text = String::from_utf8_lossy(octets);
        let mut kept = kept.lock().unwrap();
        for line in text.trim_end_matches("\r\n").split("\r\n") {
            let tag = first_word(line);
            match kept.veiled.iter().position(|veiled| veiled == tag) {
                Some(place) => {
                    kept.veiled.remove(place);
                    self.write(&mut kept, 'S', &format!("...{}", &line[tag.len()..]));
                }
                None => self.write(&mut kept, 'S', line),
            }
        }
    }

    /// A line of `C` the client or `S` the server, with the seconds since the connection began.
    fn write(&self, kept: &mut Kept, who: char, line: &str) {
        let seconds = self.start.elapsed().as_secs_f64();
        let _ = writeln!(kept.file, "{seconds:9.4} {who}: {line}");
    }
}

fn first_word(line: &str) -> &str {
    line.split(' ').next().unwrap_or_default()
}

/// How much of a client's line may be shown; None for all of it. Behind a word that a password follows nothing is, wherever
/// that stands. A stranger may have misspelt the word: of another line than those above nothing is shown.
fn shown(line: &[u8], stranger: bool) -> Option<usize> {
    let capitals = line.to_ascii_uppercase();
    let end = |word: &&[u8]| {
        let at = capitals.windows(word.len()).position(|part| part == *word);
        at.map(|at| at + word.len())
    };
    let told = TELLING.iter().filter_map(end).min();
    let word = capitals.split(|&octet| octet == b' ').nth(1);
    let harmless = word.is_some_and(|word| OTHERS.contains(&word));
    told.or((stranger && !harmless).then_some(0))
}
