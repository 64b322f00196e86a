//! Cases written by hand, expected values and all. A text has lines of these kinds:
//!
//! ```text
//! case NAME                   a case begins
//! size Q MAILBOXES MESSAGES   its sizes; without this line 8,192, 64 and 1,024
//! RECORD                      a call, in the notation of `host/vectors`
//! each FIRST LAST RECORD      a call for each number, which stands for `$`, its double for `$$`, the next one for `$+`
//! ! N                         the call above is refused with this number
//! = N                         it answers this count
//! > LINE                      it writes this line, ended by CR LF
//! ```
//!
//! Empty lines and lines that begin with `#` are passed over. A `DR` that is not refused takes its octets off the queue's front.

use super::{Call, Case};
use crate::notation::assemble;
use std::path::Path;

/// All cases of a folder's texts, by the names of the files.
pub fn folder(folder: &Path) -> Result<Vec<Case>, String> {
    let shown = |fault: std::io::Error| format!("{}: {fault}", folder.display());
    let mut paths: Vec<_> = std::fs::read_dir(folder)
        .map_err(shown)?
        .map(|entry| entry.map(|entry| entry.path()))
        .collect::<Result<_, _>>()
        .map_err(shown)?;
    paths.retain(|path| path.extension().is_some_and(|kind| kind == "txt"));
    paths.sort();
    let mut all = Vec::new();
    for path in paths {
        let text = std::fs::read_to_string(&path).map_err(shown)?;
        all.extend(cases(&text).map_err(|fault| format!("{}: {fault}", path.display()))?);
    }
    Ok(all)
}

/// All cases of a text.
pub fn cases(text: &str) -> Result<Vec<Case>, String> {
    let mut cases: Vec<Case> = Vec::new();
    for line in text.split('\n') {
        let fault = |what: &str| format!("{what}: {line}");
        if line.is_empty() || line.starts_with('#') {
            continue;
        }
        let (word, rest) = line.split_once(' ').unwrap_or((line, ""));
        if word == "case" {
            cases.push(begun(rest));
            continue;
        }
        let case = cases.last_mut().ok_or_else(|| fault("no case yet"))?;
        match word {
            "size" => {
                let sizes: Result<Vec<usize>, _> = rest.split(' ').map(str::parse).collect();
                let [queue, mailboxes, messages] = sizes.map_err(|_| fault("no sizes"))?[..] else {
                    return Err(fault("no sizes"));
                };
                (case.queue, case.mailboxes, case.messages) = (queue, mailboxes, messages);
            }
            "each" => {
                let words: Vec<&str> = rest.splitn(3, ' ').collect();
                let [first, last, record] = words[..] else {
                    return Err(fault("each what"));
                };
                let number = |word: &str| word.parse::<u32>().map_err(|_| fault("no number"));
                for place in number(first)?..=number(last)? {
                    let record = record
                        .replace("$$", &(2 * place).to_string())
                        .replace("$+", &(place + 1).to_string());
                    add(case, &record.replace('$', &place.to_string()))?;
                }
            }
            "!" => last(case).ok_or_else(|| fault("no call"))?.refusal = digit(rest)? as u8,
            "=" => last(case).ok_or_else(|| fault("no call"))?.count = Some(digit(rest)?),
            ">" => {
                let call = last(case).ok_or_else(|| fault("no call"))?;
                call.held.extend_from_slice(rest.as_bytes());
                call.held.extend_from_slice(b"\r\n");
            }
            _ => add(case, line)?,
        }
    }
    cases.iter_mut().try_for_each(queues)?;
    Ok(cases)
}

fn begun(name: &str) -> Case {
    Case {
        name: name.to_string(),
        queue: 8192,
        mailboxes: 64,
        messages: 1024,
        calls: Vec::new(),
    }
}

fn last(case: &mut Case) -> Option<&mut Call> {
    case.calls.last_mut()
}

fn digit(word: &str) -> Result<u32, String> {
    word.parse().map_err(|_| format!("no number: {word}"))
}

/// A call from one line, of which nothing is expected yet.
fn add(case: &mut Case, record: &str) -> Result<(), String> {
    case.calls.push(Call {
        octets: assemble(record).map_err(|fault| format!("{}: {fault}", case.name))?,
        refusal: 0,
        count: None,
        held: Vec::new(),
    });
    Ok(())
}

/// Each call has the lines that it writes; puts before them what the queue held already.
fn queues(case: &mut Case) -> Result<(), String> {
    let mut before: Vec<u8> = Vec::new();
    for call in &mut case.calls {
        if call.refusal == 0 {
            before.drain(
                ..drained(&call.octets, before.len()).ok_or_else(|| {
                    format!("{}: more is drained than the queue holds", case.name)
                })?,
            );
        }
        before.append(&mut call.held);
        call.held = before.clone();
    }
    Ok(())
}

/// How many octets a call takes off, if so many are there.
fn drained(octets: &[u8], held: usize) -> Option<usize> {
    match octets.strip_prefix(b"DR\x04\x00") {
        Some(&[a, b, c, d]) => {
            Some(u32::from_le_bytes([a, b, c, d]) as usize).filter(|&count| count <= held)
        }
        _ => Some(0),
    }
}
