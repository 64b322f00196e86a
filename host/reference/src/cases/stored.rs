//! The streams of `host/vectors` as cases: records from NNN.txt, what is expected of them from NNN.out.

use super::{Call, Case};
use crate::notation::{from_hex, records};
use std::path::Path;

/// Every stream of the INDEX, at its own Q and lengths.
pub fn vectors(folder: &Path) -> Result<Vec<Case>, String> {
    let index = read(folder, "INDEX")?;
    index.lines().map(|line| vector(folder, line)).collect()
}

/// One line of the INDEX: number, Q, lengths of the two tables, `!` or `-`, title.
fn vector(folder: &Path, line: &str) -> Result<Case, String> {
    let words: Vec<&str> = line.splitn(6, ' ').collect();
    let [number, queue, mailboxes, messages, _, title] = words[..] else {
        return Err(format!("INDEX: {line}"));
    };
    let size = |word: &str| {
        word.parse()
            .map_err(|_| format!("INDEX: no size {word} in {line}"))
    };
    let text = read(folder, &format!("{number}.txt"))?;
    let records = records(text.as_bytes()).map_err(|fault| format!("{number}.txt:{fault}"))?;
    let answers = read(folder, &format!("{number}.out"))?;
    let answers: Vec<&str> = answers.lines().collect();
    if records.len() != answers.len() {
        let (given, expected) = (records.len(), answers.len());
        return Err(format!("{number}: {given} records, {expected} answers"));
    }
    Ok(Case {
        name: format!("vector {number} {title}"),
        queue: size(queue)?,
        mailboxes: size(mailboxes)?,
        messages: size(messages)?,
        calls: records
            .into_iter()
            .zip(answers)
            .map(|(octets, answer)| expected(octets, answer))
            .collect::<Result<_, _>>()
            .map_err(|fault| format!("{number}.out: {fault}"))?,
    })
}

/// A line of NNN.out: refusal, count or `-`, what the queue holds in hexadecimal or `-`.
fn expected(octets: Vec<u8>, answer: &str) -> Result<Call, String> {
    let words: Vec<&str> = answer.split(' ').collect();
    let [refusal, count, held] = words[..] else {
        return Err(answer.to_string());
    };
    let number = |word: &str| word.parse::<u32>().map_err(|_| answer.to_string());
    Ok(Call {
        octets,
        refusal: number(refusal)? as u8,
        count: (count != "-").then(|| number(count)).transpose()?,
        held: if held == "-" {
            Vec::new()
        } else {
            from_hex(held)?
        },
    })
}

fn read(folder: &Path, name: &str) -> Result<String, String> {
    let path = folder.join(name);
    std::fs::read_to_string(&path).map_err(|fault| format!("{}: {fault}", path.display()))
}
