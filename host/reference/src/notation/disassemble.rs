//! From octets to text. What is a lawful record of today or of 01 is written by its layout, all else as `HEX`, so that
//! assembling the lines gives the same octets again, whatever they were.

use super::{Layout, LAYOUTS, OLD_LAYOUTS};
use crate::records::{cut, read};

/// How many octets of `MB` stand before the counter, or stood before the name.
const BEFORE_COUNTER: usize = 12;

/// A stream as text, a line for each piece that its length fields cut; a torn end is one more.
pub fn text(octets: &[u8]) -> String {
    let lines = cut(octets).into_iter().map(disassemble);
    lines.map(|line| line + "\n").collect()
}

/// One octet string as a line.
pub fn disassemble(octets: &[u8]) -> String {
    if read(octets).is_some() {
        written(octets, &LAYOUTS).unwrap_or_else(|| hex(octets))
    } else if is_old(octets) {
        written(octets, &OLD_LAYOUTS).map_or_else(|| hex(octets), |line| format!("OLD {line}"))
    } else {
        hex(octets)
    }
}

/// Whether a counter alone is missing.
fn is_old(octets: &[u8]) -> bool {
    let Some(length) = octets.get(2..4) else {
        return false;
    };
    let length = u16::from_le_bytes([length[0], length[1]]);
    let at = match &octets[..2] {
        b"MB" => BEFORE_COUNTER,
        b"ME" | b"XP" | b"FL" => octets.len(),
        _ => return false,
    };
    if at > octets.len() {
        return false;
    }
    let mut counted = [&octets[..at], &1u64.to_le_bytes(), &octets[at..]].concat();
    counted[2..4].copy_from_slice(&length.wrapping_add(8).to_le_bytes());
    read(&counted).is_some()
}

/// A record by its layout; nothing where its text can't stand in a line.
fn written(octets: &[u8], layouts: &[Layout]) -> Option<String> {
    let (head, body) = octets.split_at_checked(4)?;
    let layout = layouts
        .iter()
        .find(|layout| layout.mark.as_bytes() == &head[..2])?;
    let (mut numbers, text) = body.split_at_checked(layout.width())?;
    let mut line = layout.mark.to_string();
    for &(name, width) in layout.fields {
        let (number, after) = numbers.split_at(width);
        line += &shown(name, value(number));
        numbers = after;
    }
    if text.iter().any(|octet| !(0x20..=0x7E).contains(octet)) {
        return None;
    }
    if !text.is_empty() {
        line.push(' ');
        line += std::str::from_utf8(text).ok()?;
    }
    Some(line)
}

fn value(octets: &[u8]) -> u64 {
    octets
        .iter()
        .rev()
        .fold(0, |value, &octet| value << 8 | u64::from(octet))
}

/// As the vectors have it: attributes and rights in hexadecimal, all else in decimal.
fn shown(name: &str, value: u64) -> String {
    match name {
        "attributes" | "rights" if value != 0 => format!(" 0x{value:02x}"),
        _ => format!(" {value}"),
    }
}

/// Mark, length and body apart.
fn hex(octets: &[u8]) -> String {
    let (mark, rest) = octets.split_at(octets.len().min(2));
    let (length, body) = rest.split_at(rest.len().min(2));
    let mut line = "HEX".to_string();
    for part in [mark, length, body]
        .into_iter()
        .filter(|part| !part.is_empty())
    {
        line.push(' ');
        part.iter()
            .for_each(|octet| line += &format!("{octet:02x}"));
    }
    line
}

#[cfg(test)]
mod tests {
    use super::*;
    use crate::notation::assemble;

    /// Lines that come out as they went in.
    const LINES: [&str; 22] = [
        "MB 1 0x37 1 7 1 inbox",
        "MB 65535 0 0 4294967295 9223372036854775807 a b/ c ",
        "DL 1 0",
        "RN 2 1 Ops/Mains",
        "SB 1 1 0",
        "RT 1 0x30",
        "ME 1 4294967294 31 4294967295 2",
        "XP 1 5 3",
        "FL 1 5 8 4",
        "SE 0",
        "CE 1",
        "CM",
        "CM # no comment ",
        "DR 4294967295",
        "OLD MB 1 0x37 1 7 INBOX",
        "OLD ME 1 5 0 100",
        "OLD XP 1 5",
        "OLD FL 1 5 0",
        // no lawful record: id 0, a bit that no right has, a line end in a command, a torn end
        "HEX 4d42 1100 0000330107000000010000000000000061",
        "HEX 5254 0300 010040",
        "HEX 434d 0100 0a",
        "HEX 434d 05",
    ];

    #[test]
    fn lawful_records_are_written_by_their_layout() {
        for line in LINES {
            let octets = assemble(line).expect(line);
            assert_eq!(disassemble(&octets), line);
        }
        assert_eq!(super::text(b""), "");
        assert_eq!(super::text(b"SE\x02\0\x01\0C"), "SE 1\nHEX 43\n");
    }
}
