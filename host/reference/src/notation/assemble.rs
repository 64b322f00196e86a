//! From text to octets. What a line can't mean is an error that says what was expected: nothing is cut or passed over.

use super::{Field, Layout, LAYOUTS, OLD_LAYOUTS};
use crate::generate::record;

/// One record from one line of text, or what was expected of the line.
pub fn assemble(line: &str) -> Result<Vec<u8>, String> {
    if line.ends_with('\r') {
        return Err("expected a line that ends with LF alone, not with CR LF".to_string());
    }
    match split(line) {
        ("HEX", rest) => from_hex(rest),
        ("OLD", rest) => laid_out(rest, &OLD_LAYOUTS),
        _ => laid_out(line, &LAYOUTS),
    }
}

/// All records of a text; empty lines and lines that begin with `#` are passed over. A fault begins with the line's number.
pub fn records(text: &[u8]) -> Result<Vec<Vec<u8>>, String> {
    let lines = text.split(|&octet| octet == b'\n').zip(1..);
    lines
        .filter(|(line, _)| !line.is_empty() && !line.starts_with(b"#"))
        .map(|(line, number)| {
            let text = std::str::from_utf8(line);
            text.map_err(|_| "expected text in UTF-8; HEX takes any octets".to_string())
                .and_then(assemble)
                .map_err(|fault| format!("{number}: {fault}"))
        })
        .collect()
}

/// Octets of two digits each, with or without spaces between them.
pub fn from_hex(text: &str) -> Result<Vec<u8>, String> {
    let groups = text.split(' ').filter(|group| !group.is_empty());
    let octets: Result<Vec<Vec<u8>>, String> = groups.map(group).collect();
    octets.map(|groups| groups.concat())
}

fn group(digits: &str) -> Result<Vec<u8>, String> {
    let octet = |pair: &[u8]| match pair {
        [high, low] => Some(digit(*high)? << 4 | digit(*low)?),
        _ => None,
    };
    let octets: Option<Vec<u8>> = digits.as_bytes().chunks(2).map(octet).collect();
    octets.ok_or_else(|| format!("expected octets of two hexadecimal digits each, not `{digits}`"))
}

fn digit(octet: u8) -> Option<u8> {
    (octet as char).to_digit(16).map(|value| value as u8)
}

/// The first word, and what stands behind the space.
fn split(line: &str) -> (&str, &str) {
    line.split_once(' ').unwrap_or((line, ""))
}

fn laid_out(line: &str, layouts: &[Layout]) -> Result<Vec<u8>, String> {
    let (mark, mut rest) = split(line);
    let layout = layouts.iter().find(|layout| layout.mark == mark);
    let layout = layout.ok_or_else(|| {
        let marks: Vec<&str> = layouts.iter().map(|layout| layout.mark).collect();
        format!("expected one of {}, not `{mark}`", marks.join(" "))
    })?;
    let mut body = Vec::new();
    for field in layout.fields {
        let (word, after) = split(rest);
        body.extend_from_slice(&number(word, field)?.to_le_bytes()[..field.1]);
        rest = after;
    }
    if layout.text {
        body.extend_from_slice(rest.as_bytes());
    } else if !rest.is_empty() {
        let last = layout.fields.last().map_or("", |field| field.0);
        return Err(format!("expected nothing behind {last}, not `{rest}`"));
    }
    if body.len() > usize::from(u16::MAX) {
        return Err(format!("expected a body of at most {} octets", u16::MAX));
    }
    Ok(record(mark, &body))
}

/// A number that its field can hold, lawful there or not.
fn number(word: &str, &(name, width): &Field) -> Result<u64, String> {
    let most = u64::MAX >> (64 - 8 * width);
    let (digits, radix) = match word.strip_prefix("0x") {
        Some(digits) => (digits, 16),
        None => (word, 10),
    };
    let value = u64::from_str_radix(digits, radix).ok();
    // the standard library takes a plus sign, which is no digit
    let value = value.filter(|&value| value <= most && !digits.starts_with('+'));
    value.ok_or_else(|| {
        let found = if word.is_empty() {
            "nothing".to_string()
        } else {
            format!("`{word}`")
        };
        format!("expected {name}, a number from 0 to {most} (decimal or 0x..), not {found}")
    })
}

#[cfg(test)]
mod tests {
    use super::*;

    /// A line, and what its fault must say.
    const FAULTS: [(&str, &str); 16] = [
        (
            "MB 65537 0x37 1 7 1 INBOX",
            "expected id, a number from 0 to 65535 (decimal or 0x..), not `65537`",
        ),
        ("RT 1 256", "expected rights, a number from 0 to 255"),
        (
            "ME 1 4294967296 0 0 2",
            "expected UID, a number from 0 to 4294967295",
        ),
        (
            "XP 1 2 18446744073709551616",
            "expected counter, a number from 0 to 18446744073709551615",
        ),
        ("SE +1", "not `+1`"),
        ("SE 0x+1", "not `0x+1`"),
        ("SE 0x", "not `0x`"),
        ("SE", "not nothing"),
        ("SE  1", "not nothing"),
        ("MB 1 0x37 1 7 INBOX", "expected counter"),
        (
            "ME 1 5 0 100 2 9",
            "expected nothing behind counter, not `9`",
        ),
        ("OLD XP 1 5 6", "expected nothing behind UID, not `6`"),
        ("OLD SE 1", "expected one of MB ME XP FL, not `SE`"),
        (
            "mb 1",
            "expected one of MB DL RN SB RT ME XP FL SE CE CM DR, not `mb`",
        ),
        (
            "HEX zz",
            "expected octets of two hexadecimal digits each, not `zz`",
        ),
        ("HEX 4d 4", "not `4`"),
    ];

    #[test]
    fn a_line_that_means_nothing_says_what_was_expected() {
        for (line, wanted) in FAULTS {
            let said = assemble(line).expect_err(line);
            assert!(said.contains(wanted), "{line}: {said}");
        }
        assert!(assemble("CM a NOTIFY NONE\r").is_err());
        assert!(assemble(&format!("CM {}", "x".repeat(65536))).is_err());
        let said = records(b"# one\n\nSE 1\nSE two\n").expect_err("no number");
        assert!(said.starts_with("4: expected id"), "{said}");
        let said = records(b"SE 1\nCM \xff\n").expect_err("no text");
        assert!(said.starts_with("2: expected text"), "{said}");
    }

    #[test]
    fn what_fields_can_hold_is_taken() {
        assert_eq!(assemble("SE 65535").unwrap(), b"SE\x02\0\xff\xff");
        assert_eq!(assemble("SE 0xFFFF").unwrap(), b"SE\x02\0\xff\xff");
        assert_eq!(assemble("RT 0 255").unwrap(), b"RT\x03\0\0\0\xff");
        assert_eq!(assemble("CM").unwrap(), b"CM\0\0");
        assert_eq!(assemble("CM  a ").unwrap(), b"CM\x03\0 a ");
        assert_eq!(assemble("HEX").unwrap(), b"");
        assert_eq!(assemble("HEX 4D 42ff ").unwrap(), b"MB\xff");
    }
}
