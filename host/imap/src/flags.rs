//! Flags of messages, in the order in which the library writes them.

use crate::push::records;

pub const NAMES: [&str; 5] = ["\\Answered", "\\Flagged", "\\Deleted", "\\Seen", "\\Draft"];
pub const DELETED: u8 = records::DELETED;
pub const SEEN: u8 = records::SEEN;

/// The bits of the flags that there are. Keywords are not kept.
pub fn bits(names: &[String]) -> u8 {
    (0..NAMES.len())
        .filter(|&bit| {
            names
                .iter()
                .any(|name| name.eq_ignore_ascii_case(NAMES[bit]))
        })
        .map(|bit| 1 << bit)
        .sum()
}

pub fn list(flags: u8) -> String {
    let names: Vec<&str> = (0..NAMES.len())
        .filter(|bit| flags >> bit & 1 == 1)
        .map(|bit| NAMES[bit])
        .collect();
    format!("({})", names.join(" "))
}
