//! Ids and names, few enough that records and commands meet.

use crate::random::Random;

/// Ids that streams speak of, and some that no `MB` makes.
pub const OPEN_IDS: &[u16] = &[1, 2, 3, 4, 5, 258];
pub const STRAY_IDS: &[u16] = &[0, 6, 77, 0xFFFF];

/// Ids enough to fill the mailbox table.
pub const WIDE_IDS: &[u16] = &wide_ids();

const fn wide_ids() -> [u16; 80] {
    let mut ids = [0; 80];
    let mut place = 0;
    while place < ids.len() {
        // every 819th id, so that both octets of each differ from those of the others
        ids[place] = place as u16 * 819 + 1;
        place += 1;
    }
    ids
}

/// Ids of the mailboxes that hold no right in either stream of a pair.
pub const HIDDEN_IDS: &[u16] = &[11, 12, 13, 0x0101];

/// Names that meet one another: INBOX in several cases, subtrees, near misses, quoting.
pub const NAMES: &[&str] = &[
    "INBOX",
    "inbox",
    "Ops",
    "Ops/Mains",
    "Opsroom",
    "a",
    "a/b",
    "InBoX",
    "INBOX/x",
    "iNbox/x",
    "Ops/Mains/deep",
    "Ops/Spare",
    "ops",
    "a/b/c",
    "a b",
    "q\"uo",
    "back\\slash",
    "NONE",
    "abcdefghijklmnopqrstuvwxyz/abcdefghijklmnopqrstuvwxyz/0123456789",
    "abcdefghijklmnopqrstuvwxyz/abcdefghijklmnopqrstuvwxyz",
];

/// The names that come up most, so that records and commands often mean the same mailbox.
const USUAL_NAMES: usize = 7;

pub fn name(random: &mut Random) -> &'static str {
    if random.chance(65) {
        random.pick(&NAMES[..USUAL_NAMES])
    } else {
        random.pick(NAMES)
    }
}

/// One of some hundred names, many of them beneath the usual ones.
pub fn wide_name(random: &mut Random) -> String {
    let top = random.pick(&["", "", "Ops/", "a/", "Ops/Mains/", "INBOX/", "z"]);
    format!("{top}{}", random.below(40))
}

pub const BAD_NAMES: &[&str] = &["", "/", "/a", "a/", "a//b", "\u{1f}", "x\u{7f}", "\u{e9}"];
