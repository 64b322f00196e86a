//! Mailbox names: what is valid, how INBOX is folded, what lies beneath what and above it.

use crate::octets;

pub const NAME_OCTETS: usize = 64;

/// A name in a table or a session. Empty stands for an argument that was no valid name.
#[derive(Clone, Copy, PartialEq, Eq, Debug)]
pub struct Name {
    pub len: u8,
    pub octets: [u8; NAME_OCTETS],
}

impl Default for Name {
    fn default() -> Self {
        Name::EMPTY
    }
}

impl Name {
    pub const EMPTY: Name = Name {
        len: 0,
        octets: [0; NAME_OCTETS],
    };

    /// The folded name, if the octets make a valid one.
    pub fn read(octets: &[u8]) -> Option<Name> {
        Name::collect(octets.iter().copied())
    }

    /// As `read`, from octets that come one at a time (an unescaped quoted string).
    pub fn collect(octets: impl Iterator<Item = u8>) -> Option<Name> {
        let mut name = Name::EMPTY;
        let mut len = 0;
        for octet in octets {
            *name.octets.get_mut(len)? = octet;
            len += 1;
        }
        if !valid(&name.octets[..len]) {
            return None;
        }
        name.len = len as u8;
        if name.octets[..len].eq_ignore_ascii_case(b"INBOX") {
            name.octets[..len].copy_from_slice(b"INBOX");
        }
        Some(name)
    }

    /// The name one level up, folded as any whole name; none where there is no slash.
    pub fn parent(&self) -> Option<Name> {
        let octets = self.as_octets();
        let slash = octets.iter().rposition(|&octet| octet == b'/')?;
        Name::read(&octets[..slash])
    }

    /// The name's own octets. A damaged length is cut, so that nothing here can panic.
    pub fn as_octets(&self) -> &[u8] {
        &self.octets[..(self.len as usize).min(NAME_OCTETS)]
    }

    /// Valid, folded, and zero behind its length. All 64 octets are looked at, without a branch, which is quicker than to
    /// stop at the name's end.
    pub fn is_lawful(&self) -> bool {
        let len = usize::from(self.len);
        if !(1..=NAME_OCTETS).contains(&len) {
            return false;
        }
        let mut wrong = false;
        for (place, &octet) in self.octets.iter().enumerate() {
            let own = (place as u8) < self.len;
            wrong |= own & !octets::name(octet) | !own & (octet != 0);
        }
        for (&octet, &next) in self.octets.iter().zip(&self.octets[1..]) {
            wrong |= (octet == b'/') & (next == b'/');
        }
        let own = &self.octets[..len];
        !wrong
            && own[0] != b'/'
            && own[len - 1] != b'/'
            && (!own.eq_ignore_ascii_case(b"INBOX") || own == b"INBOX")
    }
}

/// One to 64 printable octets, no part between slashes empty.
pub fn valid(octets: &[u8]) -> bool {
    (1..=NAME_OCTETS).contains(&octets.len())
        && octets.iter().all(|&octet| octets::name(octet))
        && octets
            .split(|&octet| octet == b'/')
            .all(|part| !part.is_empty())
}

/// What follows `top/` in a name that lies beneath `top`.
fn rest<'a>(top: &[u8], name: &'a [u8]) -> Option<&'a [u8]> {
    if top.is_empty() {
        return None;
    }
    name.strip_prefix(top)?.strip_prefix(b"/")
}

/// The name itself or anything beneath it.
pub fn in_subtree(top: &[u8], name: &[u8]) -> bool {
    top == name || rest(top, name).is_some()
}

/// The name itself or a direct child.
pub fn in_level(top: &[u8], name: &[u8]) -> bool {
    top == name || rest(top, name).is_some_and(|rest| !rest.contains(&b'/'))
}
