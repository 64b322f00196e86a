//! Classes of octets in a command line.

/// An octet that an atom may hold.
pub fn atom(octet: u8) -> bool {
    let special = matches!(
        octet,
        b'(' | b')' | b'{' | b'%' | b'*' | b'"' | b'\\' | b']'
    );
    matches!(octet, 0x21..=0x7E) && !special
}

/// An octet of an unquoted astring: `]` is let in.
pub fn astring(octet: u8) -> bool {
    atom(octet) || octet == b']'
}

/// An octet of a tag: `+` would look like a continuation.
pub fn tag(octet: u8) -> bool {
    astring(octet) && octet != b'+'
}

/// An octet that stands for itself between quotes.
pub fn quoted(octet: u8) -> bool {
    matches!(octet, 0x01..=0x7F) && !matches!(octet, b'\r' | b'\n' | b'"' | b'\\')
}

/// An octet of a mailbox name.
pub fn name(octet: u8) -> bool {
    matches!(octet, 0x20..=0x7E)
}
