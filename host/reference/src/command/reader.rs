//! A place in a command line, and the small pieces every command is made of.

use crate::names::Name;
use crate::octets;

pub struct Reader<'a> {
    line: &'a [u8],
    at: usize,
}

/// An astring as it stands in the line: quoted ones still with their escapes.
#[derive(Clone, Copy)]
pub struct Text<'a> {
    raw: &'a [u8],
    quoted: bool,
}

impl<'a> Text<'a> {
    /// The octets meant.
    pub fn octets(self) -> impl Iterator<Item = u8> + 'a {
        let mut escaped = false;
        self.raw.iter().copied().filter(move |&octet| {
            escaped = self.quoted && octet == b'\\' && !escaped;
            !escaped
        })
    }

    /// The name meant, empty if it is no valid one.
    pub fn name(self) -> Name {
        Name::collect(self.octets()).unwrap_or(Name::EMPTY)
    }

    /// Is it this word, in any case?
    pub fn is(self, word: &str) -> bool {
        let lower = |octet: u8| octet.to_ascii_lowercase();
        self.octets().map(lower).eq(word.bytes().map(lower))
    }
}

impl<'a> Reader<'a> {
    pub fn new(line: &'a [u8]) -> Reader<'a> {
        Reader { line, at: 0 }
    }

    pub fn ended(&self) -> bool {
        self.at == self.line.len()
    }

    pub fn peek(&self) -> Option<u8> {
        self.line.get(self.at).copied()
    }

    /// What is left of the line.
    pub fn rest(&self) -> &'a [u8] {
        &self.line[self.at..]
    }

    /// Steps over this octet, if it is next.
    pub fn skip(&mut self, octet: u8) -> bool {
        let next = self.peek() == Some(octet);
        self.at += usize::from(next);
        next
    }

    /// This octet must be next.
    pub fn take(&mut self, octet: u8) -> Option<()> {
        self.skip(octet).then_some(())
    }

    pub fn space(&mut self) -> Option<()> {
        self.take(b' ')
    }

    /// The longest run of octets of a class, maybe none.
    pub fn run(&mut self, class: impl Fn(u8) -> bool) -> &'a [u8] {
        let rest = self.rest();
        let len = rest
            .iter()
            .position(|&octet| !class(octet))
            .unwrap_or(rest.len());
        self.at += len;
        &rest[..len]
    }

    pub fn atom(&mut self) -> Option<&'a [u8]> {
        Some(self.run(octets::atom)).filter(|run| !run.is_empty())
    }

    /// Steps over this word, if the next atom is it.
    pub fn skip_word(&mut self, word: &str) -> bool {
        let before = self.at;
        let found = self.run(octets::atom).eq_ignore_ascii_case(word.as_bytes());
        if !found {
            self.at = before;
        }
        found
    }

    pub fn word(&mut self, word: &str) -> Option<()> {
        self.skip_word(word).then_some(())
    }

    fn quoted(&mut self) -> Option<Text<'a>> {
        self.take(b'"')?;
        let first = self.at;
        loop {
            match self.peek()? {
                b'"' => break,
                b'\\' => {
                    self.at += 1;
                    self.peek().filter(|&octet| matches!(octet, b'"' | b'\\'))?;
                }
                octet if octets::quoted(octet) => {}
                _ => return None,
            }
            self.at += 1;
        }
        let raw = &self.line[first..self.at];
        self.at += 1;
        Some(Text { raw, quoted: true })
    }

    fn text(&mut self, class: fn(u8) -> bool) -> Option<Text<'a>> {
        if self.peek() == Some(b'"') {
            return self.quoted();
        }
        let raw = self.run(class);
        (!raw.is_empty()).then_some(Text { raw, quoted: false })
    }

    /// A quoted string, or a run of astring octets. Literals are the host's.
    pub fn astring(&mut self) -> Option<Text<'a>> {
        self.text(octets::astring)
    }

    /// A quoted string or an atom.
    pub fn atom_or_quoted(&mut self) -> Option<Text<'a>> {
        self.text(octets::atom)
    }

    /// Digits, zeros in front allowed, that fit in 32 bits.
    pub fn number(&mut self) -> Option<u32> {
        let digits = self.run(|octet| octet.is_ascii_digit());
        if digits.is_empty() {
            return None;
        }
        digits.iter().try_fold(0u32, |value, digit| {
            value.checked_mul(10)?.checked_add(u32::from(digit - b'0'))
        })
    }

    /// The same, but not beginning with a zero.
    pub fn nz_number(&mut self) -> Option<u32> {
        if self.peek() == Some(b'0') {
            return None;
        }
        self.number()
    }

    /// `item`, once or more, one space between, within parentheses.
    pub fn listed(&mut self, mut item: impl FnMut(&mut Self) -> Option<()>) -> Option<()> {
        self.take(b'(')?;
        item(self)?;
        while self.skip(b' ') {
            item(self)?;
        }
        self.take(b')')
    }
}
